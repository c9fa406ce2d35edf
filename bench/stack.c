/* The deepest stack of each function of the library, over bodies that nest as deep
 * as a body can, and texts that nest as deep as a text can. Prints for each function the
 * bytes and the body or text that took them, and fails if one takes more than the header's
 * SW_MAX_STACK.
 *
 * Each call runs on a thread with a stack of its own, which is painted below the
 * caller's frame before the call. The lowest byte that the call changed says how
 * deep it went; the bytes are counted from the caller's frame. */
#define _POSIX_C_SOURCE 200809L

#include <pthread.h>
#include <stdbool.h>
#include <string.h>

#include "bodies.h"
#include "station_watch.h"

/* MARGIN: what is not painted, since the painter itself stands there. */
enum { STACK = 1 << 20, PAINT = 0xA5, MARGIN = 128 };
enum { FLAGS = 4, NAME = 96 };

/* ---- bodies: a way down to the deepest formula, one letter a formula
 *   ~  not
 *   t  then, b  beside: on in the second part, the first is a flag
 *   T  then, B  beside: on in the first part, the second is a flag
 *   r  for all Y from the variable outside to itself: one position */

static const struct pattern {
    const char *letters; /* again and again, as long as formulas are left */
    const char *name;
} patterns[] = {
    { "~", "nots" },
    { "t", "then in second parts" },
    { "T", "then in first parts" },
    { "b", "beside in second parts" },
    { "B", "beside in first parts" },
    { "tb", "then and beside in second parts" },
    { "TB", "then and beside in first parts" },
    { "tB", "then in second, beside in first parts" },
    { "Tb", "then in first, beside in second parts" },
    { "~t", "not and then in second parts" },
    { "~T", "not and then in first parts" },
    { "~b", "not and beside in second parts" },
    { "~B", "not and beside in first parts" },
    { "~~t", "two nots and then in second parts" },
    { "~t~b", "not, then, not, beside in second parts" },
};

/* Where the four ranges stand that a body may nest: before the pattern, each under a
 * not or not, after it, or at every fourth step of it. */
enum place { NONE, FRONT, TURNED, BACK, SPREAD, PLACES };

static const struct {
    const char *before;
    int later;
    const char *name;
} ranges_at[PLACES] = {
    [NONE] = { "", 0, "" },
    [FRONT] = { "rrrr", 0, ", under ranges" },
    [TURNED] = { "~r~r~r~r", 0, ", under ranges under nots" },
    [BACK] = { "", MAX_NESTED, ", over ranges" },
    [SPREAD] = { "", MAX_NESTED, ", between ranges" },
};

/* Puts the formulas of a way. `nested` is how many ranges stand outside. */
static void put_way(struct body *b, const char *way, int nested)
{
    if (*way == 0) {
        put_flag(b, nested);
    } else if (*way == '~') {
        put_nots(b, 1);
        put_way(b, way + 1, nested);
    } else if (*way == 'r') {
        put_range(b, nested, 0, 0);
        put_way(b, way + 1, nested + 1);
    } else if (*way == 't' || *way == 'b') {
        put_code(b, *way == 't' ? THEN : BESIDE);
        put_flag(b, nested);
        put_way(b, way + 1, nested);
    } else {
        put_code(b, *way == 'T' ? THEN : BESIDE);
        put_way(b, way + 1, nested);
        put_flag(b, nested);
    }
}

static int formulas_of(char letter)
{
    return letter == '~' || letter == 'r' ? 1 : 2;
}

/* The longest way of a pattern: 64 formulas, one of them the flag at its end. */
static void make_way(const char *letters, enum place place, char way[MAX_FORMULAS])
{
    const char *next = letters;
    int step = (int)strlen(strcpy(way, ranges_at[place].before));
    int ranges = ranges_at[place].later;
    int left = MAX_FORMULAS - 1 - step - ranges;

    while (ranges > 0 || formulas_of(*next) <= left) {
        if (ranges > 0 && (formulas_of(*next) > left || (place == SPREAD && step % 4 == 3))) {
            way[step++] = 'r';
            ranges--;
        } else {
            way[step++] = *next;
            left -= formulas_of(*next);
            next = next[1] == 0 ? letters : next + 1;
        }
    }
    way[step] = 0;
}

/* ---- texts: signs again and again before a flag, and their ends after it. No body is
 * that deep, so that they are refused, but only when all of a text has been read */

static const struct deep {
    const char *before;
    const char *after;
    uint32_t answer;
} deep_texts[] = {
    { "~", "", SW_BODY_TOO_LARGE },
    { "(", " && @x.0)", SW_BODY_TOO_LARGE },
    { "(@x.0 /\\ ", ")", SW_BODY_TOO_LARGE },
    { "~(~", " /\\ ~@x.0)", SW_BODY_TOO_LARGE },
    { "forall y in 0..0 : ", "", SW_BODY_TOO_LARGE },
    { "~forall y in x..x : ", "", SW_BODY_TOO_LARGE },
    { "forall y in x..x : (", " && @x.0)", SW_BODY_TOO_LARGE },
    { "(@x.0 && forall y in x..x : ", ")", SW_BODY_TOO_LARGE },
    { "(", "", SW_MISSPELT },
    { "~", " ", SW_MISSPELT },
};

/* ---- what is lent to the functions, none of it on the thread's stack */

static struct body body;
static uint8_t text[SW_MAX_TEXT];
static size_t text_size;
static uint8_t sheet[MAX_SHEET];
static size_t sheet_size;
static uint8_t state[SW_STATE_BYTES];
static uint8_t history[SW_MAX_HISTORY];
static uint32_t cells[SW_MAX_CELL_WORDS];
static uint64_t report[SW_MAX_SET_BATCH_REPORT];
static const uint8_t flags[FLAGS] = { 0xFF, 0xFF, 0x00, 0xFF };
static size_t numbers[4];
static uint64_t figures[3];
static uint32_t verdict;

/* The same body as often as a set can have it, with cells of its own. */
static uint8_t set_sheet[SW_MAX_SHEET];
static size_t set_sheet_size;
static sw_running records[SW_MAX_RULES];
static uint8_t set_history[SW_MAX_HISTORY];
static uint32_t set_cells[SW_MAX_CELL_WORDS];

/* A calendar of 64 runs. */
enum { WORDS = 8 * 64, LAST_FLAG = 7 };
static uint64_t words[WORDS];

static uint32_t call_nothing(void)
{
    return 0;
}

static uint32_t call_place(void)
{
    return sw_rule_place(sheet, sheet_size, 0, &numbers[0], &numbers[1]);
}

/* A sheet of 32 rules of 16 bytes. */
static uint32_t call_write(void)
{
    static const uint8_t bodies[16 * SW_MAX_RULES];
    static uint16_t lengths[SW_MAX_RULES];
    static uint8_t out[1 + 4 * SW_MAX_RULES + sizeof bodies];

    for (int k = 0; k < SW_MAX_RULES; k++)
        lengths[k] = 16;
    return sw_write_sheet(lengths, SW_MAX_RULES, bodies, sizeof bodies, out, sizeof out, &numbers[0]);
}

static uint32_t call_from_text(void)
{
    static uint8_t out[SW_MAX_BODY];

    return sw_rule_from_text(text, text_size, out, sizeof out, &numbers[0]);
}

static uint32_t call_to_text(void)
{
    static uint8_t out[SW_MAX_TEXT];

    return sw_rule_to_text(body.bytes, body.size, out, sizeof out, &numbers[0]);
}

static uint32_t call_figures(void)
{
    return sw_figures(body.bytes, body.size, &figures[0], &figures[1], &figures[2]);
}

static uint32_t call_outcome(void)
{
    return sw_outcome(body.bytes, body.size, flags, FLAGS, 0, &verdict, &figures[0]);
}

static uint32_t call_open(void)
{
    return sw_open(sheet, sheet_size, 0, history, SW_MAX_HISTORY, cells, SW_MAX_CELL_WORDS, state);
}

static uint32_t call_step(void)
{
    uint32_t refusal = 0;

    for (int k = 0; k < FLAGS && refusal == 0; k++)
        refusal = sw_step(state, flags[k], history, SW_MAX_HISTORY, cells, SW_MAX_CELL_WORDS,
                          report, SW_MAX_BATCH_REPORT, &numbers[0], &numbers[1]);
    return refusal;
}

static uint32_t call_steps(void)
{
    return sw_steps(state, flags, FLAGS, history, SW_MAX_HISTORY, cells, SW_MAX_CELL_WORDS,
                    report, SW_MAX_BATCH_REPORT, &numbers[0], &numbers[1], &numbers[2]);
}

static uint32_t call_set_figures(void)
{
    return sw_set_figures(set_sheet, set_sheet_size, &numbers[0], &figures[0], &figures[1], &figures[2]);
}

static uint32_t call_set_open(void)
{
    return sw_set_open(set_sheet, set_sheet_size, records, SW_MAX_RULES, set_history, SW_MAX_HISTORY,
                       set_cells, SW_MAX_CELL_WORDS);
}

static uint32_t call_set_step(void)
{
    uint32_t refusal = 0;

    for (int k = 0; k < FLAGS && refusal == 0; k++)
        refusal = sw_set_step(set_sheet, set_sheet_size, records, SW_MAX_RULES, flags[k],
                              set_history, SW_MAX_HISTORY, set_cells, SW_MAX_CELL_WORDS,
                              report, SW_MAX_SET_REPORT, &numbers[0], &numbers[1]);
    return refusal;
}

static uint32_t call_set_steps(void)
{
    return sw_set_steps(set_sheet, set_sheet_size, records, SW_MAX_RULES, flags, FLAGS,
                        set_history, SW_MAX_HISTORY, set_cells, SW_MAX_CELL_WORDS,
                        report, SW_MAX_SET_BATCH_REPORT, &numbers[0], &numbers[1], &numbers[2]);
}

static uint32_t call_calendar_open(void)
{
    return sw_calendar_open(sheet, sheet_size, 0, history, SW_MAX_HISTORY, cells, SW_MAX_CELL_WORDS,
                            words, WORDS, state);
}

static uint32_t call_calendar_step(void)
{
    uint32_t refusal = 0;

    for (int k = 0; k < FLAGS && refusal == 0; k++)
        refusal = sw_calendar_step(state, flags[k], history, SW_MAX_HISTORY, cells, SW_MAX_CELL_WORDS,
                                   report, SW_MAX_BATCH_REPORT, words, WORDS, &numbers[0], &numbers[1]);
    return refusal;
}

static uint32_t call_calendar_steps(void)
{
    return sw_calendar_steps(state, flags, FLAGS, history, SW_MAX_HISTORY, cells, SW_MAX_CELL_WORDS,
                             report, SW_MAX_BATCH_REPORT, words, WORDS,
                             &numbers[0], &numbers[1], &numbers[2]);
}

static uint32_t call_calendar_clear(void)
{
    sw_calendar_clear(words, WORDS);
    return 0;
}

static uint32_t call_calendar_fill(void)
{
    sw_calendar_fill(words, WORDS, 62, flags, FLAGS);
    return 0;
}

static uint32_t call_calendar_ups(void)
{
    return sw_calendar_ups(words, WORDS, LAST_FLAG, 1, UINT64_MAX, &figures[0]);
}

static uint32_t call_calendar_first(void)
{
    return sw_calendar_first(words, WORDS, LAST_FLAG, 1, UINT64_MAX, &figures[0]);
}

static uint32_t call_calendar_last(void)
{
    return sw_calendar_last(words, WORDS, LAST_FLAG, 1, UINT64_MAX, &figures[0]);
}

static uint32_t call_calendar_nearest(void)
{
    return sw_calendar_nearest(words, WORDS, LAST_FLAG, 64 * 32, &figures[0]);
}

static uint32_t call_sentence(void)
{
    static uint8_t out[SW_MAX_SENTENCE];

    return sw_sentence(SW_STATE_NOT_OPENED, out, sizeof out, &numbers[0]);
}

static struct function {
    const char *name;
    uint32_t (*call)(void);
    size_t deepest;
    char body[NAME];
} functions[] = {
    { "sw_rule_place", call_place, 0, "" },
    { "sw_write_sheet", call_write, 0, "" },
    { "sw_rule_from_text", call_from_text, 0, "" },
    { "sw_rule_to_text", call_to_text, 0, "" },
    { "sw_figures", call_figures, 0, "" },
    { "sw_outcome", call_outcome, 0, "" },
    { "sw_open", call_open, 0, "" },
    { "sw_step", call_step, 0, "" },
    { "sw_steps", call_steps, 0, "" },
    { "sw_set_figures", call_set_figures, 0, "" },
    { "sw_set_open", call_set_open, 0, "" },
    { "sw_set_step", call_set_step, 0, "" },
    { "sw_set_steps", call_set_steps, 0, "" },
    { "sw_calendar_open", call_calendar_open, 0, "" },
    { "sw_calendar_step", call_calendar_step, 0, "" },
    { "sw_calendar_steps", call_calendar_steps, 0, "" },
    { "sw_calendar_clear", call_calendar_clear, 0, "" },
    { "sw_calendar_fill", call_calendar_fill, 0, "" },
    { "sw_calendar_ups", call_calendar_ups, 0, "" },
    { "sw_calendar_first", call_calendar_first, 0, "" },
    { "sw_calendar_last", call_calendar_last, 0, "" },
    { "sw_calendar_nearest", call_calendar_nearest, 0, "" },
    { "sw_sentence", call_sentence, 0, "" },
};

enum { FUNCTIONS = sizeof functions / sizeof functions[0] };

/* ---- a call on a painted stack */

static _Alignas(4096) uint8_t stack[STACK];
static uint32_t (*called)(void);
static uint32_t answered;
static size_t deepest;

static void fail(const char *what)
{
    fprintf(stderr, "stack: %s\n", what);
    exit(2);
}

/* Byte by byte: a call of memset would itself stand below. */
static void paint(size_t count)
{
    volatile uint8_t *at = stack;

    for (size_t k = 0; k < count; k++)
        at[k] = PAINT;
}

static size_t lowest_changed(size_t count)
{
    size_t k = 0;

    while (k < count && stack[k] == PAINT)
        k++;
    return k;
}

static void *run_call(void *unused)
{
    volatile uint8_t here = 0;
    size_t top = (size_t)((uintptr_t)&here - (uintptr_t)stack);

    (void)unused;
    paint(top - MARGIN);
    answered = called();
    deepest = top - lowest_changed(top - MARGIN);
    return NULL;
}

/* How far below its caller one call goes, at least MARGIN. */
static size_t depth_of(uint32_t (*call)(void))
{
    pthread_attr_t attributes;
    pthread_t thread;

    called = call;
    if (pthread_attr_init(&attributes) != 0 || pthread_attr_setstack(&attributes, stack, STACK) != 0)
        fail("no stack for a thread");
    if (pthread_create(&thread, &attributes, run_call, NULL) != 0 || pthread_join(thread, NULL) != 0)
        fail("no thread");
    pthread_attr_destroy(&attributes);
    return deepest;
}

static void measure(struct function *f, const char *name, uint32_t due)
{
    size_t deep = depth_of(f->call);

    if (answered != due) {
        fprintf(stderr, "stack: %s answers %u for %s\n", f->name, (unsigned)answered, name);
        exit(2);
    }
    if (deep > f->deepest) {
        f->deepest = deep;
        snprintf(f->body, sizeof f->body, "%s", name);
    }
}

/* The sheet of as many of the body as a set can have, and its opening. */
static void prepare_set(void)
{
    static uint8_t bodies[SW_MAX_RULES * MAX_BODY];
    static uint16_t lengths[SW_MAX_RULES];
    size_t count = SW_MAX_RULES;

    if (call_figures() != 0)
        fail("a body has no figures");
    if (count > SW_MAX_CELLS / figures[2])
        count = SW_MAX_CELLS / figures[2];
    for (size_t k = 0; k < count; k++) {
        lengths[k] = (uint16_t)body.size;
        memcpy(bodies + k * body.size, body.bytes, body.size);
    }
    if (sw_write_sheet(lengths, count, bodies, count * body.size, set_sheet, sizeof set_sheet, &set_sheet_size) != 0)
        fail("a set has no sheet");
    if (call_set_open() != 0)
        fail("a set cannot be opened");
}

/* The body of one way, its text, its sheets, and their openings. */
static void prepare(const char *way)
{
    body.size = 0;
    body.formulas = 0;
    put_way(&body, way, 0);
    if (sw_rule_to_text(body.bytes, body.size, text, sizeof text, &text_size) != 0)
        fail("a body has no text");
    sheet_size = sheet_of(&body, sheet);
    if (call_open() != 0)
        fail("a body cannot be opened");
    prepare_set();
}

static void measure_all(const char *way, const char *name)
{
    for (int k = 0; k < FUNCTIONS; k++) {
        prepare(way);
        measure(&functions[k], name, 0);
    }
}

static void measure_shapes(void)
{
    for (size_t k = 0; k < sizeof patterns / sizeof patterns[0]; k++)
        for (enum place place = NONE; place < PLACES; place++) {
            char way[MAX_FORMULAS];
            char name[NAME];

            make_way(patterns[k].letters, place, way);
            snprintf(name, sizeof name, "%s%s", patterns[k].name, ranges_at[place].name);
            measure_all(way, name);
        }
}

static void put_text(const char *part, size_t count)
{
    size_t size = strlen(part);

    for (size_t k = 0; k < count; k++) {
        memcpy(text + text_size, part, size);
        text_size += size;
    }
}

/* The signs as often as there is room. */
static size_t prepare_text(const struct deep *deep)
{
    size_t room = sizeof text - strlen("monitor x : @x.0");
    size_t count = room / (strlen(deep->before) + strlen(deep->after));

    text_size = 0;
    put_text("monitor x : ", 1);
    put_text(deep->before, count);
    put_text("@x.0", 1);
    put_text(deep->after, count);
    return count;
}

static void measure_texts(void)
{
    struct function *from_text = functions;

    while (from_text->call != call_from_text)
        from_text++;
    for (size_t k = 0; k < sizeof deep_texts / sizeof deep_texts[0]; k++) {
        char name[NAME];
        size_t count = prepare_text(&deep_texts[k]);

        snprintf(name, sizeof name, "text, %zu times \"%s\"", count, deep_texts[k].before);
        measure(from_text, name, deep_texts[k].answer);
    }
}

/* Calls everything once, so that the loader has bound what the library calls. */
static void bind_calls(void)
{
    prepare("");
    for (int k = 0; k < FUNCTIONS; k++)
        if (functions[k].call() != 0)
            fail("a flag cannot be watched");
}

int main(void)
{
    int status = 0;

    if (depth_of(call_nothing) != MARGIN)
        fail("an empty call takes stack");
    bind_calls();
    measure_shapes();
    measure_texts();
    for (int k = 0; k < FUNCTIONS; k++) {
        const struct function *f = &functions[k];
        printf("%-19s %6zu bytes  %s\n", f->name, f->deepest, f->body);
        if (f->deepest > SW_MAX_STACK) {
            printf("%s takes more than %d bytes of stack\n", f->name, SW_MAX_STACK);
            status = 1;
        }
    }
    return status;
}
