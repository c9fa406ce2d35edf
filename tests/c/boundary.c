/* The header's constants against what the library answers. Expected values are the scope
 * document's: its figures, its example, its limits and the lines of its refusals. */
#include <stddef.h>
#include <stdio.h>
#include <string.h>

#include "memory.h"

/* ---- A rule of the scope document, beside the example ---- */

/* for all Y from X+255 to X+255: flag 0 at Y: 0, 255, 768 */
static const uint8_t ahead[] = {5, 2, 0, 255, 0, 2, 0, 255, 0, 1, 1, 0};

enum { AHEAD_CELLS = 768, AHEAD_WORDS = SW_CELL_WORDS * AHEAD_CELLS };

static uint32_t open_with(size_t history_len, size_t cells_len)
{
    return sw_open(sheet, sheet_len, 0, history, history_len, cells, cells_len, state);
}

static uint32_t step_with(size_t history_len, size_t cells_len, size_t report_len)
{
    size_t reported, live;
    return sw_step(state, 0, history, history_len, cells, cells_len, report, report_len, &reported, &live);
}

/* ---- 1 to 3, 22: sheets ---- */

static uint32_t place(const uint8_t *bytes, size_t len, size_t rule)
{
    size_t start = 77, size = 78;
    uint32_t number = sw_rule_place(bytes, len, rule, &start, &size);
    if (number != SW_OK) {
        SAME(77, start);
        SAME(78, size);
    }
    return number;
}

static void sheets(void)
{
    write_one(example, sizeof example);
    SAME(SW_OK, place(sheet, sheet_len, 0));
    SAME(SW_RULE_COUNT, place(sheet, 0, 0));
    SAME(SW_RULE_COUNT, place(sheet, 4, 0));
    SAME(SW_NO_SUCH_RULE, place(sheet, sheet_len, 1));
    SAME(SW_ENTRY_LAYOUT, place(sheet, sheet_len - 1, 0));
    sheet[0] = SW_MAX_RULES + 1;
    SAME(SW_RULE_COUNT, place(sheet, sheet_len, 0));
    sheet[0] = 0;
    SAME(SW_RULE_COUNT, place(sheet, sheet_len, 0));

    /* The largest sheet, and a body, a rule and a byte too much. */
    static uint16_t lengths[SW_MAX_RULES + 1];
    static uint8_t bodies[(SW_MAX_RULES + 1) * SW_MAX_BODY];
    for (int i = 0; i <= SW_MAX_RULES; i++)
        lengths[i] = SW_MAX_BODY;
    size_t written = 79;
    SAME(SW_BUFFER_TOO_SHORT, sw_write_sheet(lengths, SW_MAX_RULES, bodies, SW_MAX_RULES * SW_MAX_BODY,
                                             sheet, SW_MAX_SHEET - 1, &written));
    SAME(79, written);
    SAME(SW_RULE_COUNT, sw_write_sheet(lengths, SW_MAX_RULES + 1, bodies, sizeof bodies, sheet, SW_MAX_SHEET, &written));
    lengths[1] = SW_MAX_BODY + 1;
    SAME(SW_ENTRY_LAYOUT, sw_write_sheet(lengths, 2, bodies, 2 * SW_MAX_BODY + 1, sheet, SW_MAX_SHEET, &written));
    lengths[1] = SW_MAX_BODY;
    SAME(SW_OK, sw_write_sheet(lengths, SW_MAX_RULES, bodies, SW_MAX_RULES * SW_MAX_BODY, sheet, SW_MAX_SHEET, &written));
    SAME(SW_MAX_SHEET, written);
    SAME(SW_OK, place(sheet, written, SW_MAX_RULES - 1));
    SAME(SW_NO_SUCH_RULE, place(sheet, written, SW_MAX_RULES));
}

/* ---- 4 to 15, 23, 24: bodies ---- */

static uint32_t figures_are(const uint8_t *body, size_t len, uint64_t h, uint64_t d, uint64_t c)
{
    uint64_t history_figure, delay, cells_figure;
    uint32_t number = sw_figures(body, len, &history_figure, &delay, &cells_figure);
    if (number == SW_OK) {
        SAME(h, history_figure);
        SAME(d, delay);
        SAME(c, cells_figure);
    }
    return number;
}

#define REFUSED(number, ...)                                                  \
    do {                                                                      \
        static const uint8_t body[] = {__VA_ARGS__};                          \
        uint64_t h = 71, d = 72, c = 73;                                      \
        SAME(number, sw_figures(body, sizeof body, &h, &d, &c));              \
        SAME(71, h);                                                          \
        SAME(72, d);                                                          \
        SAME(73, c);                                                          \
    } while (0)

/* X+5..X+2 over a flag, infinity..infinity over 0..infinity: the body isn't counted, but read. */
static void always_empty_ranges(void)
{
    static const uint8_t lacking[] = {5, 2, 0, 5, 0, 2, 0, 2, 0, 1, 1, 0};
    static const uint8_t retired[] = {5, 1, 0, 0, 0, 1, 0, 0, 0, 5, 0, 0, 0, 0, 1, 0, 0, 0, 1, 2, 0};
    SAME(SW_OK, figures_are(lacking, sizeof lacking, 0, 0, 2));
    SAME(SW_OK, figures_are(retired, sizeof retired, 0, 0, 2));
    REFUSED(SW_NO_SUCH_FLAG, 5, 1, 0, 0, 0, 1, 0, 0, 0, 1, 1, 8);
    REFUSED(SW_BODY_ENDS_EARLY, 5, 1, 0, 0, 0, 1, 0, 0, 0);
}

static void bodies(void)
{
    SAME(SW_OK, figures_are(example, sizeof example, 1, 2, EXAMPLE_CELLS));
    SAME(SW_OK, figures_are(ahead, sizeof ahead, 0, SW_MAX_DELAY, AHEAD_CELLS));
    SAME(SW_BODY_ENDS_EARLY, figures_are(example, 0, 0, 0, 0));
    SAME(SW_BODY_ENDS_EARLY, figures_are(example, sizeof example - 1, 0, 0, 0));
    REFUSED(SW_UNKNOWN_CODE, 6);
    REFUSED(SW_UNKNOWN_CODE, 5, 3, 0, 0, 0, 2, 0, 0, 0, 1, 1, 0);
    REFUSED(SW_UNBOUND_VARIABLE, 1, 1, 0);
    REFUSED(SW_NO_SUCH_FLAG, 1, 0, 8);
    REFUSED(SW_OFFSET_OUT_OF_RANGE, 5, 2, 0, 0x00, 0x10, 2, 0, 0, 0, 1, 1, 0);     /* offset 4,096 */
    REFUSED(SW_VARIABLE_BYTE_NOT_ZERO, 5, 0, 1, 0, 0, 2, 0, 0, 0, 1, 1, 0);        /* position 0, variable 1 */
    REFUSED(SW_VARIABLE_BYTE_NOT_ZERO, 5, 1, 1, 0x88, 0x13, 2, 0, 0, 0, 1, 1, 0);  /* infinity, variable 1, offset 5,000 */
    REFUSED(SW_OFFSET_ON_INFINITY, 5, 1, 0, 1, 0, 2, 0, 0, 0, 1, 1, 0);            /* infinity + 1 */
    REFUSED(SW_OFFSET_ON_INFINITY, 5, 1, 0, 0x88, 0x13, 2, 0, 0, 0, 1, 1, 0);      /* infinity + 5,000 */
    REFUSED(SW_BYTES_LEFT_OVER, 1, 0, 0, 1);
    REFUSED(SW_DELAY_INFINITE, 5, 2, 0, 0, 0, 1, 0, 0, 0, 1, 1, 0);                /* X..infinity */
    REFUSED(SW_DELAY_ABOVE_LIMIT, 5, 2, 0, 0, 1, 2, 0, 0, 1, 1, 1, 0);             /* X+256..X+256 */
    REFUSED(SW_HISTORY_INFINITE, 5, 0, 0, 0, 0, 2, 0, 0, 0, 1, 1, 0);              /* 0..X */
    REFUSED(SW_HISTORY_ABOVE_LIMIT, 5, 2, 0, 0x01, 0xF0, 2, 0, 0x01, 0xF0,         /* X-4,095 */
            5, 2, 1, 0xFE, 0xFF, 2, 1, 0xFE, 0xFF, 1, 2, 0);                       /* Y-2 */
    REFUSED(SW_CELLS_ABOVE_LIMIT, 5, 2, 0, 0, 0, 2, 0, 63, 0, 1, 1, 0);            /* X..X+63 */

    /* 64 formulas, and one more. */
    uint8_t nots[67];
    memset(nots, 2, sizeof nots);
    memset(nots + 63, 0, 3);
    nots[63] = 1;
    SAME(SW_OK, figures_are(nots, 66, 0, 0, 1));
    memset(nots + 63, 2, 1);
    nots[64] = 1;
    nots[65] = nots[66] = 0;
    SAME(SW_BODY_TOO_LARGE, figures_are(nots, 67, 0, 0, 0));

    /* The 65th formula is missing, or its code is unknown: both come before 9. */
    SAME(SW_BODY_ENDS_EARLY, figures_are(nots, 64, 0, 0, 0));
    nots[64] = 6;
    SAME(SW_UNKNOWN_CODE, figures_are(nots, 65, 0, 0, 0));
}

/* ---- 25, 26: rules as text ---- */

static const char example_text[] = "monitor x : ~(@x.0 /\\ forall y in x-1..x+2 : @y.0)";

/* Reads so many bytes of a text into a buffer of `room` bytes. Nothing but the body is
 * written; it is left in `body_read`. */
static uint8_t body_read[SW_MAX_BODY + 1];

static uint32_t read_text(const char *text, size_t len, size_t room)
{
    size_t written = 80;
    memset(body_read, 0xAA, sizeof body_read);
    uint32_t number = sw_rule_from_text((const uint8_t *)text, len, body_read, room, &written);
    if (number != SW_OK) {
        SAME(80, written);
        written = 0;
    }
    for (size_t i = written; i < sizeof body_read; i++)
        SAME(0xAA, body_read[i]);
    return number;
}

#define READ(number, text) SAME(number, read_text(text, sizeof text - 1, SW_MAX_BODY))

/* The same for a body that is printed. */
static uint8_t text_printed[SW_MAX_TEXT + 1];

static uint32_t print_body(const uint8_t *body, size_t len, size_t room)
{
    size_t written = 81;
    memset(text_printed, 0xAA, sizeof text_printed);
    uint32_t number = sw_rule_to_text(body, len, text_printed, room, &written);
    if (number != SW_OK) {
        SAME(81, written);
        written = 0;
    }
    for (size_t i = written; i < sizeof text_printed; i++)
        SAME(0xAA, text_printed[i]);
    return number;
}

/* A rule of so many nots. */
static char deep_text[SW_MAX_TEXT + 2];

static size_t write_nots(size_t count)
{
    static const char begin[] = "monitor x : ", end[] = "@x.0";
    memcpy(deep_text, begin, sizeof begin - 1);
    memset(deep_text + sizeof begin - 1, '~', count);
    memcpy(deep_text + sizeof begin - 1 + count, end, sizeof end - 1);
    return sizeof begin - 1 + count + sizeof end - 1;
}

static void texts(void)
{
    size_t example_len = sizeof example_text - 1;
    SAME(SW_OK, read_text(example_text, example_len, SW_MAX_BODY));
    SAME(0, memcmp(body_read, example, sizeof example));
    SAME(SW_OK, read_text(example_text, example_len, sizeof example));
    SAME(0, memcmp(body_read, example, sizeof example));
    SAME(SW_BUFFER_TOO_SHORT, read_text(example_text, example_len, sizeof example - 1));
    SAME(SW_BUFFER_TOO_SHORT, read_text(example_text, example_len, 0));

    READ(SW_OK, "monitor x : @x.7");
    READ(SW_OK, "monitor x : forall y in x-0..x+0001 : @y.7");
    READ(SW_OK, "monitor x : forall x in infinity+0..0+4095 : @x.7");
    READ(SW_MISSPELT, "");
    READ(SW_MISSPELT, "monitor x : @x.7\n");
    READ(SW_MISSPELT, "monitor x : @x.7\0");
    READ(SW_MISSPELT, "monitor in : @in.7");
    READ(SW_MISSPELT, "monitor abcdefghi : @x.7");
    READ(SW_UNBOUND_NAME, "monitor x : @y.7");
    READ(SW_UNBOUND_NAME, "monitor x : forall y in y..x : @y.7");
    READ(SW_NO_SUCH_FLAG, "monitor x : @x.8");
    READ(SW_OFFSET_OUT_OF_RANGE, "monitor x : forall y in x..x+4096 : @y.7");
    READ(SW_OFFSET_ON_INFINITY, "monitor x : forall y in x..infinity+1 : @y.7");

    /* In this order. */
    READ(SW_MISSPELT, "monitor x : (@x.8 && (@y.7 && @x.7)");
    READ(SW_UNBOUND_NAME, "monitor x : (@x.8 && @y.7)");
    SAME(SW_NO_SUCH_FLAG, read_text("monitor x : @x.8", 16, 0));

    /* 64 formulas, and one more; the longest text, and one byte more. */
    SAME(SW_OK, read_text(deep_text, write_nots(63), SW_MAX_BODY));
    SAME(SW_BODY_TOO_LARGE, read_text(deep_text, write_nots(64), SW_MAX_BODY));
    SAME(SW_MAX_TEXT, write_nots(4080));
    SAME(SW_BODY_TOO_LARGE, read_text(deep_text, SW_MAX_TEXT, SW_MAX_BODY));
    SAME(SW_MAX_TEXT + 1, write_nots(4081));
    SAME(SW_MISSPELT, read_text(deep_text, SW_MAX_TEXT + 1, SW_MAX_BODY));

    /* The way back. */
    SAME(SW_OK, print_body(example, sizeof example, SW_MAX_TEXT));
    SAME(0, memcmp(text_printed, example_text, example_len));
    SAME(SW_OK, print_body(example, sizeof example, example_len));
    SAME(SW_BUFFER_TOO_SHORT, print_body(example, sizeof example, example_len - 1));
    SAME(SW_BODY_ENDS_EARLY, print_body(example, sizeof example - 1, SW_MAX_TEXT));
    SAME(SW_BODY_ENDS_EARLY, print_body(example, 0, 0));
}

/* ---- 16: a recording, and the verdicts ---- */

static void recordings(void)
{
    static uint8_t recording[SW_MAX_RECORDING + 1];
    uint32_t verdict = 74;
    uint64_t step = 75;
    SAME(SW_NOT_IN_RECORDING, sw_outcome(example, sizeof example, flags, sizeof flags, sizeof flags, &verdict, &step));
    SAME(SW_NOT_IN_RECORDING, sw_outcome(example, sizeof example, recording, sizeof recording, 0, &verdict, &step));
    SAME(74, verdict);
    SAME(75, step);
    SAME(SW_OK, sw_outcome(example, sizeof example, recording, SW_MAX_RECORDING, SW_MAX_RECORDING - 1, &verdict, &step));
    SAME(SW_TRUE, verdict);
    SAME(SW_MAX_RECORDING - 1, step);
    SAME(SW_OK, sw_outcome(example, sizeof example, flags, sizeof flags, 5, &verdict, &step));
    SAME(SW_FALSE, verdict);
    SAME(7, step);
    SAME(SW_OK, sw_outcome(example, sizeof example, flags, 7, 5, &verdict, &step));
    SAME(SW_OPEN, verdict);
    SAME(0, step);
}

/* ---- 17 to 21: what an opening and a step are lent ---- */

static void lending(void)
{
    write_one(example, sizeof example);
    SAME(SW_HISTORY_LENGTH, open_with(0, EXAMPLE_WORDS));
    SAME(SW_HISTORY_LENGTH, open_with(SW_MAX_HISTORY + 1, EXAMPLE_WORDS));
    SAME(SW_CELL_TABLE_TOO_SHORT, open_with(1, EXAMPLE_WORDS - 1));
    SAME(SW_OK, open_with(SW_MAX_HISTORY, EXAMPLE_WORDS));
    SAME(SW_OK, open_with(1, EXAMPLE_WORDS));

    SAME(SW_HISTORY_LENGTH, step_with(2, EXAMPLE_WORDS, 3));
    SAME(SW_CELL_TABLE_TOO_SHORT, step_with(1, EXAMPLE_WORDS - 1, 3));
    SAME(SW_REPORT_TOO_SHORT, step_with(1, EXAMPLE_WORDS, 2));
    SAME(SW_OK, step_with(1, EXAMPLE_WORDS, 3));

    set_number(528, UINT32_MAX);
    SAME(SW_OK, step_with(1, EXAMPLE_WORDS, 3));
    SAME(SW_OK, step_with(1, EXAMPLE_WORDS, 3));
    SAME((uint64_t)UINT32_MAX + 2, number_at(528));
    set_number(528, FIRST_UNTAKEN - 1);
    SAME(SW_OK, step_with(1, EXAMPLE_WORDS, 3));
    SAME(FIRST_UNTAKEN, number_at(528));
    SAME(SW_TICKS_USED_UP, step_with(1, EXAMPLE_WORDS, 3));
    SAME(SW_REPORT_TOO_SHORT, step_with(1, EXAMPLE_WORDS, 2));
    set_number(528, FIRST_UNTAKEN + 1);
    SAME(SW_TICKS_USED_UP, step_with(1, EXAMPLE_WORDS, 3));
    set_number(528, UINT64_MAX);
    SAME(SW_TICKS_USED_UP, step_with(1, EXAMPLE_WORDS, 3));
    SAME(UINT64_MAX, number_at(528));

    set_number(520, SW_MAX_HISTORY + 1);
    SAME(SW_STATE_NOT_OPENED, step_with(1, EXAMPLE_WORDS, 3));
    memset(state, 0, sizeof state);
    SAME(SW_STATE_NOT_OPENED, step_with(1, EXAMPLE_WORDS, 3));

    /* What every rule can need. */
    SAME(SW_MAX_CELL_WORDS, SW_MAX_CELLS * SW_CELL_WORDS);
    SAME(SW_MAX_REPORT, SW_MAX_DELAY + 1);
    SAME(SW_MAX_BATCH_REPORT, 2 * SW_MAX_REPORT);
    write_one(ahead, sizeof ahead);
    SAME(SW_OK, open_with(0, SW_MAX_CELL_WORDS));
    SAME(SW_REPORT_TOO_SHORT, step_with(0, SW_MAX_CELL_WORDS, SW_MAX_REPORT - 1));
    SAME(SW_OK, step_with(0, SW_MAX_CELL_WORDS, SW_MAX_REPORT));
}

/* A dishonest table that is not caught: a step ends and writes only what a step may. */
static void dishonest(void)
{
    size_t reported, live;
    write_one(example, sizeof example);
    SAME(SW_OK, open_with(4, EXAMPLE_WORDS));
    set_number(528, 6);
    memset(cells, 0xFF, sizeof cells);
    memset(history, 0xEE, sizeof history);
    memset(report, 0xDD, sizeof report);
    SAME(SW_OK, sw_step(state, 1, history, 4, cells, SW_MAX_CELL_WORDS, report, SW_MAX_REPORT, &reported, &live));
    SAME(1, reported <= 3);
    SAME(UINT64_C(0xDDDDDDDDDDDDDDDD), report[3]);
    SAME(UINT32_MAX, cells[EXAMPLE_WORDS]);
    SAME(0xEE, history[1]);
    SAME(1, history[2]);
    SAME(0xEE, history[3]);
    SAME(7, state[528]);
}

/* ---- Batches ---- */

static size_t violations;

static void violation(uint64_t tick, uint64_t step)
{
    SAME(violations, tick);
    SAME(violations + SW_MAX_DELAY, step);
    violations++;
}

/* The loop that the header shows; tests/c/run takes it out of there. */
static uint32_t take_all(const uint8_t *flags, size_t count, size_t history_len, size_t cells_len)
{
#include "loop.inc"
    return SW_OK;
}

static void batches(void)
{
    static const uint8_t down[1000];
    size_t taken, pairs, live;

    /* Every tick is a violation, SW_MAX_DELAY steps later. */
    write_one(ahead, sizeof ahead);
    SAME(SW_OK, open_with(0, SW_MAX_CELL_WORDS));

    /* A report that is one word too short: no refusal, and no flag is ever taken. */
    for (int i = 0; i < 2; i++) {
        taken = pairs = live = 76;
        SAME(SW_OK, sw_steps(state, down, sizeof down, history, 0, cells, SW_MAX_CELL_WORDS,
                             report, SW_MAX_BATCH_REPORT - 1, &taken, &pairs, &live));
        SAME(0, taken);
        SAME(0, pairs);
        SAME(0, live);
    }

    /* The loop of the header ends, and sees them all. */
    SAME(SW_OK, take_all(down, sizeof down, 0, SW_MAX_CELL_WORDS));
    SAME(sizeof down - SW_MAX_DELAY, violations);
    SAME(SW_OK, sw_steps(state, down, 0, history, 0, cells, SW_MAX_CELL_WORDS, report, 0, &taken, &pairs, &live));
    SAME(SW_MAX_DELAY, live);
    SAME(sizeof down % 256, state[528]);
    SAME(sizeof down / 256, state[529]);

    /* What is asked of a first step, also where there is no flag; never 19. */
    SAME(SW_CELL_TABLE_TOO_SHORT, sw_steps(state, down, 0, history, 0, cells, AHEAD_WORDS - 1, report, 0, &taken, &pairs, &live));
    SAME(SW_HISTORY_LENGTH, sw_steps(state, down, 0, history, 1, cells, AHEAD_WORDS - 1, report, 0, &taken, &pairs, &live));
    SAME(SW_OK, sw_steps(state, down, 1, history, 0, cells, AHEAD_WORDS, report, 0, &taken, &pairs, &live));
    SAME(0, taken);

    /* After the last tick a batch ends, and the next one is refused. */
    set_number(528, FIRST_UNTAKEN - 1);
    SAME(SW_OK, sw_steps(state, down, 2, history, 0, cells, AHEAD_WORDS, report, SW_MAX_BATCH_REPORT, &taken, &pairs, &live));
    SAME(1, taken);
    SAME(FIRST_UNTAKEN, number_at(528));
    SAME(SW_TICKS_USED_UP, sw_steps(state, down, 2, history, 0, cells, AHEAD_WORDS, report, SW_MAX_BATCH_REPORT, &taken, &pairs, &live));
    memset(state, 0, sizeof state);
    SAME(SW_STATE_NOT_OPENED, sw_steps(state, down, 2, history, 0, cells, AHEAD_WORDS, report, SW_MAX_BATCH_REPORT, &taken, &pairs, &live));
}

/* ---- High ticks ---- */

/* How far the example's first four steps are put ahead: multiples of delay + 1, so that the
 * ticks find their cells. With the second the violation of tick 5 is that of tick 2^32 - 2, at
 * step 2^32; with the third the last of the ten flags is the last tick that is taken. */
static const uint64_t shifts[] = {0, UINT64_C(4294967296) - 7, FIRST_UNTAKEN - 10};

/* The scope document's flags: four from tick 0 on, and the others that much later. */
static void high_ticks(uint64_t shift)
{
    size_t taken, pairs, live, reported, seen = 0;
    write_one(example, sizeof example);
    for (int in_batch = 0; in_batch < 2; in_batch++) {
        SAME(0, shift % 3);
        SAME(SW_OK, open_with(1, EXAMPLE_WORDS));
        SAME(SW_OK, sw_steps(state, flags, 4, history, 1, cells, EXAMPLE_WORDS, report, SW_MAX_BATCH_REPORT, &taken, &pairs, &live));
        SAME(4, taken);
        SAME(0, pairs);
        set_number(528, 4 + shift);
        for (size_t t = 4; !in_batch && t < sizeof flags; t++) {
            SAME(SW_OK, sw_step(state, flags[t], history, 1, cells, EXAMPLE_WORDS, report, 3, &reported, &live));
            SAME(t == 7, reported);
            if (reported == 1)
                SAME(5 + shift, report[0]);
            seen += reported;
        }
        if (in_batch) {
            SAME(SW_OK, sw_steps(state, flags + 4, sizeof flags - 4, history, 1, cells, EXAMPLE_WORDS, report,
                                 SW_MAX_BATCH_REPORT, &taken, &pairs, &live));
            SAME(sizeof flags - 4, taken);
            SAME(1, pairs);
            SAME(5 + shift, report[0]);
            SAME(7 + shift, report[1]);
        }
        SAME(sizeof flags + shift, number_at(528));
        SAME(0, live);
    }
    SAME(1, seen);
    SAME(sizeof flags + shift == FIRST_UNTAKEN ? SW_TICKS_USED_UP : SW_OK, step_with(1, EXAMPLE_WORDS, 3));
}

/* ---- 27, 17 to 21: sets of rules ---- */

/* for all Y from X to X+62: flag 0 at Y: 0, 62, 4095; and flag 0 at X: 0, 0, 1 */
static const uint8_t wide[] = {5, 2, 0, 0, 0, 2, 0, 62, 0, 1, 1, 0};
static const uint8_t flag[] = {1, 0, 0};

enum { SET_CELLS = 1 + EXAMPLE_CELLS + AHEAD_CELLS, SET_WORDS = SW_CELL_WORDS * SET_CELLS, SET_PAIRS = 1 + 3 + 256 };

static sw_running records[4];
static uint64_t set_report[SW_MAX_SET_BATCH_REPORT];

/* The sheet of three rules; of two, where the last is empty. */
static void write_three(const uint8_t *first, size_t first_len, const uint8_t *second, size_t second_len,
                        const uint8_t *third, size_t third_len)
{
    static uint8_t bodies[3 * SW_MAX_BODY];
    const uint16_t lengths[] = {(uint16_t)first_len, (uint16_t)second_len, (uint16_t)third_len};
    memcpy(bodies, first, first_len);
    memcpy(bodies + first_len, second, second_len);
    memcpy(bodies + first_len + second_len, third, third_len);
    SAME(SW_OK, sw_write_sheet(lengths, third_len > 0 ? 3 : 2, bodies, first_len + second_len + third_len,
                               sheet, sizeof sheet, &sheet_len));
}

static uint32_t set_figures_are(size_t n, uint64_t h, uint64_t c, uint64_t p)
{
    size_t rules = 81;
    uint64_t history_figure = 82, cells_figure = 83, pairs = 84;
    uint32_t number = sw_set_figures(sheet, sheet_len, &rules, &history_figure, &cells_figure, &pairs);
    SAME(number == SW_OK ? n : 81, rules);
    SAME(number == SW_OK ? h : 82, history_figure);
    SAME(number == SW_OK ? c : 83, cells_figure);
    SAME(number == SW_OK ? p : 84, pairs);
    return number;
}

static void set_figures(void)
{
    write_three(flag, sizeof flag, example, sizeof example, ahead, sizeof ahead);
    SAME(SW_OK, set_figures_are(3, 1, SET_CELLS, SET_PAIRS));
    sheet_len--;
    SAME(SW_ENTRY_LAYOUT, set_figures_are(0, 0, 0, 0));
    sheet_len = 0;
    SAME(SW_RULE_COUNT, set_figures_are(0, 0, 0, 0));

    /* Together 4,096 cells, and 4,097; a later rule's own refusal comes before 27. */
    write_three(wide, sizeof wide, flag, sizeof flag, flag, 0);
    SAME(SW_OK, set_figures_are(2, 0, SW_MAX_CELLS, 64));
    write_three(wide, sizeof wide, flag, sizeof flag, flag, sizeof flag);
    SAME(SW_SET_CELLS_ABOVE_LIMIT, set_figures_are(0, 0, 0, 0));
    write_three(wide, sizeof wide, example, sizeof example, example, 1);
    SAME(SW_BODY_ENDS_EARLY, set_figures_are(0, 0, 0, 0));
}

static uint32_t set_open_with(size_t records_len, size_t history_len, size_t cells_len)
{
    return sw_set_open(sheet, sheet_len, records, records_len, history, history_len, cells, cells_len);
}

static uint32_t set_step_with(size_t records_len, size_t history_len, size_t cells_len, size_t report_len)
{
    size_t pairs = 85, live = 86;
    uint32_t number = sw_set_step(sheet, sheet_len, records, records_len, 0, history, history_len, cells, cells_len,
                                  set_report, report_len, &pairs, &live);
    if (number != SW_OK) {
        SAME(85, pairs);
        SAME(86, live);
    }
    return number;
}

/* A record is eight words, end to end. */
static void set_record(void)
{
    SAME(32, sizeof(sw_running));
    SAME(0, offsetof(sw_running, start));
    SAME(4, offsetof(sw_running, size));
    SAME(8, offsetof(sw_running, first));
    SAME(12, offsetof(sw_running, cells));
    SAME(16, offsetof(sw_running, delay));
    SAME(18, offsetof(sw_running, opened));
    SAME(20, offsetof(sw_running, live));
    SAME(24, offsetof(sw_running, next));
    SAME(8, offsetof(struct { char before; sw_running record; }, record));
}

static void set_opening(void)
{
    write_three(flag, sizeof flag, example, sizeof example, ahead, sizeof ahead);
    memset(records, 0xEE, sizeof records);
    SAME(SW_HISTORY_LENGTH, set_open_with(3, 0, SET_WORDS));
    SAME(SW_HISTORY_LENGTH, set_open_with(3, SW_MAX_HISTORY + 1, SET_WORDS));
    SAME(SW_CELL_TABLE_TOO_SHORT, set_open_with(3, 1, SET_WORDS - 1));
    SAME(SW_CELL_TABLE_TOO_SHORT, set_open_with(2, 1, SET_WORDS));
    SAME(0xEEEEEEEE, records[0].start);
    SAME(SW_OK, set_open_with(4, SW_MAX_HISTORY, SW_MAX_CELL_WORDS));
    SAME(SW_MAX_HISTORY, records[2].opened);

    /* The places of the bodies, the parts of the table, and what an opening sets to 0. */
    memset(history, 0xEE, 2);
    SAME(SW_OK, set_open_with(4, 1, SET_WORDS));
    const sw_running due[] = {{13, 3, 0, 1, 0, 1, 0, 0},
                              {16, sizeof example, 1, EXAMPLE_CELLS, 2, 1, 0, 0},
                              {16 + sizeof example, sizeof ahead, 1 + EXAMPLE_CELLS, AHEAD_CELLS, SW_MAX_DELAY, 1, 0, 0}};
    SAME(0, memcmp(due, records, sizeof due));
    SAME(0xEEEEEEEE, records[3].start);
    SAME(0xEEEEEEEE, records[3].live);
    SAME(0, history[0]);
    SAME(0xEE, history[1]);
}

static void set_stepping(void)
{
    SAME(SW_MAX_SET_REPORT, 2 * SW_MAX_CELLS);
    SAME(SW_MAX_SET_BATCH_REPORT, 3 * SW_MAX_CELLS);
    SAME(SW_OK, set_open_with(3, 1, SET_WORDS));
    SAME(SW_HISTORY_LENGTH, set_step_with(3, 2, SET_WORDS, 2 * SET_PAIRS));
    SAME(SW_CELL_TABLE_TOO_SHORT, set_step_with(3, 1, SET_WORDS - 1, 2 * SET_PAIRS));
    SAME(SW_CELL_TABLE_TOO_SHORT, set_step_with(2, 1, SET_WORDS, 2 * SET_PAIRS));
    SAME(SW_CELL_TABLE_TOO_SHORT, set_step_with(0, 9, SET_WORDS, 2 * SET_PAIRS));
    SAME(SW_REPORT_TOO_SHORT, set_step_with(3, 1, SET_WORDS, 2 * SET_PAIRS - 1));
    SAME(0, records[0].next);
    SAME(SW_OK, set_step_with(3, 1, SET_WORDS, 2 * SET_PAIRS));
    SAME(1, records[0].next);

    for (int i = 0; i < 3; i++)
        records[i].next = UINT32_MAX;
    SAME(SW_OK, set_step_with(3, 1, SET_WORDS, SW_MAX_SET_REPORT));
    SAME((uint64_t)UINT32_MAX + 1, records[2].next);
    for (int i = 0; i < 3; i++)
        records[i].next = FIRST_UNTAKEN - 1;
    SAME(SW_OK, set_step_with(3, 1, SET_WORDS, SW_MAX_SET_REPORT));
    SAME(FIRST_UNTAKEN, records[2].next);
    SAME(SW_TICKS_USED_UP, set_step_with(3, 1, SET_WORDS, SW_MAX_SET_REPORT));
    for (int i = 0; i < 3; i++)
        records[i].next = UINT64_MAX;
    SAME(SW_TICKS_USED_UP, set_step_with(3, 1, SET_WORDS, SW_MAX_SET_REPORT));
    SAME(UINT64_MAX, records[2].next);
    records[1].next--;
    SAME(SW_STATE_NOT_OPENED, set_step_with(3, 1, SET_WORDS, SW_MAX_SET_REPORT));
    SAME(SW_OK, set_open_with(3, 1, SET_WORDS));
    sheet[0] = SW_MAX_RULES + 1;
    SAME(SW_STATE_NOT_OPENED, set_step_with(3, 1, SET_WORDS, SW_MAX_SET_REPORT));
    sheet[0] = 3;
    memset(records, 0, sizeof records);
    SAME(SW_STATE_NOT_OPENED, set_step_with(3, 1, SET_WORDS, SW_MAX_SET_REPORT));
}

/* Lengths of 0, with pointers that are not NULL. */
static void set_of_nothing(void)
{
    size_t taken = 91, triples = 92, live = 93;
    write_three(flag, sizeof flag, flag, sizeof flag, flag, sizeof flag);
    SAME(SW_RULE_COUNT, sw_set_open(sheet, 0, records, 0, history, 0, cells, 0));
    SAME(SW_CELL_TABLE_TOO_SHORT, set_open_with(0, 0, SW_MAX_CELL_WORDS));
    SAME(SW_CELL_TABLE_TOO_SHORT, set_open_with(3, 0, 0));
    SAME(SW_OK, set_open_with(3, 0, 3 * SW_CELL_WORDS));
    SAME(SW_STATE_NOT_OPENED, sw_set_step(sheet, 0, records, 3, 0, history, 0, cells, 0, set_report, 0, &triples, &live));
    SAME(SW_CELL_TABLE_TOO_SHORT, set_step_with(0, 0, 0, 0));
    SAME(SW_CELL_TABLE_TOO_SHORT, set_step_with(3, 0, 0, 0));
    SAME(SW_REPORT_TOO_SHORT, set_step_with(3, 0, 3 * SW_CELL_WORDS, 0));
    SAME(SW_STATE_NOT_OPENED, sw_set_steps(sheet, 0, records, 0, flags, 0, history, 0, cells, 0, set_report, 0,
                                           &taken, &triples, &live));
    SAME(SW_CELL_TABLE_TOO_SHORT, sw_set_steps(sheet, sheet_len, records, 0, flags, 0, history, 0, cells, 0, set_report, 0,
                                               &taken, &triples, &live));
    SAME(91, taken);
    SAME(92, triples);
    SAME(93, live);
    SAME(SW_OK, sw_set_steps(sheet, sheet_len, records, 3, flags, 0, history, 0, cells, 3 * SW_CELL_WORDS, set_report, 0,
                             &taken, &triples, &live));
    SAME(0, taken);
    SAME(0, triples);
    SAME(0, live);
    SAME(SW_OK, set_step_with(3, 0, 3 * SW_CELL_WORDS, 6));
}

/* Rule 0 wants flag 0, rule 1 is the example: the scope document's flags by single steps and
 * in a batch. */
static void set_reports(void)
{
    static const uint64_t due[][3] = {{0, 0, 0}, {0, 3, 3}, {1, 5, 7}, {0, 8, 8}, {0, 9, 9}};
    size_t taken = 87, triples = 88, live = 89, pairs, seen = 0;
    write_three(flag, sizeof flag, example, sizeof example, flag, 0);
    SAME(SW_OK, set_open_with(2, 1, SW_MAX_CELL_WORDS));
    for (uint32_t t = 0; t < sizeof flags; t++) {
        memset(set_report, 0xDD, 9 * sizeof set_report[0]);
        SAME(SW_OK, sw_set_step(sheet, sheet_len, records, 2, flags[t], history, 1, cells, SW_MAX_CELL_WORDS,
                                set_report, 8, &pairs, &live));
        SAME(live, records[0].live + records[1].live);
        for (size_t i = 0; i < pairs; i++, seen++) {
            SAME(due[seen][0], set_report[2 * i]);
            SAME(due[seen][1], set_report[2 * i + 1]);
            SAME(due[seen][2], t);
        }
        SAME(UINT64_C(0xDDDDDDDDDDDDDDDD), set_report[2 * pairs]);
    }
    SAME(5, seen);
    SAME(0, live);

    /* A report that is one word too short: no refusal, and no flag is ever taken. */
    SAME(SW_OK, set_open_with(2, 1, SW_MAX_CELL_WORDS));
    SAME(SW_OK, sw_set_steps(sheet, sheet_len, records, 2, flags, sizeof flags, history, 1, cells, SW_MAX_CELL_WORDS,
                             set_report, 11, &taken, &triples, &live));
    SAME(0, taken);
    SAME(0, triples);
    SAME(SW_OK, sw_set_steps(sheet, sheet_len, records, 2, flags, sizeof flags, history, 1, cells, SW_MAX_CELL_WORDS,
                             set_report, SW_MAX_SET_BATCH_REPORT, &taken, &triples, &live));
    SAME(sizeof flags, taken);
    SAME(5, triples);
    SAME(0, live);
    SAME(0, memcmp(due, set_report, sizeof due));
    SAME(SW_HISTORY_LENGTH, sw_set_steps(sheet, sheet_len, records, 2, flags, 0, history, 0, cells, SW_MAX_CELL_WORDS,
                                         set_report, 0, &taken, &triples, &live));
    SAME(sizeof flags, taken);
}

/* The same two rules: four flags from tick 0 on, and the others so much later, by single steps
 * and in a batch. */
static void set_high_ticks(uint64_t shift)
{
    static const uint64_t due[][3] = {{1, 5, 7}, {0, 8, 8}, {0, 9, 9}};
    size_t taken, triples, live, pairs, seen = 0;
    write_three(flag, sizeof flag, example, sizeof example, flag, 0);
    for (int in_batch = 0; in_batch < 2; in_batch++) {
        SAME(SW_OK, set_open_with(2, 1, SW_MAX_CELL_WORDS));
        SAME(SW_OK, sw_set_steps(sheet, sheet_len, records, 2, flags, 4, history, 1, cells, SW_MAX_CELL_WORDS, set_report,
                                 SW_MAX_SET_BATCH_REPORT, &taken, &triples, &live));
        SAME(4, taken);
        records[0].next += shift;
        records[1].next += shift;
        for (size_t t = 4; !in_batch && t < sizeof flags; t++) {
            SAME(SW_OK, sw_set_step(sheet, sheet_len, records, 2, flags[t], history, 1, cells, SW_MAX_CELL_WORDS, set_report, 8,
                                    &pairs, &live));
            for (size_t i = 0; i < pairs; i++, seen++) {
                if (seen >= sizeof due / sizeof *due)
                    continue; /* counted, and said below */
                SAME(due[seen][0], set_report[2 * i]);
                SAME(due[seen][1] + shift, set_report[2 * i + 1]);
                SAME(due[seen][2], t);
            }
        }
        if (in_batch) {
            SAME(SW_OK, sw_set_steps(sheet, sheet_len, records, 2, flags + 4, sizeof flags - 4, history, 1, cells,
                                     SW_MAX_CELL_WORDS, set_report, SW_MAX_SET_BATCH_REPORT, &taken, &triples, &live));
            SAME(sizeof flags - 4, taken);
            SAME(3, triples);
            for (size_t i = 0; i < 3; i++) {
                SAME(due[i][0], set_report[3 * i]);
                SAME(due[i][1] + shift, set_report[3 * i + 1]);
                SAME(due[i][2] + shift, set_report[3 * i + 2]);
            }
        }
        SAME(0, live);
        SAME(sizeof flags + shift, records[0].next);
        SAME(sizeof flags + shift, records[1].next);
    }
    SAME(3, seen);
    SAME(sizeof flags + shift == FIRST_UNTAKEN ? SW_TICKS_USED_UP : SW_OK, set_step_with(2, 1, SW_MAX_CELL_WORDS, 8));
}

/* A dishonest table that is not caught: a step ends and writes only what a step may. */
static void set_dishonest(void)
{
    size_t pairs, live;
    write_three(flag, sizeof flag, example, sizeof example, flag, 0);
    SAME(SW_OK, set_open_with(3, 4, SW_MAX_CELL_WORDS));
    records[0].next = records[1].next = 6;
    sw_running before[3];
    memcpy(before, records, sizeof before);
    memset(cells, 0xFF, sizeof cells);
    memset(history, 0xEE, sizeof history);
    memset(set_report, 0xDD, sizeof set_report);
    SAME(SW_OK, sw_set_step(sheet, sheet_len, records, 3, 1, history, 4, cells, SW_MAX_CELL_WORDS, set_report,
                            SW_MAX_SET_REPORT, &pairs, &live));
    SAME(1, pairs <= 4);
    SAME(UINT64_C(0xDDDDDDDDDDDDDDDD), set_report[8]);
    SAME(UINT32_MAX, cells[SW_CELL_WORDS * (1 + EXAMPLE_CELLS)]);
    SAME(0xEE, history[1]);
    SAME(1, history[2]);
    SAME(0xEE, history[3]);
    for (int i = 0; i < 2; i++) {
        before[i].next = 7;
        before[i].live = records[i].live;
    }
    SAME(0, memcmp(before, records, sizeof before));
}

/* ---- Sentences: header.py compares the texts ---- */

static void sentences(void)
{
    uint8_t out[SW_MAX_SENTENCE + 1];
    for (uint32_t number = 0; number <= SW_SET_CELLS_ABOVE_LIMIT + 1; number++) {
        size_t written = 99;
        memset(out, 0xAA, sizeof out);
        SAME(SW_OK, sw_sentence(number, out, SW_MAX_SENTENCE, &written));
        SAME(written, strlen((const char *)out));
        SAME(0xAA, out[written + 1]);

        /* Room for the text and not for its 0. */
        size_t kept = 98;
        memset(out, 0xAA, sizeof out);
        SAME(SW_BUFFER_TOO_SHORT, sw_sentence(number, out, written, &kept));
        SAME(98, kept);
        SAME(0xAA, out[0]);
        SAME(SW_OK, sw_sentence(number, out, written + 1, &kept));
        SAME(written, kept);
    }
}

static void version(void)
{
    char text[32];
    snprintf(text, sizeof text, "%d.%d.%d", SW_VERSION_MAJOR, SW_VERSION_MINOR, SW_VERSION_PATCH);
    SAME(0, strcmp(text, SW_VERSION));
}

int main(void)
{
    sheets();
    bodies();
    always_empty_ranges();
    texts();
    recordings();
    lending();
    dishonest();
    batches();
    for (size_t i = 0; i < sizeof shifts / sizeof shifts[0]; i++)
        high_ticks(shifts[i]);
    set_figures();
    set_record();
    set_opening();
    set_stepping();
    set_of_nothing();
    set_reports();
    for (size_t i = 0; i < sizeof shifts / sizeof shifts[0]; i++)
        set_high_ticks(shifts[i]);
    set_dishonest();
    sentences();
    version();
    return ended("boundary.c");
}
