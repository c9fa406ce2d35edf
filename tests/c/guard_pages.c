/* Every function, with each buffer and each answer directly before a page that nobody may
 * touch, and then directly after one: a byte read or written outside ends the program with
 * SIGSEGV. tests/rust does this with many more calls, on the static library alone. */
#define _DEFAULT_SOURCE
#include <signal.h>
#include <stdio.h>
#include <string.h>
#include <sys/mman.h>
#include <sys/wait.h>
#include <unistd.h>

#include "station_watch.h"

/* Whole pages for the longest buffer, a recording of a byte too much; and as many places as
 * sw_set_steps is lent buffers and answers. */
enum { PAGE = 4096, ROOM = 17 * PAGE, PLACES = 9 };

static uint8_t *places[PLACES];
static int guard_before;
static unsigned checks, failures;

static int make_places(void)
{
    for (int i = 0; i < PLACES; i++) {
        uint8_t *all = mmap(NULL, ROOM + 2 * PAGE, PROT_NONE, MAP_PRIVATE | MAP_ANONYMOUS, -1, 0);
        if (all == MAP_FAILED || mprotect(all + PAGE, ROOM, PROT_READ | PROT_WRITE) != 0)
            return 0;
        places[i] = all + PAGE;
    }
    return 1;
}

/* So many bytes of a place, at its guard page. They hold what they held. */
static void *at(int place, size_t size)
{
    return places[place] + (guard_before ? 0 : ROOM - size);
}

/* The same with this content. */
static void *lent(int place, const void *content, size_t size)
{
    return memcpy(at(place, size), content, size);
}

static void *answer(int place)
{
    return at(place, sizeof(uint64_t));
}

static void same(int line, uint32_t expected, uint32_t seen)
{
    checks++;
    if (seen == expected)
        return;
    failures++;
    printf("guard_pages.c:%d: %u, not %u; the guard is %s\n", line, seen, expected, guard_before ? "before" : "after");
}

#define SAME(expected, seen) same(__LINE__, expected, seen)

/* ---- Whether the guards hold ---- */

/* Whether a process that reads this byte ends with SIGSEGV. */
static int ends(const volatile uint8_t *byte)
{
    int status = 0;
    pid_t child = fork();
    if (child == 0) {
        uint8_t seen = *byte;
        _exit(seen & 1);
    }
    return child > 0 && waitpid(child, &status, 0) == child && WIFSIGNALED(status) && WTERMSIG(status) == SIGSEGV;
}

static void guards(void)
{
    for (int i = 0; i < PLACES; i++)
        for (size_t size = 0; size < 3; size++) {
            const uint8_t *buffer = at(i, size);
            SAME(1, (uint32_t)ends(guard_before ? buffer - 1 : buffer + size));
            if (size > 0)
                SAME(0, (uint32_t)ends(guard_before ? buffer : buffer + size - 1));
        }
}

/* ---- The calls ---- */

/* not (flag 0 at X beside for all Y from X-1 to X+2: flag 0 at Y): 1, 2, 21 */
static const uint8_t example[] = {2, 4, 1, 0, 0, 5, 2, 0, 0xFF, 0xFF, 2, 0, 2, 0, 1, 1, 0};
static const char text[] = "monitor x : ~(@x.0 /\\ forall y in x-1..x+2 : @y.0)";
enum { BODY = sizeof example, TEXT = sizeof text - 1, SHEET = 5 + BODY, WORDS = 21 * SW_CELL_WORDS, MORE = 3 };

/* The refusal of a length that must be at least `least`. */
static uint32_t unless(size_t least, size_t length, uint32_t refusal)
{
    return length < least ? refusal : SW_OK;
}

static uint32_t body_refusal(size_t length)
{
    return length < BODY ? SW_BODY_ENDS_EARLY : length > BODY ? SW_BYTES_LEFT_OVER : SW_OK;
}

/* Beginnings of the example, and bytes after it: its body and its text. */
static void bodies_and_texts(void)
{
    static uint8_t longer[BODY + MORE];
    static char longer_text[TEXT + MORE];
    memcpy(longer, example, BODY);
    memcpy(longer_text, text, TEXT);
    for (size_t n = 0; n <= BODY + MORE; n++) {
        const uint8_t *body = lent(0, longer, n);
        uint32_t due = body_refusal(n);
        SAME(due, sw_figures(body, n, answer(1), answer(2), answer(3)));
        SAME(due, sw_rule_to_text(body, n, at(1, TEXT), TEXT, answer(2)));
    }
    for (size_t n = 0; n <= TEXT + MORE; n++) {
        const uint8_t *rule = lent(0, longer_text, n);
        SAME(n == TEXT ? SW_OK : SW_MISSPELT, sw_rule_from_text(rule, n, at(1, BODY), BODY, answer(2)));
    }
    for (size_t room = 0; room <= TEXT + MORE; room++) {
        const uint8_t *rule = lent(0, text, TEXT), *body = lent(1, example, BODY);
        SAME(unless(BODY, room, SW_BUFFER_TOO_SHORT), sw_rule_from_text(rule, TEXT, at(2, room), room, answer(3)));
        SAME(unless(TEXT, room, SW_BUFFER_TOO_SHORT), sw_rule_to_text(body, BODY, at(2, room), room, answer(3)));
    }
}

/* The outcome of so many bytes of a body at the last of so many ticks. */
static uint32_t outcome(const uint8_t *body, size_t length, size_t ticks)
{
    return sw_outcome(lent(0, body, length), length, at(1, ticks), ticks, ticks - 1, at(2, sizeof(uint32_t)), answer(3));
}

static void recordings(void)
{
    for (size_t ticks = 0; ticks < 12; ticks++)
        for (size_t n = 0; n <= BODY; n++)
            SAME(n < BODY ? SW_BODY_ENDS_EARLY : ticks == 0 ? SW_NOT_IN_RECORDING : SW_OK, outcome(example, n, ticks));
    for (size_t ticks = SW_MAX_RECORDING - MORE; ticks <= SW_MAX_RECORDING + 1; ticks++)
        SAME(ticks > SW_MAX_RECORDING ? SW_NOT_IN_RECORDING : SW_OK, outcome(example, BODY, ticks));
}

/* Sheets of the example, written and read in every length. */
static void sheets(void)
{
    static uint8_t sheet[SHEET + MORE];
    const uint16_t length = BODY, *lengths = lent(0, &length, sizeof length);
    const uint8_t *body = lent(1, example, BODY);
    for (size_t room = 0; room <= SHEET + MORE; room++) {
        uint8_t *out = at(2, room);
        SAME(unless(SHEET, room, SW_BUFFER_TOO_SHORT), sw_write_sheet(lengths, 1, body, BODY, out, room, answer(3)));
        if (room == SHEET)
            memcpy(sheet, out, SHEET);
    }
    for (size_t n = 0; n <= SHEET + MORE; n++) {
        uint32_t due = n < 5 ? SW_RULE_COUNT : n != SHEET ? SW_ENTRY_LAYOUT : SW_OK;
        const uint8_t *lent_sheet = lent(0, sheet, n);
        SAME(due, sw_rule_place(lent_sheet, n, 0, answer(1), answer(2)));
        SAME(due, sw_open(lent_sheet, n, 0, at(1, 1), 1, at(2, 4 * WORDS), WORDS, at(3, SW_STATE_BYTES)));
    }
}

/* So many words of a report, of 64 bits each, in place 3. */
static void *report_at(size_t words)
{
    return at(3, sizeof(uint64_t) * words);
}

/* The example opened with so many history bytes; its state is left in place 0. */
static uint32_t open_example(size_t history, size_t words)
{
    static uint8_t sheet[SHEET] = {1, 5, 0, BODY, 0};
    memcpy(sheet + 5, example, BODY);
    return sw_open(lent(3, sheet, SHEET), SHEET, 0, at(1, history), history, at(2, 4 * words), words,
                   at(0, SW_STATE_BYTES));
}

static uint32_t step(size_t history, size_t words, size_t report)
{
    return sw_step(at(0, SW_STATE_BYTES), 1, at(1, history), history, at(2, 4 * words), words,
                   report_at(report), report, answer(4), answer(5));
}

static uint32_t steps(size_t flags, size_t history, size_t words, size_t report)
{
    return sw_steps(at(0, SW_STATE_BYTES), at(4, flags), flags, at(1, history), history, at(2, 4 * words), words,
                    report_at(report), report, answer(5), answer(6), answer(7));
}

/* Histories, tables, reports and flags in every length. */
static void stepping(void)
{
    for (size_t history = 0; history <= SW_MAX_HISTORY + 1; history++)
        SAME(history == 0 || history > SW_MAX_HISTORY ? SW_HISTORY_LENGTH : SW_OK, open_example(history, WORDS));
    for (size_t words = 0; words <= WORDS + MORE; words++)
        SAME(unless(WORDS, words, SW_CELL_TABLE_TOO_SHORT), open_example(4, words));
    SAME(SW_OK, open_example(4, WORDS));
    for (size_t history = 0; history < 9; history++) {
        SAME(history == 4 ? SW_OK : SW_HISTORY_LENGTH, step(history, WORDS, 3));
        SAME(history == 4 ? SW_OK : SW_HISTORY_LENGTH, steps(6, history, WORDS, 9));
    }
    for (size_t words = 0; words <= WORDS + MORE; words++) {
        SAME(unless(WORDS, words, SW_CELL_TABLE_TOO_SHORT), step(4, words, 3));
        SAME(unless(WORDS, words, SW_CELL_TABLE_TOO_SHORT), steps(6, 4, words, 9));
    }
    for (size_t report = 0; report < 12; report++) {
        SAME(unless(3, report, SW_REPORT_TOO_SHORT), step(4, WORDS, report));
        SAME(SW_OK, steps(report, 4, WORDS, report));
    }
}

/* ---- Sets: the example twice ---- */

enum { RULES = 2, TWO = 9 + RULES * BODY, TWO_WORDS = RULES * WORDS, TWO_PAIRS = RULES * 3 };

static void *records_at(size_t rules)
{
    return at(0, rules * sizeof(sw_running));
}

/* So many bytes of the sheet, in place 8. */
static const uint8_t *two(size_t length)
{
    static uint8_t sheet[TWO + MORE] = {RULES, 9, 0, BODY, 0, 9 + BODY, 0, BODY, 0};
    memcpy(sheet + 9, example, BODY);
    memcpy(sheet + 9 + BODY, example, BODY);
    return lent(8, sheet, length);
}

static uint32_t set_open(size_t sheet, size_t rules, size_t history, size_t words)
{
    return sw_set_open(two(sheet), sheet, records_at(rules), rules, at(1, history), history, at(2, 4 * words), words);
}

/* Over the sheet and the records that the last opening left in places 8 and 0. */
static uint32_t set_step(size_t rules, size_t history, size_t words, size_t report)
{
    return sw_set_step(at(8, TWO), TWO, records_at(rules), rules, 1, at(1, history), history, at(2, 4 * words), words,
                       report_at(report), report, answer(5), answer(6));
}

static uint32_t set_steps(size_t flags, size_t rules, size_t history, size_t words, size_t report)
{
    return sw_set_steps(at(8, TWO), TWO, records_at(rules), rules, at(4, flags), flags, at(1, history), history,
                        at(2, 4 * words), words, report_at(report), report, answer(5), answer(6), answer(7));
}

/* Sheets, records, histories, tables, reports and flags in every length. */
static void sets(void)
{
    for (size_t sheet = 0; sheet <= TWO + MORE; sheet++) {
        uint32_t due = sheet < 9 ? SW_RULE_COUNT : sheet != TWO ? SW_ENTRY_LAYOUT : SW_OK;
        SAME(due, set_open(sheet, RULES, 1, TWO_WORDS));
        SAME(due, sw_set_figures(at(8, sheet), sheet, answer(4), answer(5), answer(6), answer(7)));
    }
    for (size_t history = 0; history <= SW_MAX_HISTORY + 1; history++)
        SAME(history == 0 || history > SW_MAX_HISTORY ? SW_HISTORY_LENGTH : SW_OK, set_open(TWO, RULES, history, TWO_WORDS));
    for (size_t words = 0; words <= TWO_WORDS + MORE; words++)
        SAME(unless(TWO_WORDS, words, SW_CELL_TABLE_TOO_SHORT), set_open(TWO, RULES, 4, words));
    for (size_t rules = 0; rules <= RULES + MORE; rules++) {
        uint32_t due = unless(RULES, rules, SW_CELL_TABLE_TOO_SHORT);
        SAME(due, set_open(TWO, rules, 4, TWO_WORDS));
        if (due == SW_OK) {
            SAME(SW_OK, set_step(rules, 4, TWO_WORDS, 2 * TWO_PAIRS));
            SAME(SW_OK, set_steps(6, rules, 4, TWO_WORDS, 9 * TWO_PAIRS));
        }
    }
    SAME(SW_OK, set_open(TWO, RULES, 4, TWO_WORDS));
    for (size_t history = 0; history < 9; history++) {
        SAME(history == 4 ? SW_OK : SW_HISTORY_LENGTH, set_step(RULES, history, TWO_WORDS, 2 * TWO_PAIRS));
        SAME(history == 4 ? SW_OK : SW_HISTORY_LENGTH, set_steps(6, RULES, history, TWO_WORDS, 9 * TWO_PAIRS));
    }
    for (size_t words = 0; words <= TWO_WORDS + MORE; words++) {
        SAME(unless(TWO_WORDS, words, SW_CELL_TABLE_TOO_SHORT), set_step(RULES, 4, words, 2 * TWO_PAIRS));
        SAME(unless(TWO_WORDS, words, SW_CELL_TABLE_TOO_SHORT), set_steps(6, RULES, 4, words, 9 * TWO_PAIRS));
    }
    for (size_t report = 0; report <= 4 * TWO_PAIRS; report++) {
        SAME(unless(2 * TWO_PAIRS, report, SW_REPORT_TOO_SHORT), set_step(RULES, 4, TWO_WORDS, report));
        SAME(SW_OK, set_steps(report, RULES, 4, TWO_WORDS, report));
    }
    for (size_t sheet = 0; sheet <= TWO + MORE; sheet++) {
        uint32_t due = unless(TWO, sheet, SW_STATE_NOT_OPENED);
        SAME(due, sw_set_step(two(sheet), sheet, records_at(RULES), RULES, 1, at(1, 4), 4, at(2, 4 * TWO_WORDS), TWO_WORDS,
                              report_at(2 * TWO_PAIRS), 2 * TWO_PAIRS, answer(5), answer(6)));
        SAME(due, sw_set_steps(two(sheet), sheet, records_at(RULES), RULES, at(4, 6), 6, at(1, 4), 4, at(2, 4 * TWO_WORDS),
                               TWO_WORDS, report_at(3 * TWO_PAIRS), 3 * TWO_PAIRS, answer(5), answer(6), answer(7)));
    }
    two(TWO);
    SAME(SW_CELL_TABLE_TOO_SHORT, set_step(0, 4, TWO_WORDS, 2 * TWO_PAIRS));
    /* One record: with the guard before it that of rule 0, else that of rule 1. */
    SAME(guard_before ? SW_CELL_TABLE_TOO_SHORT : SW_STATE_NOT_OPENED, set_step(1, 4, TWO_WORDS, 2 * TWO_PAIRS));
}

/* ---- A flag calendar ---- */

/* Up to two runs, and groups under eight after them. */
enum { MOST_WORDS = 2 * 8 + 7 };

static void *words_at(size_t words)
{
    return at(8, 8 * words);
}

/* How many of `count` ticks from `tick` on so many words keep. */
static uint32_t kept_of(size_t words, uint64_t tick, size_t count)
{
    uint64_t end = 64 * (words / 8);
    return (uint32_t)(tick >= end ? 0 : count < end - tick ? count : end - tick);
}

/* The four questions about flag 3, in a range and near its first tick. */
static void ask(size_t words, uint64_t first, uint64_t last, uint32_t ups)
{
    uint64_t *told = answer(1), *from = answer(2), *to = answer(3), *near = answer(5);
    SAME(SW_OK, sw_calendar_ups(words_at(words), words, 3, first, last, told));
    SAME(SW_OK, sw_calendar_first(words_at(words), words, 3, first, last, from));
    SAME(SW_OK, sw_calendar_last(words_at(words), words, 3, first, last, to));
    SAME(SW_OK, sw_calendar_nearest(words_at(words), words, 3, first, near));
    SAME(ups, (uint32_t)*told);
    SAME(1, ups == 0 ? *from == SW_NO_TICK && *to == SW_NO_TICK : *from == first && *to == first + ups - 1);
    SAME(1, *near == (ups == 0 ? SW_NO_TICK : first));
    SAME(SW_NO_SUCH_FLAG, sw_calendar_ups(words_at(words), words, 8, first, last, told));
    SAME(SW_NO_SUCH_FLAG, sw_calendar_first(words_at(words), words, 8, first, last, from));
    SAME(SW_NO_SUCH_FLAG, sw_calendar_last(words_at(words), words, 8, first, last, to));
    SAME(SW_NO_SUCH_FLAG, sw_calendar_nearest(words_at(words), words, 8, first, near));
}

/* Words and flag bytes in every length, filled in from ticks around the edges of the runs. */
static void calendars(void)
{
    static const uint64_t ticks[] = {0, 1, 60, 63, 64, 65, 126, 127, 128, 129, 200, UINT64_MAX - 1, UINT64_MAX};
    for (size_t words = 0; words <= MOST_WORDS; words++)
        for (size_t i = 0; i < sizeof ticks / sizeof ticks[0]; i++)
            for (size_t count = 0; count <= 6; count++) {
                memset(at(4, count), 8, count);
                sw_calendar_clear(words_at(words), words);
                sw_calendar_fill(words_at(words), words, ticks[i], at(4, count), count);
                ask(words, ticks[i], UINT64_MAX, kept_of(words, ticks[i], count));
            }
}

/* The example with so many words of a calendar, opened and stepped past them. */
static void calendar_steps(void)
{
    static uint8_t sheet[SHEET] = {1, 5, 0, BODY, 0};
    memcpy(sheet + 5, example, BODY);
    for (size_t words = 0; words <= MOST_WORDS; words++) {
        uint32_t taken = 0;
        SAME(SW_OK, sw_calendar_open(lent(3, sheet, SHEET), SHEET, 0, at(1, 4), 4, at(2, 4 * WORDS), WORDS,
                                     words_at(words), words, at(0, SW_STATE_BYTES)));
        for (; taken < 66; taken++)
            SAME(SW_OK, sw_calendar_step(at(0, SW_STATE_BYTES), 8, at(1, 4), 4, at(2, 4 * WORDS), WORDS, report_at(3), 3,
                                         words_at(words), words, answer(5), answer(6)));
        for (size_t flags = 0; taken < 140; taken += (uint32_t)flags++) {
            memset(at(4, flags), 8, flags);
            SAME(SW_OK, sw_calendar_steps(at(0, SW_STATE_BYTES), at(4, flags), flags, at(1, 4), 4, at(2, 4 * WORDS), WORDS,
                                          report_at(6), 6, words_at(words), words, answer(5), answer(6), answer(7)));
            SAME((uint32_t)flags, (uint32_t)*(size_t *)answer(5));
        }
        ask(words, 0, UINT64_MAX, kept_of(words, 0, taken));
        SAME(SW_HISTORY_LENGTH, sw_calendar_open(lent(3, sheet, SHEET), SHEET, 0, at(1, 0), 0, at(2, 4 * WORDS), WORDS,
                                                 words_at(words), words, at(0, SW_STATE_BYTES)));
        SAME(SW_REPORT_TOO_SHORT, sw_calendar_step(at(0, SW_STATE_BYTES), 0, at(1, 4), 4, at(2, 4 * WORDS), WORDS, report_at(2), 2,
                                                   words_at(words), words, answer(5), answer(6)));
        SAME(SW_CELL_TABLE_TOO_SHORT, sw_calendar_steps(at(0, SW_STATE_BYTES), at(4, 1), 1, at(1, 4), 4, at(2, 0), 0, report_at(6), 6,
                                                        words_at(words), words, answer(5), answer(6), answer(7)));
        ask(words, 0, UINT64_MAX, kept_of(words, 0, taken));
    }
}

/* ---- The complete report of a recording ---- */

enum { REPORT_TICKS = 20, ENTRY = sizeof(sw_violation) };

/* Lets a place be written again, or only read. */
static void protect(int place, int protection)
{
    SAME(0, (uint32_t)-mprotect(places[place], ROOM, protection));
}

static uint32_t check(size_t sheet, size_t ticks, size_t entries)
{
    return sw_check_report(at(0, sheet), sheet, 0, at(1, ticks), ticks, at(2, ENTRY * entries), entries,
                           at(3, sizeof(uint32_t)), answer(4), answer(5), answer(6));
}

static uint32_t complete(size_t sheet, size_t ticks, size_t entries)
{
    return sw_complete_report(at(0, sheet), sheet, 0, at(1, ticks), ticks, at(2, ENTRY * entries), entries, answer(3));
}

/* So many bytes of the sheet of the rule not flag 0 at X, in place 0; a recording that breaks it at
 * every tick, in place 1. */
static void rule_and_recording(size_t sheet, size_t ticks)
{
    static const uint8_t bytes[9 + MORE] = {1, 5, 0, 4, 0, 2, 1, 0, 0};
    lent(0, bytes, sheet);
    memset(at(1, ticks), 1, ticks);
}

/* Sheets, recordings and lists in every length. What is only read may not be written. */
static void reports(void)
{
    for (size_t ticks = 0; ticks <= REPORT_TICKS; ticks++)
        for (size_t entries = 0; entries <= REPORT_TICKS + MORE; entries++) {
            rule_and_recording(9, ticks);
            for (int place = 0; place < 2; place++)
                protect(place, PROT_READ);
            SAME(unless(ticks, entries, SW_BUFFER_TOO_SHORT), complete(9, ticks, entries));
            protect(2, PROT_READ);
            SAME(SW_OK, check(9, ticks, entries));
            SAME(ticks == entries ? SW_REPORT_SAME : ticks < entries ? SW_REPORT_ENDS : SW_REPORT_DIFFERS,
                 *(uint32_t *)at(3, sizeof(uint32_t)));
            for (int place = 0; place < 3; place++)
                protect(place, PROT_READ | PROT_WRITE);
        }
    for (size_t sheet = 0; sheet <= 9 + MORE; sheet++) {
        uint32_t due = sheet < 5 ? SW_RULE_COUNT : sheet != 9 ? SW_ENTRY_LAYOUT : SW_OK;
        rule_and_recording(sheet, REPORT_TICKS);
        SAME(due, check(sheet, REPORT_TICKS, 1));
        SAME(due, complete(sheet, REPORT_TICKS, REPORT_TICKS));
    }
    for (size_t ticks = SW_MAX_RECORDING; ticks <= SW_MAX_RECORDING + 1; ticks++) {
        rule_and_recording(9, ticks);
        SAME(ticks > SW_MAX_RECORDING ? SW_NOT_IN_RECORDING : SW_OK, check(9, ticks, 1));
        SAME(ticks > SW_MAX_RECORDING ? SW_NOT_IN_RECORDING : SW_BUFFER_TOO_SHORT, complete(9, ticks, 1));
    }
}

static void sentences(void)
{
    for (uint32_t number = 0; number < 30; number++) {
        size_t *written = answer(1);
        SAME(SW_OK, sw_sentence(number, at(0, SW_MAX_SENTENCE), SW_MAX_SENTENCE, written));
        size_t needed = *written + 1;
        for (size_t room = 0; room <= SW_MAX_SENTENCE + MORE; room++)
            SAME(unless(needed, room, SW_BUFFER_TOO_SHORT), sw_sentence(number, at(0, room), room, written));
    }
}

int main(void)
{
    if (!make_places()) {
        printf("guard_pages.c: no memory\n");
        return 2;
    }
    for (guard_before = 0; guard_before < 2; guard_before++) {
        guards();
        bodies_and_texts();
        recordings();
        sheets();
        stepping();
        sets();
        calendars();
        calendar_steps();
        reports();
        sentences();
    }
    printf("guard_pages.c: %u checks, %u failed\n", checks, failures);
    return failures != 0;
}
