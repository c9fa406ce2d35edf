/* A flag calendar: its words after clearing, filling, openings and steps, and the answers to
 * its questions. What is due is worked out here tick by tick. */
#include <string.h>

#include "memory.h"

/* Three runs of 64 ticks, and a group of five words, which keeps no ticks and is never
 * touched. */
enum { FULL_WORDS = 3 * 8, CALENDAR_WORDS = FULL_WORDS + 5, KEPT = 3 * 64 };

static uint64_t words[CALENDAR_WORDS];
static uint64_t due_words[CALENDAR_WORDS];

/* Words without a meaning, which are due as they are. */
static void no_meaning(void)
{
    memset(words, 0xEE, sizeof words);
    memcpy(due_words, words, sizeof words);
}

/* The words that are due: all 0, and the last group as it was. */
static void nothing_up(void)
{
    memset(due_words, 0, FULL_WORDS * sizeof due_words[0]);
    memset(due_words + FULL_WORDS, 0xEE, 5 * sizeof due_words[0]);
}

/* The flags of a kept tick, in the words that are due. */
static void up_at(uint64_t tick, uint8_t byte)
{
    for (int k = 0; k < 8; k++)
        if (byte >> k & 1)
            due_words[8 * (tick / 64) + (uint64_t)k] |= (uint64_t)1 << tick % 64;
}

#define WORDS_AS_DUE() SAME(0, memcmp(due_words, words, sizeof words))

/* ---- Clearing and filling ---- */

static void clearing(void)
{
    no_meaning();
    sw_calendar_clear(words, 0);
    sw_calendar_clear(words, 7);
    WORDS_AS_DUE();
    sw_calendar_clear(words, CALENDAR_WORDS);
    nothing_up();
    WORDS_AS_DUE();
}

/* Into the words that were cleared. */
static void filling(void)
{
    static const uint8_t bytes[] = {0x81, 0x00, 0xFF, 0x10};
    static const uint64_t ticks[] = {0, 63, 64, 127, 128, 191};

    /* The first and the last tick of each run, each flag by itself. */
    for (size_t i = 0; i < sizeof ticks / sizeof ticks[0]; i++)
        for (int k = 0; k < 8; k++) {
            const uint8_t one = (uint8_t)(1 << k);
            sw_calendar_fill(words, CALENDAR_WORDS, ticks[i], &one, 1);
            up_at(ticks[i], one);
            SAME(1, words[8 * (ticks[i] / 64) + (uint64_t)k] >> ticks[i] % 64 & 1);
            WORDS_AS_DUE();
        }

    /* From one run into the next; past the words; and a mark stays. */
    sw_calendar_fill(words, CALENDAR_WORDS, 62, bytes, 4);
    for (size_t i = 0; i < 4; i++)
        up_at(62 + i, bytes[i]);
    WORDS_AS_DUE();
    sw_calendar_fill(words, CALENDAR_WORDS, KEPT - 2, bytes, 4);
    up_at(KEPT - 2, 0x81);
    WORDS_AS_DUE();
    sw_calendar_fill(words, CALENDAR_WORDS, KEPT, bytes, 4);
    sw_calendar_fill(words, CALENDAR_WORDS, UINT64_MAX, bytes, 4);
    sw_calendar_fill(words, CALENDAR_WORDS, 5, bytes, 0);
    sw_calendar_fill(words, 7, 0, bytes, 4);
    sw_calendar_fill(words, 0, 0, bytes, 4);
    WORDS_AS_DUE();
}

/* ---- 7: questions ---- */

/* The four answers, each of which is as it was where it is refused. */
static uint64_t ups_in(uint8_t flag, uint64_t first, uint64_t last)
{
    uint64_t ups = 61;
    SAME(flag > 7 ? SW_NO_SUCH_FLAG : SW_OK, sw_calendar_ups(words, CALENDAR_WORDS, flag, first, last, &ups));
    return ups;
}

static uint64_t first_in(uint8_t flag, uint64_t first, uint64_t last)
{
    uint64_t tick = 62;
    SAME(flag > 7 ? SW_NO_SUCH_FLAG : SW_OK, sw_calendar_first(words, CALENDAR_WORDS, flag, first, last, &tick));
    return tick;
}

static uint64_t last_in(uint8_t flag, uint64_t first, uint64_t last)
{
    uint64_t tick = 63;
    SAME(flag > 7 ? SW_NO_SUCH_FLAG : SW_OK, sw_calendar_last(words, CALENDAR_WORDS, flag, first, last, &tick));
    return tick;
}

static uint64_t nearest_to(uint8_t flag, uint64_t tick)
{
    uint64_t nearest = 64;
    SAME(flag > 7 ? SW_NO_SUCH_FLAG : SW_OK, sw_calendar_nearest(words, CALENDAR_WORDS, flag, tick, &nearest));
    return nearest;
}

/* The questions answered tick by tick, from the words that are due. */
static int was_up(uint8_t flag, uint64_t tick)
{
    return due_words[8 * (tick / 64) + flag] >> tick % 64 & 1;
}

static void ask_range(uint8_t flag, uint64_t first, uint64_t last)
{
    uint64_t ups = 0, earliest = SW_NO_TICK, latest = SW_NO_TICK;
    for (uint64_t tick = 0; tick < KEPT; tick++)
        if (first <= tick && tick <= last && was_up(flag, tick)) {
            ups++;
            latest = tick;
            if (earliest == SW_NO_TICK)
                earliest = tick;
        }
    SAME(ups, ups_in(flag, first, last));
    SAME(earliest, first_in(flag, first, last));
    SAME(latest, last_in(flag, first, last));
}

static void ask_near(uint8_t flag, uint64_t asked)
{
    uint64_t nearest = SW_NO_TICK, distance = 0;
    for (uint64_t tick = 0; tick < KEPT; tick++) {
        uint64_t apart = tick < asked ? asked - tick : tick - asked;
        if (was_up(flag, tick) && (nearest == SW_NO_TICK || apart < distance)) {
            nearest = tick;
            distance = apart;
        }
    }
    SAME(nearest, nearest_to(flag, asked));
}

/* Flag 0 is never up, flag 1 always, 2 and 3 at one tick each on both sides of a run's edge,
 * 4 at the first and the last kept tick, 5 and 6 at two ticks around an edge, 7 now and then. */
static void words_to_ask(void)
{
    nothing_up();
    for (uint64_t tick = 0; tick < KEPT; tick++) {
        up_at(tick, 0x02);
        if (tick % 5 == 3)
            up_at(tick, 0x80);
    }
    up_at(63, 0x04);
    up_at(64, 0x08);
    up_at(0, 0x10);
    up_at(191, 0x10);
    up_at(62, 0x20);
    up_at(66, 0x20);
    up_at(127, 0x40);
    up_at(129, 0x40);
    memcpy(words, due_words, sizeof words);
}

/* From every edge to every edge, and near every edge. */
static void questions_at_edges(void)
{
    static const uint64_t edges[] = {0,   1,   2,   61,  62,  63,  64,  65,  66,   67,         126,            127,       128,
                                     129, 130, 189, 190, 191, 192, 193, 255, 4000, UINT32_MAX, UINT64_MAX - 1, UINT64_MAX};
    enum { EDGES = sizeof edges / sizeof edges[0] };
    words_to_ask();
    for (uint8_t flag = 0; flag < 8; flag++)
        for (size_t i = 0; i < EDGES; i++) {
            ask_near(flag, edges[i]);
            for (size_t j = 0; j < EDGES; j++)
                ask_range(flag, edges[i], edges[j]);
        }
    WORDS_AS_DUE();
}

/* By hand: both ends are in a range, an empty one has none, a long one is cut, and of two
 * equally near the earlier is the nearest. */
static void questions_by_hand(void)
{
    words_to_ask();
    SAME(UINT64_MAX, SW_NO_TICK);
    SAME(2, ups_in(5, 62, 66));
    SAME(0, ups_in(5, 63, 65));
    SAME(0, ups_in(1, 66, 62));
    SAME(KEPT, ups_in(1, 0, UINT64_MAX));
    SAME(62, first_in(5, 0, UINT64_MAX));
    SAME(66, last_in(5, 0, UINT64_MAX));
    SAME(SW_NO_TICK, first_in(4, 1, 190));
    SAME(SW_NO_TICK, last_in(4, KEPT, UINT64_MAX));
    SAME(62, nearest_to(5, 64));
    SAME(66, nearest_to(5, 65));
    SAME(127, nearest_to(6, 128));
    SAME(191, nearest_to(4, UINT64_MAX));
    words[0] = 1; /* flag 0 at tick 0 alone, as far away as can be */
    SAME(0, nearest_to(0, UINT64_MAX));
    words[0] = 0;
    SAME(SW_NO_TICK, nearest_to(0, 64));
    WORDS_AS_DUE();
}

/* A flag above 7, also where there is nothing to ask. */
static void no_such_flag(void)
{
    words_to_ask();
    for (int flag = 8; flag < 256; flag++) {
        SAME(61, ups_in((uint8_t)flag, 0, 9));
        SAME(62, first_in((uint8_t)flag, 9, 0));
        SAME(63, last_in((uint8_t)flag, KEPT, UINT64_MAX));
        SAME(64, nearest_to((uint8_t)flag, 0));
    }
    WORDS_AS_DUE();
}

/* Words that keep no ticks. */
static void no_ticks(void)
{
    for (size_t length = 0; length < 8; length++) {
        uint64_t ups = 65, first = 66, last = 67, nearest = 68;
        SAME(SW_OK, sw_calendar_ups(words, length, 1, 0, UINT64_MAX, &ups));
        SAME(SW_OK, sw_calendar_first(words, length, 1, 0, UINT64_MAX, &first));
        SAME(SW_OK, sw_calendar_last(words, length, 1, 0, UINT64_MAX, &last));
        SAME(SW_OK, sw_calendar_nearest(words, length, 1, 0, &nearest));
        SAME(0, ups);
        SAME(SW_NO_TICK, first);
        SAME(SW_NO_TICK, last);
        SAME(SW_NO_TICK, nearest);
        SAME(SW_NO_SUCH_FLAG, sw_calendar_ups(words, length, 8, 0, 0, &ups));
        SAME(SW_NO_SUCH_FLAG, sw_calendar_nearest(words, length, 8, 0, &nearest));
    }
}

/* ---- 17 to 21: openings, steps and batches ---- */

static uint32_t open_with(size_t history_len, size_t cells_len)
{
    return sw_calendar_open(sheet, sheet_len, 0, history, history_len, cells, cells_len, words, CALENDAR_WORDS, state);
}

static uint32_t step_with(size_t history_len, size_t cells_len, size_t report_len)
{
    size_t reported = 85, live = 86;
    uint32_t number = sw_calendar_step(state, 0xFF, history, history_len, cells, cells_len, report, report_len,
                                       words, CALENDAR_WORDS, &reported, &live);
    if (number != SW_OK) {
        SAME(85, reported);
        SAME(86, live);
    }
    return number;
}

/* What sw_open refuses is refused, and then no word is written. */
static void opening(void)
{
    write_one(example, sizeof example);
    no_meaning();
    SAME(SW_HISTORY_LENGTH, open_with(0, EXAMPLE_WORDS));
    SAME(SW_CELL_TABLE_TOO_SHORT, open_with(1, EXAMPLE_WORDS - 1));
    sheet[0] = 0;
    SAME(SW_RULE_COUNT, open_with(1, EXAMPLE_WORDS));
    sheet[0] = 1;
    sheet[5] = 6;
    SAME(SW_UNKNOWN_CODE, open_with(1, EXAMPLE_WORDS));
    sheet[5] = example[0];
    WORDS_AS_DUE();
    SAME(SW_OK, open_with(1, EXAMPLE_WORDS));
    nothing_up();
    WORDS_AS_DUE();
}

/* The same of sw_step, after the opening. */
static void stepping(void)
{
    SAME(SW_HISTORY_LENGTH, step_with(2, EXAMPLE_WORDS, 3));
    SAME(SW_CELL_TABLE_TOO_SHORT, step_with(1, EXAMPLE_WORDS - 1, 3));
    SAME(SW_REPORT_TOO_SHORT, step_with(1, EXAMPLE_WORDS, 2));
    WORDS_AS_DUE();
    SAME(SW_OK, step_with(1, EXAMPLE_WORDS, 3));
    up_at(0, 0xFF);
    WORDS_AS_DUE();

    /* Ticks past the words are taken, and not kept; those above 32 bits and the last of all too. */
    set_number(528, KEPT - 1);
    SAME(SW_OK, step_with(1, EXAMPLE_WORDS, 3));
    up_at(KEPT - 1, 0xFF);
    WORDS_AS_DUE();
    SAME(SW_OK, step_with(1, EXAMPLE_WORDS, 3));
    set_number(528, UINT32_MAX);
    SAME(SW_OK, step_with(1, EXAMPLE_WORDS, 3));
    SAME(SW_OK, step_with(1, EXAMPLE_WORDS, 3));
    SAME((uint64_t)UINT32_MAX + 2, number_at(528));
    set_number(528, FIRST_UNTAKEN - 1);
    SAME(SW_OK, step_with(1, EXAMPLE_WORDS, 3));
    SAME(SW_TICKS_USED_UP, step_with(1, EXAMPLE_WORDS, 3));
    set_number(528, UINT64_MAX);
    SAME(SW_TICKS_USED_UP, step_with(1, EXAMPLE_WORDS, 3));
    memset(state, 0, sizeof state);
    SAME(SW_STATE_NOT_OPENED, step_with(1, EXAMPLE_WORDS, 3));
    WORDS_AS_DUE();
}

/* The scope document's flags twice, with others above them. What is reported is as without a
 * calendar, and the words agree with the stream. */
static uint8_t stream[2 * sizeof flags];

static void write_stream(void)
{
    nothing_up();
    for (size_t t = 0; t < sizeof stream; t++) {
        stream[t] = (uint8_t)(t << 1 | flags[t % sizeof flags]);
        up_at(t, stream[t]);
    }
    write_one(example, sizeof example);
    SAME(SW_OK, open_with(1, EXAMPLE_WORDS));
}

static void stream_by_steps(void)
{
    size_t reported, live, seen = 0;
    write_stream();
    for (size_t t = 0; t < sizeof stream; t++) {
        SAME(SW_OK, sw_calendar_step(state, stream[t], history, 1, cells, EXAMPLE_WORDS, report, 3, words, CALENDAR_WORDS,
                                     &reported, &live));
        SAME(t % 10 == 7 ? 1 : 0, reported);
        if (reported == 1)
            SAME(t - 2, report[0]);
        seen += reported;
    }
    SAME(2, seen);
    WORDS_AS_DUE();
}

/* What the last batch answered. */
static size_t taken, pairs, live;

static uint32_t batch(const uint8_t *bytes, size_t count, size_t history_len, size_t cells_len, size_t report_len)
{
    return sw_calendar_steps(state, bytes, count, history, history_len, cells, cells_len, report, report_len,
                             words, CALENDAR_WORDS, &taken, &pairs, &live);
}

/* A report with room for one step takes what it can; one that is a word too short, none. */
static void stream_by_batches(void)
{
    write_stream();
    taken = pairs = 87;
    SAME(SW_OK, batch(stream, sizeof stream, 1, EXAMPLE_WORDS, 5));
    SAME(0, taken);
    SAME(0, pairs);
    SAME(0, ups_in(0, 0, UINT64_MAX));
    SAME(SW_OK, batch(stream, sizeof stream, 1, EXAMPLE_WORDS, 6));
    SAME(8, taken);
    SAME(1, pairs);
    SAME(5, report[0]);
    SAME(7, report[1]);
    SAME(7, last_in(0, 0, UINT64_MAX));
    SAME(SW_OK, batch(stream + 8, sizeof stream - 8, 1, EXAMPLE_WORDS, SW_MAX_BATCH_REPORT));
    SAME(sizeof stream - 8, taken);
    SAME(1, pairs);
    SAME(0, live);
    WORDS_AS_DUE();
}

/* Refused batches, and one of no flags, after the stream. */
static void refused_batches(void)
{
    taken = 89;
    SAME(SW_HISTORY_LENGTH, batch(stream, 3, 0, EXAMPLE_WORDS, SW_MAX_BATCH_REPORT));
    SAME(SW_CELL_TABLE_TOO_SHORT, batch(stream, 3, 1, EXAMPLE_WORDS - 1, SW_MAX_BATCH_REPORT));
    SAME(89, taken);
    SAME(SW_OK, batch(stream, 0, 1, EXAMPLE_WORDS, 0));
    SAME(0, taken);
    WORDS_AS_DUE();

    /* After the last tick a batch ends, and the next one is refused. */
    set_number(528, FIRST_UNTAKEN - 1);
    SAME(SW_OK, batch(stream, 2, 1, EXAMPLE_WORDS, SW_MAX_BATCH_REPORT));
    SAME(1, taken);
    SAME(FIRST_UNTAKEN, number_at(528));
    SAME(SW_TICKS_USED_UP, batch(stream, 2, 1, EXAMPLE_WORDS, SW_MAX_BATCH_REPORT));
    WORDS_AS_DUE();
}

int main(void)
{
    clearing();
    filling();
    questions_at_edges();
    questions_by_hand();
    no_such_flag();
    no_ticks();
    opening();
    stepping();
    stream_by_steps();
    stream_by_batches();
    refused_batches();
    return ended("calendar.c");
}
