/* The complete report of a recording: what sw_complete_report writes, and what sw_check_report
 * says of lists beside it. What is due is worked out here, from sw_outcome tick by tick. */
#include <string.h>

#include "checks.h"

enum { TICKS = 20, MORE = 2 };

/* A recording, and the complete report that is due of it. */
static uint8_t recording[SW_MAX_RECORDING + 1];
static size_t ticks;
static sw_violation due[TICKS];
static size_t due_count;

/* Each tick that is false, by step and then by tick. */
static void work_out(const uint8_t *body, size_t length)
{
    uint32_t verdicts[TICKS];
    uint64_t steps[TICKS];
    for (size_t tick = 0; tick < ticks; tick++)
        SAME(SW_OK, sw_outcome(body, length, recording, ticks, tick, &verdicts[tick], &steps[tick]));
    due_count = 0;
    for (size_t step = 0; step < ticks; step++)
        for (size_t tick = 0; tick < ticks; tick++)
            if (verdicts[tick] == SW_FALSE && steps[tick] == step) {
                due[due_count].tick = tick;
                due[due_count++].step = step;
            }
}

/* ---- Writing ---- */

static sw_violation list[TICKS + MORE], before[TICKS + MORE];

/* A list of so many entries takes the report, or stays as it was. */
static void write_into(size_t room)
{
    size_t written = 91;
    memset(list, 0xEE, sizeof list);
    memcpy(before, list, sizeof list);
    uint32_t number = sw_complete_report(sheet, sheet_len, 0, recording, ticks, list, room, &written);
    if (room < due_count) {
        SAME(SW_BUFFER_TOO_SHORT, number);
        SAME(91, written);
    } else {
        SAME(SW_OK, number);
        SAME(due_count, written);
        memcpy(before, due, due_count * sizeof due[0]);
    }
    SAME(0, memcmp(before, list, sizeof list));
}

/* ---- Checking ---- */

static int equal(sw_violation one, sw_violation other)
{
    return one.tick == other.tick && one.step == other.step;
}

/* What is said of the first entries of the list. */
static void compare(size_t count)
{
    size_t at = 0, entry = 92;
    uint32_t difference = 93;
    uint64_t tick = 94, step = 95;
    while (at < count && at < due_count && equal(list[at], due[at]))
        at++;
    memcpy(before, list, sizeof list);
    SAME(SW_OK, sw_check_report(sheet, sheet_len, 0, recording, ticks, list, count, &difference, &entry, &tick, &step));
    SAME(0, memcmp(before, list, sizeof list));
    int differs = at < due_count, ends = !differs && at < count;
    SAME(differs ? SW_REPORT_DIFFERS : ends ? SW_REPORT_ENDS : SW_REPORT_SAME, difference);
    SAME(differs || ends ? at : 0, entry);
    SAME(differs ? due[at].tick : 0, tick);
    SAME(differs ? due[at].step : 0, step);
}

/* The list becomes the report, with entries after it that mean nothing. */
static void as_due(void)
{
    memset(list, 0xEE, sizeof list);
    memcpy(list, due, due_count * sizeof due[0]);
}

/* The report with other numbers at an entry. */
static void changed_at(size_t entry)
{
    static const uint64_t numbers[] = {0, 1, TICKS - 1, TICKS, UINT32_MAX, SW_NO_TICK};
    for (size_t i = 0; i < sizeof numbers / sizeof numbers[0]; i++) {
        as_due();
        list[entry].tick = numbers[i];
        compare(due_count);
        list[entry].step = numbers[i];
        compare(due_count);
        list[entry].tick = due[entry].tick;
        compare(due_count);
    }
    as_due();
    list[entry].tick++;
    compare(due_count);
    list[entry] = due[entry];
    list[entry].step++;
    compare(due_count);
}

/* The report without an entry, with it twice, and with it and the next exchanged. */
static void moved_at(size_t entry)
{
    size_t after = due_count - entry - 1;
    as_due();
    memmove(list + entry, list + entry + 1, after * sizeof list[0]);
    compare(due_count - 1);
    as_due();
    memmove(list + entry + 1, list + entry, (after + 1) * sizeof list[0]);
    compare(due_count + 1);
    if (after == 0)
        return;
    as_due();
    list[entry] = due[entry + 1];
    list[entry + 1] = due[entry];
    compare(due_count);
}

/* The report, its beginnings, entries after it, and all that is changed at an entry. */
static void compare_lists(void)
{
    as_due();
    for (size_t count = 0; count <= due_count + MORE; count++)
        compare(count);
    for (size_t tick = 0; tick < ticks; tick++) { /* also those that are true, open or listed */
        list[due_count].tick = tick;
        list[due_count].step = ticks - 1;
        compare(due_count + 1);
    }
    for (size_t entry = 0; entry < due_count; entry++) {
        changed_at(entry);
        moved_at(entry);
    }
}

/* ---- Rules over recordings ---- */

static const uint8_t flag_0[] = {1, 0, 0};
/* For all Y from 0 to X, flag 0 at Y; from X to infinity; from X to X + 63, which needs too many cells. */
static const uint8_t so_far[] = {5, 0, 0, 0, 0, 2, 0, 0, 0, 1, 1, 0};
static const uint8_t always[] = {5, 2, 0, 0, 0, 1, 0, 0, 0, 1, 1, 0};
static const uint8_t wide[] = {5, 2, 0, 0, 0, 2, 0, 63, 0, 1, 1, 0};
/* Not for all Y from X to infinity, flag 0 at Y: never false. */
static const uint8_t some_down[] = {2, 5, 2, 0, 0, 0, 1, 0, 0, 0, 1, 1, 0};
/* Flag 1 at X beside for all Y from X + 3 to X + 5, flag 0 at Y: a tick with flag 1 down is decided
 * before earlier ones. */
static const uint8_t at_once[] = {4, 1, 0, 1, 5, 2, 0, 3, 0, 2, 0, 5, 0, 1, 1, 0};

static const struct {
    const uint8_t *body;
    uint16_t length;
} rules[] = {
    {flag_0, sizeof flag_0},       {example, sizeof example},     {so_far, sizeof so_far},
    {always, sizeof always},       {wide, sizeof wide},           {some_down, sizeof some_down},
    {at_once, sizeof at_once},
};

/* Whether the report has a tick before an earlier one. */
static int out_of_tick_order(void)
{
    for (size_t entry = 1; entry < due_count; entry++)
        if (due[entry].tick < due[entry - 1].tick)
            return 1;
    return 0;
}

/* Each rule over recordings of every length, whose flags follow no order. */
static void rules_over_recordings(void)
{
    uint32_t mixed = 1;
    int reordered = 0;
    for (size_t i = 0; i < sizeof rules / sizeof rules[0]; i++) {
        write_one(rules[i].body, rules[i].length);
        for (ticks = 0; ticks <= TICKS; ticks++) {
            for (size_t tick = 0; tick < ticks; tick++) {
                mixed = mixed * 1664525 + 1013904223;
                recording[tick] = (uint8_t)((mixed >> 24) % 7 < 5 ? 3 : mixed >> 28);
            }
            work_out(rules[i].body, rules[i].length);
            for (size_t room = 0; room <= ticks + MORE; room++)
                write_into(room);
            compare_lists();
            reordered += out_of_tick_order();
        }
    }
    SAME(1, reordered > 5);
}

/* The scope document's example: tick 5 at step 7. */
static void by_hand(void)
{
    write_one(example, sizeof example);
    ticks = sizeof flags;
    memcpy(recording, flags, sizeof flags);
    work_out(example, sizeof example);
    SAME(1, due_count);
    SAME(5, due[0].tick);
    SAME(7, due[0].step);
    write_into(1);
    compare_lists();
    SAME(2 * sizeof(uint64_t), sizeof(sw_violation));
}

/* ---- 1 to 10, 23, 24, 16, 22 ---- */

/* Both functions answer this number, and change nothing. */
static void refused_by(uint32_t number, size_t rule, size_t length, size_t room)
{
    uint32_t difference = 93;
    size_t entry = 92, written = 91;
    uint64_t tick = 94, step = 95;
    memset(list, 0xEE, sizeof list);
    memcpy(before, list, sizeof list);
    SAME(number, sw_complete_report(sheet, sheet_len, rule, recording, length, list, room, &written));
    SAME(91, written);
    if (number != SW_BUFFER_TOO_SHORT) {
        SAME(number, sw_check_report(sheet, sheet_len, rule, recording, length, list, room, &difference, &entry, &tick, &step));
        SAME(93, difference);
        SAME(92, entry);
        SAME(94, tick);
        SAME(95, step);
    }
    SAME(0, memcmp(before, list, sizeof list));
}

/* A sheet of one body that is refused, whatever is lent beside it. */
static void body_refused(uint32_t number, const uint8_t *body, uint16_t length)
{
    write_one(body, length);
    refused_by(number, 0, TICKS, TICKS);
    refused_by(number, 0, 0, 0);
    refused_by(number, 0, sizeof recording, 0);
    refused_by(SW_NO_SUCH_RULE, 1, sizeof recording, 0);
}

#define BODY_REFUSED(number, ...) do { \
    static const uint8_t body[] = {__VA_ARGS__}; \
    body_refused(number, body, sizeof body); \
} while (0)

static void refusals(void)
{
    memset(recording, 0, sizeof recording);
    BODY_REFUSED(SW_BODY_ENDS_EARLY, 1, 0);
    BODY_REFUSED(SW_UNKNOWN_CODE, 6);
    BODY_REFUSED(SW_UNBOUND_VARIABLE, 1, 1, 0);
    BODY_REFUSED(SW_NO_SUCH_FLAG, 1, 0, 8);
    BODY_REFUSED(SW_OFFSET_OUT_OF_RANGE, 5, 2, 0, 0, 0, 2, 0, 0, 0x10, 1, 1, 0);
    BODY_REFUSED(SW_BYTES_LEFT_OVER, 1, 0, 0, 0);
    BODY_REFUSED(SW_VARIABLE_BYTE_NOT_ZERO, 5, 0, 1, 0, 0, 2, 0, 0, 0, 1, 1, 0);
    BODY_REFUSED(SW_OFFSET_ON_INFINITY, 5, 2, 0, 0, 0, 1, 0, 1, 0, 1, 1, 0);
    static uint8_t nots[67];
    memset(nots, 2, 64);
    nots[64] = 1;
    body_refused(SW_BODY_TOO_LARGE, nots, sizeof nots);

    write_one(flag_0, sizeof flag_0);
    sheet[0] = 0;
    refused_by(SW_RULE_COUNT, 0, sizeof recording, 0);
    sheet[0] = 33;
    refused_by(SW_RULE_COUNT, 0, TICKS, TICKS);
    sheet[0] = 1;
    sheet[1]++;
    refused_by(SW_ENTRY_LAYOUT, 0, sizeof recording, 0);
    sheet[1]--;
    refused_by(SW_NO_SUCH_RULE, 1, sizeof recording, 0);
    refused_by(SW_NO_SUCH_RULE, SIZE_MAX, TICKS, TICKS);
    refused_by(SW_NOT_IN_RECORDING, 0, sizeof recording, 0);
    refused_by(SW_NOT_IN_RECORDING, 0, sizeof recording, TICKS);
    refused_by(SW_BUFFER_TOO_SHORT, 0, TICKS, TICKS - 1);
    refused_by(SW_BUFFER_TOO_SHORT, 0, SW_MAX_RECORDING, TICKS);
}

/* ---- The longest recording ---- */

static sw_violation longest[SW_MAX_RECORDING];

static uint32_t difference;
static size_t entry;
static uint64_t tick, step;

static uint32_t check_longest(void)
{
    return sw_check_report(sheet, sheet_len, 0, recording, SW_MAX_RECORDING, longest, SW_MAX_RECORDING, &difference, &entry,
                           &tick, &step);
}

/* Flag 0 at X, which is never up: a violation for each tick. */
static void longest_recording(void)
{
    size_t written = 0;
    write_one(flag_0, sizeof flag_0);
    memset(recording, 0, sizeof recording);
    SAME(SW_OK, sw_complete_report(sheet, sheet_len, 0, recording, SW_MAX_RECORDING, longest, SW_MAX_RECORDING,
                                   &written));
    SAME(SW_MAX_RECORDING, written);
    for (size_t i = 0; i < SW_MAX_RECORDING; i += 4369) {
        SAME(i, longest[i].tick);
        SAME(i, longest[i].step);
    }
    SAME(SW_OK, check_longest());
    SAME(SW_REPORT_SAME, difference);
    longest[SW_MAX_RECORDING - 1].tick = 0;
    SAME(SW_OK, check_longest());
    SAME(SW_REPORT_DIFFERS, difference);
    SAME(SW_MAX_RECORDING - 1, entry);
    SAME(SW_MAX_RECORDING - 1, tick);
    SAME(SW_MAX_RECORDING - 1, step);
}

int main(void)
{
    by_hand();
    rules_over_recordings();
    refusals();
    longest_recording();
    return ended("reports.c");
}
