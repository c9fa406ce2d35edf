/* The complete report of the example in the scope document, and two lists that other monitors
 * may have sent, beside it: the first is right, the second has a wrong step.
 *
 * Build with the static library, from the repository's root:
 *     gcc -I include examples/c/check.c target/lib/libstation_watch.a -o check
 */
#include <inttypes.h>
#include <stdio.h>

#include "station_watch.h"

enum { TICKS = 10 };

/* A sheet with one rule, at byte 5 and 17 bytes long: not (flag 0 at X beside for all Y from X-1 to
 * X+2: flag 0 at Y). */
static const uint8_t sheet[] = {1, 5, 0, 17, 0, 2, 4, 1, 0, 0, 5, 2, 0, 0xFF, 0xFF, 2, 0, 2, 0, 1, 1, 0};
static const uint8_t recording[TICKS] = {0, 1, 1, 0, 1, 1, 1, 1, 0, 0};

static const sw_violation right[] = {{5, 7}};
static const sw_violation wrong[] = {{5, 6}};

static int refused(uint32_t number)
{
    uint8_t sentence[SW_MAX_SENTENCE];
    size_t length;
    sw_sentence(number, sentence, sizeof sentence, &length);
    printf("refused %" PRIu32 ": %s\n", number, (const char *)sentence);
    return 1;
}

/* A list with an entry for each tick is always long enough. */
static uint32_t print_report(void)
{
    static sw_violation report[TICKS];
    size_t count;
    uint32_t number = sw_complete_report(sheet, sizeof sheet, 0, recording, TICKS, report, TICKS, &count);
    if (number != SW_OK)
        return number;
    for (size_t i = 0; i < count; i++)
        printf("violation %" PRIu64 " at %" PRIu64 "\n", report[i].tick, report[i].step);
    return SW_OK;
}

static uint32_t print_check(const sw_violation *claimed, size_t count)
{
    uint32_t difference;
    size_t entry;
    uint64_t tick, step;
    uint32_t number = sw_check_report(sheet, sizeof sheet, 0, recording, TICKS, claimed, count,
                                      &difference, &entry, &tick, &step);
    if (number != SW_OK)
        return number;
    if (difference == SW_REPORT_SAME)
        printf("yes\n");
    else if (difference == SW_REPORT_DIFFERS)
        printf("no: entry %zu is violation %" PRIu64 " at %" PRIu64 "\n", entry, tick, step);
    else
        printf("no: there is no entry %zu\n", entry);
    return SW_OK;
}

int main(void)
{
    uint32_t number = print_report();
    if (number == SW_OK)
        number = print_check(right, 1);
    if (number == SW_OK)
        number = print_check(wrong, 1);
    return number == SW_OK ? 0 : refused(number);
}
