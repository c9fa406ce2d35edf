/* What boundary.c, calendar.c and reports.c share: the comparison of what is expected with what is
 * seen, the scope document's example, and sheets. */
#include <inttypes.h>
#include <stdio.h>

#include "station_watch.h"

static unsigned checks, failures;

static void same(const char *file, int line, const char *what, uint64_t expected, uint64_t seen)
{
    checks++;
    if (seen == expected)
        return;
    failures++;
    printf("%s:%d: %s is %" PRIu64 ", not %" PRIu64 "\n", file, line, what, seen, expected);
}

#define SAME(expected, seen) same(__FILE__, __LINE__, #seen, (uint64_t)(expected), (uint64_t)(seen))

/* Says how many checks there were; the status of the program. */
static int ended(const char *program)
{
    printf("%s: %u checks, %u failed\n", program, checks, failures);
    return failures != 0;
}

/* not (flag 0 at X beside for all Y from X-1 to X+2: flag 0 at Y): 1, 2, 21 */
static const uint8_t example[] = {2, 4, 1, 0, 0, 5, 2, 0, 0xFF, 0xFF, 2, 0, 2, 0, 1, 1, 0};
static const uint8_t flags[] = {0, 1, 1, 0, 1, 1, 1, 1, 0, 0};

static uint8_t sheet[SW_MAX_SHEET];
static size_t sheet_len;

/* The sheet of one rule. */
static void write_one(const uint8_t *body, uint16_t length)
{
    SAME(SW_OK, sw_write_sheet(&length, 1, body, length, sheet, sizeof sheet, &sheet_len));
    SAME(5 + length, sheet_len);
}
