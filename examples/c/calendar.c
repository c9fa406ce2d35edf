/* Takes a file of flag bytes by the first rule of a sheet, with a calendar beside it, and asks
 * the calendar about each flag:
 *
 *     calendar SHEET FLAGS
 *
 * It prints for each flag how often it was up, and, where it ever was, when first, when last,
 * and when nearest to tick 8. Exit status: 0 at the end, 1 for a refusal, 2 for wrong usage
 * or for a file that cannot be read or written. */
#include <inttypes.h>
#include <stdio.h>

#include "station_watch.h"

/* A day of one tick a second: 1,350 runs of 64 ticks, of eight words each. Later ticks are
 * watched too, but not kept. */
enum { RUNS = 1350, WORDS = 8 * RUNS, ASKED = 8 };

static uint8_t sheet[SW_MAX_SHEET + 1];
static size_t sheet_len;
static uint8_t state[SW_STATE_BYTES];
static uint8_t history[SW_MAX_HISTORY];
static uint32_t cells[SW_MAX_CELL_WORDS];
static uint64_t report[SW_MAX_REPORT];
static uint64_t words[WORDS];

static int refused(uint32_t number)
{
    uint8_t sentence[SW_MAX_SENTENCE];
    size_t length;
    sw_sentence(number, sentence, sizeof sentence, &length);
    printf("refused %" PRIu32 ": %s\n", number, (const char *)sentence);
    return 1;
}

static int failed(const char *file)
{
    perror(file);
    return 2;
}

static uint32_t open_rule(void)
{
    return sw_calendar_open(sheet, sheet_len, 0, history, SW_MAX_HISTORY, cells,
                            SW_MAX_CELL_WORDS, words, WORDS, state);
}

/* Each step is lent all words, as the last one left them. */
static uint32_t take(uint8_t flags)
{
    size_t reported, live;
    return sw_calendar_step(state, flags, history, SW_MAX_HISTORY, cells, SW_MAX_CELL_WORDS,
                            report, SW_MAX_REPORT, words, WORDS, &reported, &live);
}

static void print_tick(const char *name, uint64_t tick)
{
    if (tick != SW_NO_TICK)
        printf(" %s %" PRIu64, name, tick);
}

/* Asks about all kept ticks: a range is cut at the last of them. */
static uint32_t ask(uint8_t flag)
{
    uint64_t ups, first, last, nearest;
    uint32_t number = sw_calendar_ups(words, WORDS, flag, 0, UINT64_MAX, &ups);
    if (number == SW_OK)
        number = sw_calendar_first(words, WORDS, flag, 0, UINT64_MAX, &first);
    if (number == SW_OK)
        number = sw_calendar_last(words, WORDS, flag, 0, UINT64_MAX, &last);
    if (number == SW_OK)
        number = sw_calendar_nearest(words, WORDS, flag, ASKED, &nearest);
    if (number != SW_OK)
        return number;
    printf("flag %d ups %" PRIu64, flag, ups);
    print_tick("first", first);
    print_tick("last", last);
    print_tick("nearest", nearest);
    printf("\n");
    return SW_OK;
}

/* Takes the rest of a file, and asks about each flag. */
static int take_file(FILE *file, const char *name)
{
    uint32_t number = SW_OK;
    int flags;
    while (number == SW_OK && (flags = getc(file)) != EOF)
        number = take((uint8_t)flags);
    if (ferror(file))
        return failed(name);
    for (uint8_t flag = 0; number == SW_OK && flag < 8; flag++)
        number = ask(flag);
    return number == SW_OK ? 0 : refused(number);
}

/* Opens the first rule of the file `sheet_name` and takes the file `flags_name`. */
static int keep(const char *sheet_name, const char *flags_name)
{
    FILE *file = fopen(sheet_name, "rb");
    if (file == NULL)
        return failed(sheet_name);
    sheet_len = fread(sheet, 1, sizeof sheet, file);
    if (ferror(file))
        return failed(sheet_name);
    fclose(file);

    uint32_t number = open_rule();
    if (number != SW_OK)
        return refused(number);

    file = fopen(flags_name, "rb");
    if (file == NULL)
        return failed(flags_name);
    int status = take_file(file, flags_name);
    fclose(file);
    return status;
}

int main(int count, char **arguments)
{
    if (count != 3) {
        fprintf(stderr, "usage: calendar SHEET FLAGS\n");
        return 2;
    }
    int status = keep(arguments[1], arguments[2]);
    if (fflush(stdout) != 0 || ferror(stdout))
        return failed("standard output");
    return status;
}
