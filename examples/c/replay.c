/* Replays a file of flag bytes through rule 0 of a sheet, in batches:
 *
 *     replay SHEET FLAGS
 *
 * It prints the rule's figures, each violation with its deciding step, and the end, as the
 * program `watch` does. Exit status: 0 at the end, 1 for a refusal, 2 for wrong usage or for
 * a file that cannot be read or written. */
#include <inttypes.h>
#include <stdio.h>

#include "station_watch.h"

/* Room for any sheet, one byte more than the largest so that a longer file is seen to be
 * longer, and for any rule. */
static uint8_t sheet[SW_MAX_SHEET + 1];
static uint8_t history[SW_MAX_HISTORY];
static uint32_t cells[SW_MAX_CELL_WORDS];
static uint8_t state[SW_STATE_BYTES];
static uint64_t report[SW_MAX_BATCH_REPORT];
static size_t history_len;

static uint64_t steps, violations;
static size_t live;

static int refused(uint32_t number)
{
    uint8_t sentence[SW_MAX_SENTENCE];
    size_t length;
    sw_sentence(number, sentence, sizeof sentence, &length);
    printf("refused %" PRIu32 ": %s\n", number, (const char *)sentence);
    return 1;
}

static int failed(const char *file)
{
    perror(file);
    return 2;
}

/* Opens rule 0 over a history of as many bytes as it needs, and prints its figures. */
static uint32_t open_rule(size_t sheet_len)
{
    size_t start, size;
    uint32_t number = sw_rule_place(sheet, sheet_len, 0, &start, &size);
    if (number != SW_OK)
        return number;
    uint64_t h, delay, needed;
    number = sw_figures(sheet + start, size, &h, &delay, &needed);
    if (number != SW_OK)
        return number;
    printf("rule 0 history %" PRIu64 " delay %" PRIu64 " cells %" PRIu64 "\n", h, delay, needed);
    history_len = (size_t)h;
    return sw_open(sheet, sheet_len, 0, history, history_len, cells, SW_MAX_CELL_WORDS, state);
}

/* Takes all these flags. The report has room for a step of any rule, so that each call takes
 * at least one flag or is refused, and the loop ends. */
static uint32_t take(const uint8_t *flags, size_t count)
{
    size_t done = 0;
    while (done < count) {
        size_t taken, pairs;
        uint32_t number = sw_steps(state, flags + done, count - done, history, history_len,
                                   cells, SW_MAX_CELL_WORDS, report, SW_MAX_BATCH_REPORT,
                                   &taken, &pairs, &live);
        if (number != SW_OK)
            return number;
        for (size_t i = 0; i < pairs; i++)
            printf("violation %" PRIu64 " at %" PRIu64 "\n", report[2 * i], report[2 * i + 1]);
        done += taken;
        steps += taken;
        violations += pairs;
    }
    return SW_OK;
}

/* Takes the rest of a file, a block at a time. */
static int take_file(FILE *file, const char *name)
{
    static uint8_t block[65536];
    size_t count;
    while ((count = fread(block, 1, sizeof block, file)) > 0) {
        uint32_t number = take(block, count);
        if (number != SW_OK)
            return refused(number);
    }
    if (ferror(file))
        return failed(name);
    printf("end %" PRIu64 " steps %" PRIu64 " violations %zu live\n", steps, violations, live);
    return 0;
}

/* Opens rule 0 of the file `sheet_name` and takes the file `flags_name`. */
static int replay(const char *sheet_name, const char *flags_name)
{
    FILE *file = fopen(sheet_name, "rb");
    if (file == NULL)
        return failed(sheet_name);
    size_t sheet_len = fread(sheet, 1, sizeof sheet, file);
    if (ferror(file))
        return failed(sheet_name);
    fclose(file);

    uint32_t number = open_rule(sheet_len);
    if (number != SW_OK)
        return refused(number);

    file = fopen(flags_name, "rb");
    if (file == NULL)
        return failed(flags_name);
    int status = take_file(file, flags_name);
    fclose(file);
    return status;
}

int main(int count, char **words)
{
    if (count != 3) {
        fprintf(stderr, "usage: replay SHEET FLAGS\n");
        return 2;
    }
    int status = replay(words[1], words[2]);
    if (fflush(stdout) != 0 || ferror(stdout))
        return failed("standard output");
    return status;
}
