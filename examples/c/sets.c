/* Replays a file of flag bytes through all rules of a sheet at once, in batches:
 *
 *     sets SHEET FLAGS
 *
 * It prints the figures of each rule, each violation with its rule and its deciding step,
 * and the end with the sums over all rules. Exit status: 0 at the end, 1 for a refusal, 2 for
 * wrong usage or for a file that cannot be read or written. */
#include <inttypes.h>
#include <stdio.h>

#include "station_watch.h"

/* Room for any sheet, one byte more than the largest so that a longer file is seen to be
 * longer, and for all its rules. */
static uint8_t sheet[SW_MAX_SHEET + 1];
static size_t sheet_len;
static sw_running records[SW_MAX_RULES];
static uint8_t history[SW_MAX_HISTORY];
static size_t history_len;
static uint32_t cells[SW_MAX_CELL_WORDS];
static uint64_t report[SW_MAX_SET_BATCH_REPORT];

static uint64_t steps, violations;
static size_t live;

static int refused(uint32_t number)
{
    uint8_t sentence[SW_MAX_SENTENCE];
    size_t length;
    sw_sentence(number, sentence, sizeof sentence, &length);
    printf("refused %" PRIu32 ": %s\n", number, (const char *)sentence);
    return 1;
}

static int failed(const char *file)
{
    perror(file);
    return 2;
}

/* Prints the figures of a rule that opens. */
static void print_figures(size_t rule)
{
    size_t start, size;
    uint64_t h, delay, needed;
    if (sw_rule_place(sheet, sheet_len, rule, &start, &size) != SW_OK ||
        sw_figures(sheet + start, size, &h, &delay, &needed) != SW_OK)
        return;
    printf("rule %zu history %" PRIu64 " delay %" PRIu64 " cells %" PRIu64 "\n", rule, h, delay,
           needed);
}

/* Opens all rules over a history of as many bytes as they need, and prints their figures. */
static uint32_t open_rules(void)
{
    size_t rules;
    uint64_t h, needed, pairs;
    uint32_t number = sw_set_figures(sheet, sheet_len, &rules, &h, &needed, &pairs);
    if (number != SW_OK)
        return number;
    for (size_t rule = 0; rule < rules; rule++)
        print_figures(rule);
    history_len = (size_t)h;
    return sw_set_open(sheet, sheet_len, records, SW_MAX_RULES, history, history_len, cells,
                       SW_MAX_CELL_WORDS);
}

/* Takes all these flags. The report has room for a step of any set, so that each call takes
 * at least one flag or is refused, and the loop ends. */
static uint32_t take(const uint8_t *flags, size_t count)
{
    size_t done = 0;
    while (done < count) {
        size_t taken, triples;
        uint32_t number = sw_set_steps(sheet, sheet_len, records, SW_MAX_RULES, flags + done,
                                       count - done, history, history_len, cells,
                                       SW_MAX_CELL_WORDS, report, SW_MAX_SET_BATCH_REPORT,
                                       &taken, &triples, &live);
        if (number != SW_OK)
            return number;
        for (const uint64_t *word = report; word < report + 3 * triples; word += 3)
            printf("violation %" PRIu64 " %" PRIu64 " at %" PRIu64 "\n", word[0], word[1], word[2]);
        done += taken;
        steps += taken;
        violations += triples;
    }
    return SW_OK;
}

/* Takes the rest of a file, a block at a time. */
static int take_file(FILE *file, const char *name)
{
    static uint8_t block[65536];
    size_t count;
    while ((count = fread(block, 1, sizeof block, file)) > 0) {
        uint32_t number = take(block, count);
        if (number != SW_OK)
            return refused(number);
    }
    if (ferror(file))
        return failed(name);
    printf("end %" PRIu64 " steps %" PRIu64 " violations %zu live\n", steps, violations, live);
    return 0;
}

/* Opens all rules of the file `sheet_name` and takes the file `flags_name`. */
static int replay(const char *sheet_name, const char *flags_name)
{
    FILE *file = fopen(sheet_name, "rb");
    if (file == NULL)
        return failed(sheet_name);
    sheet_len = fread(sheet, 1, sizeof sheet, file);
    if (ferror(file))
        return failed(sheet_name);
    fclose(file);

    uint32_t number = open_rules();
    if (number != SW_OK)
        return refused(number);

    file = fopen(flags_name, "rb");
    if (file == NULL)
        return failed(flags_name);
    int status = take_file(file, flags_name);
    fclose(file);
    return status;
}

int main(int count, char **words)
{
    if (count != 3) {
        fprintf(stderr, "usage: sets SHEET FLAGS\n");
        return 2;
    }
    int status = replay(words[1], words[2]);
    if (fflush(stdout) != 0 || ferror(stdout))
        return failed("standard output");
    return status;
}
