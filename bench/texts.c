/* What reading and printing rules costs: the example rule, the longest texts of several
 * kinds, and the longest body. Prints the median time of one call. Not part of the gate. */
#define _POSIX_C_SOURCE 200809L

#include <stdio.h>
#include <stdlib.h>
#include <string.h>
#include <time.h>

#include "station_watch.h"

enum { ROUNDS = 1001 };

static uint8_t text[SW_MAX_TEXT];
static uint8_t body[SW_MAX_BODY];

/* A text: a start again and again, a flag, and an end as often. */
static const struct {
    const char *before, *after;
} kinds[] = {
    { "~", "" }, { "(", " && @x.0)" }, { "(@x.0 /\\ ", ")" },
    { "forall y in x..x : ", "" }, { "(", "" },
};

static uint64_t now(void)
{
    struct timespec t;

    clock_gettime(CLOCK_THREAD_CPUTIME_ID, &t);
    return (uint64_t)t.tv_sec * 1000000000 + (uint64_t)t.tv_nsec;
}

static int by_size(const void *a, const void *b)
{
    uint64_t x = *(const uint64_t *)a, y = *(const uint64_t *)b;

    return (x > y) - (x < y);
}

static void report(const char *call, const char *what, size_t length, uint32_t answer,
                   uint64_t *times)
{
    qsort(times, ROUNDS, sizeof times[0], by_size);
    printf("%-17s %4zu bytes, answer %2u: %6.1f microseconds  %s\n", call, length, answer,
           (double)times[ROUNDS / 2] / 1000, what);
}

static uint32_t read_text(const char *what, size_t length, size_t *written)
{
    uint64_t times[ROUNDS];
    uint32_t answer = 0;

    for (int k = 0; k < ROUNDS; k++) {
        uint64_t start = now();

        answer = sw_rule_from_text(text, length, body, sizeof body, written);
        times[k] = now() - start;
    }
    report("sw_rule_from_text", what, length, answer, times);
    return answer;
}

static void print_body(const char *what, size_t length)
{
    uint64_t times[ROUNDS];
    uint32_t answer = 0;
    size_t written = 0;

    for (int k = 0; k < ROUNDS; k++) {
        uint64_t start = now();

        answer = sw_rule_to_text(body, length, text, sizeof text, &written);
        times[k] = now() - start;
    }
    report("sw_rule_to_text", what, written, answer, times);
}

static size_t put(size_t at, const char *word)
{
    memcpy(text + at, word, strlen(word));
    return at + strlen(word);
}

/* As long as it can be: the start and the end `count` times. */
static size_t longest(const char *before, const char *after)
{
    size_t start = put(0, "monitor x : "), at = start;
    size_t count = (SW_MAX_TEXT - start - 4) / (strlen(before) + strlen(after));

    for (size_t k = 0; k < count; k++)
        at = put(at, before);
    at = put(at, "@x.0");
    for (size_t k = 0; k < count; k++)
        at = put(at, after);
    return at;
}

int main(void)
{
    static const char example[] = "monitor x : ~(@x.0 /\\ forall y in x-1..x+2 : @y.0)";
    static const char range[] = "forall y in infinity..infinity : ";
    size_t written = 0, at;

    if (read_text("the example", put(0, example), &written) == SW_OK)
        print_body("the example", written);
    /* 15 ranges joined by "&&", each over a range: 61 formulas */
    at = put(0, "monitor x : ");
    for (int k = 0; k < 15; k++) {
        at = put(at, k < 14 ? "(" : "");
        at = put(put(at, range), range);
        at = put(at, k < 14 ? "@y.0 && " : "@y.0");
    }
    for (int k = 0; k < 14; k++)
        at = put(at, ")");
    if (read_text("30 ranges of 61 formulas", at, &written) == SW_OK)
        print_body("30 ranges of 61 formulas", written);
    for (size_t k = 0; k < sizeof kinds / sizeof kinds[0]; k++)
        read_text(kinds[k].before, longest(kinds[k].before, kinds[k].after), &written);
    return 0;
}
