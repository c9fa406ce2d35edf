/* What sw_outcome costs over ranges that reach to infinity, one inside the other, on
 * flags that are all up, so that no walk ends early. Prints the best time of some
 * calls: of ranges that do not name their variable, which are one evaluation, and of
 * ranges that are all named, which are walked. Not part of the gate. */
#define _POSIX_C_SOURCE 200809L

#include <string.h>
#include <time.h>

#include "bodies.h"
#include "station_watch.h"

enum { CALLS = 5 };

static uint8_t recording[SW_MAX_RECORDING];

/* ---- the rules: `ranges` ranges, all but the innermost only around it */

/* Each from position 0 on, over a flag at the innermost variable. */
static void put_unnamed(struct body *b, int ranges)
{
    for (int k = 0; k < ranges; k++)
        put_range_from_0(b);
    put_flag(b, ranges);
}

/* Each from position 0 on, over flags at all variables, side by side. */
static void put_all_named(struct body *b, int ranges)
{
    for (int k = 0; k < ranges; k++)
        put_range_from_0(b);
    for (int k = 1; k < ranges; k++) {
        put_code(b, BESIDE);
        put_flag(b, k);
    }
    put_flag(b, ranges);
}

/* The first from position 0 on, each other from the variable outside on. */
static void put_each_from_the_last(struct body *b, int ranges)
{
    put_range_from_0(b);
    for (int k = 1; k < ranges; k++)
        put_range_on(b, k);
    put_flag(b, ranges);
}

/* ---- time */

static double now(void)
{
    struct timespec t;

    clock_gettime(CLOCK_THREAD_CPUTIME_ID, &t);
    return (double)t.tv_sec + (double)t.tv_nsec / 1e9;
}

/* The best of some calls, in seconds. All flags are up, so that the rule is open. */
static double best_call(const struct body *b, size_t ticks)
{
    double best = 1e9;

    for (int k = 0; k < CALLS; k++) {
        uint32_t verdict = SW_TRUE;
        uint64_t step;
        double start = now();
        uint32_t refusal = sw_outcome(b->bytes, b->size, recording, ticks, 0, &verdict, &step);
        double took = now() - start;

        if (refusal != 0 || verdict != SW_OPEN) {
            fprintf(stderr, "evaluator: answers %u, verdict %u\n", (unsigned)refusal, (unsigned)verdict);
            exit(2);
        }
        if (took < best)
            best = took;
    }
    return best;
}

static void measure(const char *name, void (*put_rule)(struct body *b, int ranges), int ranges, size_t ticks)
{
    struct body b = { { 0 }, 0, 0 };

    put_rule(&b, ranges);
    printf("%-28s %6d %6zu %12.1f\n", name, ranges, ticks, best_call(&b, ticks) * 1e6);
}

int main(void)
{
    static const size_t ticks[] = { 300, 3000, SW_MAX_RECORDING };

    memset(recording, 0xFF, sizeof recording);
    puts("ranges that are              ranges  ticks microseconds");
    for (int ranges = 1; ranges <= MAX_NESTED; ranges++)
        for (size_t k = 0; k < sizeof ticks / sizeof ticks[0]; k++)
            measure("not named", put_unnamed, ranges, ticks[k]);
    measure("all named", put_all_named, 2, 3000);
    measure("all named", put_all_named, 2, 10000);
    measure("all named", put_all_named, 3, 300);
    measure("all named", put_all_named, 4, 60);
    measure("each from the last on", put_each_from_the_last, 2, 3000);
    measure("each from the last on", put_each_from_the_last, 2, 10000);
    measure("each from the last on", put_each_from_the_last, 3, 300);
    measure("each from the last on", put_each_from_the_last, 4, 120);
    return 0;
}
