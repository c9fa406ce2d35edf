/* What the dearest steps found cost: rules that look back as far as a table of cells
 * allows, on flags that leave every part true, so that nothing ends early. Prints the
 * median time of one sw_step once the whole range lies behind the tick, and how it
 * grows with ranges, positions, nots and flags. Not part of the gate. */
#define _POSIX_C_SOURCE 200809L

#include <time.h>

#include "bodies.h"
#include "station_watch.h"

enum { ROUNDS = 101 };

static uint8_t sheet[MAX_SHEET];
static uint8_t state[SW_STATE_BYTES];
static uint8_t history[SW_MAX_HISTORY];
static uint32_t cells[SW_MAX_CELL_WORDS];
static uint64_t report[SW_MAX_REPORT];

/* ---- the rules: ranges of `width` positions up to the tick, joined by "then" so
 * that they share their cells; each over `nots` nots over a part of `flags` flags,
 * which are joined by "then" too */

struct rule {
    int ranges;
    int width;
    int nots;
    int flags;
};

/* `count` times what `put_leaf` puts, joined by "then" as a balanced tree. */
static void put_tree(struct body *b, int count, const struct rule *r,
                     void (*put_leaf)(struct body *b, const struct rule *r))
{
    if (count == 1) {
        put_leaf(b, r);
        return;
    }
    put_code(b, THEN);
    put_tree(b, count / 2, r, put_leaf);
    put_tree(b, count - count / 2, r, put_leaf);
}

static void put_one_flag(struct body *b, const struct rule *r)
{
    (void)r;
    put_flag(b, 1);
}

static void put_one_range(struct body *b, const struct rule *r)
{
    put_range(b, 0, 1 - r->width, 0);
    put_nots(b, r->nots);
    put_tree(b, r->flags, r, put_one_flag);
}

static const struct rule rules[] = {
    { 1, 4094, 62, 1 }, { 1, 4094, 31, 1 }, { 1, 4094, 1, 1 }, { 1, 4094, 0, 1 },
    { 1, 2047, 62, 1 }, { 1, 2047, 0, 1 },  { 1, 1024, 0, 1 }, { 1, 681, 0, 31 },
    { 21, 4089, 0, 1 }, { 21, 2044, 0, 1 }, { 10, 4090, 0, 1 }, { 16, 4090, 1, 1 },
    { 13, 4090, 2, 1 }, { 12, 2044, 0, 2 }, { 10, 2044, 1, 2 }, { 7, 1363, 0, 4 },
};

/* ---- time */

static uint64_t now(void)
{
    struct timespec t;

    clock_gettime(CLOCK_THREAD_CPUTIME_ID, &t);
    return (uint64_t)t.tv_sec * 1000000000u + (uint64_t)t.tv_nsec;
}

static void step(uint8_t flags)
{
    size_t reported, live;
    uint32_t refusal =
        sw_step(state, flags, history, SW_MAX_HISTORY, cells, SW_MAX_CELL_WORDS,
                report, SW_MAX_REPORT, &reported, &live);

    if (refusal != 0) {
        fprintf(stderr, "worst: a step answers %u\n", (unsigned)refusal);
        exit(2);
    }
}

static int by_size(const void *a, const void *b)
{
    uint64_t x = *(const uint64_t *)a, y = *(const uint64_t *)b;

    return (x > y) - (x < y);
}

static uint64_t median_step(uint8_t flags)
{
    uint64_t times[ROUNDS];

    for (int k = 0; k < ROUNDS; k++) {
        uint64_t start = now();
        step(flags);
        times[k] = now() - start;
    }
    qsort(times, ROUNDS, sizeof times[0], by_size);
    return times[ROUNDS / 2];
}

static void measure(const struct rule *r)
{
    const uint8_t flags = r->nots % 2 == 0 ? 0xFF : 0x00;
    struct body b = { { 0 }, 0, 0 };
    size_t size;
    uint32_t refusal;

    put_tree(&b, r->ranges, r, put_one_range);
    size = sheet_of(&b, sheet);
    refusal = sw_open(sheet, size, 0, history, SW_MAX_HISTORY, cells, SW_MAX_CELL_WORDS, state);
    if (refusal != 0) {
        fprintf(stderr, "worst: %d ranges: the opening answers %u\n", r->ranges, (unsigned)refusal);
        exit(2);
    }
    for (int k = 0; k < r->width; k++)
        step(flags);
    printf("%6d %9d %4d %5d %8d %10.1f\n", r->ranges, r->width, r->nots, r->flags, b.formulas,
           (double)median_step(flags) / 1000);
}

int main(void)
{
    puts("ranges positions nots flags formulas microseconds");
    for (size_t k = 0; k < sizeof rules / sizeof rules[0]; k++)
        measure(&rules[k]);
    return 0;
}
