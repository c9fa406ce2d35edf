/* What boundary.c and calendar.c share beside checks.h: memory for any rule, and the numbers of a
 * state. */
#include "checks.h"

/* The example's cells, and the words of its cell table. */
enum { EXAMPLE_CELLS = 21, EXAMPLE_WORDS = SW_CELL_WORDS * EXAMPLE_CELLS };

/* Memory for any rule, and a word more where a test lends too much. */
static uint8_t history[SW_MAX_HISTORY + 1];
static uint32_t cells[SW_MAX_CELL_WORDS];
static uint64_t report[SW_MAX_BATCH_REPORT];
static uint8_t state[SW_STATE_BYTES];

/* The first tick that is not taken. */
#define FIRST_UNTAKEN (UINT64_C(1) << 62)

/* A number of the state, in its eight bytes. */
static void set_number(size_t at, uint64_t value)
{
    for (int i = 0; i < 8; i++)
        state[at + i] = (uint8_t)(value >> (8 * i));
}

static uint64_t number_at(size_t at)
{
    uint64_t value = 0;
    for (int i = 7; i >= 0; i--)
        value = value << 8 | state[at + i];
    return value;
}
