/* Makes a sheet of the example rule of the scope document, which is typed here, opens it,
 * takes its ten flag bytes one by one, and prints its figures, violations and end. */
#include <inttypes.h>
#include <stdio.h>
#include <string.h>

#include "station_watch.h"

static const char text[] = "monitor x : ~(@x.0 /\\ forall y in x-1..x+2 : @y.0)";

static const uint8_t flags[] = {0, 1, 1, 0, 1, 1, 1, 1, 0, 0};

/* Room for any rule. */
static uint8_t body[SW_MAX_BODY];
static uint8_t sheet[SW_MAX_SHEET];
static uint8_t history[SW_MAX_HISTORY];
static uint32_t cells[SW_MAX_CELL_WORDS];
static uint64_t report[SW_MAX_REPORT];
static uint8_t state[SW_STATE_BYTES];

static int refused(uint32_t number)
{
    uint8_t sentence[SW_MAX_SENTENCE];
    size_t length;
    sw_sentence(number, sentence, sizeof sentence, &length);
    printf("refused %" PRIu32 ": %s\n", number, (const char *)sentence);
    return 1;
}

int main(void)
{
    size_t size;
    uint32_t number = sw_rule_from_text((const uint8_t *)text, strlen(text), body, sizeof body, &size);
    if (number != SW_OK)
        return refused(number);

    uint64_t h, delay, needed;
    number = sw_figures(body, size, &h, &delay, &needed);
    if (number != SW_OK)
        return refused(number);
    printf("rule 0 history %" PRIu64 " delay %" PRIu64 " cells %" PRIu64 "\n", h, delay, needed);

    /* A sheet of this one rule. */
    uint16_t length = (uint16_t)size;
    size_t sheet_len;
    number = sw_write_sheet(&length, 1, body, size, sheet, sizeof sheet, &sheet_len);
    if (number != SW_OK)
        return refused(number);

    /* A history of as many bytes as it needs. */
    number = sw_open(sheet, sheet_len, 0, history, (size_t)h, cells, SW_MAX_CELL_WORDS, state);
    if (number != SW_OK)
        return refused(number);

    size_t violations = 0, live = 0;
    for (size_t t = 0; t < sizeof flags; t++) {
        size_t reported;
        number = sw_step(state, flags[t], history, (size_t)h, cells, SW_MAX_CELL_WORDS,
                         report, SW_MAX_REPORT, &reported, &live);
        if (number != SW_OK)
            return refused(number);
        for (size_t i = 0; i < reported; i++)
            printf("violation %" PRIu64 " at %zu\n", report[i], t);
        violations += reported;
    }
    printf("end %zu steps %zu violations %zu live\n", sizeof flags, violations, live);
    return 0;
}
