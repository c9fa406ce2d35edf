/* Rule bodies, built formula by formula. */
#ifndef BODIES_H
#define BODIES_H

#include <stddef.h>
#include <stdint.h>
#include <stdio.h>
#include <stdlib.h>

enum { MAX_BODY = 512, MAX_FORMULAS = 64, MAX_NESTED = 4 };

enum { FLAG = 1, NOT = 2, THEN = 3, BESIDE = 4, FOR_ALL = 5 };

struct body {
    uint8_t bytes[MAX_BODY];
    size_t size;
    int formulas;
};

static inline void put(struct body *b, int byte)
{
    if (b->size == MAX_BODY) {
        fputs("bodies: a body is too long\n", stderr);
        exit(2);
    }
    b->bytes[b->size++] = (uint8_t)byte;
}

static inline void put_code(struct body *b, int code)
{
    put(b, code);
    b->formulas++;
}

/* Flag 0 of a variable: 0 is the tick, m + 1 the quantifier nested under m others. */
static inline void put_flag(struct body *b, int variable)
{
    put_code(b, FLAG);
    put(b, variable);
    put(b, 0);
}

/* Kinds of a bound. */
enum { POSITION_0 = 0, INFINITE = 1, VARIABLE = 2 };

static inline void put_bound(struct body *b, int kind, int variable, int offset)
{
    put(b, kind);
    put(b, variable);
    put(b, offset & 0xFF);
    put(b, (offset >> 8) & 0xFF);
}

/* For all from variable + first to variable + last; its formula comes next. */
static inline void put_range(struct body *b, int variable, int first, int last)
{
    put_code(b, FOR_ALL);
    put_bound(b, VARIABLE, variable, first);
    put_bound(b, VARIABLE, variable, last);
}

/* For all from position 0 to infinity. */
static inline void put_range_from_0(struct body *b)
{
    put_code(b, FOR_ALL);
    put_bound(b, POSITION_0, 0, 0);
    put_bound(b, INFINITE, 0, 0);
}

/* For all from a variable to infinity. */
static inline void put_range_on(struct body *b, int variable)
{
    put_code(b, FOR_ALL);
    put_bound(b, VARIABLE, variable, 0);
    put_bound(b, INFINITE, 0, 0);
}

static inline void put_nots(struct body *b, int count)
{
    for (int k = 0; k < count; k++)
        put_code(b, NOT);
}

/* The sheet whose one rule is this body: a byte for the count, four for the entry. */
enum { MAX_SHEET = 5 + MAX_BODY };

static inline size_t sheet_of(const struct body *b, uint8_t sheet[MAX_SHEET])
{
    const uint8_t contents[5] = { 1, 5, 0, (uint8_t)(b->size & 0xFF), (uint8_t)(b->size >> 8) };

    for (size_t k = 0; k < 5; k++)
        sheet[k] = contents[k];
    for (size_t k = 0; k < b->size; k++)
        sheet[5 + k] = b->bytes[k];
    return 5 + b->size;
}

#endif
