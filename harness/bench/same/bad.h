/* The bad column. */
#ifndef SAME_BAD_H
#define SAME_BAD_H

#include "../same.h"
#include "decide.h"
#include "equation.h"
#include "evenodd.h"
#include "lanes.h"
#include "rebuild.h"
#include "xor.h"

[[clang::noinline]] static size_t failing_byte_with(struct zijraduf_shape shape, const uint8_t *stripe,
                                                    uint64_t q)
{
    uint64_t places[PLACES] = {0}, start[1] = {0};
    uint64_t count = cells_with(shape, q, places);
    if (!takes_shared(shape, q))
        return nonzero_at(stripe, places, count, shape.cell);
    uint8_t total[CELL_MOST];
    put_shared(shape, stripe, 0, shape.cell, total);
    add_sum(total, 0, stripe, places, count, 0, shape.cell);
    return nonzero_at(total, start, 1, shape.cell);
}

/* The first byte in which equation q fails. */
static size_t failing_byte(struct zijraduf_shape shape, const uint8_t *stripe, uint64_t q)
{
    if (shares(shape))
        return failing_byte_with(shape, stripe, q);
    uint64_t places[PLACES] = {0};
    uint64_t count = cells_of(shape, q, places);
    return nonzero_at(stripe, places, count, shape.cell);
}

static uint8_t total_byte(struct zijraduf_shape shape, const uint8_t *stripe, uint64_t q, size_t t)
{
    uint64_t places[PLACES] = {0};
    uint64_t count = cells_of(shape, q, places);
    return sum_byte(stripe, places, count, t);
}

static uint8_t shared_byte(struct zijraduf_shape shape, const uint8_t *stripe, size_t t)
{
    uint64_t places[PLACES] = {0};
    uint64_t count = shared_cells(shape, places);
    return sum_byte(stripe, places, count, t);
}

static uint8_t total_byte_with(struct zijraduf_shape shape, const uint8_t *stripe, uint8_t shared, uint64_t q,
                               size_t t)
{
    uint64_t places[PLACES] = {0};
    uint64_t count = cells_with(shape, q, places);
    return sum_byte(stripe, places, count, t) ^ (takes_shared(shape, q) ? shared : 0);
}

[[clang::noinline]] static void totals_with(struct zijraduf_shape shape, const uint8_t *stripe, size_t t,
                                            uint8_t totals[SETS])
{
    uint8_t shared = shared_byte(shape, stripe, t);
    uint64_t n = equation_count(shape);
    for (uint64_t q = 0; q < n; q++)
        totals[q] = total_byte_with(shape, stripe, shared, q, t);
}

/* The totals of all equations in byte t. */
static void totals_at(struct zijraduf_shape shape, const uint8_t *stripe, size_t t, uint8_t totals[SETS])
{
    if (shares(shape)) {
        totals_with(shape, stripe, t, totals);
        return;
    }
    uint64_t n = equation_count(shape);
    for (uint64_t q = 0; q < n; q++)
        totals[q] = total_byte(shape, stripe, q, t);
}

[[clang::noinline]] static void without_with(struct zijraduf_shape shape, const uint8_t totals[SETS],
                                             uint64_t column, uint8_t rest[SETS])
{
    uint64_t rows = row_count(shape);
    for (uint64_t i = 0; i < rows; i++) {
        uint64_t set = holders_with(shape, i, column);
        uint8_t x = totals[lowest_bit(set)];
        for (uint64_t left = set; left != 0; left &= left - 1)
            rest[lowest_bit(left)] ^= x;
    }
}

/* What is left when each cell of a column takes in the total of its first equation. */
static void without_column(struct zijraduf_shape shape, const uint8_t totals[SETS], uint64_t column, uint8_t rest[SETS])
{
    uint64_t equations = equation_count(shape), rows = row_count(shape);
    for (uint64_t q = 0; q < SETS; q++)
        rest[q] = totals[q];
    if (shares(shape)) {
        without_with(shape, totals, column, rest);
        return;
    }
    for (uint64_t i = 0; i < rows; i++) {
        struct holders h = holders_of(shape, i, column);
        uint8_t x = totals[h.first];
        rest[h.first] ^= x;
        if (h.second < equations)
            rest[h.second] ^= x;
    }
}

/* The first column without which nothing is left, or the number of columns. */
static uint64_t candidate(struct zijraduf_shape shape, const uint8_t totals[SETS])
{
    uint64_t columns = column_count(shape), equations = equation_count(shape);
    for (uint64_t c = 0; c < columns; c++) {
        uint8_t rest[SETS];
        without_column(shape, totals, c, rest);
        uint64_t q = 0;
        while (q < equations && rest[q] == 0)
            q++;
        if (q == equations)
            return c;
    }
    return columns;
}

/* Whether the replacement of one column alone makes the stripe encoded. */
static int column_agrees(struct zijraduf_shape shape, const uint8_t *stripe, uint64_t column)
{
    uint8_t map[CELLS] = {0};
    mark_columns(shape, column, column, map);
    uint64_t listed[SETS] = {0}, sets[SETS] = {0}, checks[SETS] = {0};
    struct decided d = decide(shape, map, listed, sets, checks);
    if (!d.determined)
        return 0;
    uint8_t lanes[LANES] = {0};
    return survivors_agree(shape, stripe, checks, d.checks, lanes);
}

static struct zijraduf_finding name_column(struct zijraduf_shape shape, const uint8_t *stripe, uint64_t q)
{
    uint8_t totals[SETS] = {0};
    totals_at(shape, stripe, failing_byte(shape, stripe, q), totals);
    uint64_t c = candidate(shape, totals);
    if (c == column_count(shape) || !column_agrees(shape, stripe, c))
        return (struct zijraduf_finding){0, ZIJRADUF_UNEXPLAINED, 0};
    return (struct zijraduf_finding){0, ZIJRADUF_COLUMN, c};
}

struct zijraduf_finding SAME(bad_column)(struct zijraduf_shape shape, const uint8_t *stripe, size_t length)
{
    uint64_t refusal = stripe_refusal(shape, length);
    if (refusal != 0)
        return (struct zijraduf_finding){refusal, 0, 0};
    uint64_t q = first_failing(shape, stripe);
    if (q == equation_count(shape))
        return (struct zijraduf_finding){0, ZIJRADUF_CLEAN, 0};
    return name_column(shape, stripe, q);
}

#endif
