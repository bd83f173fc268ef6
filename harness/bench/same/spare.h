/* Plan, run, show: RDP with one lost column. */
#ifndef SAME_SPARE_H
#define SAME_SPARE_H

#include "../same.h"
#include "equation.h"
#include "shape.h"
#include "solve.h"
#include "xor.h"

#define SLOTS 64

static uint64_t rdp_refusal(struct zijraduf_shape shape)
{
    uint64_t refusal = code_refusal(shape);
    if (refusal != 0)
        return refusal;
    return shape.code != 1 ? 3 : shape_refusal(shape);
}

static uint64_t plan_refusal(struct zijraduf_shape shape, uint64_t k)
{
    uint64_t refusal = rdp_refusal(shape);
    if (refusal != 0)
        return refusal;
    return column_count(shape) <= k ? 6 : 0;
}

/* The number that a column has with all data columns. */
static uint64_t inside(struct zijraduf_shape shape, uint64_t k)
{
    uint64_t m = data_count(shape);
    return k < m ? k : k - m + shape.p - 1;
}

/* The lowest half of the rows other than row n - k, one row more where that one is among them. */
static uint64_t lowest_rows(uint64_t n, uint64_t k)
{
    uint64_t half = n / 2;
    return n - k < half ? (one_bit(half + 1) - 1) ^ one_bit(n - k) : one_bit(half) - 1;
}

/* The rows among these that meet the diagonal of another of them in a column that lies `on` after the lost one. */
static uint64_t met_rows(uint64_t p, uint64_t rows, uint64_t on)
{
    uint64_t met = 0;
    for (uint64_t i = 0; i < p - 1; i++)
        met += (rows & one_bit(i)) != 0 && (rows & one_bit(turned(i, on, p))) != 0;
    return met;
}

/* The cells that exist and are read for column k below p: m of each row that is taken by its row, of the other rows
 * what lies on a diagonal that is taken, and the parity of these diagonals. */
static uint64_t reads_of(struct zijraduf_shape shape, uint64_t k, uint64_t rows)
{
    uint64_t p = shape.p, m = data_count(shape), half = (p - 1) / 2, reads = half * m + half;
    for (uint64_t c = 0; c <= m; c++)
        if (inside(shape, c) != k)
            reads += met_rows(p, rows, turned(inside(shape, c), p - k, p));
    return reads;
}

struct zijraduf_read_plan SAME(plan)(struct zijraduf_shape shape, uint64_t column)
{
    uint64_t refusal = plan_refusal(shape, column), n = shape.p - 1, m = data_count(shape), k = inside(shape, column);
    if (refusal != 0)
        return (struct zijraduf_read_plan){refusal, 0, 0};
    if (k == shape.p)
        return (struct zijraduf_read_plan){0, one_bit(n) - 1, (m + 1) * n - m};
    uint64_t rows = lowest_rows(n, k);
    return (struct zijraduf_read_plan){0, rows, m == n ? 3 * n * n / 4 : reads_of(shape, k, rows)};
}

/* Row p - 1 - k of column k lies on the missing diagonal, and the diagonal parity column
 * has no other way. */
static int is_accepted(struct zijraduf_shape shape, uint64_t k, uint64_t plan)
{
    uint64_t last = shape.p - 1, bound = one_bit(last);
    if (bound <= plan)
        return 0;
    if (k == shape.p)
        return plan == bound - 1;
    return k == 0 || (plan & one_bit(last - k)) == 0;
}

static uint64_t run_refusal(struct zijraduf_shape shape, size_t bytes, size_t spare, uint64_t k, uint64_t plan,
                            uint64_t first)
{
    uint64_t refusal = rdp_refusal(shape);
    if (refusal != 0)
        return refusal;
    if (bytes != cell_count(shape) * shape.cell || spare != row_count(shape) * shape.cell)
        return 5;
    if (column_count(shape) <= k || shape.p <= first)
        return 6;
    return is_accepted(shape, inside(shape, k), plan) ? 0 : 9;
}

/* Where the cells start from which a row of column k is rebuilt by its row, as if the row were row 0. The parity cell's
 * place stands in for column k's. */
static void row_places(struct zijraduf_shape shape, uint64_t k, uint64_t places[PLACES])
{
    uint64_t m = data_count(shape), step = (shape.p - 1) * shape.cell, at = 0;
    for (uint64_t j = 0; j < m; j++) {
        places[j] = at;
        at += step;
    }
    if (k < m)
        places[k] = at;
}

/* The two slots of column j of m + 1: for a diagonal that meets it in row d - j, and for one that meets it in row
 * d + p - j. */
static void put_column(uint64_t places[SLOTS], uint64_t m, uint64_t j, uint64_t above, uint64_t below)
{
    uint64_t slot = m - j;
    places[slot] = above;
    places[slot + m + 1] = below;
}

/* The same by its diagonal, as if the diagonal were diagonal 0. None meets the row parity column, column m, above. */
static void diagonal_places(struct zijraduf_shape shape, uint64_t k, uint64_t places[SLOTS])
{
    uint64_t n = shape.p - 1, m = data_count(shape), step = (n - 1) * shape.cell, turn = shape.p * shape.cell, at = 0;
    for (uint64_t j = 0; j < m; j++) {
        put_column(places, m, j, at, at + turn);
        at += step;
    }
    put_column(places, m, m, 0, (m * n + 1) * shape.cell);
    uint64_t parity = (m + 1) * n * shape.cell;
    if (k <= m)
        put_column(places, m, k, parity, parity);
}

/* A diagonal's slots start with that of column d or, where it doesn't exist, of the last data column. A diagonal has no
 * cell of column d + 1, which of the last diagonal is the row parity column; where that doesn't exist it has a cell of
 * all m + 1 columns. */
static uint64_t first_slot(uint64_t m, uint64_t d) { return d < m ? m - d : 1; }
static uint64_t slot_count(uint64_t p, uint64_t m, uint64_t d) { return m + (m <= d + 1 && d + 2 < p); }

static void rebuild_row(struct zijraduf_shape shape, const uint8_t *stripe, const uint64_t *level,
                        const uint64_t *slant, uint64_t k, uint64_t plan, uint64_t i, uint8_t *part)
{
    uint64_t p = shape.p, m = data_count(shape);
    if ((plan & one_bit(i)) == 0) {
        put_sum_from(part, 0, stripe, level, m, i * shape.cell, shape.cell);
        return;
    }
    uint64_t d = turned(i, k, p);
    put_sum_from(part, 0, stripe, slant + first_slot(m, d), slot_count(p, m, d), d * shape.cell, shape.cell);
}

struct zijraduf_count SAME(run)(struct zijraduf_shape shape, const uint8_t *stripe, size_t length, uint64_t k,
                                uint64_t plan, uint8_t *spare, size_t spare_length, uint64_t first, uint64_t budget)
{
    uint64_t refusal = run_refusal(shape, length, spare_length, k, plan, first);
    if (refusal != 0)
        return (struct zijraduf_count){refusal, 0};
    uint64_t left = shape.p - 1 - first, n = budget < left ? budget : left, number = inside(shape, k);
    uint64_t level[PLACES] = {0}, slant[SLOTS] = {0};
    row_places(shape, k, level);
    diagonal_places(shape, k, slant);
    for (uint64_t i = first; i < first + n; i++)
        rebuild_row(shape, stripe, level, slant, number, plan, i, spare + i * shape.cell);
    return (struct zijraduf_count){0, n};
}

static uint64_t show_refusal(struct zijraduf_shape shape, size_t bytes, size_t spare, uint64_t k, uint64_t done,
                             uint64_t row, uint64_t column)
{
    uint64_t refusal = rdp_refusal(shape), n = row_count(shape), columns = column_count(shape);
    if (refusal != 0)
        return refusal;
    if (bytes != columns * n * shape.cell || spare != n * shape.cell)
        return 5;
    if (columns <= k || n < done || n <= row || columns <= column)
        return 6;
    return column == k && done <= row ? 10 : 0;
}

struct zijraduf_part SAME(show)(struct zijraduf_shape shape, const uint8_t *stripe, size_t length,
                                const uint8_t *spare, size_t spare_length, uint64_t k, uint64_t done, uint64_t row,
                                uint64_t column)
{
    (void)stripe, (void)spare;
    uint64_t refusal = show_refusal(shape, length, spare_length, k, done, row, column);
    if (refusal != 0)
        return (struct zijraduf_part){refusal, 0, 0, 0};
    if (column == k)
        return (struct zijraduf_part){0, ZIJRADUF_IN_SPARE, row * shape.cell, shape.cell};
    return (struct zijraduf_part){0, ZIJRADUF_IN_STRIPE, cell_place(shape, row, column), shape.cell};
}

#endif
