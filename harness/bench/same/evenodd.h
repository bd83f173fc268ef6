/* EVENODD, whose diagonals share a part: the diagonal that has no parity cell. It is summed once for all. */
#ifndef SAME_EVENODD_H
#define SAME_EVENODD_H

#include "equation.h"
#include "shape.h"
#include "solve.h"
#include "xor.h"

#define CELL_MOST 4096

/* Whether equations share a part. What is done with it has functions of its own, whose names end in `with`:
 * those of the other codes stay as they are. */
static int shares(struct zijraduf_shape shape) { return shape.code == 4; }
static int takes_shared(struct zijraduf_shape shape, uint64_t q) { return shape.p - 1 <= q; }

/* The parity cells lie behind the data in the order of their equations. */
static size_t parity_place_with(struct zijraduf_shape shape, uint64_t q)
{
    return (shape.p * (shape.p - 1) + q) * shape.cell;
}

/* Without the shared part. Inlined: that takes the fewest instructions. */
[[clang::always_inline]] static struct sources sources_with(struct zijraduf_shape shape, uint64_t q,
                                                            uint64_t places[PLACES])
{
    uint64_t p = shape.p, n = p - 1;
    if (n <= q)
        return (struct sources){parity_place_with(shape, q), place_slant(shape, p, q - n, places)};
    place_steps(places, p, q * shape.cell, n * shape.cell);
    return (struct sources){parity_place_with(shape, q), p};
}

[[clang::always_inline]] static uint64_t cells_with(struct zijraduf_shape shape, uint64_t q,
                                                    uint64_t places[PLACES])
{
    struct sources from = sources_with(shape, q, places);
    places[from.count] = from.to;
    return from.count + 1;
}

/* The cells of the shared part, up from the last row of column 1. Gives how many. */
static uint64_t shared_cells(struct zijraduf_shape shape, uint64_t places[PLACES])
{
    uint64_t n = shape.p - 1;
    place_steps(places, n, (2 * n - 1) * shape.cell, (n - 1) * shape.cell);
    return n;
}

/* n bytes of the shared part, from byte `at` of each cell on. */
static void put_shared(struct zijraduf_shape shape, const uint8_t *stripe, size_t at, size_t n,
                       uint8_t *shared)
{
    uint64_t places[PLACES] = {0};
    uint64_t count = shared_cells(shape, places);
    put_sum_from(shared, 0, stripe, places, count, at, n);
}

static void add_shared(uint8_t *d, size_t to, const uint8_t *shared, size_t n)
{
    const uint64_t start[1] = {0};
    add_sum(d, to, shared, start, 1, 0, n);
}

/* The set of the equations that hold a cell; the parity cells of these are what depends on a data cell. */
static uint64_t holders_with(struct zijraduf_shape shape, uint64_t row, uint64_t column)
{
    uint64_t p = shape.p, n = p - 1, d = turned(row, column, p);
    if (column == p)
        return one_bit(row);
    if (column == p + 1)
        return one_bit(n + row);
    return one_bit(row) | (d == n ? (one_bit(n) - 1) << n : one_bit(n + d));
}

#endif
