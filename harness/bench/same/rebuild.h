/* Rebuild of cells and of columns. */
#ifndef SAME_REBUILD_H
#define SAME_REBUILD_H

#include "../same.h"
#include "decide.h"
#include "evenodd.h"
#include "lanes.h"
#include "shape.h"
#include "stripe.h"

[[clang::noinline]] static uint64_t first_failing_with(struct zijraduf_shape shape, const uint8_t *stripe)
{
    uint8_t shared[CELL_MOST];
    put_shared(shape, stripe, 0, shape.cell, shared);
    uint64_t n = equation_count(shape), q = 0;
    while (q < n && !fails_with(shape, stripe, shared, q))
        q++;
    return q;
}

static uint64_t first_failing(struct zijraduf_shape shape, const uint8_t *stripe)
{
    if (shares(shape))
        return first_failing_with(shape, stripe);
    uint64_t n = equation_count(shape), q = 0;
    while (q < n && !equation_fails(shape, stripe, q))
        q++;
    return q;
}

static uint64_t clean_or_not(struct zijraduf_shape shape, const uint8_t *stripe)
{
    return first_failing(shape, stripe) == equation_count(shape) ? 0 : 12;
}

static uint64_t rebuild_lost(struct zijraduf_shape shape, uint8_t *stripe, const uint8_t map[CELLS])
{
    uint64_t listed[SETS] = {0}, sets[SETS] = {0}, checks[SETS] = {0};
    struct decided d = decide(shape, map, listed, sets, checks);
    if (!d.determined)
        return 11;
    if (d.lost == 0)
        return clean_or_not(shape, stripe);
    return mend(shape, stripe, listed, sets, d.lost, checks, d.checks);
}

static void mark_cells(const uint64_t *lost, size_t count, uint8_t map[CELLS])
{
    for (size_t k = 0; k < count; k++)
        map[lost[k]] = 1;
}

static void mark_columns(struct zijraduf_shape shape, uint64_t a, uint64_t b, uint8_t map[CELLS])
{
    uint64_t n = row_count(shape);
    for (uint64_t i = 0; i < n; i++) {
        map[a * n + i] = 1;
        map[b * n + i] = 1;
    }
}

uint64_t SAME(rebuild_cells)(struct zijraduf_shape shape, uint8_t *stripe, size_t length, const uint64_t *lost,
                             size_t count)
{
    uint64_t refusal = cells_refusal(shape, length, lost, count);
    if (refusal != 0)
        return refusal;
    uint8_t map[CELLS] = {0};
    mark_cells(lost, count, map);
    return rebuild_lost(shape, stripe, map);
}

uint64_t SAME(rebuild_columns)(struct zijraduf_shape shape, uint8_t *stripe, size_t length, uint64_t a, uint64_t b)
{
    uint64_t refusal = columns_refusal(shape, length, a, b);
    if (refusal != 0)
        return refusal;
    uint8_t map[CELLS] = {0};
    mark_columns(shape, a, b, map);
    return rebuild_lost(shape, stripe, map);
}

#endif
