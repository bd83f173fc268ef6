/* Totals of equations in lanes: survivors that agree, and lost cells filled. */
#ifndef SAME_LANES_H
#define SAME_LANES_H

#include "decide.h"
#include "equation.h"
#include "evenodd.h"
#include "xor.h"

#define LANE 512
#define LANES (SETS * LANE)

static uint64_t union_of(const uint64_t sets[SETS], uint64_t n)
{
    uint64_t all = 0;
    for (uint64_t j = 0; j < n; j++)
        all |= sets[j];
    return all;
}

/* Says whether the total is zero in all n bytes. */
static int put_total(struct zijraduf_shape shape, const uint8_t *stripe, uint64_t q, size_t at, size_t n,
                     uint8_t lanes[LANES])
{
    uint64_t places[PLACES] = {0};
    uint64_t count = cells_of(shape, q, places);
    return put_sum_zero(lanes, q * LANE, stripe, places, count, at, n);
}

static int put_total_with(struct zijraduf_shape shape, const uint8_t *stripe, const uint8_t *shared,
                          uint64_t q, size_t at, size_t n, uint8_t lanes[LANES])
{
    uint64_t places[PLACES] = {0};
    uint64_t count = cells_with(shape, q, places);
    int zero = put_sum_zero(lanes, q * LANE, stripe, places, count, at, n);
    return takes_shared(shape, q) ? add_run_zero(lanes, q * LANE, shared, n) : zero;
}

[[clang::noinline]] static uint64_t put_totals_with(struct zijraduf_shape shape, const uint8_t *stripe,
                                                    uint64_t set, size_t at, size_t n, uint8_t lanes[LANES])
{
    uint8_t shared[LANE];
    put_shared(shape, stripe, at, n, shared);
    uint64_t members[SETS] = {0};
    uint64_t count = list_members(set, 1, members), failing = 0;
    for (uint64_t k = 0; k < count; k++)
        if (!put_total_with(shape, stripe, shared, members[k], at, n, lanes))
            failing |= one_bit(members[k]);
    return failing;
}

/* The totals of a set of equations, of the n bytes from `at` on. Gives those that are not all zero. */
static uint64_t put_totals(struct zijraduf_shape shape, const uint8_t *stripe, uint64_t set, size_t at, size_t n,
                           uint8_t lanes[LANES])
{
    if (shares(shape))
        return put_totals_with(shape, stripe, set, at, n, lanes);
    uint64_t members[SETS] = {0};
    uint64_t count = list_members(set, 1, members), failing = 0;
    for (uint64_t k = 0; k < count; k++)
        if (!put_total(shape, stripe, members[k], at, n, lanes))
            failing |= one_bit(members[k]);
    return failing;
}

/* Lanes that are zero are left out. */
static int lanes_agree(const uint8_t lanes[LANES], const uint64_t checks[SETS], uint64_t v, uint64_t failing, size_t n)
{
    uint64_t places[SETS] = {0};
    for (uint64_t j = 0; j < v; j++) {
        uint64_t set = checks[j] & failing;
        if (set == 0)
            continue;
        uint64_t count = list_members(set, LANE, places);
        if (nonzero_at(lanes, places, count, n) != n)
            return 0;
    }
    return 1;
}

static size_t lane_bytes(size_t at, size_t cell)
{
    return cell - at < LANE ? cell - at : LANE;
}

static int lane_agrees(struct zijraduf_shape shape, const uint8_t *stripe, const uint64_t checks[SETS], uint64_t v,
                       uint64_t set, size_t at, size_t n, uint8_t lanes[LANES])
{
    uint64_t failing = put_totals(shape, stripe, set, at, n, lanes);
    return lanes_agree(lanes, checks, v, failing, n);
}

static int survivors_agree(struct zijraduf_shape shape, const uint8_t *stripe, const uint64_t checks[SETS], uint64_t v,
                           uint8_t lanes[LANES])
{
    if (v == 0)
        return 1;
    uint64_t set = union_of(checks, v);
    size_t at = 0;
    while (at < shape.cell) {
        size_t n = lane_bytes(at, shape.cell);
        if (!lane_agrees(shape, stripe, checks, v, set, at, n, lanes))
            return 0;
        at += n;
    }
    return 1;
}

static void fill_cells(struct zijraduf_shape shape, uint8_t *stripe, const uint8_t lanes[LANES],
                       const uint64_t listed[SETS], const uint64_t sets[SETS], uint64_t lost, size_t at, size_t n)
{
    uint64_t places[SETS] = {0};
    for (uint64_t k = 0; k < lost; k++) {
        uint64_t count = list_members(sets[k], LANE, places);
        add_sum(stripe, listed[k] * shape.cell + at, lanes, places, count, 0, n);
    }
}

static void fill_lane(struct zijraduf_shape shape, uint8_t *stripe, const uint64_t listed[SETS],
                      const uint64_t sets[SETS], uint64_t lost, uint64_t set, size_t at, size_t n, uint8_t lanes[LANES])
{
    put_totals(shape, stripe, set, at, n, lanes);
    fill_cells(shape, stripe, lanes, listed, sets, lost, at, n);
}

static void fill_lost(struct zijraduf_shape shape, uint8_t *stripe, const uint64_t listed[SETS],
                      const uint64_t sets[SETS], uint64_t lost, uint8_t lanes[LANES])
{
    uint64_t set = union_of(sets, lost);
    size_t at = 0;
    while (at < shape.cell) {
        size_t n = lane_bytes(at, shape.cell);
        fill_lane(shape, stripe, listed, sets, lost, set, at, n, lanes);
        at += n;
    }
}

static uint64_t mend(struct zijraduf_shape shape, uint8_t *stripe, const uint64_t listed[SETS],
                     const uint64_t sets[SETS], uint64_t lost, const uint64_t checks[SETS], uint64_t v)
{
    uint8_t lanes[LANES] = {0};
    if (!survivors_agree(shape, stripe, checks, v, lanes))
        return 12;
    fill_lost(shape, stripe, listed, sets, lost, lanes);
    return 0;
}

#endif
