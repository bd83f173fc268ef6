/* Whether the survivors determine the lost cells. */
#ifndef SAME_DECIDE_H
#define SAME_DECIDE_H

#include "equation.h"
#include "evenodd.h"
#include "shape.h"
#include "solve.h"

#define CELLS 990

/* By rising number. Gives how many, one more than there are equations where more. */
static uint64_t list_lost(struct zijraduf_shape shape, const uint8_t map[CELLS], uint64_t listed[SETS])
{
    uint64_t n = cell_count(shape), most = equation_count(shape), u = 0;
    for (uint64_t c = 0; c < n; c++)
        if (map[c]) {
            if (u == most)
                return most + 1;
            listed[u] = c;
            u += 1;
        }
    return u;
}

[[clang::noinline]] static void hold_with(struct zijraduf_shape shape, const uint64_t listed[SETS],
                                          uint64_t lost, uint64_t rows[SETS])
{
    uint64_t height = row_count(shape);
    for (uint64_t k = 0; k < lost; k++) {
        uint64_t c = listed[k], one = one_bit(k);
        for (uint64_t rest = holders_with(shape, c % height, c / height); rest != 0; rest &= rest - 1)
            rows[lowest_bit(rest)] ^= one;
    }
}

/* For each equation the set of the lost cells that it holds. */
static void hold_lost(struct zijraduf_shape shape, const uint64_t listed[SETS], uint64_t lost, uint64_t rows[SETS])
{
    if (shares(shape)) {
        hold_with(shape, listed, lost, rows);
        return;
    }
    uint64_t height = row_count(shape), n = equation_count(shape);
    for (uint64_t k = 0; k < lost; k++) {
        uint64_t c = listed[k], one = one_bit(k);
        struct holders h = holders_of(shape, c % height, c / height);
        rows[h.first] ^= one;
        if (h.second < n)
            rows[h.second] ^= one;
    }
}

/* The members of a set, each times `apart`. Gives how many. */
static uint64_t list_members(uint64_t set, uint64_t apart, uint64_t list[SETS])
{
    uint64_t n = 0;
    for (uint64_t rest = set; rest != 0; rest &= rest - 1)
        list[n++] = lowest_bit(rest) * apart;
    return n;
}

static void gather(const uint64_t list[SETS], const uint64_t sources[SETS], uint64_t n, uint64_t sets[SETS])
{
    for (uint64_t k = 0; k < n; k++)
        sets[k] = sources[list[k]];
}

struct decided {
    int determined;
    uint64_t lost, checks;
};

/* Whether the survivors determine the lost cells: then these are listed, with the set of
 * equations that gives each, and the sets that check the survivors. */
static struct decided decide(struct zijraduf_shape shape, const uint8_t map[CELLS], uint64_t listed[SETS],
                             uint64_t sets[SETS], uint64_t checks[SETS])
{
    uint64_t u = list_lost(shape, map, listed), n = equation_count(shape);
    if (n < u)
        return (struct decided){0, 0, 0};
    uint64_t rows[SETS] = {0}, sources[SETS] = {0}, chosen[SETS] = {0}, unused[SETS] = {0};
    hold_lost(shape, listed, u, rows);
    struct eliminated e = eliminate(rows, sources, chosen, u, n);
    if (!e.determined)
        return (struct decided){0, 0, 0};
    gather(chosen, sources, u, sets);
    uint64_t v = list_members(e.unused, 1, unused);
    gather(unused, sources, v, checks);
    return (struct decided){1, u, v};
}

#endif
