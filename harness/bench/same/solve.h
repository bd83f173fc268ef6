/* Elimination: sets of equations and of lost cells are the bits of a word. */
#ifndef SAME_SOLVE_H
#define SAME_SOLVE_H

#include "zijraduf.h"

#define SETS 64

static uint64_t lowest_bit(uint64_t mask) { return __builtin_ctzll(mask); }
static uint64_t one_bit(uint64_t q) { return 1ull << q; }

/* The lowest of the lost cells that an equation holds, 64 where it holds none. */
static uint64_t first_cell(uint64_t row) { return row == 0 ? 64 : __builtin_ctzll(row); }

/* The lowest unused equation whose first cell is number k, 64 where there is none. */
static uint64_t find_equation(const uint64_t rows[SETS], uint64_t unused, uint64_t k)
{
    for (uint64_t rest = unused; rest != 0; rest &= rest - 1) {
        uint64_t q = lowest_bit(rest);
        if (first_cell(rows[q]) == k)
            return q;
    }
    return 64;
}

/* The equations that hold lost cell number k. */
static uint64_t holding(const uint64_t rows[SETS], uint64_t equations, uint64_t k)
{
    uint64_t cell = one_bit(k), members = 0;
    for (uint64_t q = 0; q < equations; q++)
        if ((rows[q] & cell) != 0)
            members ^= one_bit(q);
    return members;
}

/* Adds equation q to the others. */
static void spread(uint64_t masks[SETS], uint64_t others, uint64_t q)
{
    uint64_t more = masks[q];
    for (uint64_t rest = others; rest != 0; rest &= rest - 1)
        masks[lowest_bit(rest)] ^= more;
}

static void own_sources(uint64_t sources[SETS], uint64_t equations)
{
    for (uint64_t q = 0; q < equations; q++)
        sources[q] = one_bit(q);
}

struct eliminated {
    int determined;
    uint64_t unused;
};

/* Leaves in `sources` what each equation is the sum of, and in `chosen` the equation of
 * each lost cell. */
static struct eliminated eliminate(uint64_t rows[SETS], uint64_t sources[SETS], uint64_t chosen[SETS], uint64_t lost,
                                   uint64_t equations)
{
    own_sources(sources, equations);
    uint64_t unused = one_bit(equations) - 1;
    for (uint64_t k = 0; k < lost; k++) {
        uint64_t q = find_equation(rows, unused, k);
        if (q == 64)
            return (struct eliminated){0, unused};
        uint64_t one = one_bit(q), others = holding(rows, equations, k) ^ one;
        spread(rows, others, q);
        spread(sources, others, q);
        chosen[k] = q;
        unused ^= one;
    }
    return (struct eliminated){1, unused};
}

#endif
