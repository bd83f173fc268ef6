/* Encode, broken, write. */
#ifndef SAME_STRIPE_H
#define SAME_STRIPE_H

#include "../same.h"
#include "equation.h"
#include "evenodd.h"
#include "shape.h"
#include "xor.h"

/* The sum is inlined here and called by EVENODD: each takes the fewest instructions so. */
static void set_parity(struct zijraduf_shape shape, uint8_t *stripe, uint64_t q)
{
    uint64_t places[PLACES] = {0};
    struct sources from = sources_of(shape, q, places);
    [[clang::always_inline]] put_sum(stripe, places, from.count, from.to, shape.cell);
}

static void set_parity_with(struct zijraduf_shape shape, uint8_t *stripe, const uint8_t *shared, uint64_t q)
{
    uint64_t places[PLACES] = {0};
    struct sources from = sources_with(shape, q, places);
    put_sum(stripe, places, from.count, from.to, shape.cell);
    if (takes_shared(shape, q))
        add_shared(stripe, from.to, shared, shape.cell);
}

[[clang::noinline]] static uint64_t encode_with(struct zijraduf_shape shape, uint8_t *stripe)
{
    uint8_t shared[CELL_MOST];
    put_shared(shape, stripe, 0, shape.cell, shared);
    uint64_t equations = equation_count(shape);
    for (uint64_t q = 0; q < equations; q++)
        set_parity_with(shape, stripe, shared, q);
    return 0;
}

uint64_t SAME(encode)(struct zijraduf_shape shape, uint8_t *stripe, size_t length)
{
    uint64_t refusal = stripe_refusal(shape, length);
    if (refusal != 0)
        return refusal;
    if (shares(shape))
        return encode_with(shape, stripe);
    uint64_t equations = equation_count(shape);
    for (uint64_t q = 0; q < equations; q++)
        set_parity(shape, stripe, q);
    return 0;
}

/* Inlined here as well. */
static int equation_fails(struct zijraduf_shape shape, const uint8_t *stripe, uint64_t q)
{
    uint64_t places[PLACES] = {0};
    struct sources from = sources_of(shape, q, places);
    [[clang::always_inline]] return !is_sum(stripe, places, from.count, from.to, shape.cell);
}

static int fails_with(struct zijraduf_shape shape, const uint8_t *stripe, const uint8_t *shared, uint64_t q)
{
    uint64_t places[PLACES] = {0};
    struct sources from = sources_with(shape, q, places);
    if (takes_shared(shape, q))
        return !is_sum_with(stripe, places, from.count, from.to, shared, shape.cell);
    return !is_sum(stripe, places, from.count, from.to, shape.cell);
}

[[clang::noinline]] static uint64_t broken_with(struct zijraduf_shape shape, const uint8_t *stripe)
{
    uint8_t shared[CELL_MOST];
    put_shared(shape, stripe, 0, shape.cell, shared);
    uint64_t equations = equation_count(shape), broken = 0;
    for (uint64_t q = 0; q < equations; q++)
        if (fails_with(shape, stripe, shared, q))
            broken += 1;
    return broken;
}

struct zijraduf_count SAME(broken)(struct zijraduf_shape shape, const uint8_t *stripe, size_t length)
{
    uint64_t refusal = stripe_refusal(shape, length);
    if (refusal != 0)
        return (struct zijraduf_count){refusal, 0};
    if (shares(shape))
        return (struct zijraduf_count){0, broken_with(shape, stripe)};
    uint64_t equations = equation_count(shape), broken = 0;
    for (uint64_t q = 0; q < equations; q++)
        if (equation_fails(shape, stripe, q))
            broken += 1;
    return (struct zijraduf_count){0, broken};
}

/* Adds the difference to the parity of equation q, where there is one. */
static void add_part(struct zijraduf_shape shape, uint8_t *stripe, uint64_t q, size_t from, const uint8_t *bytes,
                     size_t n)
{
    if (equation_count(shape) <= q)
        return;
    add_difference(stripe, parity_place(shape, q), from, bytes, n);
}

/* What adds the difference is called here and inlined above, for fewer instructions too. */
[[clang::noinline]] static uint64_t write_with(struct zijraduf_shape shape, uint8_t *stripe, uint64_t row,
                                               uint64_t column, const uint8_t *bytes, size_t n)
{
    size_t from = cell_place(shape, row, column);
    uint64_t set = holders_with(shape, row, column);
    for (uint64_t rest = set; rest != 0; rest &= rest - 1) {
        size_t to = parity_place_with(shape, lowest_bit(rest));
        [[clang::noinline]] add_difference(stripe, to, from, bytes, n);
    }
    put_run(stripe, from, bytes, n);
    return __builtin_popcountll(set);
}

struct zijraduf_count SAME(write)(struct zijraduf_shape shape, uint8_t *stripe, size_t length, uint64_t row,
                                  uint64_t column, const uint8_t *bytes, size_t bytes_length)
{
    uint64_t refusal = write_refusal(shape, length, row, column, bytes_length);
    if (refusal != 0)
        return (struct zijraduf_count){refusal, 0};
    if (shares(shape))
        return (struct zijraduf_count){0, write_with(shape, stripe, row, column, bytes, bytes_length)};
    size_t from = cell_place(shape, row, column);
    struct dependents d = dependents_of(shape, row, column);
    add_part(shape, stripe, d.first, from, bytes, bytes_length);
    add_part(shape, stripe, d.second, from, bytes, bytes_length);
    add_part(shape, stripe, d.third, from, bytes, bytes_length);
    put_run(stripe, from, bytes, bytes_length);
    uint64_t equations = equation_count(shape);
    return (struct zijraduf_count){0, 1 + (d.second < equations) + (d.third < equations)};
}

#endif
