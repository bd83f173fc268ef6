/* Balanced plan: RDP with all data columns and one lost column below p. */
#ifndef SAME_BALANCE_H
#define SAME_BALANCE_H

#include "../same.h"
#include "shape.h"

#define BALANCED_PLANS 94

/* The rows that go by diagonal, for each column of each prime that has balanced plans: the nonzero squares mod p, moved
 * on by the smallest s from 0 on, mod p, so that neither row p - 1 nor row p - 1 - k is among them. */
static const uint32_t balanced_plans[BALANCED_PLANS] = {
    /* p = 3 */ 2, 1, 2,
    /* p = 7 */ 22, 22, 44, 22, 49, 44, 22,
    /* p = 11 */ 570, 233, 570, 570, 570, 466, 233, 466, 570, 233, 570,
    /* p = 19 */ 199410, 22419, 22419, 199410, 199410, 199410, 199410, 22419, 199410, 179352, 199410, 44838,
        22419, 22419, 44838, 199410, 199410, 89676, 199410,
    /* p = 23 */ 340830, 340830, 340830, 340830, 681660, 340830, 681660, 340830, 340830, 1363320, 681660,
        340830, 340830, 1363320, 681660, 340830, 681660, 340830, 2517953, 2726640, 1363320, 681660, 340830,
    /* p = 31 */ 303908790, 303908790, 607817580, 303908790, 303908790, 607817580, 303908790, 303908790,
        303908790, 303908790, 283786673, 567573346, 607817580, 303908790, 607817580, 303908790, 607817580,
        303908790, 303908790, 303908790, 567573346, 283786673, 491238948, 607817580, 303908790, 122809737,
        607817580, 303908790, 283786673, 607817580, 303908790,
};

/* Where the plans of a prime start, or where the last ends if it has none. */
static uint64_t balanced_start(uint64_t p)
{
    switch (p) {
    case 3:
        return 0;
    case 7:
        return 3;
    case 11:
        return 10;
    case 19:
        return 21;
    case 23:
        return 40;
    case 31:
        return 63;
    default:
        return BALANCED_PLANS;
    }
}

static uint64_t balanced_refusal(struct zijraduf_shape shape, uint64_t k)
{
    uint64_t refusal = code_refusal(shape);
    if (refusal != 0)
        return refusal;
    if (shape.data_given != 0 && shape.data < shape.p - 1)
        return 14;
    if (shape.code != 1)
        return 3;
    if (balanced_start(shape.p) == BALANCED_PLANS)
        return 15;
    refusal = shape_refusal(shape);
    if (refusal != 0)
        return refusal;
    return shape.p <= k ? 6 : 0;
}

struct zijraduf_read_plan SAME(balanced_plan)(struct zijraduf_shape shape, uint64_t k)
{
    uint64_t refusal = balanced_refusal(shape, k), n = shape.p - 1;
    if (refusal != 0)
        return (struct zijraduf_read_plan){refusal, 0, 0};
    return (struct zijraduf_read_plan){0, balanced_plans[balanced_start(shape.p) + k], 3 * n * n / 4};
}

#endif
