/* The shape of a stripe, and refusals. */
#ifndef SAME_SHAPE_H
#define SAME_SHAPE_H

#include "zijraduf.h"

static uint64_t row_count(struct zijraduf_shape shape)
{
    return shape.code == 3 ? shape.p : shape.p - 1;
}

/* Of RDP: how many data columns there are. */
static uint64_t data_count(struct zijraduf_shape shape)
{
    return shape.data_given != 0 ? shape.data : shape.p - 1;
}

static uint64_t column_count(struct zijraduf_shape shape)
{
    if (shape.data_given != 0)
        return shape.data + 2;
    if (shape.code == 3)
        return shape.p;
    return shape.code == 4 ? shape.p + 2 : shape.p + 1;
}

static uint64_t equation_count(struct zijraduf_shape shape)
{
    return shape.code == 3 ? 2 * shape.p : 2 * (shape.p - 1);
}

static uint64_t cell_count(struct zijraduf_shape shape)
{
    return column_count(shape) * row_count(shape);
}

static int is_listed(uint64_t p)
{
    switch (p) {
    case 3: case 5: case 7: case 11: case 13: case 17: case 19: case 23: case 29: case 31:
        return 1;
    default:
        return 0;
    }
}

static uint64_t code_refusal(struct zijraduf_shape shape)
{
    if (shape.code == 0 || 4 < shape.code)
        return 1;
    if (!is_listed(shape.p))
        return 2;
    if (shape.data_given == 0)
        return 0;
    return shape.code != 1 || shape.data == 0 || shape.p <= shape.data ? 14 : 0;
}

static uint64_t shape_refusal(struct zijraduf_shape shape)
{
    uint64_t refusal = code_refusal(shape);
    if (refusal != 0)
        return refusal;
    return shape.cell == 0 || 4096 < shape.cell ? 4 : 0;
}

static uint64_t stripe_refusal(struct zijraduf_shape shape, size_t bytes)
{
    uint64_t refusal = shape_refusal(shape);
    if (refusal != 0)
        return refusal;
    return bytes != cell_count(shape) * shape.cell ? 5 : 0;
}

static int is_parity(struct zijraduf_shape shape, uint64_t row, uint64_t column)
{
    if (shape.code == 1)
        return data_count(shape) <= column;
    if (shape.code == 3)
        return shape.p - 2 <= row;
    if (shape.code == 4)
        return shape.p <= column;
    return column == shape.p || column == row + 1;
}

static uint64_t write_refusal(struct zijraduf_shape shape, size_t bytes, uint64_t row, uint64_t column, size_t new)
{
    uint64_t refusal = stripe_refusal(shape, bytes);
    if (refusal != 0)
        return refusal;
    if (row_count(shape) <= row || column_count(shape) <= column)
        return 6;
    if (is_parity(shape, row, column))
        return 7;
    return new != shape.cell ? 8 : 0;
}

static int all_below(const uint64_t *numbers, size_t count, uint64_t n)
{
    for (size_t k = 0; k < count; k++)
        if (n <= numbers[k])
            return 0;
    return 1;
}

static uint64_t cells_refusal(struct zijraduf_shape shape, size_t bytes, const uint64_t *lost, size_t count)
{
    uint64_t refusal = stripe_refusal(shape, bytes);
    if (refusal != 0)
        return refusal;
    return all_below(lost, count, cell_count(shape)) ? 0 : 6;
}

static uint64_t columns_refusal(struct zijraduf_shape shape, size_t bytes, uint64_t a, uint64_t b)
{
    uint64_t refusal = stripe_refusal(shape, bytes);
    if (refusal != 0)
        return refusal;
    return column_count(shape) <= a || column_count(shape) <= b ? 6 : 0;
}

#endif
