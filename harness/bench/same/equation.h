/* Equations as lines of cells. */
#ifndef SAME_EQUATION_H
#define SAME_EQUATION_H

#include "shape.h"

#define PLACES 32

/* The number of an equation's parity cell, and the line of the cells that it sums: each
 * next one is `fall` rows down and `step` columns on, from column p - 1 back to 0. */
struct line {
    uint64_t parity, count, row, fall, column, step;
};

static uint64_t turned(uint64_t column, uint64_t step, uint64_t p)
{
    uint64_t next = column + step;
    return p <= next ? next - p : next;
}

/* With all data columns. */
static struct line rdp_line(uint64_t p, uint64_t q)
{
    uint64_t n = p - 1;
    if (q < n)
        return (struct line){n * n + q, n, q, 0, 0, 1};
    uint64_t d = q - n;
    return (struct line){p * n + d, n, 0, 1, d, n};
}

static struct line hcode_line(uint64_t p, uint64_t q)
{
    uint64_t n = p - 1;
    if (q < n)
        return (struct line){p * n + q, n, q, 0, turned(q, 2, p), 1};
    uint64_t r = q - n;
    return (struct line){(r + 1) * n + r, n, 0, 1, turned(r, 2, p), 1};
}

static struct line xcode_line(uint64_t p, uint64_t q)
{
    if (q < p)
        return (struct line){q * p + (p - 2), p - 2, 0, 1, turned(q, 2, p), 1};
    uint64_t c = q - p;
    return (struct line){c * p + (p - 1), p - 2, 0, 1, turned(c, p - 2, p), p - 1};
}

static struct line line_of(struct zijraduf_shape shape, uint64_t q)
{
    if (shape.code == 1)
        return rdp_line(shape.p, q);
    return shape.code == 2 ? hcode_line(shape.p, q) : xcode_line(shape.p, q);
}

static void place_cells(struct zijraduf_shape shape, struct line l, uint64_t places[PLACES])
{
    uint64_t rows = row_count(shape), row = l.row, column = l.column;
    for (uint64_t k = 0; k < l.count; k++) {
        places[k] = (column * rows + row) * shape.cell;
        row += l.fall;
        column = turned(column, l.step, shape.p);
    }
}

/* Where an equation's parity cell starts, and how many cells it is the XOR of. */
struct sources {
    size_t to;
    uint64_t count;
};

/* Of RDP with m data columns given. The parity cells lie behind the data in the order of their equations. */
static size_t short_parity(struct zijraduf_shape shape, uint64_t q)
{
    return (shape.data * (shape.p - 1) + q) * shape.cell;
}

/* So many cells, each `step` bytes on. */
static void place_steps(uint64_t *places, uint64_t count, uint64_t at, uint64_t step)
{
    for (uint64_t k = 0; k < count; k++) {
        places[k] = at;
        at += step;
    }
}

/* A diagonal goes up from row d of column 0 to row 0 of column d. It has no cell of column d + 1, and goes on from the
 * last row of the column after that. */
static uint64_t place_slant(struct zijraduf_shape shape, uint64_t m, uint64_t d, uint64_t places[PLACES])
{
    uint64_t p = shape.p, cell = shape.cell, step = (p - 2) * cell;
    uint64_t above = d < m ? d + 1 : m, below = d + 2 < m ? m - d - 2 : 0;
    place_steps(places, above, d * cell, step);
    place_steps(places + above, below, (p + d) * cell + (d + 2) * step, step);
    return above + below;
}

/* All but the last diagonal have a cell of the row parity column. */
static uint64_t place_diagonal(struct zijraduf_shape shape, uint64_t d, uint64_t places[PLACES])
{
    uint64_t p = shape.p, m = shape.data, count = place_slant(shape, m, d, places);
    if (d + 2 < p)
        places[count++] = (m * (p - 1) + d + 1) * shape.cell;
    return count;
}

[[clang::noinline]] static struct sources short_sources(struct zijraduf_shape shape, uint64_t q,
                                                        uint64_t places[PLACES])
{
    uint64_t n = shape.p - 1, m = shape.data;
    if (n <= q)
        return (struct sources){short_parity(shape, q), place_diagonal(shape, q - n, places)};
    place_steps(places, m, q * shape.cell, n * shape.cell);
    return (struct sources){short_parity(shape, q), m};
}

/* This and the next are inlined, what is above is called: with all data columns that takes the fewest instructions. */
[[clang::always_inline]] static struct sources sources_of(struct zijraduf_shape shape, uint64_t q,
                                                          uint64_t places[PLACES])
{
    if (shape.data_given != 0)
        return short_sources(shape, q, places);
    struct line l = line_of(shape, q);
    place_cells(shape, l, places);
    return (struct sources){l.parity * shape.cell, l.count};
}

/* All cells of an equation, its parity cell last. Gives how many. */
[[clang::always_inline]] static uint64_t cells_of(struct zijraduf_shape shape, uint64_t q, uint64_t places[PLACES])
{
    struct sources from = sources_of(shape, q, places);
    places[from.count] = from.to;
    return from.count + 1;
}

static size_t parity_place(struct zijraduf_shape shape, uint64_t q)
{
    return shape.data_given != 0 ? short_parity(shape, q) : line_of(shape, q).parity * shape.cell;
}

static size_t cell_place(struct zijraduf_shape shape, uint64_t row, uint64_t column)
{
    return (column * row_count(shape) + row) * shape.cell;
}

/* The equations whose parity depends on a data cell. One past the last is none. */
struct dependents {
    uint64_t first, second, third;
};

static struct dependents dependents_of(struct zijraduf_shape shape, uint64_t row, uint64_t column)
{
    uint64_t p = shape.p, n = p - 1;
    if (shape.code == 1)
        return (struct dependents){row, n + turned(row, column, p), n + turned(row, n, p)};
    if (shape.code == 2)
        return (struct dependents){row, n + turned(column, p - 2 - row, p), 2 * n};
    return (struct dependents){turned(column, p - 2 - row, p), p + turned(column, row + 2, p), 2 * p};
}

/* The equations that hold a cell. One past the last is none. */
struct holders {
    uint64_t first, second;
};

static struct holders parity_holders(struct zijraduf_shape shape, uint64_t row, uint64_t column)
{
    uint64_t p = shape.p, n = p - 1;
    if (shape.code == 3)
        return row == n ? (struct holders){p + column, 2 * p} : (struct holders){column, 2 * p};
    if (shape.code == 2)
        return column == p ? (struct holders){row, 2 * n} : (struct holders){n + row, 2 * n};
    if (column == data_count(shape))
        return (struct holders){row, n + turned(row, n, p)};
    return (struct holders){n + row, 2 * n};
}

static struct holders holders_of(struct zijraduf_shape shape, uint64_t row, uint64_t column)
{
    if (is_parity(shape, row, column))
        return parity_holders(shape, row, column);
    struct dependents d = dependents_of(shape, row, column);
    return (struct holders){d.first, d.second};
}

#endif
