/* The shape at hand, and what follows from it. */
#include "hand.h"

#include "libc.h"
#include "stripes.h"

struct hand hand;
volatile struct answer answer;

/* How many data columns hold as much as the code's data cells. */
static uint64_t sources_of(struct zijraduf_shape shape)
{
    if (shape.data_given)
        return shape.data;
    return shape.code == 3 ? shape.p - 2 : shape.code == 4 ? shape.p : shape.p - 1;
}

static void set_size(struct zijraduf_shape shape)
{
    hand.shape = shape;
    hand.rows = shape.code == 3 ? shape.p : shape.p - 1;
    hand.sources = sources_of(shape);
    hand.columns = hand.sources + 2;
    hand.column_bytes = hand.rows * shape.cell;
    hand.length = hand.columns * hand.column_bytes;
    hand.data_bytes = hand.sources * hand.column_bytes;
}

void set_shape(struct zijraduf_shape shape)
{
    static const uint64_t quarter[4] = {2, 0, 3, 1};
    set_size(shape);
    hand.row = shape.code == 3 ? (shape.p - 3) / 2 : shape.p / 2;
    hand.column = (shape.data_given ? shape.data - 1 : shape.p - 2) / 2;
    hand.many_column = shape.p - 1 - hand.row;
    hand.parities = shape.code == 1 ? 3 : 2;
    hand.bad_column = hand.columns / 2;
    hand.lost_column = 1;
    hand.plan = zijraduf_plan(hand.shape, hand.lost_column).rows;
    hand.balanced_plan = has_balance() ? zijraduf_balanced_plan(hand.shape, hand.lost_column).rows : 0;
    for (uint64_t k = 0; k < 4; k++)
        hand.lost_cells[k] = k * hand.columns / 4 * hand.rows + quarter[k] * hand.rows / 4;
    for (uint64_t k = 0; k < hand.sources; k++)
        hand.top_places[k] = k * hand.column_bytes;
}

void wrong(const char *who, const char *what)
{
    const struct zijraduf_shape *s = &hand.shape;
    dprintf(2, "driver: code %lu, p %lu, cell %lu, %lu columns: %s: wrong: %s\n", s->code, s->p, s->cell, hand.columns,
            who, what);
    exit(1);
}
