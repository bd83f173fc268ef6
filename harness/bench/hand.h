/* The shape at hand: what every call is told, and what the last one answered. */
#ifndef HAND_H
#define HAND_H

#include "zijraduf.h"

/* A small write goes to a data cell in the middle, on which as many parity cells depend as on any. Four lost cells are
 * spread over the stripe. The bad column is in the middle. A run rebuilds the lost column by the library's plan, or by
 * its balanced plan where there is one. Sources are as many as the stripe has columns of data. The data cells of row 0
 * start at top_places. */
struct hand {
    struct zijraduf_shape shape;
    uint64_t rows, columns, length, column_bytes, data_bytes, sources;
    uint64_t row, column, parities, lost_cells[4], bad_column, lost_column, plan, balanced_plan;
    uint64_t many_column; /* of EVENODD: in the same row p parity cells depend on its cell, not 2 */
    uint64_t top_places[31];
    uint8_t new_bytes[4096];
};
extern struct hand hand;
void set_shape(struct zijraduf_shape shape);

/* A refusal, or 0 and a number where the call gives one. */
struct answer {
    uint64_t refusal, value;
};
extern volatile struct answer answer;

/* Says what is wrong, and ends the program. */
_Noreturn void wrong(const char *who, const char *what);

#endif
