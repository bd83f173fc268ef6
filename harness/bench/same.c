/* The same algorithm in C, function by function as the library has it: sums of runs in blocks of 128 bytes, equations
 * as lines of cells, elimination on sets of equations, and totals in lanes of 512 bytes. Plan, show and jobs do the
 * same by what is shortest. The parts are compiled as one, by the library's compiler and for its instruction set. */
#include "same.h"

#include "same/stripe.h"
#include "same/rebuild.h"
#include "same/bad.h"
#include "same/spare.h"
#include "same/balance.h"
#include "same/jobs.h"
#include "same/xor.h"

/* The row parity column into the spare, a cell after the other, with the places of row 0 for every row. */
void same_cells(struct zijraduf_shape shape, const uint8_t *stripe, const uint64_t *places, uint8_t *spare)
{
    uint64_t n = shape.p - 1, m = data_count(shape);
    for (uint64_t i = 0; i < n; i++) {
        put_sum_from(spare, i * shape.cell, stripe, places, 1, i * shape.cell, shape.cell);
        for (uint64_t k = 1; k < m; k++)
            add_sum(spare, i * shape.cell, stripe, &places[k], 1, i * shape.cell, shape.cell);
    }
}

/* The same, all cells of a row at once. */
void same_sums(struct zijraduf_shape shape, const uint8_t *stripe, const uint64_t *places, uint8_t *spare)
{
    uint64_t n = shape.p - 1, m = data_count(shape);
    for (uint64_t i = 0; i < n; i++)
        put_sum_from(spare, i * shape.cell, stripe, places, m, i * shape.cell, shape.cell);
}
