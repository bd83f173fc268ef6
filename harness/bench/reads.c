/* How many cells a run reads, by watching it: the cells of the stripe whose change changes the spare. Each row of the
 * spare is the XOR of distinct cells, so that no change of a cell that is read goes unseen. */
#include "reads.h"

#include "hand.h"
#include "libc.h"
#include "memory.h"

struct reads cells_read(const struct row *run)
{
    struct reads reads = {0, 0};
    uint64_t cell = hand.shape.cell, bytes = hand.column_bytes;
    uint8_t *m = memory(run->state->bytes()), *spare = m + hand.length, *right = memory(bytes);
    run->state->prepare(m);
    run->run(m);
    memcpy(right, spare, bytes);
    for (uint64_t column = 0; column < hand.length; column += bytes) {
        uint64_t count = 0;
        for (uint64_t at = column; at < column + bytes; at += cell) {
            damage(m + at, cell);
            run->run(m);
            count += memcmp(spare, right, bytes) != 0;
            damage(m + at, cell);
        }
        reads.all += count;
        if (reads.most < count)
            reads.most = count;
    }
    free(m);
    free(right);
    return reads;
}
