/* What is measured: a row is one call of one program. */
#ifndef ROW_H
#define ROW_H

#include <stddef.h>
#include <stdint.h>

/* What memory holds before a call, of the shape at hand. The call may be made again on what it leaves: it then does as
 * much. `ready` is memory in this state, once it was asked for. */
struct state {
    size_t (*bytes)(void);
    void (*prepare)(uint8_t *m);
    uint8_t *ready;
};

struct row {
    const char *call;
    int (*have)(void); /* whether there is such a call for the shape at hand */
    struct state *state;
    void (*run)(uint8_t *m);
    size_t (*data)(void);   /* the data bytes of one call */
    const uint64_t *answer; /* the number to be answered, 0 by a call that gives none; where not told, that of ours */
    /* Whether the call did its work, from the memory before and after; where not told, the state is that of ours, and
     * the call has to do what ours does. */
    int (*check)(const struct row *row, uint8_t *before, uint8_t *after);
    int slow; /* takes more instructions for the larger primes than the emulator can write lines for */
};

/* Rows end with one that has no call. */
struct program {
    const char *name;
    const struct row *rows;
};

/* Memory in a state, made once. */
uint8_t *ready(struct state *state);

/* The row of a call, or none. */
const struct row *find_row(const struct row *rows, const char *call);

#endif
