/* A row by the name of its call, and the memory that it is measured on. */
#include "row.h"

#include "libc.h"
#include "memory.h"

uint8_t *ready(struct state *state)
{
    if (state->ready == 0) {
        state->ready = memory(state->bytes());
        state->prepare(state->ready);
    }
    return state->ready;
}

const struct row *find_row(const struct row *rows, const char *call)
{
    while (rows->call != 0 && strcmp(rows->call, call) != 0)
        rows++;
    return rows->call != 0 ? rows : 0;
}
