/* Memory and what is put into it. */
#ifndef MEMORY_H
#define MEMORY_H

#include <stddef.h>
#include <stdint.h>

/* Whole pages, from the start of one. */
uint8_t *memory(size_t bytes);

/* Bytes that repeat only after 65,521, a prime: no two cells are alike. */
void fill(uint8_t *m, size_t bytes);

/* Changes every byte; a second time changes them back. */
void damage(uint8_t *m, size_t bytes);

/* Peers take pointers to vectors. These lie one after another; asked again for the same, nothing is done. */
enum { VECTORS = 33 };
static inline void **vectors_at(uint8_t *m, size_t bytes)
{
    static void *at[VECTORS];
    if (at[0] != m || at[1] != m + bytes)
        for (size_t k = 0; k < VECTORS; k++)
            at[k] = m + k * bytes;
    return at;
}

#endif
