/* The same algorithm in C: what the library's calls are held to. With AS_EXPORTS its calls have the names of the
 * library's exports and can be linked in the library's place. */
#ifndef SAME_H
#define SAME_H

#include "zijraduf.h"

#ifdef AS_EXPORTS
#define SAME(call) zijraduf_##call
#else
#define SAME(call) same_##call
#endif

typeof(zijraduf_encode) SAME(encode);
typeof(zijraduf_broken) SAME(broken);
typeof(zijraduf_write) SAME(write);
typeof(zijraduf_rebuild_cells) SAME(rebuild_cells);
typeof(zijraduf_rebuild_columns) SAME(rebuild_columns);
typeof(zijraduf_bad_column) SAME(bad_column);
typeof(zijraduf_plan) SAME(plan);
typeof(zijraduf_balanced_plan) SAME(balanced_plan);
typeof(zijraduf_run) SAME(run);
typeof(zijraduf_show) SAME(show);
typeof(zijraduf_job) SAME(job);

/* The sums alone that a whole run of an RDP stripe has to make: as many, of as many cells each. Where the cells of
 * row 0 start is ready made. */
void same_cells(struct zijraduf_shape shape, const uint8_t *stripe, const uint64_t *places, uint8_t *spare);
void same_sums(struct zijraduf_shape shape, const uint8_t *stripe, const uint64_t *places, uint8_t *spare);

#endif
