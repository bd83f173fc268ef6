/* How many cells a run reads. */
#ifndef READS_H
#define READS_H

#include "row.h"

/* All of them, and the most of one column. */
struct reads {
    uint64_t all, most;
};

struct reads cells_read(const struct row *run);

#endif
