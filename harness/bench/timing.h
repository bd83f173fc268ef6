/* Time: GB/s of data, warm and cold. */
#ifndef TIMING_H
#define TIMING_H

#include "row.h"

/* Sets how many bytes of other memory push all else out of the caches. */
void set_others(size_t bytes);
void time_row(const struct program *program, const struct row *row);

#endif
