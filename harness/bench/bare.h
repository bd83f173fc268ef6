/* What a call can't do without, alone: the sums of a run, and copying the data. */
#ifndef BARE_H
#define BARE_H

#include "row.h"

extern const struct row leaf_rows[], sums_rows[], memcpy_rows[];

#endif
