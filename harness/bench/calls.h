/* The calls of the library, and of the same algorithm in C. */
#ifndef CALLS_H
#define CALLS_H

#include "row.h"

extern const struct row zijraduf_rows[], same_rows[];

#endif
