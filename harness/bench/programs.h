/* All that is measured: ours first, the others beside it. */
#ifndef PROGRAMS_H
#define PROGRAMS_H

#include "row.h"

enum { OURS, PROGRAMS = 10 };
extern const struct program programs[PROGRAMS];

/* A program by its name, or none. */
const struct program *find_program(const char *name);

#endif
