/* What is measured is right: every row is checked on the memory that is measured. */
#ifndef CHECK_H
#define CHECK_H

#include "row.h"

/* Ends the program where a call does not do its work. The C has every call of ours, and has to do the same. */
void check_row(const struct program *program, const struct row *row);

#endif
