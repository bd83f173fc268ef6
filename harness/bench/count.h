/* Instructions: one call of a row, for what counts around it. */
#ifndef COUNT_H
#define COUNT_H

#include "row.h"

/* What the counting itself takes. */
void count_nothing(void);
void count_row(const struct program *program, const struct row *row);

/* Whether a row takes too many instructions for what counts here. */
int is_too_long(const struct row *row);

#endif
