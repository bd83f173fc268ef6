/* States of a stripe. */
#ifndef STRIPES_H
#define STRIPES_H

#include "row.h"

/* Any bytes; encoded; encoded with other bytes in the first two columns, in the first column, in the four lost cells,
 * in the bad column; encoded, with a spare column after it. */
extern struct state any, encoded, two_lost, one_lost, four_lost, damaged, spared;

/* A job of four lost cells, of so many bytes; the room for its answer is behind the longest job. */
extern struct state job_lost;
size_t job_length(void);

/* Whether the shape has such a state: only RDP has a spare, a job gives no m, and the longest answer holds only short
 * stripes. Of EVENODD many parity cells depend on some cells. RDP with all data columns has balanced plans where p is
 * 3, 7, 11, 19, 23 or 31: those that are 3 mod 4. */
int always(void);
int has_many(void);
int has_spare(void);
int has_balance(void);
int has_job(void);

#endif
