/* The peers. They are opened at run time, so that the driver runs without them too. */
#ifndef PEERS_H
#define PEERS_H

#include "row.h"

extern const struct row isal_sse_rows[], isal_rows[], jerasure_rows[], lazy_rows[], snapraid_rows[];

#endif
