/* All that is measured: ours first, the others beside it. */
#include "programs.h"

#include "bare.h"
#include "calls.h"
#include "libc.h"
#include "peers.h"

const struct program programs[PROGRAMS] = {
    {"ours", zijraduf_rows}, {"c", same_rows},     {"leaf", leaf_rows},         {"sums", sums_rows},
    {"isal-sse", isal_sse_rows}, {"isal", isal_rows}, {"jerasure", jerasure_rows}, {"lazy", lazy_rows},
    {"snapraid", snapraid_rows}, {"memcpy", memcpy_rows},
};

const struct program *find_program(const char *name)
{
    for (int k = 0; k < PROGRAMS; k++)
        if (strcmp(programs[k].name, name) == 0)
            return &programs[k];
    return 0;
}
