/* Time: GB/s of data, warm and cold. */
#include "timing.h"

#include "libc.h"
#include "memory.h"

static double now(void)
{
    struct timespec t;
    clock_gettime(CLOCK_MONOTONIC, &t);
    return t.tv_sec + t.tv_nsec / 1e9;
}

/* Seconds a call on one stripe, best of seven: each as many calls as take 10 ms. */
static double warm(void (*call)(uint8_t *), uint8_t *m)
{
    double least = 1e9;
    uint64_t turns = 1;
    for (int k = 0; k < 7;) {
        double start = now();
        for (uint64_t turn = 0; turn < turns; turn++)
            call(m);
        double took = now() - start;
        if (took < 0.01) {
            turns *= 2;
            continue;
        }
        if (took / turns < least)
            least = took / turns;
        k++;
    }
    return least;
}

static uint8_t *others;
static size_t others_bytes;
static volatile uint64_t others_sum;

void set_others(size_t bytes)
{
    others = memory(bytes);
    others_bytes = bytes;
    memset(others, 1, bytes);
}

static void push_out(void)
{
    uint64_t sum = 0;
    for (size_t i = 0; i < others_bytes; i += 64)
        sum += others[i];
    others_sum = sum;
}

/* Seconds a call on stripes in turn that are in no cache, best of five. */
static double cold(void (*call)(uint8_t *), uint8_t *m, size_t slot, size_t slots)
{
    double least = 1e9;
    for (int k = 0; k < 5; k++) {
        push_out();
        double start = now();
        for (size_t s = 0; s < slots; s++)
            call(m + s * slot);
        double took = (now() - start) / slots;
        if (took < least)
            least = took;
    }
    return least;
}

#define ARENA ((size_t)64 << 20)

/* Stripes in a state, one after another; made anew where the last row had another state. */
static uint8_t *stripes_in(struct state *state, size_t slot)
{
    static uint8_t *m;
    static struct state *last;
    if (m == 0)
        m = memory(ARENA);
    if (last != state) {
        state->prepare(m);
        for (size_t s = 1; s < ARENA / slot; s++)
            memcpy(m + s * slot, m, slot);
        last = state;
    }
    return m;
}

/* A round over cold stripes ends after some 100 ms, for those that take long. */
void time_row(const struct program *program, const struct row *row)
{
    size_t slot = (row->state->bytes() + 4095) / 4096 * 4096, slots = ARENA / slot;
    uint8_t *m = stripes_in(row->state, slot);
    double w = warm(row->run, m);
    size_t few = 1 + 0.1 / w;
    double c = cold(row->run, m, slot, few < slots ? few : slots);
    printf("%s %s %.3f %.3f\n", row->call, program->name, row->data() / w / 1e9, row->data() / c / 1e9);
}
