/* Jerasure with RDP's bit matrix: a device is a column, a packet is a cell. */
#include "hand.h"
#include "libc.h"
#include "memory.h"
#include "open.h"
#include "peers.h"
#include "stripes.h"

static int bits[2 * 30 * 30 * 30];
static int **schedule, **decode_cache[32 * 32];
static int **(*make_schedule)(int k, int m, int w, int *matrix);
static int (*invert_bits)(int *matrix, int *inverse, int rows);
static void (*schedule_encode)(int k, int m, int w, int **schedule, char **data, char **coding, int size, int packet);
static int (*decode_cached)(int k, int m, int w, int ***cache, int *erasures, char **data, char **coding, int size,
                            int packet);
static int (*decode_lazy)(int k, int m, int w, int *matrix, int *erasures, char **data, char **coding, int size,
                          int packet, int smart);

static int **made(int **new_schedule)
{
    if (new_schedule == 0)
        wrong("jerasure", "no schedule");
    return new_schedule;
}

/* A diagonal's row parity cell stands for that row's data. */
static void make_bits(void)
{
    uint64_t p = hand.shape.p, w = p - 1, k = hand.sources, line = k * w;
    for (uint64_t q = 0; q < w; q++)
        for (uint64_t j = 0; j < k; j++)
            for (uint64_t i = 0; i < w; i++) {
                bits[q * line + j * w + i] = i == q;
                bits[(w + q) * line + j * w + i] = (i + j) % p == q || i == q + 1;
            }
}

static int have_jerasure(void)
{
    static const struct function list[] = {
        {&make_schedule, "jerasure_smart_bitmatrix_to_schedule"}, {&invert_bits, "jerasure_invert_bitmatrix"},
        {&schedule_encode, "jerasure_schedule_encode"}, {&decode_cached, "jerasure_schedule_decode_cache"},
        {&decode_lazy, "jerasure_schedule_decode_lazy"}, {0, 0},
    };
    if (schedule != 0)
        return 1;
    if (hand.shape.code != 1 || !open_functions("libJerasure.so.2", list))
        return 0;
    make_bits();
    schedule = made(make_schedule(hand.sources, 2, hand.rows, bits));
    return 1;
}

/* The entry of Jerasure's cache that is used, made as Jerasure makes all of them: parity in the place of the devices
 * gone, and the first rows of the inverse. */
static int make_cached(uint64_t lost)
{
    uint64_t w = hand.rows, k = hand.sources, line = k * w;
    int ***entry = &decode_cache[lost - 1];
    if (*entry != 0)
        return 1;
    int *left = calloc(line * line, sizeof(int)), *inverse = calloc(line * line, sizeof(int));
    if (left == 0 || inverse == 0)
        wrong("jerasure", "no memory");
    memcpy(left, bits, lost * w * line * sizeof(int));
    for (uint64_t n = lost * w; n < line; n++)
        left[n * line + n] = 1;
    if (invert_bits(left, inverse, line) != 0)
        wrong("jerasure", "its matrix has no inverse");
    *entry = made(make_schedule(k, lost, w, inverse));
    free(left);
    free(inverse);
    return 1;
}

static int have_two(void) { return have_jerasure() && make_cached(2); }
static int have_one(void) { return have_jerasure() && make_cached(1); }

static size_t devices_data(void) { return hand.data_bytes; }
static char **devices_at(uint8_t *m) { return (char **)vectors_at(m, hand.column_bytes); }

static void encode_devices(uint8_t *m)
{
    char **devices = devices_at(m);
    int w = hand.rows, k = hand.sources;
    schedule_encode(k, 2, w, schedule, devices, devices + k, hand.column_bytes, hand.shape.cell);
    answer.refusal = 0;
}

/* The cache is indexed by the two devices that are lost, or by one twice. */
static int first_two[3] = {0, 1, -1}, first_one[2] = {0, -1};

static void cached_call(int *erasures, uint8_t *m)
{
    char **devices = devices_at(m);
    int w = hand.rows, k = hand.sources;
    answer.refusal = decode_cached(k, 2, w, decode_cache, erasures, devices, devices + k, hand.column_bytes,
                                   hand.shape.cell);
}

static void lazy_call(int *erasures, uint8_t *m)
{
    char **devices = devices_at(m);
    int w = hand.rows, k = hand.sources;
    answer.refusal = decode_lazy(k, 2, w, bits, erasures, devices, devices + k, hand.column_bytes, hand.shape.cell, 1);
}

static void cached_two(uint8_t *m) { cached_call(first_two, m); }
static void cached_one(uint8_t *m) { cached_call(first_one, m); }
static void lazy_two(uint8_t *m) { lazy_call(first_two, m); }
static void lazy_one(uint8_t *m) { lazy_call(first_one, m); }

const struct row jerasure_rows[] = {
    {"encode", have_jerasure, &any, encode_devices, devices_data, .slow = 0},
    {"two-columns", have_two, &two_lost, cached_two, devices_data, .slow = 1},
    {"one-column", have_one, &one_lost, cached_one, devices_data, .slow = 1},
    {0},
};
const struct row lazy_rows[] = {
    {"two-columns", have_jerasure, &two_lost, lazy_two, devices_data, .slow = 1},
    {"one-column", have_jerasure, &one_lost, lazy_one, devices_data, .slow = 1},
    {0},
};
