/* What a call can't do without, alone: the sums of a run, and copying the data. What a run adds to its sums is to list
 * the cells of its equations. */
#include "bare.h"

#include "hand.h"
#include "libc.h"
#include "memory.h"
#include "same.h"
#include "stripes.h"

static size_t all_data(void) { return hand.data_bytes; }
static size_t two_copies(void) { return 2 * hand.data_bytes; }
static void put_data(uint8_t *m) { fill(m, 2 * hand.data_bytes); }
static struct state data = {two_copies, put_data, 0};

static void sum_cells(uint8_t *m) { same_cells(hand.shape, m, hand.top_places, m + hand.length); }
static void sum_rows(uint8_t *m) { same_sums(hand.shape, m, hand.top_places, m + hand.length); }
static void copy_data(uint8_t *m) { memcpy(m + hand.data_bytes, m, hand.data_bytes); }

/* The sums are the row parity column, which comes right after the data, and no byte of the stripe changes. */
static int check_sums(const struct row *row, uint8_t *before, uint8_t *after)
{
    (void)row;
    return memcmp(after + hand.length, before + hand.data_bytes, hand.column_bytes) == 0 &&
           memcmp(after, before, hand.length) == 0;
}

static int check_copy(const struct row *row, uint8_t *before, uint8_t *after)
{
    (void)row;
    return memcmp(after, before, hand.data_bytes) == 0 &&
           memcmp(after + hand.data_bytes, before, hand.data_bytes) == 0;
}

const struct row leaf_rows[] = {
    {"run", has_spare, &spared, sum_cells, all_data, .check = check_sums},
    {"run-rows", has_spare, &spared, sum_cells, all_data, .check = check_sums},
    {0},
};
const struct row sums_rows[] = {
    {"run", has_spare, &spared, sum_rows, all_data, .check = check_sums},
    {"run-rows", has_spare, &spared, sum_rows, all_data, .check = check_sums},
    {0},
};
const struct row memcpy_rows[] = {{"encode", always, &data, copy_data, all_data, .check = check_copy}, {0}};
