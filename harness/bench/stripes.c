/* States of a stripe. The C encodes what has to be encoded. */
#include "stripes.h"

#include "hand.h"
#include "libc.h"
#include "memory.h"
#include "same.h"

static size_t stripe_bytes(void) { return hand.length; }
static size_t spared_bytes(void) { return hand.length + hand.column_bytes; }
static size_t job_bytes(void) { return ZIJRADUF_JOB_LONGEST + ZIJRADUF_ANSWER_LONGEST; }

int always(void) { return 1; }
int has_many(void) { return hand.shape.code == 4; }
int has_spare(void) { return hand.shape.code == 1; }
int has_balance(void) { return has_spare() && hand.shape.p % 4 == 3 && hand.sources == hand.shape.p - 1; }
int has_job(void) { return !hand.shape.data_given && hand.length + 7 <= ZIJRADUF_ANSWER_LONGEST; }

static void put_any(uint8_t *m) { fill(m, hand.length); }

static void put_encoded(uint8_t *m)
{
    fill(m, hand.length);
    same_encode(hand.shape, m, hand.length);
}

static void lose_column(uint8_t *m, uint64_t column) { damage(m + column * hand.column_bytes, hand.column_bytes); }

static void put_two_lost(uint8_t *m)
{
    put_encoded(m);
    lose_column(m, 0);
    lose_column(m, 1);
}

static void put_one_lost(uint8_t *m)
{
    put_encoded(m);
    lose_column(m, 0);
}

static void put_four_lost(uint8_t *m)
{
    put_encoded(m);
    for (int k = 0; k < 4; k++)
        damage(m + hand.lost_cells[k] * hand.shape.cell, hand.shape.cell);
}

static void put_damaged(uint8_t *m)
{
    put_encoded(m);
    lose_column(m, hand.bad_column);
}

static void put_spared(uint8_t *m)
{
    put_encoded(m);
    fill(m + hand.length, hand.column_bytes);
}

/* The fields before the stripe: code, p, cell size, four lost cells, the stripe's tag and length. */
enum { JOB_HEAD = 27 };
size_t job_length(void) { return JOB_HEAD + hand.length; }

static uint8_t *put_number(uint8_t *m, uint64_t number)
{
    m[0] = number >> 8, m[1] = number;
    return m + 2;
}

static void put_job(uint8_t *m)
{
    const uint8_t code_and_p[8] = {1, 0, 1, hand.shape.code, 2, 0, 1, hand.shape.p};
    fill(m, job_bytes());
    memcpy(m, code_and_p, 8);
    m[8] = 3;
    put_number(put_number(m + 9, 2), hand.shape.cell);
    m[13] = 4;
    uint8_t *at = put_number(m + 14, 8);
    for (int k = 0; k < 4; k++)
        at = put_number(at, hand.lost_cells[k]);
    *at = 5;
    put_four_lost(put_number(at + 1, hand.length));
}

struct state any = {stripe_bytes, put_any, 0}, encoded = {stripe_bytes, put_encoded, 0};
struct state two_lost = {stripe_bytes, put_two_lost, 0}, one_lost = {stripe_bytes, put_one_lost, 0};
struct state four_lost = {stripe_bytes, put_four_lost, 0}, damaged = {stripe_bytes, put_damaged, 0};
struct state spared = {spared_bytes, put_spared, 0}, job_lost = {job_bytes, put_job, 0};
