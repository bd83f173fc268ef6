/* Runs of bytes, summed in blocks. */
#ifndef SAME_XOR_H
#define SAME_XOR_H

#include "zijraduf.h"

#define BLOCK 128

static void add_bytes(uint8_t sum[BLOCK], const uint8_t *s, size_t at, size_t n)
{
    for (size_t i = 0; i < n; i++)
        sum[i] ^= s[at + i];
}

static void add_runs(uint8_t sum[BLOCK], const uint8_t *s, const uint64_t *places, uint64_t count, size_t at, size_t n)
{
    for (uint64_t k = 0; k < count; k++)
        add_bytes(sum, s, places[k] + at, n);
}

/* Into a block of zeros. It starts from the last run. */
static void sum_runs(uint8_t sum[BLOCK], const uint8_t *s, const uint64_t *places, uint64_t count, size_t at, size_t n)
{
    if (count == 0)
        return;
    uint64_t last = count - 1;
    add_bytes(sum, s, places[last] + at, n);
    add_runs(sum, s, places, last, at, n);
}

static void put_bytes(uint8_t *s, size_t at, const uint8_t block[BLOCK], size_t n)
{
    for (size_t i = 0; i < n; i++)
        s[at + i] = block[i];
}

static int all_zero(const uint8_t block[BLOCK], size_t n)
{
    uint8_t bits = 0;
    for (size_t i = 0; i < n; i++)
        bits |= block[i];
    return bits == 0;
}

/* The last block of a run ends with the run: it may overlap the one before. */
static size_t block_at(size_t done, size_t n)
{
    return n - BLOCK < done ? n - BLOCK : done;
}

static void put_block(uint8_t *s, const uint64_t *places, uint64_t count, size_t to, size_t at, size_t n)
{
    uint8_t sum[BLOCK] = {0};
    add_runs(sum, s, places, count, at, n);
    put_bytes(s, to + at, sum, n);
}

static void put_sum(uint8_t *s, const uint64_t *places, uint64_t count, size_t to, size_t n)
{
    if (n < BLOCK) {
        put_block(s, places, count, to, 0, n);
        return;
    }
    size_t done = 0;
    while (done < n) {
        size_t at = block_at(done, n);
        put_block(s, places, count, to, at, BLOCK);
        done = at + BLOCK;
    }
}

static int is_sum_block(const uint8_t *s, const uint64_t *places, uint64_t count, size_t to, size_t at, size_t n)
{
    uint8_t sum[BLOCK] = {0};
    add_bytes(sum, s, to + at, n);
    add_runs(sum, s, places, count, at, n);
    return all_zero(sum, n);
}

static int is_sum(const uint8_t *s, const uint64_t *places, uint64_t count, size_t to, size_t n)
{
    if (n < BLOCK)
        return is_sum_block(s, places, count, to, 0, n);
    size_t done = 0;
    while (done < n) {
        size_t at = block_at(done, n);
        if (!is_sum_block(s, places, count, to, at, BLOCK))
            return 0;
        done = at + BLOCK;
    }
    return 1;
}

/* The same where the run `more` is a part of the sum. */
static int is_sum_block_with(const uint8_t *s, const uint64_t *places, uint64_t count, size_t to,
                             const uint8_t *more, size_t at, size_t n)
{
    uint8_t sum[BLOCK] = {0};
    add_bytes(sum, s, to + at, n);
    add_bytes(sum, more, at, n);
    add_runs(sum, s, places, count, at, n);
    return all_zero(sum, n);
}

static int is_sum_with(const uint8_t *s, const uint64_t *places, uint64_t count, size_t to,
                       const uint8_t *more, size_t n)
{
    if (n < BLOCK)
        return is_sum_block_with(s, places, count, to, more, 0, n);
    size_t done = 0;
    while (done < n) {
        size_t at = block_at(done, n);
        if (!is_sum_block_with(s, places, count, to, more, at, BLOCK))
            return 0;
        done = at + BLOCK;
    }
    return 1;
}

static void put_block_from(uint8_t *d, size_t to, const uint8_t *s, const uint64_t *places, uint64_t count, size_t at,
                           size_t n)
{
    uint8_t sum[BLOCK] = {0};
    sum_runs(sum, s, places, count, at, n);
    put_bytes(d, to, sum, n);
}

static void put_sum_from(uint8_t *d, size_t to, const uint8_t *s, const uint64_t *places, uint64_t count, size_t at,
                         size_t n)
{
    if (n < BLOCK) {
        put_block_from(d, to, s, places, count, at, n);
        return;
    }
    size_t done = 0;
    while (done < n) {
        size_t next = block_at(done, n);
        put_block_from(d, to + next, s, places, count, at + next, BLOCK);
        done = next + BLOCK;
    }
}

/* The same, and says whether the bytes stored are all zero. Apart, since a function that is called from several places
 * can't drop an answer that only one of them asks for. */
static int put_block_zero(uint8_t *d, size_t to, const uint8_t *s, const uint64_t *places, uint64_t count, size_t at,
                          size_t n)
{
    uint8_t sum[BLOCK] = {0};
    sum_runs(sum, s, places, count, at, n);
    put_bytes(d, to, sum, n);
    return all_zero(sum, n);
}

static int put_sum_zero(uint8_t *d, size_t to, const uint8_t *s, const uint64_t *places, uint64_t count, size_t at,
                        size_t n)
{
    if (n < BLOCK)
        return put_block_zero(d, to, s, places, count, at, n);
    int zero = 1;
    size_t done = 0;
    while (done < n) {
        size_t next = block_at(done, n);
        zero &= put_block_zero(d, to + next, s, places, count, at + next, BLOCK);
        done = next + BLOCK;
    }
    return zero;
}

static uint8_t sum_byte(const uint8_t *s, const uint64_t *places, uint64_t count, size_t t)
{
    uint8_t sum = 0;
    for (uint64_t k = 0; k < count; k++)
        sum ^= s[places[k] + t];
    return sum;
}

static size_t nonzero_byte(const uint8_t block[BLOCK], size_t n)
{
    size_t i = 0;
    while (i < n && block[i] == 0)
        i++;
    return i;
}

static size_t nonzero_block(const uint8_t *s, const uint64_t *places, uint64_t count, size_t at, size_t n)
{
    uint8_t sum[BLOCK] = {0};
    sum_runs(sum, s, places, count, at, n);
    return all_zero(sum, n) ? n : nonzero_byte(sum, n);
}

static size_t nonzero_at(const uint8_t *s, const uint64_t *places, uint64_t count, size_t n)
{
    if (n < BLOCK)
        return nonzero_block(s, places, count, 0, n);
    size_t done = 0;
    while (done < n) {
        size_t at = block_at(done, n);
        size_t i = nonzero_block(s, places, count, at, BLOCK);
        if (i < BLOCK)
            return at + i;
        done = at + BLOCK;
    }
    return n;
}

static void add_block_sum(uint8_t *d, size_t to, const uint8_t *s, const uint64_t *places, uint64_t count, size_t at,
                          size_t n)
{
    uint8_t sum[BLOCK] = {0};
    add_bytes(sum, d, to, n);
    add_runs(sum, s, places, count, at, n);
    put_bytes(d, to, sum, n);
}

static void add_sum(uint8_t *d, size_t to, const uint8_t *s, const uint64_t *places, uint64_t count, size_t at,
                    size_t n)
{
    if (count == 0)
        return;
    size_t done = 0;
    while (BLOCK <= n - done) {
        add_block_sum(d, to + done, s, places, count, at + done, BLOCK);
        done += BLOCK;
    }
    if (done < n)
        add_block_sum(d, to + done, s, places, count, at + done, n - done);
}

/* The run `from` of n bytes XORed into the run `to`. Says whether that is all zero now. */
static int add_block_zero(uint8_t *d, size_t to, const uint8_t *from, size_t at, size_t n)
{
    uint8_t sum[BLOCK] = {0};
    add_bytes(sum, d, to, n);
    add_bytes(sum, from, at, n);
    put_bytes(d, to, sum, n);
    return all_zero(sum, n);
}

static int add_run_zero(uint8_t *d, size_t to, const uint8_t *from, size_t n)
{
    int zero = 1;
    size_t done = 0;
    while (BLOCK <= n - done) {
        zero &= add_block_zero(d, to + done, from, done, BLOCK);
        done += BLOCK;
    }
    return done < n ? zero & add_block_zero(d, to + done, from, done, n - done) : zero;
}

static void add_block_difference(uint8_t *s, size_t to, size_t from, const uint8_t *bytes, size_t at, size_t n)
{
    uint8_t sum[BLOCK] = {0};
    add_bytes(sum, s, to + at, n);
    add_bytes(sum, s, from + at, n);
    add_bytes(sum, bytes, at, n);
    put_bytes(s, to + at, sum, n);
}

static void add_difference(uint8_t *s, size_t to, size_t from, const uint8_t *bytes, size_t n)
{
    size_t done = 0;
    while (BLOCK <= n - done) {
        add_block_difference(s, to, from, bytes, done, BLOCK);
        done += BLOCK;
    }
    add_block_difference(s, to, from, bytes, done, n - done);
}

static void put_run(uint8_t *s, size_t to, const uint8_t *bytes, size_t n)
{
    for (size_t i = 0; i < n; i++)
        s[to + i] = bytes[i];
}

#endif
