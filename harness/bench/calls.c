/* The calls of the library, and of the same algorithm in C. This file is compiled twice: with AS_EXPORTS for the
 * library, whose calls SAME(..) then are, and without for the C. A new call is a function and a row here. */
#include "calls.h"

#include "hand.h"
#include "same.h"
#include "stripes.h"

static size_t data_bytes(void) { return hand.data_bytes; }
static size_t cell_bytes(void) { return hand.shape.cell; }

static void take_count(struct zijraduf_count came)
{
    answer.refusal = came.refusal;
    answer.value = came.count;
}

static void encode(uint8_t *m) { answer.refusal = SAME(encode)(hand.shape, m, hand.length); }
static void broken(uint8_t *m) { take_count(SAME(broken)(hand.shape, m, hand.length)); }

static void write_in(uint8_t *m, uint64_t column)
{
    take_count(SAME(write)(hand.shape, m, hand.length, hand.row, column, hand.new_bytes, hand.shape.cell));
}

static void write_cell(uint8_t *m) { write_in(m, hand.column); }
static void write_many(uint8_t *m) { write_in(m, hand.many_column); }

static void rebuild_columns(uint8_t *m, uint64_t a, uint64_t b)
{
    answer.refusal = SAME(rebuild_columns)(hand.shape, m, hand.length, a, b);
}

static void rebuild_cells(uint8_t *m, size_t count)
{
    answer.refusal = SAME(rebuild_cells)(hand.shape, m, hand.length, hand.lost_cells, count);
}

static void two_columns(uint8_t *m) { rebuild_columns(m, 0, 1); }
static void one_column(uint8_t *m) { rebuild_columns(m, 0, 0); }
static void four_cells(uint8_t *m) { rebuild_cells(m, 4); }
static void clean(uint8_t *m) { rebuild_cells(m, 0); }

/* No column is 0, and the bad column is another. */
static void bad_column(uint8_t *m)
{
    struct zijraduf_finding came = SAME(bad_column)(hand.shape, m, hand.length);
    answer.refusal = came.refusal;
    answer.value = came.column;
}

static void run_all(uint8_t *m, uint64_t plan)
{
    take_count(SAME(run)(hand.shape, m, hand.length, hand.lost_column, plan, m + hand.length, hand.column_bytes, 0,
                         hand.rows));
}

static void run_plan(uint8_t *m) { run_all(m, hand.plan); }
static void run_rows(uint8_t *m) { run_all(m, 0); }
static void run_balanced(uint8_t *m) { run_all(m, hand.balanced_plan); }

static void take_plan(struct zijraduf_read_plan came)
{
    answer.refusal = came.refusal;
    answer.value = came.rows ^ came.reads << 32;
}

static void plan_column(uint8_t *m)
{
    (void)m;
    take_plan(SAME(plan)(hand.shape, hand.lost_column));
}

static void balanced_plan(uint8_t *m)
{
    (void)m;
    take_plan(SAME(balanced_plan)(hand.shape, hand.lost_column));
}

/* The last cell of the lost column, when all rows are done. */
static void show_last(uint8_t *m)
{
    struct zijraduf_part came = SAME(show)(hand.shape, m, hand.length, m + hand.length, hand.column_bytes,
                                           hand.lost_column, hand.rows, hand.rows - 1, hand.lost_column);
    answer.refusal = came.refusal;
    answer.value = came.buffer ^ came.offset << 8 ^ came.length << 32;
}

/* A refusal is the whole answer then, of four bytes. */
static void do_job(uint8_t *m)
{
    size_t n = SAME(job)(m, job_length(), m + ZIJRADUF_JOB_LONGEST, ZIJRADUF_ANSWER_LONGEST);
    answer.refusal = n == 4;
    answer.value = n;
}

static const uint64_t none = 0;

const struct row SAME(rows)[] = {
    {"encode", always, &any, encode, data_bytes, .answer = &none},
    {"broken", always, &encoded, broken, data_bytes, .answer = &none},
    {"write", always, &encoded, write_cell, cell_bytes, .answer = &hand.parities},
    {"write-many", has_many, &encoded, write_many, cell_bytes, .answer = &hand.shape.p},
    {"two-columns", always, &two_lost, two_columns, data_bytes, .answer = &none},
    {"one-column", always, &one_lost, one_column, data_bytes, .answer = &none},
    {"four-cells", always, &four_lost, four_cells, data_bytes, .answer = &none},
    {"clean", always, &encoded, clean, data_bytes, .answer = &none},
    {"bad-column", always, &damaged, bad_column, data_bytes, .answer = &hand.bad_column},
    {"run", has_spare, &spared, run_plan, data_bytes, .answer = &hand.rows},
    {"run-rows", has_spare, &spared, run_rows, data_bytes, .answer = &hand.rows},
    {"run-balanced", has_balance, &spared, run_balanced, data_bytes, .answer = &hand.rows},
    {"balanced-plan", has_balance, &spared, balanced_plan, data_bytes, .answer = 0},
    {"plan", has_spare, &spared, plan_column, data_bytes, .answer = 0},
    {"show", has_spare, &spared, show_last, data_bytes, .answer = 0},
    {"job", has_job, &job_lost, do_job, data_bytes, .answer = 0},
    {"deciding", always, &two_lost, two_columns, data_bytes, .answer = &none},
    {0},
};
