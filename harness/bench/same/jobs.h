/* Jobs. */
#ifndef SAME_JOBS_H
#define SAME_JOBS_H

#include "../same.h"
#include "rebuild.h"
#include "xor.h"

#define JOB_LOST 2048
#define JOB_BYTES 32768

/* Bytes that are still to be read, or the content of a field. */
struct bytes {
    const uint8_t *at;
    size_t count;
};

struct job {
    struct bytes code, p, cell, lost, stripe;
};

/* Of two bytes, high byte first. */
static uint64_t number_at(const uint8_t *at) { return at[0] * 256u + at[1]; }

/* Takes the next field if it has this tag, a length within the bounds, and is all there. */
static int take_field(struct bytes *rest, uint8_t tag, size_t least, size_t most, struct bytes *field)
{
    if (rest->count < 3 || rest->at[0] != tag)
        return 0;
    size_t n = number_at(rest->at + 1);
    if (n < least || most < n || rest->count - 3 < n)
        return 0;
    *field = (struct bytes){rest->at + 3, n};
    *rest = (struct bytes){rest->at + 3 + n, rest->count - 3 - n};
    return 1;
}

/* The cell size may be absent: then it is 1,024. */
static int take_cell(struct bytes *rest, struct bytes *cell)
{
    static const uint8_t usual[2] = {1024 >> 8, 1024 & 255};
    *cell = (struct bytes){usual, 2};
    return rest->count == 0 || rest->at[0] != 3 || take_field(rest, 3, 2, 2, cell);
}

static int read_job(struct bytes rest, struct job *job)
{
    return take_field(&rest, 1, 1, 1, &job->code) && take_field(&rest, 2, 1, 1, &job->p) &&
           take_cell(&rest, &job->cell) && take_field(&rest, 4, 0, 2 * JOB_LOST, &job->lost) &&
           job->lost.count % 2 == 0 && take_field(&rest, 5, 0, JOB_BYTES, &job->stripe) && rest.count == 0;
}

/* Copies the job's stripe and rebuilds it there. */
static uint64_t rebuild_job(const struct job *job, uint8_t stripe[JOB_BYTES])
{
    uint64_t lost[JOB_LOST];
    size_t count = job->lost.count / 2;
    for (size_t k = 0; k < count; k++)
        lost[k] = number_at(job->lost.at + 2 * k);
    put_run(stripe, 0, job->stripe.at, job->stripe.count);
    struct zijraduf_shape shape = {.code = job->code.at[0], .p = job->p.at[0], .cell = number_at(job->cell.at)};
    return SAME(rebuild_cells)(shape, stripe, job->stripe.count, lost, count);
}

/* The fields of an answer, where there is room for all of them. Gives how long they are. */
static size_t put_answer(uint64_t refusal, const uint8_t *stripe, size_t n, uint8_t *output, size_t room)
{
    const uint8_t head[7] = {6, 0, 1, refusal, 5, n >> 8, n};
    size_t start = refusal == 0 ? 7 : 4, rest = refusal == 0 ? n : 0;
    if (room < start + rest)
        return start + rest;
    put_run(output, 0, head, start);
    put_run(output, start, stripe, rest);
    return start + rest;
}

size_t SAME(job)(const uint8_t *input, size_t length, uint8_t *output, size_t room)
{
    struct job job;
    uint8_t stripe[JOB_BYTES];
    if (!read_job((struct bytes){input, length}, &job))
        return put_answer(13, stripe, 0, output, room);
    return put_answer(rebuild_job(&job, stripe), stripe, job.stripe.count, output, room);
}

#endif
