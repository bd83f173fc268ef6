/* What is measured is right: every row is checked on the memory that is measured. That the C follows the rules is seen
 * by comparing it with the second program: here ours has to agree with the C, and both not to refuse. */
#include "check.h"

#include "hand.h"
#include "libc.h"
#include "memory.h"
#include "programs.h"

/* A call that answers nothing has refused, and gives 0. */
static struct answer answer_of(const struct row *row, uint8_t *m)
{
    answer.refusal = ~0ull;
    answer.value = 0;
    row->run(m);
    return (struct answer){answer.refusal, answer.value};
}

/* The same answer and the same bytes as ours, from the same memory. */
static int does_as_ours(const struct row *row, struct answer came, uint8_t *before, const uint8_t *after)
{
    const struct row *ours = find_row(programs[OURS].rows, row->call);
    struct answer own = answer_of(ours, before);
    uint64_t expected = ours->answer != 0 ? *ours->answer : own.value;
    return came.refusal == 0 && own.refusal == 0 && came.value == expected && own.value == expected &&
           memcmp(before, after, row->state->bytes()) == 0;
}

void check_row(const struct program *program, const struct row *row)
{
    size_t bytes = row->state->bytes();
    uint8_t *before = memory(bytes), *after = memory(bytes);
    row->state->prepare(before);
    memcpy(after, before, bytes);
    struct answer came = answer_of(row, after);
    if (!(row->check != 0 ? row->check(row, before, after) : does_as_ours(row, came, before, after)))
        wrong(program->name, row->call);
    free(before);
    free(after);
}
