/* The benchmark's driver: the library's calls beside the same algorithm in C and beside the peers, one stripe shape at
 * a time.
 *
 *     driver check CODE P CELL CALL..        check what is measured: nothing wrong is
 *     driver count CODE P CELL CALL..        one call of each, for what counts around it
 *     driver calls CODE P CELL CALL WHO N    N calls of one, for a counter around it
 *     driver time CODE P CELL BYTES CALL..   GB/s of data, warm, and cold: BYTES push out
 *     driver reads CODE P CELL CALL..        the distinct cells that runs read, and the most of one column
 *     driver stack                           the most stack that a call uses
 *
 * CODE is a number, with m data columns given the number, an m and that number: 1m4. CALL is a row of calls.c, WHO a
 * program of programs.c. Check lists who has which call, with its data bytes. */
#include "check.h"
#include "count.h"
#include "hand.h"
#include "libc.h"
#include "memory.h"
#include "programs.h"
#include "reads.h"
#include "stack.h"
#include "stripes.h"
#include "timing.h"

/* The calls at hand. */
static char **wanted;
static int wanted_count;

static int is_wanted(const char *call)
{
    for (int k = 0; k < wanted_count; k++)
        if (strcmp(wanted[k], call) == 0)
            return 1;
    return 0;
}

typedef void visit(const struct program *program, const struct row *row);

/* All rows of the calls at hand, call by call; not those that are too long to count, where they are to be counted. */
static void each_row(visit *visit_row, int to_count)
{
    for (const struct row *ours = programs[OURS].rows; ours->call != 0; ours++)
        for (int k = 0; is_wanted(ours->call) && k < PROGRAMS; k++) {
            const struct row *row = find_row(programs[k].rows, ours->call);
            if (row != 0 && !(to_count && is_too_long(row)) && row->have())
                visit_row(&programs[k], row);
        }
}

static void list_row(const struct program *program, const struct row *row)
{
    printf("%s %s %lu\n", row->call, program->name, row->data());
}

static void check_all(void)
{
    each_row(check_row, 0);
    each_row(list_row, 0);
}

static void reads_of(const char *call, uint64_t planned)
{
    const struct program *ours = &programs[OURS];
    struct reads came = cells_read(find_row(ours->rows, call));
    if (came.all != planned)
        wrong(ours->name, "a run reads other cells than its plan says");
    printf("%s %s %lu %lu\n", call, ours->name, came.all, came.most);
}

/* They are as many whatever the size of a cell. */
static void reads_all(void)
{
    struct zijraduf_shape shape = hand.shape;
    shape.cell = 1;
    set_shape(shape);
    if (is_wanted("run") && has_spare()) {
        reads_of("run", zijraduf_plan(hand.shape, hand.lost_column).reads);
        reads_of("run-rows", hand.sources * hand.rows);
    }
    if (is_wanted("run-balanced") && has_balance())
        reads_of("run-balanced", zijraduf_balanced_plan(hand.shape, hand.lost_column).reads);
}

/* ---- the command line ---- */

static uint64_t number(const char *word) { return strtoul(word, 0, 10); }

static struct zijraduf_shape shape_of(char **words)
{
    char *end;
    uint64_t code = strtoul(words[0], &end, 10), given = *end == 'm';
    return (struct zijraduf_shape){code, number(words[1]), number(words[2]), given, given ? number(end + 1) : 0};
}

/* Takes the calls from a word on. */
static int want(int from, int count, char **words)
{
    wanted = words + from;
    wanted_count = count - from;
    for (int k = from; k < count; k++)
        if (find_row(programs[OURS].rows, words[k]) == 0)
            return 0;
    return from < count;
}

static int make_calls(const char *call, const char *who, uint64_t n)
{
    const struct program *program = find_program(who);
    const struct row *row = program != 0 ? find_row(program->rows, call) : 0;
    if (row == 0 || !row->have())
        return 2;
    uint8_t *m = ready(row->state);
    for (uint64_t k = 0; k < n; k++)
        row->run(m);
    return 0;
}

int main(int count, char **words)
{
    const char *mode = count > 1 ? words[1] : "";
    fill(hand.new_bytes, sizeof hand.new_bytes);
    if (count == 2 && strcmp(mode, "stack") == 0)
        return stack_most();
    if (count < 6)
        return 2;
    set_shape(shape_of(words + 2));
    if (strcmp(mode, "calls") == 0 && count == 8)
        return make_calls(words[5], words[6], number(words[7]));
    int timed = strcmp(mode, "time") == 0;
    if (!want(timed ? 6 : 5, count, words))
        return 2;
    if (strcmp(mode, "check") == 0)
        check_all();
    else if (strcmp(mode, "count") == 0)
        count_nothing(), each_row(count_row, 1);
    else if (strcmp(mode, "reads") == 0)
        reads_all();
    else if (timed)
        set_others(number(words[5])), each_row(time_row, 0);
    else
        return 2;
    return 0;
}
