/* Instructions: one call of a row, for what counts around it. */
#include "count.h"

#include "hand.h"
#include "libc.h"

/* Asks valgrind for something; without valgrind these instructions do nothing. */
static uint64_t request(uint64_t what, const char *text)
{
    volatile uint64_t words[6] = {what, (uint64_t)text};
    uint64_t result = 0;
    __asm__ volatile("rolq $3, %%rdi; rolq $13, %%rdi; rolq $61, %%rdi; rolq $51, %%rdi; xchgq %%rbx, %%rbx"
                     : "+d"(result) : "a"(words) : "cc", "memory");
    return result;
}

enum { VALGRIND = 0x1001, CALLGRIND_ZERO = 0x43540001, CALLGRIND_DUMP_AS = 0x43540003 };

/* The emulator's lines, one an instruction, go where these go; callgrind dumps a count.
 * The call before binds what is bound late and picks what is picked by the processor. The stack of a counted call
 * starts with a page: where it lies makes up to 0.8 % of difference. Not inlined: nothing is called as all else is. */
__attribute__((noinline)) static void count_one(const char *call, const char *who, void (*f)(uint8_t *), uint8_t *m)
{
    _Alignas(4096) char line[64];
    int begin = snprintf(line, sizeof line, "begin %s %s\n", call, who);
    f(m);
    if (request(VALGRIND, 0) != 0) {
        line[begin - 1] = 0;
        request(CALLGRIND_ZERO, 0);
        f(m);
        request(CALLGRIND_DUMP_AS, line);
        return;
    }
    write(1, line, begin);
    f(m);
    write(1, "end\n", 4);
}

static void do_nothing(uint8_t *m) { (void)m; }
void count_nothing(void) { count_one("-", "nothing", do_nothing, 0); }

void count_row(const struct program *program, const struct row *row)
{
    count_one(row->call, program->name, row->run, ready(row->state));
}

int is_too_long(const struct row *row) { return row->slow && hand.shape.p > 17 && request(VALGRIND, 0) == 0; }
