/* Stack: the most that each call of the library uses. A call runs on a painted stack of its own. */
#include "stack.h"

#include "hand.h"
#include "libc.h"
#include "memory.h"
#include "programs.h"

#define STACK (1 << 20)
#define PAINT 0xA5

static uint8_t *stack_memory;
static void (*stack_call)(uint8_t *);
__attribute__((noinline)) static void stack_run(void) { stack_call(stack_memory); }
static void stack_nothing(uint8_t *m) { (void)m; }

static size_t stack_used(uint8_t *stack, void (*call)(uint8_t *))
{
    stack_call = call;
    memset(stack, PAINT, STACK);
    __asm__ volatile("movq %%rsp, %%rbx\n\tmovq %0, %%rsp\n\tcall *%1\n\tmovq %%rbx, %%rsp"
                     :: "r"(stack + STACK), "r"(stack_run)
                     : "rax", "rbx", "rcx", "rdx", "rsi", "rdi", "r8", "r9", "r10", "r11", "xmm0", "xmm1", "xmm2",
                       "xmm3", "xmm4", "xmm5", "xmm6", "xmm7", "xmm8", "xmm9", "xmm10", "xmm11", "xmm12", "xmm13",
                       "xmm14", "xmm15", "memory", "cc");
    size_t clean = 0;
    while (clean < STACK && stack[clean] == PAINT)
        clean++;
    return STACK - clean;
}

/* The call before binds what is bound late. */
static size_t stack_of(const struct row *row, uint8_t *stack)
{
    stack_memory = memory(row->state->bytes());
    row->state->prepare(stack_memory);
    row->run(stack_memory);
    size_t used = stack_used(stack, row->run) - stack_used(stack, stack_nothing);
    free(stack_memory);
    return used;
}

/* Over all shapes that have the call; RDP with half of its data columns too. */
static size_t most_of(const struct row *row, uint8_t *stack)
{
    static const uint64_t codes[] = {1, 1, 2, 3, 4}, primes[] = {3, 5, 7, 17, 31};
    static const uint64_t cells[] = {1, 100, 512, 1000, 4096};
    size_t most = 0;
    for (int c = 0; c < 5; c++)
        for (int k = 0; k < 25; k++) {
            uint64_t p = primes[k / 5];
            set_shape((struct zijraduf_shape){codes[c], p, cells[k % 5], c == 0, p / 2});
            size_t used = row->have() ? stack_of(row, stack) : 0;
            if (used > most)
                most = used;
        }
    return most;
}

int stack_most(void)
{
    uint8_t *stack = memory(STACK);
    for (const struct row *row = programs[OURS].rows; row->call != 0; row++)
        printf("%s %lu\n", row->call, most_of(row, stack));
    return 0;
}
