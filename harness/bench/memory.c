/* Memory and what is put into it. */
#include "memory.h"

#include "hand.h"
#include "libc.h"

uint8_t *memory(size_t bytes)
{
    uint8_t *m = aligned_alloc(4096, (bytes + 4095) / 4096 * 4096);
    if (m == 0)
        wrong("driver", "no memory");
    return m;
}

static uint64_t draw(void)
{
    static uint64_t x = 0x9E3779B97F4A7C15;
    x ^= x << 13, x ^= x >> 7, x ^= x << 17;
    return x;
}

void fill(uint8_t *m, size_t bytes)
{
    size_t first = bytes < 65521 ? bytes : 65521;
    for (size_t i = 0; i < first; i += 8) {
        uint64_t x = draw();
        memcpy(m + i, &x, first - i < 8 ? first - i : 8);
    }
    for (size_t i = first; i < bytes; i += first)
        memcpy(m + i, m, bytes - i < first ? bytes - i : first);
}

void damage(uint8_t *m, size_t bytes)
{
    for (size_t t = 0; t < bytes; t++)
        m[t] ^= 1 + t % 255;
}
