/* snapraid's own library of parities, built from its source: raid_scan names the bad block. */
#include "hand.h"
#include "libc.h"
#include "memory.h"
#include "open.h"
#include "peers.h"

static void (*raid_init)(void);
static void (*raid_gen)(int data, int parities, size_t bytes, void **blocks);
static int (*raid_scan)(int *bad, int data, int parities, size_t bytes, void **blocks);

static int have_snapraid(void)
{
    static const struct function list[] = {
        {&raid_init, "raid_init"}, {&raid_gen, "raid_gen"}, {&raid_scan, "raid_scan"}, {0, 0}};
    if (raid_scan != 0)
        return 1;
    if (!open_functions("libsnapraid.so", list))
        return 0;
    raid_init();
    return 1;
}

/* It takes 64 bytes at a time: its figures are of the bytes that it did. */
static size_t block(void) { return (hand.data_bytes / hand.sources + 63) / 64 * 64; }
static size_t blocks_data(void) { return hand.sources * block(); }
static size_t blocks_bytes(void) { return (hand.sources + 2) * block(); }
static void damage_middle(uint8_t *m) { damage(m + hand.sources / 2 * block(), block()); }

static void put_blocks(uint8_t *m)
{
    fill(m, blocks_bytes());
    raid_gen(hand.sources, 2, block(), vectors_at(m, block()));
    damage_middle(m);
}

static struct state blocks = {blocks_bytes, put_blocks, 0};

/* Answers how many blocks are bad, and which one. */
static void scan(uint8_t *m)
{
    int bad[2] = {0};
    answer.refusal = raid_scan(bad, hand.sources, 2, block(), vectors_at(m, block()));
    answer.value = bad[0];
}

/* It found the middle block, and finds none when that is good again. */
static int check_scan(const struct row *row, uint8_t *before, uint8_t *after)
{
    int found = answer.refusal == 1 && answer.value == hand.sources / 2;
    int kept = memcmp(before, after, blocks_bytes()) == 0;
    damage_middle(after);
    row->run(after);
    return found && kept && answer.refusal == 0;
}

const struct row snapraid_rows[] = {
    {"bad-column", have_snapraid, &blocks, scan, blocks_data, .check = check_scan},
    {0},
};
