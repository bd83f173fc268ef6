/* ISA-L: P and Q of as many sources as the code has columns of data, by the SSE functions and by those that the library
 * picks for the processor. */
#include "hand.h"
#include "libc.h"
#include "memory.h"
#include "open.h"
#include "peers.h"

typedef int pq(int vectors, int bytes, void **array);
typedef void ec_update(int bytes, int k, int m, int source, uint8_t *tables, uint8_t *data, uint8_t **parity);
typedef void ec_encode(int bytes, int k, int m, uint8_t *tables, uint8_t **data, uint8_t **out);
typedef void ec_tables(int k, int m, uint8_t *matrix, uint8_t *tables);
static pq *pq_gen_sse, *pq_gen, *pq_check_sse, *pq_check;
static ec_update *update_sse, *update;
static ec_encode *decode_sse, *decode;
static ec_tables *init_picked, *init_plain;
static void (*make_matrix)(uint8_t *matrix, int m, int k);
static int (*invert_matrix)(uint8_t *matrix, uint8_t *inverse, int k);

/* It takes 32 bytes at a time: its figures are of the bytes that it did. */
static size_t rounded(size_t bytes) { return (bytes + 31) / 32 * 32; }
static size_t vector(void) { return rounded(hand.data_bytes / hand.sources); }
static size_t piece(void) { return rounded(hand.shape.cell); }
static size_t vectors_data(void) { return hand.sources * vector(); }
static size_t vectors_bytes(void) { return (hand.sources + 2) * vector(); }
static size_t pieces_bytes(void) { return 3 * piece(); }

/* ---- what it multiplies by, made ready ---- */

/* The most sources that a code has. */
#define SOURCES 31

/* A processor may be given tables of its own form, which the SSE functions don't take. */
struct tables {
    uint8_t picked[2 * SOURCES * 32], plain[2 * SOURCES * 32];
};
static struct tables update_tables, decode_tables[3];

static void make_tables(struct tables *t, int k, int m, uint8_t *matrix)
{
    init_picked(k, m, matrix, t->picked);
    init_plain(k, m, matrix, t->plain);
}

/* The sources that are left when the first `lost` are gone, with P and Q in their place, give those back by the first
 * rows of the inverse. */
static void make_decode(int lost, int k, const uint8_t *matrix)
{
    static uint8_t left[SOURCES * SOURCES], inverse[SOURCES * SOURCES];
    memcpy(left, matrix + k * k, lost * k);
    memcpy(left + lost * k, matrix + lost * k, (k - lost) * k);
    if (invert_matrix(left, inverse, k) != 0)
        wrong("isal", "its matrix has no inverse");
    make_tables(&decode_tables[lost], k, lost, inverse);
}

static void make_all_tables(void)
{
    static uint8_t matrix[(SOURCES + 2) * SOURCES];
    int k = hand.shape.p - 1;
    make_matrix(matrix, k + 2, k);
    make_tables(&update_tables, k, 2, matrix + k * k);
    k = hand.sources;
    make_matrix(matrix, k + 2, k);
    make_decode(1, k, matrix);
    make_decode(2, k, matrix);
}

static int have_isal(void)
{
    static const struct function list[] = {
        {&make_matrix, "gf_gen_rs_matrix"}, {&invert_matrix, "gf_invert_matrix"},
        {&init_picked, "ec_init_tables"},
        {&update_sse, "ec_encode_data_update_sse"}, {&update, "ec_encode_data_update"},
        {&decode_sse, "ec_encode_data_sse"}, {&decode, "ec_encode_data"}, {&pq_check_sse, "pq_check_sse"},
        {&pq_check, "pq_check"}, {&pq_gen_sse, "pq_gen_sse"}, {&pq_gen, "pq_gen"}, {0, 0},
    };
    static const struct function base[] = {{&init_plain, "ec_init_tables_base"}, {0, 0}};
    if (pq_gen != 0)
        return 1;
    if (!open_functions("libisal.so.2", list))
        return 0;
    if (!open_functions("libisal.so.2", base))
        init_plain = init_picked;
    make_all_tables();
    return 1;
}

/* ---- states: the sources, P and Q one after another; the difference of a cell with two parities ---- */

static void put_vectors(uint8_t *m) { fill(m, vectors_bytes()); }
static void put_pieces(uint8_t *m) { fill(m, pieces_bytes()); }

static void put_parity(uint8_t *m)
{
    put_vectors(m);
    pq_gen(hand.sources + 2, vector(), vectors_at(m, vector()));
}

static void put_two_gone(uint8_t *m)
{
    put_parity(m);
    damage(m, 2 * vector());
}

static void put_one_gone(uint8_t *m)
{
    put_parity(m);
    damage(m, vector());
}

static struct state vectors = {vectors_bytes, put_vectors, 0}, with_parity = {vectors_bytes, put_parity, 0};
static struct state two_gone = {vectors_bytes, put_two_gone, 0}, one_gone = {vectors_bytes, put_one_gone, 0};
static struct state pieces = {pieces_bytes, put_pieces, 0};

/* ---- calls ---- */

static void pq_call(pq *f, uint8_t *m) { answer.refusal = f(hand.sources + 2, vector(), vectors_at(m, vector())); }
static void sse_encode(uint8_t *m) { pq_call(pq_gen_sse, m); }
static void sse_broken(uint8_t *m) { pq_call(pq_check_sse, m); }
static void isal_encode(uint8_t *m) { pq_call(pq_gen, m); }
static void isal_broken(uint8_t *m) { pq_call(pq_check, m); }

static void update_call(ec_update *f, uint8_t *tables, uint8_t *m)
{
    uint8_t *parity[2] = {m + piece(), m + 2 * piece()};
    f(piece(), hand.shape.p - 1, 2, hand.column, tables, m, parity);
}

static void sse_write(uint8_t *m) { update_call(update_sse, update_tables.plain, m); }
static void isal_write(uint8_t *m) { update_call(update, update_tables.picked, m); }

static void decode_call(ec_encode *f, uint8_t *tables, size_t lost, uint8_t *m)
{
    uint8_t **all = (uint8_t **)vectors_at(m, vector()), *left[SOURCES];
    size_t k = hand.sources;
    for (size_t n = 0; n < k; n++)
        left[n] = n < lost ? all[k + n] : all[n];
    f(vector(), k, lost, tables, left, all);
}

static void sse_two(uint8_t *m) { decode_call(decode_sse, decode_tables[2].plain, 2, m); }
static void sse_one(uint8_t *m) { decode_call(decode_sse, decode_tables[1].plain, 1, m); }
static void isal_two(uint8_t *m) { decode_call(decode, decode_tables[2].picked, 2, m); }
static void isal_one(uint8_t *m) { decode_call(decode, decode_tables[1].picked, 1, m); }

/* ---- whether they did their work ---- */

/* Its own check finds P and Q good, and but for n vectors from one on nothing changed: for all that are lost or to be
 * made there is only one such content. */
static int is_good(uint8_t *before, uint8_t *after, size_t from, size_t n)
{
    size_t end = (from + n) * vector();
    isal_broken(after);
    return answer.refusal == 0 && memcmp(before, after, from * vector()) == 0 &&
           memcmp(before + end, after + end, vectors_bytes() - end) == 0;
}

static int check_encode(const struct row *row, uint8_t *before, uint8_t *after)
{
    (void)row;
    return answer.refusal == 0 && is_good(before, after, hand.sources, 2);
}

static int check_two(const struct row *row, uint8_t *before, uint8_t *after)
{
    (void)row;
    return is_good(before, after, 0, 2);
}

static int check_one(const struct row *row, uint8_t *before, uint8_t *after)
{
    (void)row;
    return is_good(before, after, 0, 1);
}

/* It found good vectors good, and finds a bad byte. */
static int check_broken(const struct row *row, uint8_t *before, uint8_t *after)
{
    int good = answer.refusal == 0 && memcmp(before, after, vectors_bytes()) == 0;
    after[vectors_bytes() - 1] ^= 1;
    row->run(after);
    return good && answer.refusal != 0;
}

static uint8_t twice(uint8_t x) { return (uint8_t)(x << 1) ^ (x & 128 ? 0x1D : 0); }

/* P gets the difference, Q the difference times 2 to the source's number. */
static int check_write(const struct row *row, uint8_t *before, uint8_t *after)
{
    (void)row;
    size_t n = piece(), wrongs = 0;
    for (size_t t = 0; t < n; t++) {
        uint8_t x = before[t];
        for (uint64_t k = 0; k < hand.column; k++)
            x = twice(x);
        wrongs += after[t] != before[t] || after[n + t] != (before[n + t] ^ before[t]) ||
                  after[2 * n + t] != (before[2 * n + t] ^ x);
    }
    return wrongs == 0;
}

const struct row isal_sse_rows[] = {
    {"encode", have_isal, &vectors, sse_encode, vectors_data, .check = check_encode},
    {"broken", have_isal, &with_parity, sse_broken, vectors_data, .check = check_broken},
    {"write", have_isal, &pieces, sse_write, piece, .check = check_write},
    {"two-columns", have_isal, &two_gone, sse_two, vectors_data, .check = check_two},
    {"one-column", have_isal, &one_gone, sse_one, vectors_data, .check = check_one},
    {0},
};
const struct row isal_rows[] = {
    {"encode", have_isal, &vectors, isal_encode, vectors_data, .check = check_encode},
    {"broken", have_isal, &with_parity, isal_broken, vectors_data, .check = check_broken},
    {"write", have_isal, &pieces, isal_write, piece, .check = check_write},
    {"two-columns", have_isal, &two_gone, isal_two, vectors_data, .check = check_two},
    {"one-column", have_isal, &one_gone, isal_one, vectors_data, .check = check_one},
    {0},
};
