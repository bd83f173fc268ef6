/* zijraduf: parity for stripes of RDP, H-Code, X-Code and EVENODD, proved.
 *
 * Link libzijraduf.a (x86-64 Linux; it needs memcpy and memset). The library
 * keeps no state, allocates nothing and takes no locks. A call that writes
 * (encode, write and the rebuilds the stripe, run the spare, job the output) needs
 * that buffer to itself while it runs; calls that only read may share one (the
 * proofs speak of one call at a time). Stack: less than 41 KiB, zijraduf_job less
 * than 89 KiB (measured).
 *
 * A stripe is rows x columns cells of `cell` bytes each, by the code:
 *
 *     code  name     rows   columns  equations
 *     1     RDP      p - 1  p + 1    2 (p - 1)
 *     2     H-Code   p - 1  p + 1    2 (p - 1)
 *     3     X-Code   p      p        2 p
 *     4     EVENODD  p - 1  p + 2    2 (p - 1)
 *
 * p is one of 3 5 7 11 13 17 19 23 29 31, and `cell` is 1 to 4,096. The stripe
 * lies column after column, rows from 0 inside a column: cell number =
 * column x rows + row, and byte t of a cell is at cell number x cell + t. Some
 * cells are the XOR of others: those are parity, the rest are data. A stripe is
 * encoded when every equation of its code holds in every byte.
 *
 * A shelf of RDP may have fewer disks. For it the shape gives a number m of data
 * columns, 1 to p - 1. Data columns m to p - 2 then don't exist, and no byte of
 * them is lent: the stripe has m + 2 columns, the data, the row parity and the
 * diagonal parity, numbered 0 to m + 1 as they lie, and is (p - 1) x (m + 2) x
 * cell bytes long. The equations read the columns that don't exist as zeros: such
 * a stripe is encoded when it is with the zeros put back. Rows and equations are as
 * many as before, and m = p - 1 is the same as no m. Every row, column and cell
 * number that a call takes or gives is one of this stripe.
 *
 * Nothing has to be checked before a call. Every number may be anything, 0 and
 * 2^64 - 1 included. A call that can't be carried out gives a refusal number,
 * the lowest that applies, where 14 comes after 2 and before 3, and 15 after 3 and
 * before 4, and every byte that was lent is as it was (a job's refusal is its
 * answer, which goes into the output):
 *
 *     1   code is not 1 to 4
 *     2   p is not in the list above
 *     14  m is given and is not 1 to p - 1, or is given for another code than RDP;
 *         of a balanced plan also where it is below p - 1
 *     3   plan, balanced plan, run or show for another code than RDP
 *     15  a balanced plan for another p than 3, 7, 11, 19, 23 and 31
 *     4   cell is not 1 to 4,096
 *     5   the stripe is not exactly rows x columns x cell bytes long, or the spare
 *         not exactly rows x cell
 *     6   a row, a column or a cell number is outside the stripe; of a run the first
 *         row, and of a show the rows done, is above p - 1; of a balanced plan also
 *         k = p
 *     7   a small write to a parity cell
 *     8   new bytes that are not one cell long
 *     9   a plan that is not accepted
 *     10  a show of a row that is not done yet
 *     11  undetermined: the cells that aren't lost don't fix the lost ones
 *     12  the cells that aren't lost disagree: no encoded stripe has their bytes
 *     13  bytes that are no job (zijraduf_job alone)
 *
 * The one thing that C can't hand over checked is the memory itself: a pointer
 * points to as many bytes as the length beside it says, or as many numbers as
 * the count beside it says (it may be NULL where that is 0), and the memory lent
 * to one call does not overlap. A call reads and writes nothing else. */
#ifndef ZIJRADUF_H
#define ZIJRADUF_H

#include <stddef.h>
#include <stdint.h>

#ifdef __cplusplus
extern "C" {
#endif

/* What describes a stripe. It goes by value into every call on a stripe. Where the
 * last two are left 0, as in { .code = 1, .p = 5, .cell = 512 }, no m is given. */
struct zijraduf_shape {
    uint64_t code;       /* 1 RDP, 2 H-Code, 3 X-Code, 4 EVENODD */
    uint64_t p;          /* the prime */
    uint64_t cell;       /* bytes in a cell */
    uint64_t data_given; /* 0 no m is given, anything else m is `data` */
    uint64_t data;       /* the number m of data columns, not looked at where not given */
};

/* A refusal number, or 0 and a count. The count of a refused call is 0: look at
 * the refusal first. */
struct zijraduf_count {
    uint64_t refusal;
    uint64_t count;
};

/* Encode: sets every parity cell so that the stripe is encoded. Data cells stay
 * as they are, and the bytes found in parity cells have no effect.
 * Returns 0, or refusal 1, 2, 14, 4 or 5 with every byte as it was. */
uint64_t zijraduf_encode(struct zijraduf_shape shape, uint8_t *stripe, size_t length);

/* Broken: how many equations of the stripe fail in at least one byte; 0 says
 * that the stripe is encoded. It only reads.
 * Gives the count, or refusal 1, 2, 14, 4 or 5. */
struct zijraduf_count zijraduf_broken(struct zijraduf_shape shape, const uint8_t *stripe, size_t length);

/* Small write: puts new bytes into one data cell, and changes the parity cells
 * that depend on it, as far as the equations say: with the difference of old
 * and new bytes put alone into a stripe of zero data and encoded, the stripe
 * afterwards is the XOR of the old stripe with that one. An encoded stripe stays
 * encoded. Only the data cell and the parity cells that depend on it change. The
 * bytes found in the cell are taken as its old content: rebuild a lost cell before
 * you write to it.
 * Gives how many parity cells depend on this position, whatever the bytes: 2 for
 * H-Code and X-Code; for RDP 2 where row = 0 or row + column = p - 1, else 3; for
 * EVENODD p where row + column = p - 1, else 2.
 * Or refusal 1, 2, 14, 4, 5, 6, 7 or 8, with every byte as it was. */
struct zijraduf_count zijraduf_write(struct zijraduf_shape shape, uint8_t *stripe, size_t length,
                                     uint64_t row, uint64_t column,
                                     const uint8_t *bytes, size_t bytes_length);

/* Rebuild cells: gives the lost cells back. `lost` holds the numbers of `count`
 * lost cells in any order. It may be of any length, and may name a cell twice: it
 * is then lost once. The cells that aren't lost, the survivors, stay as they are,
 * and the bytes found in lost cells have no effect. An empty list asks whether
 * the stripe is encoded: 0 if so, else 12.
 * Returns 0, and the stripe is encoded: it is the one encoded stripe with these
 * survivors, so nothing in it is a guess if they are right. Or refusal 1, 2, 14, 4,
 * 5, 6, 11 or 12, with every byte as it was.
 *
 * 11 says that the survivors can't fix the lost cells: there are different
 * encoded stripes with the same survivors. Which cells are named decides that,
 * and no bytes do, so the same list always gets 11. Leave a cell out of it only
 * when its right bytes have been put back: what isn't named is taken as right.
 *
 * 12 says that no encoded stripe has these survivors: at least one cell that the
 * list doesn't name holds wrong bytes. */
uint64_t zijraduf_rebuild_cells(struct zijraduf_shape shape, uint8_t *stripe, size_t length,
                                const uint64_t *lost, size_t count);

/* Rebuild columns: rebuild cells, of all cells of columns a and b; where a equals
 * b it is one column. The others always fix them, so there is no refusal 11.
 * Returns 0, or refusal 1, 2, 14, 4, 5, 6 or 12 with every byte as it was: 12
 * where no encoded stripe has the bytes of the other columns. */
uint64_t zijraduf_rebuild_columns(struct zijraduf_shape shape, uint8_t *stripe, size_t length,
                                  uint64_t a, uint64_t b);

/* What bad column finds. */
enum {
    ZIJRADUF_CLEAN = 1,      /* the stripe is encoded */
    ZIJRADUF_COLUMN = 2,     /* one column, replaced alone, makes it encoded */
    ZIJRADUF_UNEXPLAINED = 3 /* it is not encoded, and no one column does */
};

/* A refusal number, or 0 and a finding. The finding of a refused call is 0, which
 * is none of those above. */
struct zijraduf_finding {
    uint64_t refusal;
    uint64_t finding;
    uint64_t column; /* where the finding is ZIJRADUF_COLUMN, else 0 */
};

/* Bad column: which one column alone explains a stripe that is not encoded: the
 * one whose replacement alone makes it encoded, and there is never a second such
 * column. Rebuild columns with it as a and b makes the replacement. It looks at
 * the whole stripe at once and only reads. What is named explains the bytes; that
 * cells of several other columns were altered and look the same can't be told.
 * Gives the finding, or refusal 1, 2, 14, 4 or 5. */
struct zijraduf_finding zijraduf_bad_column(struct zijraduf_shape shape, const uint8_t *stripe,
                                            size_t length);

/* ---- RDP with one lost column: plans, run, show. The lost column is k, 0 to p, with
 * m given 0 to m + 1; the spare is one column, row i of it at i x cell. With m given,
 * what is said of k in plan and run is said of its number with the zeros put back:
 * p - 1 for the row parity column, p for the diagonal parity column. */

/* A refusal number, or 0 and a plan: bit i of `rows` is 1 where row i is taken by
 * its diagonal, and 0 where by its row. `reads` is how many distinct cells the
 * equations of these rows need, of those that exist. Both are 0 where the call is
 * refused. */
struct zijraduf_read_plan {
    uint64_t refusal;
    uint64_t rows;
    uint64_t reads;
};

/* Plan: what to read to rebuild column k. For k below p the lowest (p - 1) / 2 rows
 * other than row p - 1 - k are taken by their diagonals (for k = 0 no row is left
 * out), which reads 3 (p - 1)^2 / 4 cells, a quarter less than by rows alone; for
 * k = p all rows are, which reads (p - 1)^2. With m below p - 1 there are fewer cells
 * to read, for k = p (m + 1) (p - 1) - m, and the plan for another k may read more
 * than rows alone, which read m (p - 1). The bits that are 1 are as many as the rows
 * taken by diagonal.
 * Gives the plan, or refusal 1, 2, 14, 3, 4 or 6. */
struct zijraduf_read_plan zijraduf_plan(struct zijraduf_shape shape, uint64_t k);

/* Balanced plan: what to read to rebuild column k so that the load is even. There is
 * one for p = 3, 7, 11, 19, 23 and 31, k below p, and all data columns: no m, or
 * m = p - 1. The rows taken by their diagonals are the nonzero squares mod p, each
 * moved on by s, mod p, with the smallest s from 0 on so that neither p - 1 nor
 * p - 1 - k is among them. These are (p - 1) / 2 rows, and a run accepts the plan. It
 * reads (3 p - 5) / 4 cells of every other column below p and (p - 1) / 2 of column p,
 * which are 3 (p - 1)^2 / 4 in all, as many as zijraduf_plan's.
 * Gives the plan, or refusal 1, 2, 14, 3, 15, 4 or 6. */
struct zijraduf_read_plan zijraduf_balanced_plan(struct zijraduf_shape shape, uint64_t k);

/* Run: rebuilds rows of column k into the spare by a plan, from the first row on
 * upward: as many as the budget says, or as are left. Call it again with the first
 * row moved on by the count, until no row is left. A row is the XOR of the other
 * cells of its equation, its diagonal where the plan's bit is 1 and its row where it
 * is 0: of an encoded stripe that is what column k held. The bytes found in
 * column k have no effect, the stripe is only read, and no other byte of the
 * spare changes. A run does not ask whether the other columns agree: rebuild
 * columns, of k alone, does. If another column changes between two runs, rows in
 * the spare may be out of date: start again from row 0. The plan need not be
 * zijraduf_plan's: it is accepted exactly when it has no bit above p - 2, no
 * diagonal for row p - 1 - k if k is 1 to p - 1, and all p - 1 bits if k = p. First
 * row p - 1 is allowed and leaves nothing to do.
 * Gives how many rows it rebuilt, or refusal 1, 2, 14, 3, 4, 5, 6 or 9 with every
 * byte as it was. */
struct zijraduf_count zijraduf_run(struct zijraduf_shape shape, const uint8_t *stripe, size_t length,
                                   uint64_t k, uint64_t plan, uint8_t *spare, size_t spare_length,
                                   uint64_t first, uint64_t budget);

/* Which of the two lent buffers a shown cell lies in. */
enum {
    ZIJRADUF_IN_STRIPE = 1,
    ZIJRADUF_IN_SPARE = 2
};

/* A refusal number, or 0 and the part of a lent buffer that is the cell: it starts
 * `offset` bytes into the stripe or the spare and is `length` bytes long. Where the
 * call is refused the other three are 0: an empty part of neither. */
struct zijraduf_part {
    uint64_t refusal;
    uint64_t buffer; /* ZIJRADUF_IN_STRIPE or ZIJRADUF_IN_SPARE */
    uint64_t offset;
    uint64_t length;
};

/* Show: where to read a cell while column k is being rebuilt and the rows below
 * `done` are in the spare, which the caller says: in the stripe if its column is
 * another, in the spare if its row is done. C can't be handed a part of a buffer,
 * so this says which buffer, where the part starts and how long it is. No byte of
 * either is read.
 * Gives the part, or refusal 1, 2, 14, 3, 4, 5, 6 or 10. */
struct zijraduf_part zijraduf_show(struct zijraduf_shape shape, const uint8_t *stripe, size_t length,
                                   const uint8_t *spare, size_t spare_length, uint64_t k,
                                   uint64_t done, uint64_t row, uint64_t column);

/* ---- jobs */

enum {
    ZIJRADUF_JOB_LONGEST = 36883,   /* bytes of the longest job */
    ZIJRADUF_ANSWER_LONGEST = 32775 /* bytes of the longest answer */
};

/* Job: reads a rebuild job from bytes, rebuilds, and writes the answer's bytes. A job
 * gives no m.
 *
 * A field is a tag of one byte, a length of two bytes, high byte first, and the
 * content. A job is these fields in this order, once each, and nothing after them:
 *
 *     01  code, 1 byte
 *     02  p, 1 byte
 *     03  cell size, 2 bytes, high byte first; it may be absent, then it is 1,024
 *     04  lost cell numbers, 2 bytes each, high byte first, none to 2,048 of them
 *     05  stripe, at most 32,768 bytes
 *
 * Without field 03 p is 3 or 5: no larger stripe of 1,024-byte cells fits. A stripe
 * with cells of another size is of the wrong length without it, 5: where they have
 * 512 bytes, put the bytes 03 00 02 02 00 after field 02.
 *
 * The answer is field 06, one byte: 0, or the refusal number of the rebuild of these
 * cells (1, 2, 4, 5, 6, 11 or 12), or 13 where the bytes are no job. After 0 field 05
 * follows with the stripe.
 * Returns the length n of the answer. If `room` is n or more, the first n bytes of
 * the output are the answer and the others are as they were. If it is less, no byte
 * changes: ZIJRADUF_ANSWER_LONGEST is always enough. */
size_t zijraduf_job(const uint8_t *input, size_t length, uint8_t *output, size_t room);

#ifdef __cplusplus
}
#endif

#endif
