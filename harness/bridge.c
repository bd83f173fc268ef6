/* The bridge: reads calls on standard input, makes them, writes the answers to
 * standard output. Every number is 64 bits, low byte first.
 *
 *   request  operation, shape (code, p, cell, whether m is given, m), row and column
 *            of a small write or a show, the two columns of a rebuild, k, plan, first
 *            row and budget of a run, rows done of a show, the loans, the `given`
 *            bytes of each
 *   answer   guards of each loan (0 unchanged, 1 changed before, 2 after, 3 both),
 *            refusal, count, finding, column, rows and reads of a plan, buffer, offset
 *            and length of a part, the `given` bytes of each loan after the call
 *
 * The loans are of the stripe, of new bytes, of the list of lost cells and of the
 * spare. A job is lent as new bytes are, and the output for its answer as the spare
 * is. A new call is one more operation and its case in `carry_out`; one more lent buffer
 * is one more loan. */
#include "zijraduf.h"

/* What is used of the C library, which has no headers here. */
long read(int file, void *to, size_t length);
long write(int file, const void *from, size_t length);
void *mmap(void *at, size_t length, int rights, int flags, int file, long offset);
int mprotect(void *at, size_t length, int rights);
unsigned alarm(unsigned seconds);
_Noreturn void exit(int status);

enum { RIGHT_NONE = 0, RIGHT_READ = 1, RIGHT_BOTH = 3, MAP_PRIVATE_ANONYMOUS = 0x22 };

enum {
    PAGE = 1 << 16,      /* a multiple of the page size of every machine */
    ROOM = 5 << 20,      /* holds the largest stripe and its guards */
    MOST = 4 << 20,      /* the most bytes given */
    GUARD = 4096,        /* guard bytes on each side */
    SECONDS_A_CALL = 60, /* a call that takes longer ends the bridge */
};

enum place { MIDDLE, BEFORE_PAGE, AFTER_PAGE, NOWHERE };

/* Sealed bytes and their guards can't be written during the call. Closed ones can't be
 * read either: of a call that reads no byte. */
enum seal { OPEN, SEALED, CLOSED };

/* How bytes are lent: how many there are, the length that the call is told (of lost
 * cells: the count), and where they lie: in the middle at `offset` from a multiple of
 * 64, right before or right after an inaccessible page, or nowhere (NULL). */
struct loan {
    uint64_t given, claimed, place, offset, seal;
};

enum operation {
    ENCODE = 1,
    BROKEN = 2,
    WRITE = 3,
    REBUILD_CELLS = 4,
    REBUILD_COLUMNS = 5,
    BAD_COLUMN = 6,
    PLAN = 7,
    RUN = 8,
    SHOW = 9,
    JOB = 10,
    BALANCED_PLAN = 11,
};

/* The longest job has five fields of a head and the most content, the longest answer two. */
_Static_assert(ZIJRADUF_JOB_LONGEST == 5 * 3 + 1 + 1 + 2 + 2 * 2048 + 32768, "the longest job");
_Static_assert(ZIJRADUF_ANSWER_LONGEST == 2 * 3 + 1 + 32768, "the longest answer");

enum { STRIPE, BYTES, LOST, SPARE, LOANS };

struct request {
    uint64_t operation;
    struct zijraduf_shape shape;
    uint64_t row, column, columns[2];
    uint64_t k, plan, first, budget, done;
    struct loan loans[LOANS];
};

/* What a call doesn't give is 0. A job gives the length of its answer; its refusal is
 * read from the answer, where there was room for it. */
struct answer {
    uint64_t guards[LOANS], refusal, count, finding, column;
    uint64_t rows, reads, buffer, offset, length;
};

/* Memory between two inaccessible pages, and the bytes lent in it. */
struct room {
    uint8_t *floor, *start, *end;
};

/* Gives 0 where standard input ends before the first byte. */
static int take(void *to, size_t length) {
    size_t done = 0;
    while (done < length) {
        long n = read(0, (uint8_t *)to + done, length - done);
        if (n == 0 && done == 0) return 0;
        if (n <= 0) exit(3);
        done += (size_t)n;
    }
    return 1;
}

static void put(const void *from, size_t length) {
    size_t done = 0;
    while (done < length) {
        long n = write(1, (const uint8_t *)from + done, length - done);
        if (n <= 0) exit(3);
        done += (size_t)n;
    }
}

static struct room make_room(void) {
    uint8_t *at = mmap(NULL, ROOM + 3 * PAGE, RIGHT_NONE, MAP_PRIVATE_ANONYMOUS, -1, 0);
    uint8_t *floor = (uint8_t *)(((uintptr_t)at + PAGE - 1) / PAGE * PAGE) + PAGE;
    if ((intptr_t)at == -1 || mprotect(floor, ROOM, RIGHT_BOTH) != 0) exit(3);
    return (struct room){floor, floor, floor};
}

static uint8_t guard_byte(const uint8_t *at) {
    return (uint8_t)((uintptr_t)at * 151 + 90);
}

static const uint8_t *guards_from(const struct room *room) {
    return room->start - room->floor > GUARD ? room->start - GUARD : room->floor;
}

static const uint8_t *guards_to(const struct room *room) {
    const uint8_t *ceiling = room->floor + ROOM;
    return ceiling - room->end > GUARD ? room->end + GUARD : ceiling;
}

static void set_guards(const struct room *room) {
    for (uint8_t *at = (uint8_t *)guards_from(room); at < room->start; at++) *at = guard_byte(at);
    for (uint8_t *at = room->end; at < guards_to(room); at++) *at = guard_byte(at);
}

static uint64_t changed_guards(const struct room *room) {
    uint8_t before = 0, after = 0;
    for (const uint8_t *at = guards_from(room); at < room->start; at++) before |= *at ^ guard_byte(at);
    for (const uint8_t *at = room->end; at < guards_to(room); at++) after |= *at ^ guard_byte(at);
    return (before != 0) + 2 * (after != 0);
}

/* Sets the rights to the lent bytes and their guards. */
static void set_rights(const struct room *room, int rights) {
    uint8_t *from = room->floor + (guards_from(room) - room->floor) / PAGE * PAGE;
    size_t length = (size_t)(guards_to(room) - from);
    if (mprotect(from, (length + PAGE - 1) / PAGE * PAGE, rights) != 0) exit(3);
}

static int is_sealed(const struct loan *loan) {
    return loan->seal != OPEN && loan->place != NOWHERE;
}

/* Takes the bytes of a loan into the room, and sets the rights to sealed ones. Bytes
 * that lie nowhere have no guards. */
static void lend(struct room *room, const struct loan *loan) {
    if (loan->given > MOST || loan->offset >= 64 || loan->place > NOWHERE || loan->seal > CLOSED) exit(3);
    room->start = room->floor;
    if (loan->place == MIDDLE) room->start += GUARD + loan->offset;
    if (loan->place == BEFORE_PAGE) room->start += ROOM - loan->given;
    room->end = loan->place == NOWHERE ? room->floor + ROOM : room->start + loan->given;
    set_guards(room);
    if (loan->given > 0 && !take(room->start, loan->given)) exit(3);
    if (is_sealed(loan)) set_rights(room, loan->seal == CLOSED ? RIGHT_NONE : RIGHT_READ);
}

static uint8_t *lent(const struct room *room, const struct loan *loan) {
    return loan->place == NOWHERE ? NULL : room->start;
}

static struct answer counted(struct zijraduf_count came) {
    return (struct answer){.refusal = came.refusal, .count = came.count};
}

static struct answer found(struct zijraduf_finding came) {
    return (struct answer){.refusal = came.refusal, .finding = came.finding, .column = came.column};
}

static struct answer planned(struct zijraduf_read_plan came) {
    return (struct answer){.refusal = came.refusal, .rows = came.rows, .reads = came.reads};
}

static struct answer shown(struct zijraduf_part came) {
    return (struct answer){
        .refusal = came.refusal, .buffer = came.buffer, .offset = came.offset, .length = came.length};
}

static struct answer answered(size_t length, const uint8_t *output, size_t room) {
    uint64_t refusal = length >= 4 && length <= room ? output[3] : 0;
    return (struct answer){.refusal = refusal, .length = length};
}

static struct answer carry_out(const struct request *request, uint8_t *const lent[LOANS]) {
    struct zijraduf_shape shape = request->shape;
    uint8_t *stripe = lent[STRIPE], *bytes = lent[BYTES], *spare = lent[SPARE];
    const uint64_t *lost = (const uint64_t *)(const void *)lent[LOST];
    size_t length = request->loans[STRIPE].claimed, bytes_length = request->loans[BYTES].claimed;
    size_t count = request->loans[LOST].claimed, spare_length = request->loans[SPARE].claimed;
    switch (request->operation) {
    case ENCODE:
        return (struct answer){.refusal = zijraduf_encode(shape, stripe, length)};
    case BROKEN:
        return counted(zijraduf_broken(shape, stripe, length));
    case WRITE:
        return counted(zijraduf_write(shape, stripe, length, request->row, request->column, bytes,
                                      bytes_length));
    case REBUILD_CELLS:
        return (struct answer){.refusal = zijraduf_rebuild_cells(shape, stripe, length, lost, count)};
    case REBUILD_COLUMNS:
        return (struct answer){.refusal = zijraduf_rebuild_columns(shape, stripe, length, request->columns[0],
                                                                   request->columns[1])};
    case BAD_COLUMN:
        return found(zijraduf_bad_column(shape, stripe, length));
    case PLAN:
        return planned(zijraduf_plan(shape, request->k));
    case RUN:
        return counted(zijraduf_run(shape, stripe, length, request->k, request->plan, spare, spare_length,
                                    request->first, request->budget));
    case SHOW:
        return shown(zijraduf_show(shape, stripe, length, spare, spare_length, request->k, request->done,
                                   request->row, request->column));
    case JOB:
        return answered(zijraduf_job(bytes, bytes_length, spare, spare_length), spare, spare_length);
    case BALANCED_PLAN:
        return planned(zijraduf_balanced_plan(shape, request->k));
    }
    exit(3);
}

int main(void) {
    struct room rooms[LOANS] = {make_room(), make_room(), make_room(), make_room()};
    struct request request;
    const struct loan *loans = request.loans;
    while (take(&request, sizeof request)) {
        uint8_t *at[LOANS];
        for (int k = 0; k < LOANS; k++) {
            lend(&rooms[k], &loans[k]);
            at[k] = lent(&rooms[k], &loans[k]);
        }
        /* The list is of 64-bit numbers: C wants it where such numbers may lie. */
        if ((uintptr_t)at[LOST] % sizeof(uint64_t) != 0) exit(3);
        alarm(SECONDS_A_CALL);
        struct answer answer = carry_out(&request, at);
        alarm(0);
        for (int k = 0; k < LOANS; k++) {
            if (is_sealed(&loans[k])) set_rights(&rooms[k], RIGHT_BOTH);
            answer.guards[k] = changed_guards(&rooms[k]);
        }
        put(&answer, sizeof answer);
        for (int k = 0; k < LOANS; k++) put(rooms[k].start, loans[k].given);
    }
    return 0;
}
