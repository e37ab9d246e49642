/* Lists archives as meshlist does, each step done by parts, one part a process:
 *
 *     mpirun -n P meshsplit [--owners RULE] [--seed S] [--delay] [--check] [--table FILE] ARCHIVE...
 *
 * Rank 0 reads the archives and keeps the table; rank r carries the part r + 1. A part's messages are bytes that this program does not look
 * into, but for the receiver. The calls of the library are proved (docs/PARTS.md), what carries the messages is not and need not be: it may
 * hold them back, mix and repeat them. mpi/README.md has the owners' rules, the report and the statuses. */
#include <errno.h>
#include <mpi.h>
#include <stdarg.h>
#include <stdio.h>
#include <stdlib.h>
#include <string.h>
#include <time.h>

#include "yuccadice.h"

enum {
    PARTS = YD_MOST_PARTS,
    STORE = YD_STORE_LENGTH,
    MESSAGE = YD_MESSAGE_LENGTH,
    PACK = 8192,  /* bytes of a pack: messages to one receiver, each behind a byte with its length */
    FLIGHT = 16,  /* packs of a rank that are sent and not yet received, at most */
    RECEIVER = 2, /* where a message has its receiver */
    ROW = 14,     /* numbers of a master or ghost */
    TAG = 1
};
enum { REFUSED = 1, FAILED = 2, DIFFERENT = 3 }; /* statuses */
enum { BY_COARSE, BY_LEAVES, AT_RANDOM, AWAY };
static const char *const rules[] = {"coarse", "leaves", "random", "away"};

static int rank, parts, rule = BY_LEAVES, delayed, checked;
static uint64_t seed = 1;
static const char *table_name;

/* ------------------------------------------------------------------ for all ranks */

/* Ends the job: for what must not happen. */
static void fail(const char *form, ...) {
    va_list more;
    va_start(more, form);
    fprintf(stderr, "meshsplit: part %d: ", rank + 1);
    vfprintf(stderr, form, more);
    fputc('\n', stderr);
    va_end(more);
    MPI_Abort(MPI_COMM_WORLD, FAILED);
    exit(FAILED);
}

static void accepted(const char *call, uint8_t answer) {
    if (answer != YD_ACCEPTED)
        fail("%s answers %d: %s", call, answer, yd_says(answer));
}

static void *room(void *old, size_t bytes) {
    void *new = realloc(old, bytes);
    if (new == NULL)
        fail("no memory");
    return new;
}

/* Splitmix. */
static uint64_t drawn(uint64_t *state) {
    uint64_t z = *state += 0x9e3779b97f4a7c15;
    z = (z ^ (z >> 30)) * 0xbf58476d1ce4e5b9;
    z = (z ^ (z >> 27)) * 0x94d049bb133111eb;
    return z ^ (z >> 31);
}

static size_t below(uint64_t *state, size_t n) { return drawn(state) % n; }

static double processor_time(void) {
    struct timespec t;
    clock_gettime(CLOCK_PROCESS_CPUTIME_ID, &t);
    return t.tv_sec + 1e-9 * t.tv_nsec;
}

static void pause_a_little(void) {
    struct timespec pause = {0, 20000};
    nanosleep(&pause, NULL);
}

/* Waits for a collective call; ranks may be more than cores, so none is kept busy. */
static void settle(MPI_Request request) {
    int over = 0;
    while (MPI_Test(&request, &over, MPI_STATUS_IGNORE) == MPI_SUCCESS && !over)
        pause_a_little();
}

/* What a part does in a step: counts, and seconds of the processor in calls and of the clock in waiting. */
enum { CELLS, GHOSTS, MESSAGES, BYTES, PACKS, OFFERS, CALLS, WAITING, FIGURES };

/* ------------------------------------------------------------------ a part's exchange */

/* Messages of one sender that are not taken yet, in their order. */
typedef struct {
    uint8_t (*kept)[MESSAGE + 1]; /* a length, the bytes */
    size_t first, behind, size;
    int early;   /* the first was refused with 14 since the last step */
    size_t held; /* turns for which none is offered */
} queue;

static uint16_t store[STORE], rows[YD_HELD_LENGTH];
static queue queues[PARTS];
static struct { uint8_t bytes[PACK]; int used; size_t held; } packs[PARTS];
static struct { uint8_t bytes[PACK]; MPI_Request request; } flights[FLIGHT];
static double figures[FIGURES];
static uint64_t luck;
static int unsent; /* messages may be there to fetch */
static int news;   /* the round may have ended */

static int once_in(size_t n) { return delayed && below(&luck, n) == 0; }

static uint8_t offer(const uint8_t *kept) {
    figures[OFFERS]++;
    return yd_hand_over(store, STORE, kept + 1, kept[0]);
}

static void expect(uint8_t answer, uint8_t due) {
    if (answer != due)
        fail("a message is answered with %d and not with %d", answer, due);
}

/* Whether nothing is under way here. */
static int landed(int i) {
    int over;
    MPI_Test(&flights[i].request, &over, MPI_STATUS_IGNORE); /* true where there is no request */
    return over;
}

/* Sends the pack to a receiver, where fewer than FLIGHT are under way: a synchronous send ends when it is received. */
static int send_pack(int to) {
    for (int i = 0; i < FLIGHT; i++) {
        if (landed(i)) {
            memcpy(flights[i].bytes, packs[to].bytes, packs[to].used);
            MPI_Issend(flights[i].bytes, packs[to].used, MPI_BYTE, to, TAG, MPI_COMM_WORLD, &flights[i].request);
            figures[PACKS]++;
            packs[to].used = 0;
            return 1;
        }
    }
    return 0;
}

static int full(int to) { return packs[to].used + 1 + MESSAGE > PACK; }

/* Fetches messages into the packs until there is none, or a full pack cannot be sent. */
static void fetch_all(int *moved) {
    while (unsent) {
        uint8_t message[MESSAGE];
        size_t length;
        for (int to = 0; to < parts; to++) /* the receiver of the next one is not known yet */
            if (full(to) && !send_pack(to))
                return;
        accepted("yd_fetch", yd_fetch(store, STORE, message, MESSAGE, &length));
        unsent = length > 0;
        if (!unsent)
            return;
        int to = message[RECEIVER] - 1;
        if (to < 0 || to >= parts || to == rank)
            fail("a message to part %d", to + 1);
        if (packs[to].used == 0 && once_in(2))
            packs[to].held = below(&luck, 8);
        packs[to].bytes[packs[to].used] = length;
        memcpy(packs[to].bytes + packs[to].used + 1, message, length);
        packs[to].used += 1 + length;
        figures[MESSAGES]++;
        figures[BYTES] += length;
        *moved = 1;
    }
}

/* Sends the packs that are begun; whether all are sent and received. */
static int send_all(int *moved) {
    int left = 0;
    for (int to = 0; to < parts; to++) {
        if (packs[to].used == 0)
            continue;
        if (packs[to].held > 0)
            packs[to].held--;
        else if (send_pack(to))
            *moved = 1;
        left |= packs[to].used > 0;
    }
    for (int i = 0; i < FLIGHT; i++)
        left |= !landed(i);
    return !left;
}

static void keep(int from, const uint8_t *message, size_t length) {
    queue *q = &queues[from];
    if (q->first == q->behind)
        q->first = q->behind = 0;
    if (q->behind == q->size) {
        q->size = q->size == 0 ? 1024 : 2 * q->size;
        q->kept = room(q->kept, q->size * sizeof *q->kept);
    }
    q->kept[q->behind][0] = length;
    memcpy(q->kept[q->behind] + 1, message, length);
    q->behind++;
}

static void receive_all(int *moved) {
    for (;;) {
        static uint8_t pack[PACK];
        MPI_Status status;
        int there, bytes;
        MPI_Iprobe(MPI_ANY_SOURCE, TAG, MPI_COMM_WORLD, &there, &status);
        if (!there)
            return;
        MPI_Recv(pack, PACK, MPI_BYTE, status.MPI_SOURCE, TAG, MPI_COMM_WORLD, &status);
        MPI_Get_count(&status, MPI_BYTE, &bytes);
        for (int at = 0; at < bytes; at += 1 + pack[at]) {
            if (pack[at] > MESSAGE || at + 1 + pack[at] > bytes)
                fail("a pack of rank %d is damaged", status.MPI_SOURCE);
            keep(status.MPI_SOURCE, pack + at + 1, pack[at]);
        }
        if (once_in(2))
            queues[status.MPI_SOURCE].held = below(&luck, 8);
        *moved = 1;
    }
}

/* Offers what is kept; what is refused with 14 stays, and is offered again after the next step. */
static void offer_all(int *moved) {
    for (int from = 0; from < parts; from++) {
        queue *q = &queues[from];
        if (q->held > 0) {
            q->held--;
            continue;
        }
        while (q->first < q->behind && !q->early) {
            size_t waiting = q->behind - q->first;
            if (waiting > 1 && once_in(8)) /* not the next one */
                expect(offer(q->kept[q->first + 1 + below(&luck, waiting - 1)]), YD_REFUSED_EARLY);
            uint8_t answer = offer(q->kept[q->first]);
            if (answer == YD_REFUSED_EARLY) {
                q->early = 1;
                break;
            }
            expect(answer, YD_ACCEPTED);
            if (once_in(8)) /* a second time */
                expect(offer(q->kept[q->first]), YD_REFUSED_TAKEN);
            q->first++;
            *moved = news = 1;
        }
    }
}

/* Steps where the round's ends are there; whether the part is done. */
static int step_part(int *moved, size_t *result) {
    size_t stage, round;
    if (!news)
        return 0;
    uint8_t answer = yd_part_step(store, STORE);
    news = answer == YD_ACCEPTED;
    if (answer == YD_ACCEPTED) {
        *moved = unsent = 1;
        for (int from = 0; from < parts; from++)
            queues[from].early = 0;
    } else if (answer != YD_REFUSED_STORE) { /* an end of the round is missing */
        accepted("yd_part_step", answer);
    }
    accepted("yd_stage", yd_stage(store, STORE, &stage, &round, result));
    return stage == YD_DONE;
}

/* The step of a started part; 0, or 8 or 9 where it ended so. */
static size_t exchange(void) {
    double begun = MPI_Wtime(), in_calls = 0;
    int done = 0;
    size_t result = 0, count;
    unsent = news = 1;
    for (;;) {
        int moved = 0;
        double processor = processor_time(), clock = MPI_Wtime();
        fetch_all(&moved);
        offer_all(&moved);
        if (!done)
            done = step_part(&moved, &result);
        figures[CALLS] += processor_time() - processor;
        in_calls += MPI_Wtime() - clock;
        int sent = send_all(&moved);
        if (done && !unsent && sent)
            break;
        receive_all(&moved);
        if (!moved)
            pause_a_little();
    }
    for (int from = 0; from < parts; from++)
        if (queues[from].first < queues[from].behind)
            fail("a message of part %d is left", from + 1);
    figures[WAITING] += MPI_Wtime() - begun - in_calls;
    accepted("yd_held", yd_held(store, STORE, rows, YD_HELD_LENGTH, &count));
    for (size_t j = 0; j < count; j++)
        figures[rows[ROW * j] == 1 ? GHOSTS : CELLS]++;
    return result;
}

/* ------------------------------------------------------------------ a step, by all ranks */

/* Rank 0 tells the step's number, from 1; 0 ends the job. */
static int told(int number) {
    MPI_Request request;
    MPI_Ibcast(&number, 1, MPI_INT, 0, MPI_COMM_WORLD, &request);
    settle(request);
    return number;
}

static uint16_t *stores; /* rank 0 has all */
static int counts[PARTS], starts[PARTS], places[PARTS];
static double all_figures[PARTS][FIGURES];

/* Each part gets its store and its own of the marks, which stand by part. The number that the step is refused with, or 0; but for 7 rank 0
 * has the done stores after. */
static int step_all(const uint8_t *marks_by_part, int number) {
    static uint8_t marks[YD_STATUS_LENGTH];
    int masters, answer, refused, ends[2], most[2];
    MPI_Request request;
    MPI_Iscatter(stores, STORE, MPI_UINT16_T, store, STORE, MPI_UINT16_T, 0, MPI_COMM_WORLD, &request);
    settle(request);
    MPI_Iscatter(counts, 1, MPI_INT, &masters, 1, MPI_INT, 0, MPI_COMM_WORLD, &request);
    settle(request);
    MPI_Iscatterv(marks_by_part, counts, starts, MPI_BYTE, marks, masters, MPI_BYTE, 0, MPI_COMM_WORLD, &request);
    settle(request);
    memset(figures, 0, sizeof figures);
    luck = seed + 1000003 * (uint64_t)number + 17 * (uint64_t)rank;
    double processor = processor_time();
    answer = yd_start(store, STORE, marks, masters);
    figures[CALLS] += processor_time() - processor;
    if (answer != YD_REFUSED_MARKS)
        accepted("yd_start", answer);
    MPI_Iallreduce(&answer, &refused, 1, MPI_INT, MPI_MAX, MPI_COMM_WORLD, &request);
    settle(request);
    if (refused)
        return refused;
    ends[0] = exchange();
    ends[1] = -ends[0];
    MPI_Iallreduce(ends, most, 2, MPI_INT, MPI_MAX, MPI_COMM_WORLD, &request);
    settle(request);
    if (most[0] != -most[1])
        fail("the step ends with %d here, from %d to %d elsewhere", ends[0], -most[1], most[0]);
    MPI_Igather(figures, FIGURES, MPI_DOUBLE, all_figures, FIGURES, MPI_DOUBLE, 0, MPI_COMM_WORLD, &request);
    settle(request);
    for (int p = 0; p < parts; p++) {
        counts[p] = STORE;
        places[p] = p;
    }
    if (delayed && rank == 0) /* in any order */
        for (int p = parts - 1; p > 0; p--) {
            int other = below(&luck, p + 1), here = places[p];
            places[p] = places[other];
            places[other] = here;
        }
    for (int p = 0; p < parts; p++)
        places[p] *= STORE;
    MPI_Igatherv(store, STORE, MPI_UINT16_T, stores, counts, places, MPI_UINT16_T, 0, MPI_COMM_WORLD, &request);
    settle(request);
    return ends[0];
}

/* ------------------------------------------------------------------ rank 0: tables */

static int32_t positions[YD_POSITIONS_LENGTH];
static uint16_t cells[YD_COARSE_CELLS_LENGTH];
static size_t positions_used, cells_used;

typedef struct {
    uint8_t status[YD_STATUS_LENGTH];
    size_t cells;
} mesh;

static struct {
    uint16_t table[YD_TABLE_LENGTH], ends[YD_ENDS_LENGTH];
    int32_t sums[YD_SUMS_LENGTH];
    size_t cells, corners, levels;
} laid;

#define MESH positions, positions_used, cells, cells_used

static void lay_out(const mesh *m) {
    accepted("yd_lay_out", yd_lay_out(MESH, m->status, m->cells, laid.table, YD_TABLE_LENGTH, laid.ends, YD_ENDS_LENGTH,
                                      laid.sums, YD_SUMS_LENGTH, &laid.cells, &laid.corners, &laid.levels));
}

/* A growing text. */
typedef struct {
    char *bytes;
    size_t used, size;
} text;

static void say(text *t, const char *form, ...) {
    va_list more;
    if (t->size - t->used < 1024) {
        t->size = 2 * t->size + 4096;
        t->bytes = room(t->bytes, t->size);
    }
    va_start(more, form);
    int n = vsnprintf(t->bytes + t->used, t->size - t->used, form, more);
    va_end(more);
    if (n < 0 || (size_t)n >= t->size - t->used)
        fail("a line is too long");
    t->used += n;
}

/* What meshlist prints. */
static void list(text *t, const uint16_t *level_counts, size_t levels) {
    say(t, "level cells red green leaf\n");
    for (size_t k = 0; k < levels; k++) {
        const uint16_t *c = level_counts + 4 * k;
        say(t, "%zu %d %d %d %d\n", k, c[0], c[1], c[2], c[3]);
    }
}

/* The text of docs/FINGERPRINT.md. */
static void describe(text *t, const mesh *m) {
    lay_out(m);
    for (size_t i = 0; i < laid.corners; i++)
        say(t, "%zu %d %d %d %d %d\n", i, laid.ends[2 * i], laid.ends[2 * i + 1],
            laid.sums[3 * i], laid.sums[3 * i + 1], laid.sums[3 * i + 2]);
    for (size_t i = 0; i < laid.cells; i++) {
        const uint16_t *c = laid.table + 8 * i;
        say(t, "%d %d %d %d %d %d %d %d %d\n", c[0], c[1], c[2], c[3], m->status[i], c[4], c[5], c[6], c[7]);
    }
}

/* SHA-256 in hexadecimal digits (FIPS 180-4). The constants are the first 32 bits behind the point of the square roots of the first 8
 * primes, and of the cube roots of the first 64. */
static uint32_t root_bits(int prime, int power) {
    unsigned __int128 low = 0, high = (unsigned __int128)1 << 36; /* the root times 2^32 lies between */
    while (high - low > 1) {
        unsigned __int128 x = (low + high) / 2, product = power == 2 ? x * x : x * x * x;
        unsigned __int128 bound = (unsigned __int128)prime << 32 * power;
        if (product <= bound)
            low = x;
        else
            high = x;
    }
    return (uint32_t)low;
}

static uint32_t turned(uint32_t x, int n) { return x >> n | x << (32 - n); }

static void fingerprint(const text *t, char digits[65]) {
    uint32_t k[64], h[8];
    for (int n = 0, prime = 2; n < 64; prime++) {
        int divisor = 2;
        while (prime % divisor != 0)
            divisor++;
        if (divisor == prime) {
            if (n < 8)
                h[n] = root_bits(prime, 2);
            k[n++] = root_bits(prime, 3);
        }
    }
    size_t length = (t->used + 9 + 63) / 64 * 64;
    uint8_t *all = room(NULL, length);
    memset(all, 0, length);
    memcpy(all, t->bytes, t->used);
    all[t->used] = 128;
    for (int i = 0; i < 8; i++)
        all[length - 1 - i] = (uint64_t)t->used * 8 >> 8 * i;
    for (size_t at = 0; at < length; at += 64) {
        uint32_t w[64], v[8];
        for (int i = 0; i < 16; i++) {
            const uint8_t *b = all + at + 4 * i;
            w[i] = (uint32_t)b[0] << 24 | b[1] << 16 | b[2] << 8 | b[3];
        }
        for (int i = 16; i < 64; i++)
            w[i] = w[i - 16] + (turned(w[i - 15], 7) ^ turned(w[i - 15], 18) ^ w[i - 15] >> 3) + w[i - 7] +
                   (turned(w[i - 2], 17) ^ turned(w[i - 2], 19) ^ w[i - 2] >> 10);
        memcpy(v, h, sizeof v);
        for (int i = 0; i < 64; i++) {
            uint32_t e = v[4], a = v[0];
            uint32_t x = v[7] + (turned(e, 6) ^ turned(e, 11) ^ turned(e, 25)) + ((e & v[5]) ^ (~e & v[6])) + k[i] + w[i];
            uint32_t y = (turned(a, 2) ^ turned(a, 13) ^ turned(a, 22)) + ((a & v[1]) ^ (a & v[2]) ^ (v[1] & v[2]));
            memmove(v + 1, v, 7 * sizeof *v);
            v[4] += x;
            v[0] = x + y;
        }
        for (int i = 0; i < 8; i++)
            h[i] += v[i];
    }
    free(all);
    for (int i = 0; i < 8; i++)
        sprintf(digits + 8 * i, "%08x", h[i]);
}

/* ------------------------------------------------------------------ rank 0: owners */

static uint8_t owners[YD_STATUS_LENGTH];
static size_t family[YD_STATUS_LENGTH]; /* the first child, 0 where there is none */

static int share(size_t n, size_t of) { return 1 + n * parts / of; }

static void own(size_t first, size_t count, int part) {
    for (size_t i = first; i < first + count; i++)
        owners[i] = part;
}

/* From a cell or family down, each before those under it: the part goes by the leaves before, so that a family is whole. */
static void own_leaves(const mesh *m, size_t first, size_t count, size_t *before, size_t leaves) {
    own(first, count, share(*before < leaves ? *before : leaves - 1, leaves));
    for (size_t i = first; i < first + count; i++)
        *before += m->status[i] == YD_LEAF;
    for (size_t i = first; i < first + count; i++)
        if (family[i] != 0) {
            size_t children = 1;
            while (family[i] + children < m->cells && laid.table[8 * (family[i] + children) + 1] == i)
                children++;
            own_leaves(m, family[i], children, before, leaves);
        }
}

static void choose_owners(const mesh *m, int number) {
    uint64_t state = seed + 7919 * (uint64_t)number;
    size_t coarse = cells_used / 4, leaves = 0, before = 0;
    lay_out(m);
    memset(family, 0, sizeof family);
    for (size_t i = 0; i < m->cells; i++) {
        const uint16_t *row = laid.table + 8 * i; /* level, parent, place in the family */
        leaves += m->status[i] == YD_LEAF;
        if (row[1] != YD_NO_PARENT && row[2] == 0)
            family[row[1]] = i;
        if (row[1] != YD_NO_PARENT && row[2] > 0)
            owners[i] = owners[i - 1];
        else if (rule == AT_RANDOM)
            owners[i] = 1 + below(&state, parts);
        else if (row[1] == YD_NO_PARENT)
            owners[i] = share(i, coarse);
        else
            owners[i] = rule == AWAY ? owners[row[1]] % parts + 1 : owners[row[1]];
    }
    if (rule == BY_LEAVES)
        for (size_t i = 0; i < coarse; i++)
            own_leaves(m, i, 1, &before, leaves);
}

/* ------------------------------------------------------------------ rank 0: archives */

static text table_text;


/* One step by all parts: the number that it is refused with, or 0 and the new table. Figures are added. */
static int step_by_parts(mesh *m, const uint8_t *marks, int number, double sums[PARTS][FIGURES]) {
    static uint8_t by_part[YD_STATUS_LENGTH];
    static mesh new;
    int used = 0;
    choose_owners(m, number);
    double clock = processor_time();
    accepted("yd_split", yd_split(MESH, m->status, m->cells, parts, owners, m->cells, stores, YD_STORES_LENGTH));
    say(&table_text, "split %d %.0f\n", number, 1e6 * (processor_time() - clock));
    for (int p = 0; p < parts; p++) {
        starts[p] = used;
        for (size_t i = 0; i < m->cells; i++)
            if (owners[i] == p + 1)
                by_part[used++] = marks[i];
        counts[p] = used - starts[p];
    }
    told(number);
    int refused = step_all(by_part, number);
    if (refused == YD_REFUSED_MARKS)
        return refused;
    for (int p = 0; p < parts; p++) {
        const double *f = all_figures[p];
        say(&table_text, "part %d %d %.0f %.0f %.0f %.0f %.0f %.0f %.0f %.0f\n", number, p + 1, f[CELLS], f[GHOSTS],
            f[MESSAGES], f[BYTES], f[PACKS], f[OFFERS], 1e6 * f[CALLS], 1e6 * f[WAITING]);
        for (int i = 0; i < FIGURES; i++)
            sums[p][i] = i <= GHOSTS ? f[i] : sums[p][i] + f[i];
    }
    clock = processor_time();
    accepted("yd_merge", yd_merge(stores, YD_STORES_LENGTH, new.status, YD_STATUS_LENGTH, &new.cells));
    say(&table_text, "merge %d %.0f\n", number, 1e6 * (processor_time() - clock));
    if (refused && (new.cells != m->cells || memcmp(new.status, m->status, m->cells) != 0))
        fail("step %d is refused with %d and does not merge to the old table", number, refused);
    *m = new;
    return refused;
}

static int differs(const char *name, int number, const char *what) {
    fprintf(stderr, "meshsplit: %s: step %d: %s from the serial one\n", name, number, what);
    return DIFFERENT;
}

/* The same step by yd_step, where it is to be compared or timed. */
static int step_serially(mesh *m, const uint8_t *marks, int number) {
    static mesh new;
    double clock = processor_time();
    int refused = yd_step(MESH, m->status, m->cells, marks, m->cells, new.status, YD_STATUS_LENGTH, &new.cells);
    say(&table_text, "serial %d %zu %.0f\n", number, m->cells, 1e6 * (processor_time() - clock));
    if (!refused)
        *m = new;
    return refused;
}

/* Whether listing and fingerprint are those of the archive's replay. */
static int same_end(const uint8_t *bytes, size_t length, const mesh *m, const text *listing, char digits[65]) {
    static mesh serial;
    uint16_t level_counts[YD_COUNTS_LENGTH];
    size_t levels;
    char serial_digits[65];
    text a = {0}, b = {0}, c = {0};
    if (yd_replay(bytes, length, serial.status, YD_STATUS_LENGTH, level_counts, YD_COUNTS_LENGTH, &serial.cells, &levels) != YD_ACCEPTED)
        return 0;
    list(&a, level_counts, levels);
    describe(&b, &serial);
    fingerprint(&b, serial_digits);
    describe(&c, m);
    fingerprint(&c, digits);
    int same = a.used == listing->used && memcmp(a.bytes, listing->bytes, a.used) == 0 && strcmp(digits, serial_digits) == 0;
    free(a.bytes);
    free(b.bytes);
    free(c.bytes);
    return same;
}

static int32_t number_at(const uint8_t *b, int bytes) {
    uint32_t x = 0;
    for (int i = 0; i < bytes; i++)
        x |= (uint32_t)b[i] << 8 * i;
    return (int32_t)x;
}

static void report(const char *name, int steps, double sums[PARTS][FIGURES]) {
    fprintf(stderr, "%s: %d steps, %d parts, owners %s\n", name, steps, parts, rules[rule]);
    fprintf(stderr, "part  cells ghosts  messages     bytes  packs    offers   calls ms waiting ms\n");
    for (int p = 0; p < parts; p++) {
        const double *f = sums[p];
        fprintf(stderr, "%4d %6.0f %6.0f %9.0f %9.0f %6.0f %9.0f %10.1f %10.1f\n", p + 1, f[CELLS], f[GHOSTS],
                f[MESSAGES], f[BYTES], f[PACKS], f[OFFERS], 1e3 * f[CALLS], 1e3 * f[WAITING]);
    }
}

/* The archive's steps by all parts; what meshlist prints, once; the status. */
static int do_archive(const char *name, int named) {
    static uint8_t bytes[YD_BYTES_LENGTH + 1], marks[YD_STATUS_LENGTH], some_marks[YD_MARKS_LENGTH];
    static uint16_t marked[YD_MARKED_LENGTH], step_ends[YD_STEP_ENDS_LENGTH];
    static mesh m, serial;
    static double sums[PARTS][FIGURES];
    size_t corner_count, cell_count, mark_count, step_count;
    int steps = 0, status = 0;
    text out = {0};
    FILE *file = fopen(name, "rb");
    size_t length = file == NULL ? 0 : fread(bytes, 1, sizeof bytes, file);
    if (file == NULL || ferror(file)) {
        fprintf(stderr, "meshsplit: %s: %s\n", name, strerror(errno));
        if (file != NULL)
            fclose(file);
        return FAILED;
    }
    fclose(file);
    memset(sums, 0, sizeof sums);
    say(&table_text, "# archive %s parts %d owners %s seed %llu\n", name, parts, rules[rule], (unsigned long long)seed);
    say(&table_text, "# part: step, part, cells, ghosts, messages, bytes, packs, offers, calls us, waiting us\n");
    int read = yd_read(bytes, length, positions, YD_POSITIONS_LENGTH, cells, YD_COARSE_CELLS_LENGTH, marked, YD_MARKED_LENGTH, some_marks,
                       YD_MARKS_LENGTH, step_ends, YD_STEP_ENDS_LENGTH, &corner_count, &cell_count, &mark_count, &step_count);
    int refused = YD_REFUSED_MARKS <= read && read <= YD_REFUSED_CELLS ? 0 : read; /* the parts find 7, 8 and 9 themselves */
    positions_used = cells_used = 0;
    memset(marks, 0, sizeof marks);
    memset(m.status, YD_LEAF, sizeof m.status);
    size_t at = 0;
    for (; !refused && bytes[at] == 'V'; at += 13)
        for (int i = 0; i < 3; i++)
            positions[positions_used++] = number_at(bytes + at + 1 + 4 * i, 4);
    for (; !refused && bytes[at] == 'T'; at += 9)
        for (int i = 0; i < 4; i++)
            cells[cells_used++] = number_at(bytes + at + 1 + 2 * i, 2);
    m.cells = cells_used / 4;
    serial = m;
    while (!refused && !status && bytes[at] != 'E') {
        if (bytes[at] == 'M') {
            size_t cell = number_at(bytes + at + 1, 2);
            if (cell < m.cells)
                marks[cell] = bytes[at + 3];
            else
                refused = YD_REFUSED_MARKS; /* no part has it */
            at += 4;
            continue;
        }
        at += 1;
        steps++;
        int expected = checked || table_name != NULL ? step_serially(&serial, marks, steps) : 0;
        refused = step_by_parts(&m, marks, steps, sums);
        if (checked && refused != expected)
            status = differs(name, steps, "the number that it is refused with differs");
        if (checked && (m.cells != serial.cells || memcmp(m.status, serial.status, m.cells) != 0))
            status = differs(name, steps, "the merged table differs");
        memset(marks, 0, sizeof marks);
    }
    if (checked && !status && refused != read)
        status = differs(name, steps, "the archive's number differs");
    if (refused) {
        say(&out, "refused %d\n", refused);
        status = status ? status : REFUSED;
    } else {
        uint16_t level_counts[YD_COUNTS_LENGTH];
        char digits[65];
        size_t levels;
        accepted("yd_counts", yd_counts(MESH, m.status, m.cells, level_counts, YD_COUNTS_LENGTH, &levels));
        list(&out, level_counts, levels);
        if (checked && !status) {
            if (same_end(bytes, length, &m, &out, digits))
                fprintf(stderr, "%s: checked, fingerprint %s\n", name, digits);
            else
                status = differs(name, steps, "the last listing or fingerprint differs");
        }
    }
    if (named)
        printf("%s\n", name);
    if (fwrite(out.bytes, 1, out.used, stdout) != out.used || fflush(stdout) != 0)
        status = FAILED;
    free(out.bytes);
    if (steps > 0)
        report(name, steps, sums);
    return status;
}

/* Whole or not at all. */
static int write_table(void) {
    text other = {0};
    say(&other, "%s.part", table_name);
    FILE *file = fopen(other.bytes, "wb");
    int fine = file != NULL && fwrite(table_text.bytes, 1, table_text.used, file) == table_text.used;
    fine = file != NULL && fclose(file) == 0 && fine && rename(other.bytes, table_name) == 0;
    if (!fine)
        fprintf(stderr, "meshsplit: %s: %s\n", table_name, strerror(errno));
    free(other.bytes);
    return fine ? 0 : FAILED;
}

/* ------------------------------------------------------------------ all ranks */

static int usage(const char *wrong) {
    if (rank == 0)
        fprintf(stderr,
                "meshsplit: %s\n"
                "usage: mpirun -n P meshsplit [--owners RULE] [--seed S] [--delay] [--check] [--table FILE] ARCHIVE...\n"
                "P is 1 to 16, RULE coarse, leaves, random or away\n",
                wrong);
    return FAILED;
}

static int run(int words, char **word) {
    int names = 0, status = 0;
    for (int i = 1; i < words; i++) {
        char *end;
        if (strcmp(word[i], "--delay") == 0) {
            delayed = 1;
        } else if (strcmp(word[i], "--check") == 0) {
            checked = 1;
        } else if (strcmp(word[i], "--owners") == 0 && i + 1 < words) {
            i++;
            for (rule = 0; rule <= AWAY && strcmp(word[i], rules[rule]) != 0; rule++) {
            }
            if (rule > AWAY)
                return usage("no such rule");
        } else if (strcmp(word[i], "--seed") == 0 && i + 1 < words) {
            i++;
            seed = strtoull(word[i], &end, 10);
            if (*word[i] == 0 || *end != 0)
                return usage("the seed is no number");
        } else if (strcmp(word[i], "--table") == 0 && i + 1 < words) {
            table_name = word[++i];
        } else if (word[i][0] == '-') {
            return usage("no such option, or its word is missing");
        } else {
            word[names++] = word[i];
        }
    }
    if (names == 0)
        return usage("no archive");
    if (parts > PARTS)
        return usage("too many ranks");
    for (int i = 0; i < FLIGHT; i++)
        flights[i].request = MPI_REQUEST_NULL;
    if (rank == 0) {
        stores = room(NULL, sizeof *stores * YD_STORES_LENGTH);
        memset(stores, 0, sizeof *stores * YD_STORES_LENGTH);
        for (int i = 0; i < names; i++) {
            int one = do_archive(word[i], names > 1);
            status = one > status ? one : status;
        }
        if (table_name != NULL) {
            int one = write_table();
            status = one > status ? one : status;
        }
        told(0);
        return status;
    }
    for (int number = told(0); number > 0; number = told(0))
        step_all(NULL, number);
    return 0;
}

int main(int words, char **word) {
    MPI_Init(&words, &word);
    MPI_Comm_rank(MPI_COMM_WORLD, &rank);
    MPI_Comm_size(MPI_COMM_WORLD, &parts);
    int status = run(words, word);
    MPI_Finalize();
    return rank == 0 ? status : 0; /* one status is enough for the job's */
}
