// Batches counted by workers in locked stripes and gathered, as kc_run's `run` does it, in plain C; and the maker of
// the file that both programs read.
//   main make BATCHES FILE           writes seeded reads for so many batches
//   main run WORKERS STRIPES FILE    prints how long the count took, from the batches to the sorted rows, with the
//                                    number of rows, the sum of their counts and the number of words counted once; how
//                                    long the workers took on the average to cut up, to wait for locks and to book;
//                                    and how long it took after them, by as many threads, to take the rows and to sort them
#include <pthread.h>
#include <stdatomic.h>
#include <stdio.h>
#include <stdlib.h>
#include <string.h>

#include "batches.h"
#include "common.h"
#include "cuts.h"
#include "gathering.h"

// positions of a round, and the rounds that each worker is left at the least
#define ROUND 4000000
#define ROUNDS 4
// a table tells by so many bits in which part of it a key stands
#define PART_BITS 10

typedef struct {
    pthread_mutex_t lock;
    Stripe stripe;
} Locked;

typedef struct {
    int number;
    uint64_t cut, wait, book;
} Worker;

static Locked stripes[64];
static uint64_t columns[62];
static int workers, stripe_bits;
static size_t round_size;
static atomic_size_t next;

// Draws so many batches and cuts them up.
static size_t draw_round(Cut (*cuts)[64]) {
    size_t drawn = 0;
    while (drawn < round_size) {
        size_t number = atomic_fetch_add(&next, 1);
        if (number >= batch_count) break;
        cut_up(&batches[number], columns, stripe_bits, cuts[drawn++]);
    }
    return drawn;
}

// The part of the table in which a key's home is.
static inline uint64_t part_of(const Table *table, uint64_t key) {
    uint64_t home = key & ((1ull << table->log) - 1);
    return home >> (table->log > PART_BITS ? table->log - PART_BITS : 0);
}

// Books several cuts together, their keys in the order of the table's parts.
static __attribute__((noinline)) void book_all(Stripe *stripe, const Cut *cuts, size_t count, size_t apart) {
    size_t length = 0, ends[1 << PART_BITS] = {0};
    for (size_t c = 0; c < count; c++) {
        const Cut *cut = &cuts[c * apart];
        length += cut->length;
        for (size_t i = 0; i < cut->length; i++) ends[part_of(&stripe->table, cut->keys[i])]++;
    }
    for (size_t at = 1; at < 1 << PART_BITS; at++) ends[at] += ends[at - 1];
    uint64_t *keys = malloc(length * sizeof *keys + 1);
    for (size_t c = count; c-- > 0;) {
        const Cut *cut = &cuts[c * apart];
        for (size_t i = cut->length; i-- > 0;) keys[--ends[part_of(&stripe->table, cut->keys[i])]] = cut->keys[i];
    }
    book_keys(stripe, keys, length);
    free(keys);
}

// Books the round stripe by stripe, each stripe's cuts together, and frees its cuts.
static void book_round(Worker *worker, Cut (*cuts)[64], size_t drawn) {
    int count = 1 << stripe_bits, first = worker->number * count / workers;
    for (int i = 0; i < count; i++) {
        int at = (first + i) % count;
        uint64_t start = nanoseconds();
        if (pthread_mutex_lock(&stripes[at].lock)) exit(4);
        uint64_t locked = nanoseconds();
        book_all(&stripes[at].stripe, &cuts[0][at], drawn, sizeof cuts[0] / sizeof cuts[0][0]);
        pthread_mutex_unlock(&stripes[at].lock);
        worker->wait += locked - start;
        worker->book += nanoseconds() - locked;
        for (size_t b = 0; b < drawn; b++) free(cuts[b][at].keys);
    }
}

static void *work(void *job) {
    Worker *worker = job;
    Cut (*cuts)[64] = malloc(round_size * sizeof *cuts);
    if (!cuts) exit(6);
    for (;;) {
        uint64_t start = nanoseconds();
        size_t drawn = draw_round(cuts);
        worker->cut += nanoseconds() - start;
        if (drawn == 0) break;
        book_round(worker, cuts, drawn);
    }
    free(cuts);
    return 0;
}

static void work_all(Worker *all) {
    pthread_t ids[64];
    for (int i = 0; i < workers; i++) all[i].number = i;
    for (int i = 1; i < workers; i++)
        if (pthread_create(&ids[i], 0, work, &all[i])) exit(5);
    work(&all[0]);
    for (int i = 1; i < workers; i++) pthread_join(ids[i], 0);
}

// Whether each word is greater than the one before it.
static int rise(void) {
    int64_t last = -1;
    for (int at = 0; at < PARTS; at++)
        for (size_t i = 0; i < columns_of_parts[at].length; i++) {
            int64_t word = (uint64_t)at << (BITS - 8) | columns_of_parts[at].rows[i] >> COUNT_BITS;
            if (word <= last) return 0;
            last = word;
        }
    return 1;
}

static Stripe *stripe_at(int number) { return &stripes[number].stripe; }

// The least log with which the tables have together a million slots, as `quotient_tables` takes it.
static int first_log(void) {
    int log = 20 - stripe_bits;
    return log < 4 ? 4 : log;
}

int main(int argc, char **argv) {
    if (argc == 4 && strcmp(argv[1], "make") == 0) return make(atol(argv[2]), argv[3]);
    if (argc != 5 || strcmp(argv[1], "run")) return 2;
    workers = atoi(argv[2]);
    stripe_bits = __builtin_ctz(atoi(argv[3]) | 64);
    if (workers < 1 || workers > 64 || cut_file(argv[4], K)) return 1;
    seeded(columns);
    size_t most = batch_count / (ROUNDS * workers);
    round_size = ROUND / SIZE < most ? ROUND / SIZE : most;
    if (round_size == 0) round_size = 1;
    Worker all[64] = {0};

    uint64_t start = nanoseconds();
    for (int i = 0; i < 1 << stripe_bits; i++)
        if (pthread_mutex_init(&stripes[i].lock, 0)
            || !empty(&stripes[i].stripe.table, BITS - stripe_bits, first_log(), 36)) return 2;
    work_all(all);
    uint64_t worked = nanoseconds();
    uint64_t back_columns[62] = {0}, total = 0, once = 0;
    static struct tables back;
    inverse(columns, BITS, back_columns);
    build(&back, back_columns);
    Gathering all_rows = {.stripe_at = stripe_at, .back = &back, .stripe_bits = stripe_bits, .threads = workers};
    by_all(&all_rows, take_range);
    uint64_t taken = nanoseconds();
    deal(&all_rows);
    by_all(&all_rows, sort_range);
    size_t length = 0;
    for (int at = 0; at < PARTS; at++) {
        const Part *part = &columns_of_parts[at];
        length += part->length;
        for (size_t i = 0, large = 0; i < part->length; i++) {
            uint64_t count = part->rows[i] & ((UINT64_C(1) << COUNT_BITS) - 1);
            if (!count) count = part->large[large++].count;
            total += count, once += count == 1;
        }
    }
    uint64_t end = nanoseconds();

    if (!rise()) return 7;
    uint64_t cut = 0, wait = 0, booked = 0;
    for (int i = 0; i < workers; i++) cut += all[i].cut, wait += all[i].wait, booked += all[i].book;
    typedef unsigned long long Number;
    printf("run %llu %zu %llu %llu\n", (Number)(end - start), length, (Number)total, (Number)once);
    printf("cut %llu\nwait %llu\n", (Number)cut / workers, (Number)wait / workers);
    printf("book %llu\nrows %llu\n", (Number)booked / workers, (Number)(taken - worked));
    printf("sort %llu\n", (Number)(end - taken));
    printf("gather %llu %zu %llu %llu\n", (Number)(end - worked), length, (Number)total, (Number)once);
    return 0;
}
