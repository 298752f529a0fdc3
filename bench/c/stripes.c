// Cuts of batches booked in 16 stripes, as kc_stripe does it, in plain C; and the maker of the file that both programs read.
//   main make BATCHES FILE     writes seeded reads for so many batches
//   main WAY FILE              prints how long booking took, with the sum of the totals and the number of words counted once.
//                              The way is `alone`, without locks; `one`, each booking under its stripe's mutex, by one
//                              thread; or `four`, by four threads.
#include <pthread.h>
#include <stdio.h>
#include <stdlib.h>
#include <string.h>

#include "batches.h"
#include "common.h"
#include "cuts.h"

#define STRIPE_BITS 4
#define STRIPES (1 << STRIPE_BITS)

typedef struct {
    pthread_mutex_t lock;
    Stripe stripe;
} Locked;

static Locked stripes[STRIPES];

// the cuts of each batch
static Cut (*cuts)[STRIPES];

static int threads;

static void book_alone(void) {
    for (size_t b = 0; b < batch_count; b++)
        for (int i = 0; i < STRIPES; i++) book(&stripes[i].stripe, &cuts[b][i]);
}

// Books the batches of one of the threads, which begins at a stripe of its own.
static void *book_part(void *job) {
    int number = *(int *)job, first = number * STRIPES / threads;
    for (size_t b = number; b < batch_count; b += threads)
        for (int i = 0; i < STRIPES; i++) {
            int at = (first + i) % STRIPES;
            if (pthread_mutex_lock(&stripes[at].lock)) exit(4);
            book(&stripes[at].stripe, &cuts[b][at]);
            pthread_mutex_unlock(&stripes[at].lock);
        }
    return 0;
}

static void book_shared(void) {
    pthread_t ids[4];
    int numbers[4] = {0, 1, 2, 3};
    for (int i = 1; i < threads; i++)
        if (pthread_create(&ids[i], 0, book_part, &numbers[i])) exit(5);
    book_part(&numbers[0]);
    for (int i = 1; i < threads; i++) pthread_join(ids[i], 0);
}

int main(int argc, char **argv) {
    if (argc == 4 && strcmp(argv[1], "make") == 0) return make(atol(argv[2]), argv[3]);
    if (argc != 3) return 2;
    threads = strcmp(argv[1], "alone") == 0 ? 0 : strcmp(argv[1], "one") == 0 ? 1 : 4;
    if (cut_file(argv[2], K)) return 1;
    uint64_t columns[62] = {0}, total = 0, once = 0;
    seeded(columns);
    cuts = malloc(batch_count * sizeof *cuts);
    for (size_t b = 0; b < batch_count; b++) cut_up(&batches[b], columns, STRIPE_BITS, cuts[b]);
    for (int i = 0; i < STRIPES; i++)
        if (pthread_mutex_init(&stripes[i].lock, 0) || !empty(&stripes[i].stripe.table, BITS - STRIPE_BITS, 10, 36)) return 2;
    uint64_t start = nanoseconds();
    if (threads == 0) book_alone();
    else book_shared();
    uint64_t took = nanoseconds() - start;
    for (int i = 0; i < STRIPES; i++) {
        total += stripes[i].stripe.total;
        once += stripes[i].stripe.bins[1];
    }
    printf("%s %llu %llu %llu\n", argv[1], (unsigned long long)took, (unsigned long long)total, (unsigned long long)once);
    return 0;
}
