// Prints how long a million numbers took that are taken by fetch_add, by one thread and by four, in nanoseconds.
#include <pthread.h>
#include <sched.h>
#include <stdatomic.h>
#include <stdio.h>

#include "common.h"

#define NUMBERS 1000000ull

static _Alignas(64) atomic_ullong next;

static atomic_int here;
static int all_threads;

// Waits until all threads are here, so that they take numbers at the same time.
static void meet(void) {
    atomic_fetch_add(&here, 1);
    while (atomic_load(&here) < all_threads) sched_yield();
}

static void *drain(void *sum) {
    uint64_t all = 0;
    meet();
    for (;;) {
        uint64_t number = atomic_fetch_add(&next, 1);
        if (number >= NUMBERS) break;
        all += number;
    }
    *(uint64_t *)sum = all;
    return 0;
}

// Prints how long nine runs took, with the sum of the numbers.
static int time_adds(int threads) {
    for (int run = 0; run < 9; run++) {
        pthread_t ids[4];
        uint64_t sums[4] = {0}, sum = 0;
        atomic_store(&next, 0);
        atomic_store(&here, 0);
        all_threads = threads;
        uint64_t start = nanoseconds();
        for (int i = 1; i < threads; i++)
            if (pthread_create(&ids[i], 0, drain, &sums[i])) return 1;
        drain(&sums[0]);
        for (int i = 1; i < threads; i++) pthread_join(ids[i], 0);
        uint64_t took = nanoseconds() - start;
        for (int i = 0; i < threads; i++) sum += sums[i];
        printf("draw%d %llu %llu\n", threads, (unsigned long long)took, (unsigned long long)sum);
    }
    return 0;
}

int main(void) {
    return time_adds(1) || time_adds(4);
}
