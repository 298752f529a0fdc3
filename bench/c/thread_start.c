// How long a thread waits to begin while the one that started it is busy, and when both end if each is busy for the same
// time: for 0.2, 1 and 10 ms the medians of ROUNDS starts, as "BUSY_MS BEGINS_MS BOTH_MS".
//   main ROUNDS
#include <pthread.h>
#include <stdio.h>
#include <stdlib.h>

#include "common.h"

static uint64_t busy, begun;

static void be_busy(void) {
    for (uint64_t end = nanoseconds() + busy; nanoseconds() < end;) {}
}

static void *run(void *nothing) {
    begun = nanoseconds();
    be_busy();
    return nothing;
}

static int by_size(const void *a, const void *b) {
    uint64_t x = *(const uint64_t *)a, y = *(const uint64_t *)b;
    return (x > y) - (x < y);
}

static double median(uint64_t *times, size_t count) {
    qsort(times, count, sizeof *times, by_size);
    return (double)times[count / 2] / 1e6;
}

int main(int argc, char **argv) {
    const size_t rounds = argc == 2 ? strtoul(argv[1], NULL, 10) : 0;
    uint64_t *begins = calloc(rounds + 1, sizeof *begins), *both = calloc(rounds + 1, sizeof *both);
    if (rounds < 1 || !begins || !both) return 2;
    const uint64_t times[] = {200000, 1000000, 10000000};
    for (size_t t = 0; t < 3; t++) {
        busy = times[t];
        for (size_t i = 0; i < rounds; i++) {
            pthread_t thread;
            uint64_t start = nanoseconds();
            if (pthread_create(&thread, NULL, run, NULL)) return 1;
            be_busy();
            if (pthread_join(thread, NULL)) return 1;
            both[i] = nanoseconds() - start;
            begins[i] = begun - start;
        }
        printf("%.1f %.2f %.2f\n", (double)busy / 1e6, median(begins, rounds), median(both, rounds));
    }
    free(begins);
    free(both);
}
