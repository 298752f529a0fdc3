// The plain C loop that the words of batches are measured against, and the maker of the file that both programs read.
//   main make READS FILE     writes seeded reads
//   main FILE K              prints how long the words of all batches took, both strands, and their sum
#include <stdio.h>
#include <stdlib.h>
#include <string.h>

#include "batches.h"
#include "common.h"

#define LENGTH 150

static uint64_t state = 88172645463325252ull;

static int make(long reads, const char *path) {
    FILE *out = fopen(path, "wb");
    if (!out) return 1;
    for (long i = 0; i < reads; i++) {
        fprintf(out, ">%ld\n", i);
        for (int j = 0; j < LENGTH; j++) {
            uint64_t r = xorshift(&state);
            putc(r % 1000 == 0 ? 'N' : "ACGT"[r >> 62], out);
        }
        putc('\n', out);
    }
    return fclose(out) != 0;
}

int main(int argc, char **argv) {
    if (argc == 4 && strcmp(argv[1], "make") == 0) return make(atol(argv[2]), argv[3]);
    if (argc != 3) return 2;
    int k = atoi(argv[2]);
    if (cut_file(argv[1], k)) return 1;
    for (int round = 0; round < 3; round++) {
        uint64_t start = nanoseconds(), sum = 0;
        for (size_t i = 0; i < batch_count; i++) {
            uint64_t *out = malloc(batches[i].positions * sizeof *out);
            size_t n = words(&batches[i], k, out);
            if (n) sum += out[n - 1] + n;
            free(out);
        }
        uint64_t took = nanoseconds() - start;
        printf("words %llu %llu\n", (unsigned long long)took, (unsigned long long)sum);
    }
    return 0;
}
