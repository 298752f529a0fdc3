/* The same measurements over the same tables in C. */
#include <stdio.h>
#include <stdlib.h>

#include "byte_tables.h"
#include "common.h"

enum { WORDS = 65536, TURNS = 200 };

static uint64_t state;

static __attribute__((noinline)) uint64_t sum_of(const struct tables *t, const uint64_t *words, uint64_t turn, int bits) {
    uint64_t sum = 0;
    for (int i = 0; i < WORDS; i++) sum += apply(t, (words[i] ^ turn) >> (64 - bits));
    return sum;
}

int main(void) {
    static uint64_t words[WORDS];
    static struct tables tables, built;
    uint64_t word = 1;
    for (int i = 0; i < WORDS; i++) words[i] = word = word * 6364136223846793005u + 1442695040888963407u;
    for (int bits = 42; bits <= 62; bits += 20) {
        uint64_t columns[62] = {0};
        for (uint64_t seed = 1; ; seed++) {
            state = seed;
            for (int i = 0; i < bits; i++) columns[i] = split_mix(&state) & ((UINT64_C(1) << bits) - 1);
            if (invertible(columns, bits)) break;
        }
        build(&tables, columns);
        for (int round = 0; round < 7; round++) {
            uint64_t start = nanoseconds(), sum = 0;
            for (uint64_t turn = 0; turn < TURNS; turn++) sum += sum_of(&tables, words, turn, bits);
            uint64_t took = nanoseconds() - start;
            printf("apply%d %llu %llu\n", bits, (unsigned long long)took, (unsigned long long)sum);
        }
        for (int round = 0; round < 7; round++) {
            uint64_t start = nanoseconds(), sum = 0;
            for (uint64_t turn = 0; turn < TURNS; turn++) {
                build(&built, columns);
                sum += apply(&built, (turn << 32) >> (64 - bits));
            }
            uint64_t took = nanoseconds() - start;
            printf("build%d %llu %llu\n", bits, (unsigned long long)took, (unsigned long long)sum);
        }
    }
    return 0;
}
