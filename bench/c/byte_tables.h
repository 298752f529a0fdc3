// A bit matrix in eight tables of 256 numbers, and whether it is invertible, as the C peers of the benchmarks have them.
#ifndef BENCH_BYTE_TABLES_H
#define BENCH_BYTE_TABLES_H

#include <stdint.h>

static int invertible(const uint64_t *columns, int bits) {
    uint64_t basis[64] = {0};
    for (int i = 0; i < bits; i++) {
        uint64_t v = columns[i];
        while (v) {
            int top = 63 - __builtin_clzll(v);
            if (!basis[top]) {
                basis[top] = v;
                break;
            }
            v ^= basis[top];
        }
        if (!v) return 0;
    }
    return 1;
}

struct tables {
    uint64_t words[8][256];
};

static __attribute__((noinline)) void build(struct tables *t, const uint64_t *columns) {
    for (int place = 0; place < 8; place++) {
        t->words[place][0] = 0;
        for (int bit = 0; bit < 8; bit++) {
            int at = 8 * place + bit, width = 1 << bit;
            uint64_t column = at < 62 ? columns[at] : 0;
            for (int lower = 0; lower < width; lower++)
                t->words[place][width + lower] = t->words[place][lower] ^ column;
        }
    }
}

static uint64_t apply(const struct tables *t, uint64_t x) {
    uint64_t sum = 0;
    for (int place = 0; place < 8; place++) sum ^= t->words[place][x >> (8 * place) & 255];
    return sum;
}

#endif
