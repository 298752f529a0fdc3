// The words of batches cut up among stripes, and cuts booked, as kc_stripe does it, in C; and the maker of the reads' file.
#ifndef BENCH_CUTS_H
#define BENCH_CUTS_H

#include <stdint.h>
#include <stdio.h>
#include <stdlib.h>

#include "batches.h"
#include "byte_tables.h"
#include "common.h"
#include "slots.h"

#define LENGTH 150
#define K 21
#define BITS (2 * K)
#define DEPTH 20
#define LAST_BIN 10001
#define BLOCK 64

// Writes seeded reads for so many batches. 0 where that went well.
static int make(long batch_total, const char *path) {
    uint64_t state = 88172645463325252ull;
    long reads = batch_total * SIZE / (LENGTH - K + 1);
    size_t bases = (size_t)reads * LENGTH / DEPTH + LENGTH;
    unsigned char *genome = malloc(bases);
    for (size_t i = 0; i < bases; i++) genome[i] = "ACGT"[xorshift(&state) >> 62];
    FILE *out = fopen(path, "wb");
    if (!out) return 1;
    for (long i = 0; i < reads; i++) {
        size_t from = xorshift(&state) % (bases - LENGTH + 1);
        fprintf(out, ">%ld\n", i);
        for (int j = 0; j < LENGTH; j++) {
            uint64_t r = xorshift(&state);
            putc(r % 100 == 0 ? "ACGT"[r >> 62] : genome[from + j], out);
        }
        putc('\n', out);
    }
    free(genome);
    return fclose(out) != 0;
}

static void seeded(uint64_t *columns) {
    for (uint64_t seed = 1;; seed++) {
        uint64_t numbers = seed;
        for (int i = 0; i < BITS; i++) columns[i] = split_mix(&numbers) & ((UINT64_C(1) << BITS) - 1);
        if (invertible(columns, BITS)) return;
    }
}

typedef struct {
    uint64_t *keys;
    size_t length;
} Cut;

typedef struct {
    Table table;
    uint64_t bins[LAST_BIN + 1], total;
} Stripe;

// The keys of each stripe: words, their codes in place, room for each stripe's keys, the keys.
static __attribute__((noinline)) void cut_up(const struct batch *batch, const uint64_t *columns, int stripe_bits, Cut *cuts) {
    static _Thread_local struct tables tables;
    uint64_t low = (1ull << stripe_bits) - 1;
    uint64_t *found = malloc(batch->positions * sizeof *found);
    size_t n = words(batch, K, found);
    build(&tables, columns);
    for (size_t i = 0; i < n; i++) found[i] = apply(&tables, found[i]);
    size_t sizes[64] = {0};
    for (size_t i = 0; i < n; i++) sizes[found[i] & low]++;
    for (uint64_t i = 0; i <= low; i++) cuts[i] = (Cut){malloc(sizes[i] * sizeof *found + 1), 0};
    for (size_t i = 0; i < n; i++) {
        Cut *cut = &cuts[found[i] & low];
        cut->keys[cut->length++] = found[i] >> stripe_bits;
    }
    free(found);
}

// One more word counts so often.
static inline void raise(Stripe *stripe, uint64_t count) {
    if (count > LAST_BIN) return;
    if (count > 1) stripe->bins[count - 1]--;
    stripe->bins[count]++;
}

// Counts keys at their places; the histogram moves behind each block of them.
static void add_all(Stripe *stripe, const uint64_t *places, size_t length) {
    uint64_t noted[BLOCK];
    for (size_t begin = 0; begin < length; begin += BLOCK) {
        size_t count = length - begin < BLOCK ? length - begin : BLOCK;
        for (size_t i = 0; i < count; i++) noted[i] = add_one(&stripe->table, places[begin + i]);
        for (size_t i = 0; i < count; i++) raise(stripe, noted[i]);
    }
    stripe->total += length;
}

// Stores the keys and notes their places, which are asked again where the table grew meanwhile; then counts the keys.
static __attribute__((noinline)) void book_keys(Stripe *stripe, const uint64_t *keys, size_t length) {
    uint64_t *places = malloc(length * sizeof *places + 1);
    uint32_t log = stripe->table.log;
    for (size_t i = 0; i < length; i++) places[i] = store(&stripe->table, keys[i]);
    if (stripe->table.log > log)
        for (size_t i = 0; i < length; i++) places[i] = place_of(&stripe->table, keys[i]);
    add_all(stripe, places, length);
    free(places);
}

static __attribute__((noinline)) void book(Stripe *stripe, const Cut *cut) {
    book_keys(stripe, cut->keys, cut->length);
}

#endif
