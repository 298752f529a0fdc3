// The table of remainders, as `kc_table::QuotientTable` is, in C: a slot is one word, the tag above and low bits of the count
// below; what is carried out of them is counted in a second array, which is written only as far as it is needed.
#ifndef BENCH_SLOTS_H
#define BENCH_SLOTS_H

#include <stdint.h>
#include <stdlib.h>

typedef struct {
    uint32_t bits, log, max_log, low;
    uint64_t *words, *high, high_length;
} Table;

enum { FOUND, FREE, CROWDED };

static inline int probe(const Table *table, uint64_t key, uint64_t *place, uint64_t *tag) {
    uint64_t mask = (1ull << table->log) - 1;
    uint64_t remainder = (key >> table->log) << 6;
    uint64_t at = key & mask;
    for (uint64_t i = 0; i < 63; i++) {
        at = (at + i) & mask;
        uint64_t wanted = remainder | (i + 1);
        uint64_t read = table->words[at] >> table->low;
        *place = at;
        *tag = wanted;
        if (read == wanted)
            return FOUND;
        if (read == 0)
            return FREE;
    }
    return CROWDED;
}

static inline uint64_t key_at(const Table *table, uint64_t place, uint64_t tag) {
    uint64_t mask = (1ull << table->log) - 1;
    uint64_t i = (tag & 63) - 1;
    return ((tag >> 6) << table->log) | ((place - i * (i + 1) / 2) & mask);
}

static inline uint64_t tag_at(const Table *table, uint64_t place) {
    return table->words[place] >> table->low;
}

static inline uint64_t count_at(const Table *table, uint64_t place) {
    uint64_t below = table->words[place] & ((1ull << table->low) - 1);
    return place < table->high_length ? (table->high[place] << table->low) + below : below;
}

static __attribute__((noinline, cold)) void set_high(Table *table, uint64_t place, uint64_t high) {
    while (table->high_length <= place)
        table->high[table->high_length++] = 0;
    table->high[place] = high;
}

static inline void put(Table *table, uint64_t place, uint64_t tag, uint64_t count) {
    table->words[place] = tag << table->low | (count & ((1ull << table->low) - 1));
    uint64_t high = count >> table->low;
    if (high)
        set_high(table, place, high);
}

static __attribute__((noinline, cold)) void carry_into(Table *table, uint64_t place) {
    set_high(table, place, (place < table->high_length ? table->high[place] : 0) + 1);
}

// Adds one to the count in a slot, and tells the new count.
static inline uint64_t add_one(Table *table, uint64_t place) {
    uint64_t count = count_at(table, place) + 1;
    uint64_t word = table->words[place], below = word & ((1ull << table->low) - 1);
    if ((below + 1) >> table->low == 0) {
        table->words[place] = word + 1;
    } else {
        table->words[place] = word - below;
        carry_into(table, place);
    }
    return count;
}

// The words are written here, so that their first touch is not counted to the keys.
static __attribute__((noinline)) void clear(uint64_t *words, uint64_t count) {
    for (uint64_t i = 0; i < count; i++)
        words[i] = 0;
}

static void discard(Table *table) {
    free(table->words);
    free(table->high);
}

static int empty(Table *table, uint32_t bits, uint32_t log, uint32_t max_log) {
    *table = (Table){bits, log, max_log, 58 + log - bits, NULL, NULL, 0};
    table->high = malloc((1ull << log) * sizeof *table->high);
    table->words = malloc((1ull << log) * sizeof *table->words);
    if (table->words == NULL || table->high == NULL)
        return 0;
    clear(table->words, 1ull << log);
    return 1;
}

static int take(Table *table, uint64_t key, uint64_t count) {
    uint64_t place, tag;
    if (probe(table, key, &place, &tag) == CROWDED)
        return 0;
    put(table, place, tag, count);
    return 1;
}

static int resized(const Table *old, Table *table, uint32_t log) {
    if (!empty(table, old->bits, log, old->max_log))
        exit(2);
    for (uint64_t place = 0; place < 1ull << old->log; place++) {
        uint64_t tag = tag_at(old, place);
        if (tag && !take(table, key_at(old, place, tag), count_at(old, place))) {
            discard(table);
            return 0;
        }
    }
    return 1;
}

static __attribute__((noinline)) void grow(Table *table, uint64_t key) {
    for (uint32_t log = table->log + 1; log <= table->max_log; log++) {
        Table larger;
        if (!resized(table, &larger, log))
            continue;
        if (take(&larger, key, 0)) {
            discard(table);
            *table = larger;
            return;
        }
        discard(&larger);
    }
    exit(1);
}

// The place of a key that is stored.
static inline uint64_t place_of(const Table *table, uint64_t key) {
    uint64_t place, tag;
    if (probe(table, key, &place, &tag) != FOUND)
        exit(3);
    return place;
}

// Stores a key, and returns its place, which is the key's until the table grows.
static inline uint64_t store(Table *table, uint64_t key) {
    uint64_t place, tag;
    switch (probe(table, key, &place, &tag)) {
    case FOUND:
        return place;
    case FREE:
        put(table, place, tag, 0);
        return place;
    default:
        grow(table, key);
        return place_of(table, key);
    }
}

static inline void ready(Table *table, uint64_t key) {
    store(table, key);
}

#endif
