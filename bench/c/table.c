// The table of remainders in C, as `kc_table::QuotientTable` has it:
//   main KEYS    readies so many keys, then counts them, and prints how long that took, in nanoseconds
#include <stdio.h>
#include <stdlib.h>

#include "common.h"
#include "slots.h"

#define BITS 42

static inline void add(Table *table, uint64_t key) {
    uint64_t place, tag;
    if (probe(table, key, &place, &tag) == FOUND)
        add_one(table, place);
}

// Prints how many keys were stored at the last doubling of a table that begins at 2^16 slots, and the size before it.
static void last_doubling(const uint64_t *keys, uint64_t n) {
    Table table;
    if (!empty(&table, BITS, 16, 40))
        exit(2);
    uint64_t stored = 0, stored_then = 0, place, tag;
    uint32_t log_then = 0;
    for (uint64_t i = 0; i < n; i++) {
        if (probe(&table, keys[i], &place, &tag) == FOUND)
            continue;
        uint32_t log = table.log;
        ready(&table, keys[i]);
        if (table.log > log) {
            log_then = log;
            stored_then = stored;
        }
        stored++;
    }
    printf("doubled 0 %u %llu\n", log_then, (unsigned long long)stored_then);
    discard(&table);
}

static uint64_t state = 1;

int main(int argc, char **argv) {
    if (argc != 2) return 1;
    const uint64_t n = strtoull(argv[1], NULL, 10);
    uint64_t *keys = malloc(n * sizeof *keys);
    for (uint64_t i = 0; i < n; i++) {
        uint64_t word = split_mix(&state);
        keys[i] = i % 4 == 3 ? keys[word % i] : word & ((1ull << BITS) - 1);
    }
    const uint32_t logs[2] = {16, 25};
    for (int run = 0; run < 2; run++) {
        Table table;
        if (!empty(&table, BITS, logs[run], 40))
            return 2;
        uint64_t start = nanoseconds();
        for (uint64_t i = 0; i < n; i++)
            ready(&table, keys[i]);
        uint64_t readied = nanoseconds();
        for (uint64_t i = 0; i < n; i++)
            add(&table, keys[i]);
        uint64_t added = nanoseconds();
        uint64_t stored = 0, total = 0;
        for (uint64_t place = 0; place < 1ull << table.log; place++) {
            stored += tag_at(&table, place) != 0;
            total += count_at(&table, place);
        }
        printf("ready%u %llu %u\n", logs[run], (unsigned long long)(readied - start), table.log);
        printf("add%u %llu %llu %llu\n", logs[run], (unsigned long long)(added - readied), (unsigned long long)stored,
               (unsigned long long)total);
        discard(&table);
    }
    last_doubling(keys, n);
    return 0;
}
