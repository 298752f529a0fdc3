// Batches cut up among stripes and booked, as kc_stripe does it, in plain C; and the maker of the file that both programs read.
//   main make BATCHES FILE     writes seeded reads for so many batches
//   main FILE                  prints how long cutting up and booking took, and the sums of the keys and of the counts
#include <stdio.h>
#include <stdlib.h>
#include <string.h>

#include "batches.h"
#include "common.h"
#include "cuts.h"

int main(int argc, char **argv) {
    if (argc == 4 && strcmp(argv[1], "make") == 0) return make(atol(argv[2]), argv[3]);
    if (argc != 2) return 2;
    if (cut_file(argv[1], K)) return 1;
    uint64_t columns[62] = {0};
    seeded(columns);
    for (int stripe_bits = 4; stripe_bits <= 6; stripe_bits += 2) {
        int count = 1 << stripe_bits;
        Stripe *stripes = calloc(count, sizeof *stripes);
        Cut *cuts = malloc(count * sizeof *cuts);
        for (int i = 0; i < count; i++)
            if (!empty(&stripes[i].table, BITS - stripe_bits, 10, 36)) return 2;
        uint64_t cutting = 0, booking = 0, sum = 0, total = 0, once = 0;
        for (size_t b = 0; b < batch_count; b++) {
            uint64_t start = nanoseconds();
            cut_up(&batches[b], columns, stripe_bits, cuts);
            cutting += nanoseconds() - start;
            for (int i = 0; i < count; i++) sum += cuts[i].length + (cuts[i].length ? cuts[i].keys[cuts[i].length - 1] : 0);
            start = nanoseconds();
            for (int i = 0; i < count; i++) book(&stripes[i], &cuts[i]);
            booking += nanoseconds() - start;
            for (int i = 0; i < count; i++) free(cuts[i].keys);
        }
        for (int i = 0; i < count; i++) {
            total += stripes[i].total;
            once += stripes[i].bins[1];
            discard(&stripes[i].table);
        }
        free(stripes);
        free(cuts);
        printf("cut%d %llu %llu\n", count, (unsigned long long)cutting, (unsigned long long)sum);
        printf("book%d %llu %llu %llu\n", count, (unsigned long long)booking, (unsigned long long)total, (unsigned long long)once);
    }
    return 0;
}
