// The maker of the table that is read, and of its rows alone, which `sort -c` looks at.
//   main make ROWS FILE    writes a seeded table of words of length 21 to FILE, and its rows to FILE.rows
#include <stdio.h>
#include <stdlib.h>
#include <string.h>

#include "common.h"

enum { LENGTH = 21 };

static uint64_t state = 88172645463325252ull;

int main(int count, char **words) {
    if (count != 4 || strcmp(words[1], "make") != 0) return 2;
    uint64_t rows = strtoull(words[2], NULL, 10), gap = (1ull << 2 * LENGTH) / rows, total = 0;
    char path[4096];
    snprintf(path, sizeof path, "%s.rows", words[3]);
    FILE *table = fopen(words[3], "wb"), *alone = fopen(path, "wb");
    if (!table || !alone) return 1;
    fprintf(table, "KCT 1 %d s\n", LENGTH);
    for (uint64_t i = 0; i < rows; i++) {
        uint64_t word = i * gap + xorshift(&state) % gap, times = 1 + (xorshift(&state) >> 40) % 50;
        char row[64];
        for (int j = 0; j < LENGTH; j++) row[j] = "ACGT"[word >> 2 * (LENGTH - 1 - j) & 3];
        sprintf(row + LENGTH, " %llu\n", (unsigned long long)times);
        fputs(row, table);
        fputs(row, alone);
        total += times;
    }
    fprintf(table, "END %llu %llu\n", (unsigned long long)rows, (unsigned long long)total);
    return fclose(table) || fclose(alone);
}
