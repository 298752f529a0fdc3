// Seeded reads on standard output, as Sanger FASTQ: reads BASES COVERAGE LENGTH ERRORS SEED [QUALITIES]. A genome of so many random
// bases is read from both strands, each base so often in the mean, in reads of this length with so many wrong bases in a thousand.
// Qualities are 40 each, or, where so many of them are asked for, any of 0 to one below that number.
#include <stdint.h>
#include <stdio.h>
#include <stdlib.h>

static uint64_t state;

// SplitMix64
static uint64_t next(void) {
    uint64_t z = (state += 0x9e3779b97f4a7c15);
    z = (z ^ (z >> 30)) * 0xbf58476d1ce4e5b9;
    z = (z ^ (z >> 27)) * 0x94d049bb133111eb;
    return z ^ (z >> 31);
}

int main(int argc, char **argv) {
    if (argc != 6 && argc != 7) return 2;
    const size_t bases = strtoull(argv[1], 0, 10), coverage = strtoull(argv[2], 0, 10), length = strtoull(argv[3], 0, 10);
    const unsigned errors = strtoul(argv[4], 0, 10);
    state = strtoull(argv[5], 0, 10);
    const unsigned qualities = argc == 7 ? strtoul(argv[6], 0, 10) : 0;
    unsigned char *genome = malloc(bases);
    char *read = malloc(length + 1), *quality = malloc(length + 1);
    if (!genome || !read || !quality || length == 0 || bases < length) return 1;
    for (size_t i = 0; i < bases; i++) genome[i] = next() >> 62;
    for (size_t i = 0; i < length; i++) quality[i] = 'I';
    read[length] = quality[length] = 0;
    for (size_t n = 0; n < bases * coverage / length; n++) {
        const size_t start = next() % (bases - length + 1);
        const int back = next() >> 63;
        for (size_t i = 0; i < length; i++) {
            unsigned base = back ? 3 - genome[start + length - 1 - i] : genome[start + i];
            const uint64_t chance = next();
            if (chance % 1000 < errors) base = (base + 1 + (chance >> 40) % 3) & 3;
            read[i] = "ACGT"[base];
            if (qualities) quality[i] = 33 + (chance >> 16) % qualities;
        }
        printf("@read%zu\n%s\n+\n%s\n", n, read, quality);
    }
    return 0;
}
