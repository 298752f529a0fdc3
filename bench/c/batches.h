// Reads cut into batches of 65,536 positions, and the words of a batch, as the C peers of the benchmarks have them.
#ifndef BENCH_BATCHES_H
#define BENCH_BATCHES_H

#include <stdint.h>
#include <stdio.h>
#include <stdlib.h>
#include <string.h>

// positions of a batch
#define SIZE 65536

struct piece {
    unsigned char *bytes;
    size_t length;
};

struct batch {
    struct piece *pieces;
    size_t count, room, positions;
};

static struct batch *batches;
static size_t batch_count, batch_room;

static void add_piece(const unsigned char *bytes, size_t length, size_t positions) {
    if (batch_count == 0 || batches[batch_count - 1].positions == SIZE) {
        if (batch_count == batch_room) batches = realloc(batches, (batch_room = batch_room ? 2 * batch_room : 64) * sizeof *batches);
        memset(&batches[batch_count++], 0, sizeof *batches);
    }
    struct batch *batch = &batches[batch_count - 1];
    if (batch->count == batch->room) batch->pieces = realloc(batch->pieces, (batch->room = batch->room ? 2 * batch->room : 64) * sizeof *batch->pieces);
    unsigned char *copy = malloc(length);
    memcpy(copy, bytes, length);
    batch->pieces[batch->count++] = (struct piece){copy, length};
    batch->positions += positions;
}

static void cut(const unsigned char *bytes, size_t length, size_t k) {
    if (length < k) return;
    size_t count = length + 1 - k;
    for (size_t p = 0; p < count;) {
        size_t used = batch_count ? batches[batch_count - 1].positions % SIZE : 0;
        size_t room = SIZE - used, taken = room < count - p ? room : count - p;
        add_piece(bytes + p, taken + k - 1, taken);
        p += taken;
    }
}

static unsigned char codes[256];

static size_t words(const struct batch *batch, int k, uint64_t *out) {
    const uint64_t mask = (1ull << (2 * k)) - 1;
    const int top = 2 * (k - 1);
    size_t n = 0;
    for (size_t i = 0; i < batch->count; i++) {
        const struct piece *piece = &batch->pieces[i];
        uint64_t forward = 0, backward = 0;
        size_t run = 0;
        for (size_t j = 0; j < piece->length; j++) {
            unsigned char code = codes[piece->bytes[j]];
            uint64_t digit = code & 3;
            forward = ((forward << 2) | digit) & mask;
            backward = (backward >> 2) | ((3 - digit) << top);
            run = code < 4 ? run + 1 : 0;
            if (run >= (size_t)k) out[n++] = forward < backward ? forward : backward;
        }
    }
    return n;
}

// Cuts the reads of a FASTA file whose sequences are one line each, at most 1,000 bases long. 0 where that went well.
static int cut_file(const char *path, int k) {
    memset(codes, 4, sizeof codes);
    for (int i = 0; i < 4; i++) codes[(unsigned char)"ACGT"[i]] = i;
    FILE *in = fopen(path, "rb");
    if (!in) return 1;
    static char line[1024];
    while (fgets(line, sizeof line, in))
        if (line[0] != '>') cut((unsigned char *)line, strcspn(line, "\n"), k);
    return fclose(in) != 0;
}

#endif
