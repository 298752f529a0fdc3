// The plain C loop that parsing is measured against, and the maker of the files that both programs read.
//   main make fasta|line|fastq BASES FILE    writes a seeded file
//   main FILE                                prints how long parsing its bytes took, and reading and parsing it
#include <stdio.h>
#include <stdlib.h>
#include <string.h>

#include "common.h"

static uint64_t state = 88172645463325252ull;

static void put_bases(FILE *out, size_t count) {
    for (size_t i = 0; i < count; i++) putc("ACGT"[xorshift(&state) >> 62], out);
}

static int make(const char *kind, size_t bases, const char *path) {
    FILE *out = fopen(path, "wb");
    if (!out) return 1;
    if (strcmp(kind, "fastq") == 0) {
        for (size_t i = 0; i < bases / 1000 * 18; i++) {
            fprintf(out, "@read%zu\n", i);
            put_bases(out, 100);
            fputs("\n+\n", out);
            for (int j = 0; j < 100; j++) putc(33 + (int)(xorshift(&state) >> 40) % 41, out);
            putc('\n', out);
        }
    } else {
        size_t wrap = strcmp(kind, "line") == 0 ? bases : 70;
        fputs(">seeded\n", out);
        for (size_t left = bases; left > 0;) {
            size_t count = left < wrap ? left : wrap;
            put_bases(out, count);
            putc('\n', out);
            left -= count;
        }
    }
    return fclose(out) != 0;
}

struct read {
    char *bases, *quals;
    size_t length;
};

struct reads {
    struct read *items;
    size_t count, room;
};

static struct read *add(struct reads *reads) {
    if (reads->count == reads->room) {
        reads->room = reads->room ? 2 * reads->room : 16;
        reads->items = realloc(reads->items, reads->room * sizeof *reads->items);
    }
    struct read *read = &reads->items[reads->count++];
    memset(read, 0, sizeof *read);
    return read;
}

// One line: its end is found and a carriage return is left out.
static const char *line_end(const char *at, const char *end, size_t *length) {
    const char *found = memchr(at, '\n', end - at);
    const char *stop = found ? found : end;
    *length = stop - at;
    if (*length && at[*length - 1] == '\r') --*length;
    return found ? found + 1 : end;
}

static void parse(const char *at, const char *end, struct reads *reads) {
    size_t length;
    if (at < end && *at == '>') {
        while (at < end) {
            struct read *read = add(reads);
            at = line_end(at, end, &length);
            const char *stop = memchr(at, '>', end - at);
            read->bases = malloc((stop ? stop : end) - at + 1);
            while (at < end && *at != '>') {
                const char *line = at;
                at = line_end(at, end, &length);
                memcpy(read->bases + read->length, line, length);
                read->length += length;
            }
        }
        return;
    }
    while (at < end) {
        struct read *read = add(reads);
        at = line_end(at, end, &length);
        const char *stop = memchr(at, '+', end - at);
        read->bases = malloc((stop ? stop : end) - at + 1);
        while (at < end && *at != '+') {
            const char *line = at;
            at = line_end(at, end, &length);
            memcpy(read->bases + read->length, line, length);
            read->length += length;
        }
        at = line_end(at, end, &length);
        read->quals = malloc(read->length + 1);
        for (size_t taken = 0; taken < read->length && at < end;) {
            const char *line = at;
            at = line_end(at, end, &length);
            if (length > read->length - taken) exit(2);
            memcpy(read->quals + taken, line, length);
            taken += length;
        }
    }
}

static char *load(const char *path, size_t *length) {
    FILE *in = fopen(path, "rb");
    if (!in) exit(1);
    setvbuf(in, NULL, _IONBF, 0);
    static char block[65536];
    char *bytes = NULL;
    size_t room = 0, count;
    *length = 0;
    while ((count = fread(block, 1, sizeof block, in)) > 0) {
        if (*length + count > room) {
            room = 2 * room > *length + count ? 2 * room : *length + count;
            bytes = realloc(bytes, room);
        }
        memcpy(bytes + *length, block, count);
        *length += count;
    }
    fclose(in);
    return bytes;
}

static size_t finish(struct reads *reads) {
    size_t sum = 0;
    for (size_t i = 0; i < reads->count; i++) {
        sum += reads->items[i].length;
        free(reads->items[i].bases);
        free(reads->items[i].quals);
    }
    free(reads->items);
    return sum;
}

int main(int argc, char **argv) {
    if (argc == 5 && strcmp(argv[1], "make") == 0) return make(argv[2], strtoull(argv[3], NULL, 10), argv[4]);
    if (argc != 2) return 1;
    for (int round = 0; round < 2; round++) {
        size_t length;
        char *bytes = load(argv[1], &length);
        struct reads reads = {0};
        uint64_t start = nanoseconds();
        parse(bytes, bytes + length, &reads);
        uint64_t took = nanoseconds() - start;
        printf("parse %llu %zu\n", (unsigned long long)took, finish(&reads));
        free(bytes);
        memset(&reads, 0, sizeof reads);
        start = nanoseconds();
        bytes = load(argv[1], &length);
        parse(bytes, bytes + length, &reads);
        free(bytes);
        took = nanoseconds() - start;
        printf("read %llu %zu\n", (unsigned long long)took, finish(&reads));
    }
    return 0;
}
