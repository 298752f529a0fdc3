// Combines two table texts of words of one length, counted on both strands, as `kcount merge`, `intersect` and `subtract` do: the first pass
// checks each row of each table, the second one checks them again and writes the table of the result next to OUT, which it then replaces.
// OUT is made, empty, if there is none: on ext4 a rename that replaces a file takes longer.
//   main merge|intersect|subtract FIRST SECOND OUT
#include <fcntl.h>
#include <stddef.h>
#include <stdio.h>
#include <stdlib.h>
#include <string.h>
#include <unistd.h>

#include "common.h"

enum { BLOCK = 65536, LONGEST = 64 };

static uint32_t fours[256];
static uint8_t turned[256], codes[256];

// A table: what was read and not used yet, the last word, the sums, and the row that comes next.
typedef struct {
    int file, length;
    size_t used, end;
    uint64_t word, count, rows, total;
    int has_row;
    char bytes[LONGEST + 2 * BLOCK];
} Table;

static void stop(const char *why) {
    fprintf(stderr, "combine: %s\n", why);
    exit(1);
}

// takes a block behind what is left, and returns whether one came
static int fill(Table *t) {
    memmove(t->bytes, t->bytes + t->used, t->end - t->used);
    t->end -= t->used;
    t->used = 0;
    ssize_t count = read(t->file, t->bytes + t->end, BLOCK);
    if (count < 0) stop("read failed");
    t->end += (size_t)count;
    return count > 0;
}

static void open_table(Table *t, const char *path) {
    memset(t, 0, offsetof(Table, bytes));
    t->file = open(path, O_RDONLY);
    if (t->file < 0 || !fill(t)) stop("cannot open");
    char *end = memchr(t->bytes, '\n', t->end);
    if (!end || sscanf(t->bytes, "KCT %*d %d c", &t->length) != 1 || t->length < 5 || t->length > 31) stop("bad header");
    t->used = (size_t)(end - t->bytes) + 1;
}

// the number of the letters, or none
static inline int number_of(const char *letters, int length, uint64_t *number) {
    uint64_t found = 0;
    int at = 0;
    for (; at + 4 <= length; at += 4) {
        uint32_t four;
        memcpy(&four, letters + at, 4);
        uint32_t code = ((four >> 1 ^ four >> 2) & 0x03030303) * 0x40100401u >> 24;
        if (fours[code] != four) return 0;
        found = found << 8 | code;
    }
    for (; at < length; at++) {
        uint8_t code = codes[(uint8_t)letters[at]];
        if (code > 3) return 0;
        found = found << 2 | code;
    }
    *number = found;
    return 1;
}

// whether no letter of the word's reverse complement comes before that of the word at the first place where they differ
static int is_canonical(uint64_t word, int length) {
    uint64_t other = 0;
    for (int i = 0; i < length; i++) other = other << 2 | (3 - (word >> 2 * i & 3));
    return word <= other;
}

// reads the next row into the table, if there is one; the end line must be right, and the last
static inline void next_row(Table *t) {
    const int k = t->length;
    if (t->end - t->used < LONGEST) while (t->end - t->used < LONGEST && fill(t)) {}
    const char *row = t->bytes + t->used, *fields = row + k;
    const size_t left = t->end - t->used;
    uint64_t word = 0, count = 0;
    size_t size = 3;
    if (left < (size_t)k + 3 || !number_of(row, k, &word)) {
        char end[LONGEST];
        int said = snprintf(end, sizeof end, "END %llu %llu\n", (unsigned long long)t->rows, (unsigned long long)t->total);
        if (left != (size_t)said || memcmp(row, end, left) != 0) stop("bad row or end");
        t->has_row = 0;
        return;
    }
    if (fields[0] != ' ') stop("bad row");
    if (fields[2] == '\n') {
        count = (uint64_t)(uint8_t)(fields[1] - '0');
        if (count > 9) stop("bad row");
    } else {
        size_t at = 1;
        for (; (uint8_t)(fields[at] - '0') < 10; at++) count = count * 10 + (uint64_t)(fields[at] - '0');
        if (at < 2 || at > 20 || fields[1] == '0' || fields[at] != '\n') stop("bad row");
        size = at + 1;
    }
    uint64_t first = word >> (2 * k - 8), opposite = turned[word & 255];
    if ((t->rows > 0 && word <= t->word) || count < 1 || count > (1ull << 62) - t->total) stop("bad row");
    if (first > opposite || (first == opposite && !is_canonical(word, k))) stop("bad row");
    t->word = word;
    t->count = count;
    t->rows++;
    t->total += count;
    t->used += (size_t)k + size;
    t->has_row = 1;
}

static void judge(Table *t, const char *path) {
    open_table(t, path);
    do next_row(t);
    while (t->has_row);
    close(t->file);
}

static char block[BLOCK];
static size_t filled;
static int out;

static void hand_over(void) {
    for (size_t at = 0; at < filled;) {
        ssize_t count = write(out, block + at, filled - at);
        if (count <= 0) stop("write failed");
        at += (size_t)count;
    }
    filled = 0;
}

static inline void put(uint64_t word, uint64_t count, int length) {
    if (filled > BLOCK - LONGEST) hand_over();
    uint64_t high = word << (64 - 2 * length);
    for (int i = 0; i < 8; i++) memcpy(block + filled + 4 * i, &fours[high >> (56 - 8 * i) & 255], 4);
    filled += (size_t)length;
    block[filled++] = ' ';
    if (count < 10) {
        block[filled++] = (char)('0' + count);
    } else {
        filled += (size_t)sprintf(block + filled, "%llu", (unsigned long long)count);
    }
    block[filled++] = '\n';
}

int main(int argc, char **argv) {
    if (argc != 5) return 2;
    const int made = open(argv[4], O_WRONLY | O_CREAT | O_APPEND, 0666);
    if (made < 0 || close(made) != 0) stop("cannot open");
    for (int i = 0; i < 256; i++) {
        fours[i] = 0;
        turned[i] = 0;
        for (int j = 0; j < 4; j++) {
            fours[i] |= (uint32_t)"ACGT"[i >> 2 * (3 - j) & 3] << 8 * j;
            turned[i] = (uint8_t)(turned[i] << 2 | (3 - (i >> 2 * j & 3)));
        }
    }
    memset(codes, 4, sizeof codes);
    for (int i = 0; i < 4; i++) codes[(uint8_t)"ACGT"[i]] = (uint8_t)i;
    const int sums = !strcmp(argv[1], "merge"), both = !strcmp(argv[1], "intersect");
    static Table a, b;
    judge(&a, argv[2]);
    judge(&b, argv[3]);
    open_table(&a, argv[2]);
    open_table(&b, argv[3]);
    if (a.length != b.length) stop("tables do not match");
    char path[4096];
    snprintf(path, sizeof path, "%s.new", argv[4]);
    out = open(path, O_WRONLY | O_CREAT | O_TRUNC, 0666);
    if (out < 0) stop("cannot open");
    filled = (size_t)sprintf(block, "KCT 1 %d c\n", a.length);
    uint64_t rows = 0, total = 0;
    next_row(&a);
    next_row(&b);
    while (a.has_row || b.has_row) {
        uint64_t word = !a.has_row || (b.has_row && b.word < a.word) ? b.word : a.word;
        uint64_t first = 0, second = 0;
        if (a.has_row && a.word == word) {
            first = a.count;
            next_row(&a);
        }
        if (b.has_row && b.word == word) {
            second = b.count;
            next_row(&b);
        }
        uint64_t count = sums ? first + second : both ? (first < second ? first : second) : second ? 0 : first;
        if (!count) continue;
        put(word, count, a.length);
        rows++;
        total += count;
    }
    filled += (size_t)sprintf(block + filled, "END %llu %llu\n", (unsigned long long)rows, (unsigned long long)total);
    hand_over();
    return close(out) || rename(path, argv[4]);
}
