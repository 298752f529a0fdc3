// Looking up words in a long list in four ways: in the order in which they are asked for, by an index of prefixes, as
// kcount does it; ordered by prefix first, a block of words at a time, with the words that are found in the order in
// which they were asked for, or in any order; and in a hash set, one cache line for each word. Four of five words are in
// the list. Prints lines "WAY NANOSECONDS FOUND", of the least of ROUNDS.
//   main LISTED_WORDS ASKED_WORDS ROUNDS
#include <stdio.h>
#include <stdlib.h>
#include <string.h>

#include "common.h"

enum { BASES = 21, AT_A_TIME = 64, BLOCK = 1 << 22, PREFIX_BITS = 10, LINE = 8 };

static uint64_t *list, *set, state = 1;
static uint32_t *starts;
static size_t listed, prefixes, lines;
static int shift;

static uint64_t random_word(void) {
    uint64_t word = xorshift(&state) & ((1ull << 2 * BASES) - 1), other = 0;
    for (int i = 0; i < BASES; i++) other = other << 2 | (3 - (word >> 2 * i & 3));
    return word < other ? word : other;
}

static int by_size(const void *a, const void *b) {
    uint64_t x = *(const uint64_t *)a, y = *(const uint64_t *)b;
    return (x > y) - (x < y);
}

static size_t line_of(uint64_t word) {
    return (size_t)((unsigned __int128)(word * 0x9e3779b97f4a7c15u) * lines >> 64) * LINE;
}

// whether the word is in the list; the search begins at its prefix
static int find(uint64_t word, size_t place) {
    while (place < listed && list[place] < word) place++;
    return place < listed && list[place] == word;
}

// looks up some words, with no read of a start waiting for another
static void look_up(const uint64_t *words, size_t count, uint8_t *found) {
    size_t places[AT_A_TIME];
    for (size_t i = 0; i < count; i++) {
        size_t prefix = words[i] >> shift;
        places[i] = prefix < prefixes ? starts[prefix] : listed;
    }
    for (int twice = 0; twice < 2; twice++)
        for (size_t i = 0; i < count; i++) places[i] += places[i] < listed && list[places[i]] < words[i];
    for (size_t i = 0; i < count; i++) found[i] = (uint8_t)find(words[i], places[i]);
}

static size_t as_asked(const uint64_t *words, size_t count) {
    uint8_t found[AT_A_TIME];
    size_t all = 0;
    for (size_t at = 0; at < count; at += AT_A_TIME) {
        size_t some = count - at < AT_A_TIME ? count - at : AT_A_TIME;
        look_up(words + at, some, found);
        for (size_t i = 0; i < some; i++) all += found[i];
    }
    return all;
}

// the words of a block in the order of their prefixes, and which of them, in the order asked, are in the list
static uint64_t ordered[BLOCK];
static uint32_t whence[BLOCK];
static uint8_t kept[BLOCK];

// for each prefix, the place of its first word in the order of prefixes
static void find_places(const uint64_t *words, size_t count, size_t *places) {
    size_t before = 0;
    memset(places, 0, sizeof(size_t) << PREFIX_BITS);
    for (size_t i = 0; i < count; i++) places[words[i] >> (2 * BASES - PREFIX_BITS)]++;
    for (size_t p = 0; p < 1 << PREFIX_BITS; p++) {
        size_t size = places[p];
        places[p] = before;
        before += size;
    }
}

static void look_up_block(const uint64_t *words, size_t count) {
    size_t ends[1 << PREFIX_BITS];
    find_places(words, count, ends);
    for (size_t i = 0; i < count; i++) {
        size_t place = ends[words[i] >> (2 * BASES - PREFIX_BITS)]++;
        ordered[place] = words[i];
        whence[place] = (uint32_t)i;
    }
    uint8_t found[AT_A_TIME];
    for (size_t at = 0; at < count; at += AT_A_TIME) {
        size_t some = count - at < AT_A_TIME ? count - at : AT_A_TIME;
        look_up(ordered + at, some, found);
        for (size_t i = 0; i < some; i++) kept[whence[at + i]] = found[i];
    }
}

static size_t by_prefix(const uint64_t *words, size_t count) {
    size_t all = 0;
    for (size_t at = 0; at < count; at += BLOCK) {
        size_t some = count - at < BLOCK ? count - at : BLOCK;
        look_up_block(words + at, some);
        for (size_t i = 0; i < some; i++) all += kept[i];
    }
    return all;
}

// the words that are found come to the front of `ordered`, in any order
static size_t keep_in_any_order(const uint64_t *words, size_t count) {
    size_t ends[1 << PREFIX_BITS], all = 0;
    find_places(words, count, ends);
    for (size_t i = 0; i < count; i++) ordered[ends[words[i] >> (2 * BASES - PREFIX_BITS)]++] = words[i];
    uint8_t found[AT_A_TIME];
    for (size_t at = 0; at < count; at += AT_A_TIME) {
        size_t some = count - at < AT_A_TIME ? count - at : AT_A_TIME;
        look_up(ordered + at, some, found);
        for (size_t i = 0; i < some; i++) {
            ordered[all] = ordered[at + i];
            all += found[i];
        }
    }
    return all;
}

static size_t in_any_order(const uint64_t *words, size_t count) {
    size_t all = 0;
    for (size_t at = 0; at < count; at += BLOCK) all += keep_in_any_order(words + at, count - at < BLOCK ? count - at : BLOCK);
    return all;
}

// (a line that is full loses words: fewer are found than in the list)
static size_t in_set(const uint64_t *words, size_t count) {
    size_t all = 0;
    for (size_t i = 0; i < count; i++) {
        const uint64_t *line = set + line_of(words[i]);
        int found = 0;
        for (int j = 0; j < LINE; j++) found |= line[j] == words[i] + 1;
        all += (size_t)found;
    }
    return all;
}

static void make_list(void) {
    for (size_t i = 0; i < listed; i++) list[i] = random_word();
    qsort(list, listed, sizeof *list, by_size);
    shift = 0;
    while (list[listed - 1] >> shift >= listed) shift++;
    prefixes = (size_t)(list[listed - 1] >> shift) + 1;
    starts = calloc(prefixes, sizeof *starts);
    lines = listed / (LINE / 2) + 1;
    set = aligned_alloc(64, lines * LINE * sizeof *set);
    if (!starts || !set) exit(1);
    memset(set, 0, lines * LINE * sizeof *set);
    size_t at = 0;
    for (size_t p = 0; p < prefixes; p++) {
        while (at < listed && list[at] >> shift < p) at++;
        starts[p] = (uint32_t)at;
    }
    for (size_t i = 0; i < listed; i++) {
        uint64_t *line = set + line_of(list[i]);
        for (int j = 0; j < LINE; j++)
            if (!line[j]) {
                line[j] = list[i] + 1;
                break;
            }
    }
}

int main(int argc, char **argv) {
    if (argc != 4) return 2;
    listed = strtoul(argv[1], NULL, 10);
    const size_t asked = strtoul(argv[2], NULL, 10);
    const int rounds = atoi(argv[3]);
    list = malloc(listed * sizeof *list);
    uint64_t *words = malloc(asked * sizeof *words);
    if (listed < 1 || asked < 1 || rounds < 1 || !list || !words) return 2;
    make_list();
    for (size_t i = 0; i < asked; i++)
        words[i] = xorshift(&state) % 5 ? list[xorshift(&state) % listed] : random_word();
    const char *names[] = {"asked", "prefix", "any", "set"};
    size_t (*const ways[])(const uint64_t *, size_t) = {as_asked, by_prefix, in_any_order, in_set};
    for (int way = 0; way < 4; way++) {
        uint64_t least = 0;
        size_t found = 0;
        for (int round = 0; round < rounds; round++) {
            uint64_t start = nanoseconds();
            found = ways[way](words, asked);
            uint64_t time = nanoseconds() - start;
            if (round == 0 || time < least) least = time;
        }
        printf("%s %.1f %zu\n", names[way], (double)least / (double)asked, found);
    }
}
