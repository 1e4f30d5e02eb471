// Counts the dots of a packed row of 33,100 pixels in 32 keys as bench/keys.sh's program does, by a plain loop over
// packets and one over words of eight bytes with masks at the edges of each key.
// usage: keys make FILE   writes the four rows that are measured
//        keys count FILE  prints for each the nanoseconds of processor time of a row, the least of twenty runs, and a
//                         sum over its counts
#include <stdint.h>
#include <stdio.h>
#include <stdlib.h>
#include <string.h>
#include <time.h>

enum { WIDTH = 33100, BYTES = 4138, KEYS = 32, WORDS = WIDTH / 64 + 1, CALLS = 1000, RUNS = 20, ROWS = 4 };

static const char *const names[ROWS] = {"ramp with grain", "flat", "blank", "full"};

static int64_t now(void) {
    struct timespec t;
    clock_gettime(CLOCK_PROCESS_CPUTIME_ID, &t);
    return (int64_t)t.tv_sec * 1000000000 + t.tv_nsec;
}

// The threshold of a column in row 6 of the Bayer matrix of side 8, 0 to 63.
static int threshold(int x) {
    static const int row[8] = {15, 47, 7, 39, 13, 45, 5, 37};
    return row[x % 8];
}

static void make(uint8_t rows[ROWS][BYTES]) {
    uint32_t seed = 1;
    memset(rows, 0, ROWS * BYTES);
    for (int x = 0; x < WIDTH; x++) {
        seed = seed * 1664525 + 1013904223;
        int ramp = x * 64 / WIDTH + (int)(seed >> 28) - 8;
        uint8_t bit = (uint8_t)(128 >> x % 8);
        if (ramp > threshold(x)) rows[0][x / 8] |= bit;
        if (25 > threshold(x)) rows[1][x / 8] |= bit;
        rows[3][x / 8] |= bit;
    }
}

// Packs a row: runs of three bytes and more, and all others as they are.
static size_t pack(const uint8_t *row, size_t len, uint8_t *into) {
    size_t at = 0, given = 0;
    while (at < len) {
        size_t run = 1;
        while (at + run < len && run < 128 && row[at + run] == row[at]) run++;
        if (run >= 3) {
            into[given++] = (uint8_t)(257 - run);
            into[given++] = row[at];
            at += run;
            continue;
        }
        size_t end = at;
        while (end < len && end - at < 128
               && !(end + 2 < len && row[end] == row[end + 1] && row[end] == row[end + 2])) end++;
        into[given++] = (uint8_t)(end - at - 1);
        memcpy(into + given, row + at, end - at);
        given += end - at;
        at = end;
    }
    return given;
}

static size_t expand(const uint8_t *packed, size_t len, uint8_t *into, size_t room) {
    size_t at = 0, given = 0;
    while (at < len && given < room) {
        uint8_t header = packed[at++];
        if (header < 128) {
            size_t n = (size_t)header + 1;
            if (n > len - at) break;
            if (n > room - given) n = room - given;
            memcpy(into + given, packed + at, n);
            at += (size_t)header + 1;
            given += n;
        } else if (header > 128) {
            if (at == len) break;
            size_t n = 257 - (size_t)header;
            if (n > room - given) n = room - given;
            memset(into + given, packed[at++], n);
            given += n;
        }
    }
    return given;
}

static uint64_t word(const uint8_t *row, size_t i) {
    uint64_t w;
    memcpy(&w, row + 8 * i, 8);
    return __builtin_bswap64(w);
}

static uint64_t front(uint64_t word, unsigned count) {
    return (uint64_t)__builtin_popcountll(word >> 1 >> (63 - count));
}

static void add(const uint8_t *row, const uint32_t *firsts, uint64_t *counts) {
    for (int k = 0; k < KEYS; k++) {
        size_t first = firsts[k] / 64, last = firsts[k + 1] / 64;
        uint64_t ones = 0;
        for (size_t i = first; i < last; i++) ones += (uint64_t)__builtin_popcountll(word(row, i));
        counts[k] += ones + front(word(row, last), firsts[k + 1] % 64) - front(word(row, first), firsts[k] % 64);
    }
}

static void measure(const char *name, const uint8_t *row) {
    static uint8_t packed[2 * BYTES], room[8 * WORDS];
    uint32_t firsts[KEYS + 1];
    uint64_t counts[KEYS];
    size_t len = pack(row, BYTES, packed);
    int64_t least = INT64_MAX;
    for (uint32_t k = 0; k <= KEYS; k++) firsts[k] = (k * WIDTH + KEYS - 1) / KEYS;
    for (int run = 0; run < RUNS; run++) {
        memset(counts, 0, sizeof counts);
        int64_t start = now();
        for (int call = 0; call < CALLS; call++) {
            expand(packed, len, room, BYTES);
            add(room, firsts, counts);
        }
        int64_t took = (now() - start) / CALLS;
        if (took < least) least = took;
    }
    uint64_t sum = 0;
    for (int k = 0; k < KEYS; k++) sum = sum * 31 + counts[k];
    printf("%s: %lld nanoseconds, sum %llu\n", name, (long long)least, (unsigned long long)sum);
}

int main(int count, char **words) {
    static uint8_t rows[ROWS][BYTES];
    if (count != 3) return 2;
    if (strcmp(words[1], "make") == 0) {
        FILE *file = fopen(words[2], "wb");
        make(rows);
        return file == NULL || fwrite(rows, 1, sizeof rows, file) != sizeof rows || fclose(file) != 0;
    }
    FILE *file = fopen(words[2], "rb");
    if (file == NULL || fread(rows, 1, sizeof rows, file) != sizeof rows) return 1;
    for (int i = 0; i < ROWS; i++) measure(names[i], rows[i]);
    return 0;
}
