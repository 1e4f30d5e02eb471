// Packs the same rows as bench/pack.sh's program by a plain loop over packets, and prints a line for each form: its name, the
// nanoseconds of processor time, the bytes of the packings, and the sum of the bytes of the packings of all rows.
#include <stdint.h>
#include <stdio.h>
#include <stdlib.h>
#include <string.h>
#include <time.h>

enum { ROWS = 1000, ROW = 4000, PASSES = 25 };

static const uint8_t thresholds[8][8] = {
    {0, 127, 31, 159, 7, 135, 39, 167},     {191, 63, 223, 95, 199, 71, 231, 103},
    {47, 175, 15, 143, 55, 183, 23, 151},   {239, 111, 207, 79, 247, 119, 215, 87},
    {11, 139, 43, 171, 3, 131, 35, 163},    {203, 75, 235, 107, 195, 67, 227, 99},
    {59, 187, 27, 155, 51, 179, 19, 147},   {251, 123, 219, 91, 243, 115, 211, 83},
};

static int64_t now(void) {
    struct timespec t;
    clock_gettime(CLOCK_PROCESS_CPUTIME_ID, &t);
    return (int64_t)t.tv_sec * 1000000000 + t.tv_nsec;
}

static uint32_t seed;

static uint8_t next(void) {
    seed = seed * 1664525 + 1013904223;
    return seed >> 24;
}

static uint8_t tile(int value, int y) {
    uint8_t byte = 0;
    for (int x = 0; x < 8; x++) byte = byte << 1 | (value > thresholds[y % 8][x]);
    return byte;
}

static void make(const char *form, uint8_t *row, int y) {
    static int kind, left;
    switch (*form) {
    case 'f': memset(row, 0, ROW); break;
    case 'q': memset(row, tile(64, y), ROW); break;
    case 'p':
        for (int x = 0, value = next(); x < ROW; x++) {
            value += next() % 7;
            value = (value > 255 ? 255 : value) - 3;
            if (value < 0) value = 0;
            row[x] = tile(value, y);
        }
        break;
    case 'n':
        for (int x = 0; x < ROW; x++) {
            uint8_t one = next();
            row[x] = one & next();
        }
        break;
    default:
        kind = 2;
        left = 0;
        for (int x = 0; x < ROW; x++, left--) {
            if (left == 0) {
                kind = (kind + 1) % 3;
                left = kind == 0 ? 3 + next() % 40 : kind == 1 ? 1 + next() % 6 : 1 + next() % 10;
            }
            row[x] = kind == 0 ? 0 : kind == 1 ? next() : 255;
        }
    }
}

static size_t pack(const uint8_t *row, size_t len, uint8_t *out) {
    size_t from = 0, at = 0;
    while (from < len) {
        size_t most = len - from < 128 ? len - from : 128, n = 1;
        while (n < most && row[from + n] == row[from]) n++;
        if (n >= 3) {
            out[at++] = 257 - n;
            out[at++] = row[from];
        } else {
            for (n = 0; n < most; n++)
                if (from + n + 2 < len && row[from + n] == row[from + n + 1] && row[from + n + 1] == row[from + n + 2]) break;
            out[at++] = n - 1;
            memcpy(out + at, row + from, n);
            at += n;
        }
        from += n;
    }
    return at;
}

int main(void) {
    static const char *const forms[] = {"flat", "quarter", "photo", "noise", "text"};
    uint8_t *rows = malloc(ROWS * ROW), into[5000];
    if (rows == NULL) return 1;
    for (size_t form = 0; form < sizeof forms / sizeof forms[0]; form++) {
        seed = 1;
        for (int y = 0; y < ROWS; y++) make(forms[form], rows + (size_t)y * ROW, y);
        int64_t start = now();
        size_t all = 0;
        for (int pass = 0; pass < PASSES; pass++)
            for (int y = 0; y < ROWS; y++) all += pack(rows + (size_t)y * ROW, ROW, into);
        int64_t took = now() - start;
        uint64_t sum = 0;
        for (int y = 0; y < ROWS; y++) {
            memset(into, 0, sizeof into);
            pack(rows + (size_t)y * ROW, ROW, into);
            for (size_t i = 0; i < sizeof into; i++) sum += into[i];
        }
        printf("pack %s %lld %zu %llu\n", forms[form], (long long)took, all, (unsigned long long)sum);
    }
    return 0;
}
