// Limits the ink of rows of 16,000 pixels as bench/limit.sh's program does, by a plain loop with three divisions a pixel.
// usage: limit make FILE   writes the three rows that are measured, four planes each
//        limit limit FILE  prints for each the million pixels a second of processor time, best of twenty runs of a
//                          hundred rows, and a sum over the limited values
#include <stdint.h>
#include <stdio.h>
#include <stdlib.h>
#include <string.h>
#include <time.h>

enum { WIDTH = 16000, LIMIT = 612, CALLS = 100, RUNS = 20, ROWS = 3 };

static const char *const names[ROWS] = {"below", "above", "half above"};

static int64_t now(void) {
    struct timespec t;
    clock_gettime(CLOCK_PROCESS_CPUTIME_ID, &t);
    return (int64_t)t.tv_sec * 1000000000 + t.tv_nsec;
}

// Values of 0 to 152 add up to at most 608, values from 160 on to at least 640.
static void make(uint8_t rows[ROWS][4][WIDTH]) {
    uint32_t seed = 1;
    for (int row = 0; row < ROWS; row++)
        for (int ink = 0; ink < 4; ink++)
            for (int x = 0; x < WIDTH; x++) {
                seed = seed * 1664525 + 1013904223;
                uint32_t below = (seed >> 16) % 153, above = 160 + (seed >> 16) % 96;
                rows[row][ink][x] = (uint8_t)(row == 1 || (row == 2 && x / 1000 % 2 == 1) ? above : below);
            }
}

__attribute__((noinline)) static void limit(uint8_t *restrict cyan, uint8_t *restrict magenta, uint8_t *restrict yellow,
                                            uint8_t *restrict black, size_t width, uint32_t limit) {
    for (size_t x = 0; x < width; x++) {
        uint32_t c = cyan[x], m = magenta[x], y = yellow[x], k = black[x], colours = c + m + y;
        if (colours + k <= limit) continue;
        uint32_t kept = k < limit ? k : limit, rest = limit - kept;
        cyan[x] = (uint8_t)(colours == 0 ? 0 : c * rest / colours);
        magenta[x] = (uint8_t)(colours == 0 ? 0 : m * rest / colours);
        yellow[x] = (uint8_t)(colours == 0 ? 0 : y * rest / colours);
        black[x] = (uint8_t)kept;
    }
}

static void measure(const char *name, const uint8_t row[4][WIDTH]) {
    static uint8_t work[4][WIDTH];
    int64_t least = INT64_MAX;
    for (int run = 0; run < RUNS; run++) {
        int64_t took = 0;
        for (int call = 0; call < CALLS; call++) {
            memcpy(work, row, sizeof work);
            int64_t start = now();
            limit(work[0], work[1], work[2], work[3], WIDTH, LIMIT);
            took += now() - start;
        }
        if (took < least) least = took;
    }
    uint64_t sum = 0;
    for (size_t i = 0; i < sizeof work; i++) sum = sum * 31 + work[i / WIDTH][i % WIDTH];
    printf("%s: %lld million pixels a second, sum %llu\n", name, (long long)CALLS * WIDTH * 1000 / least,
           (unsigned long long)sum);
}

int main(int count, char **words) {
    static uint8_t rows[ROWS][4][WIDTH];
    if (count != 3) return 2;
    if (strcmp(words[1], "make") == 0) {
        FILE *file = fopen(words[2], "wb");
        make(rows);
        return file == NULL || fwrite(rows, 1, sizeof rows, file) != sizeof rows || fclose(file) != 0;
    }
    FILE *file = fopen(words[2], "rb");
    if (file == NULL || fread(rows, 1, sizeof rows, file) != sizeof rows) return 1;
    for (int i = 0; i < ROWS; i++) measure(names[i], rows[i]);
    return 0;
}
