/* Floyd and Steinberg's diffusion by one plain loop a row, over the pages that bench/diffuse.sh draws by scr_diffuse: flat,
 * a ramp and grain. It prints the page, the nanoseconds of processor time, and a sum over all bits. */
#include <stdint.h>
#include <stdio.h>
#include <time.h>

enum { WIDTH = 33100, ROWS = 4000 };

static uint8_t values[WIDTH], bits[WIDTH];
static int16_t errors[WIDTH + 2];

static void row(const uint8_t *v, int16_t *e, uint8_t *out) {
    int left = 0, corner = 0, byte = 0;
    for (int x = 0; x < WIDTH; x++) {
        int above = e[x + 1];
        int n = (16 * v[x] + 7 * left + 3 * e[x + 2] + 5 * above + corner) >> 4;
        int bit = n >= 128;
        left = n - 255 * bit;
        corner = above;
        e[x + 1] = left;
        byte = byte * 2 + bit;
        if (x % 8 == 7)
            out[x / 8] = byte;
    }
    if (WIDTH % 8)
        out[WIDTH / 8] = byte << (8 - WIDTH % 8);
}

static double now(void) {
    struct timespec t;
    clock_gettime(CLOCK_PROCESS_CPUTIME_ID, &t);
    return t.tv_sec + 1e-9 * t.tv_nsec;
}

int main(void) {
    for (int kind = 0; kind < 3; kind++) {
        double took = 0;
        uint64_t seen = 0;
        for (int x = 0; x < WIDTH + 2; x++)
            errors[x] = 0;
        for (uint32_t y = 0; y < ROWS; y++) {
            uint32_t seed = y * 2654435761u;
            for (uint64_t x = 0; x < WIDTH; x++) {
                seed = seed * 1664525 + 1013904223;
                values[x] = kind == 0 ? 100 : kind == 1 ? (x + 1) / 130 % 256 : seed >> 24;
            }
            double start = now();
            row(values, errors, bits);
            took += now() - start;
            uint64_t all = 0;
            for (int k = 0; k < WIDTH; k++)
                all = all * 31 + bits[k];
            seen += all;
        }
        printf("%d %.0f %llu\n", kind, took * 1e9, (unsigned long long)seen);
    }
}
