/* Error diffusion in three ways, which have to give the same bits: a plain loop; eight chains at once, a lane
 * each; and one chain by a front of eight rows, each three pixels behind the one above, which is what
 * `BlockDiffuser` of scr_diffuse does. Prints million pixels a second of processor time, the best of three
 * runs.
 *
 *     cc -O3 -march=x86-64-v2 -o front bench/front.c && ./front
 */
#include <smmintrin.h>
#include <stdint.h>
#include <stdio.h>
#include <stdlib.h>
#include <string.h>
#include <time.h>

enum { WIDTH = 16000, ROWS = 800, LAG = 21, ROOM = WIDTH + 64 };

static uint8_t page[ROWS][WIDTH], wanted[ROWS][WIDTH], made[ROWS][WIDTH];
static int16_t errors[ROOM][8] __attribute__((aligned(16))), above_front[ROOM];
static uint8_t columns[8 * ROOM], dots[ROOM], shifted[8][ROOM];

static double now(void) {
    struct timespec t;
    clock_gettime(CLOCK_PROCESS_CPUTIME_ID, &t);
    return t.tv_sec + 1e-9 * t.tv_nsec;
}

static void plain(void) {
    static int16_t e[WIDTH + 2];
    memset(e, 0, sizeof e);
    for (int y = 0; y < ROWS; y++) {
        int left = 0, corner = 0;
        for (int x = 0; x < WIDTH; x++) {
            int above = e[x + 1];
            int n = (16 * page[y][x] + 7 * left + 3 * e[x + 2] + 5 * above + corner) >> 4;
            wanted[y][x] = n >= 128;
            left = n - 255 * (n >= 128);
            corner = above;
            e[x + 1] = left;
        }
    }
}

/* A column of eight: their errors, from those above and to the left; bit k of *bits is set where lane k prints. */
static inline __m128i column(int x, __m128i left, __m128i right, __m128i above, __m128i corner, uint8_t *bits) {
    __m128i v = _mm_cvtepu8_epi16(_mm_loadl_epi64((const __m128i *)(columns + 8 * x)));
    __m128i rest = _mm_add_epi16(_mm_slli_epi16(v, 4), _mm_add_epi16(right, _mm_add_epi16(right, right)));
    rest = _mm_add_epi16(rest, _mm_add_epi16(_mm_add_epi16(above, _mm_slli_epi16(above, 2)), corner));
    __m128i sum = _mm_add_epi16(rest, _mm_sub_epi16(_mm_slli_epi16(left, 3), left));
    __m128i dot = _mm_cmpgt_epi16(sum, _mm_set1_epi16(2047));
    *bits = _mm_movemask_epi8(_mm_packs_epi16(dot, dot));
    return _mm_sub_epi16(_mm_srai_epi16(sum, 4), _mm_and_si128(dot, _mm_set1_epi16(255)));
}

/* The values of eight rows side by side. */
static void weave(const uint8_t *rows[8], int width) {
    for (int x = 0; x < width; x += 16) {
        __m128i v[8], w[8];
        for (int k = 0; k < 8; k++)
            v[k] = _mm_loadu_si128((const __m128i *)(rows[k] + x));
        for (int round = 0; round < 3; round++) {
            for (int k = 0; k < 4; k++) {
                w[2 * k] = _mm_unpacklo_epi8(v[k], v[k + 4]);
                w[2 * k + 1] = _mm_unpackhi_epi8(v[k], v[k + 4]);
            }
            memcpy(v, w, sizeof v);
        }
        for (int k = 0; k < 8; k++)
            _mm_storeu_si128((__m128i *)(columns + 8 * x + 16 * k), v[k]);
    }
}

/* A row of eight chains, all with the same values. */
static void lanes(int y) {
    const uint8_t *rows[8];
    for (int k = 0; k < 8; k++)
        rows[k] = page[y];
    weave(rows, WIDTH);
    __m128i corner = _mm_load_si128((__m128i *)errors[0]), above = _mm_load_si128((__m128i *)errors[1]), left = corner;
    for (int x = 0; x < WIDTH; x++) {
        __m128i right = _mm_load_si128((__m128i *)errors[x + 2]);
        left = column(x, left, right, above, corner, &dots[x]);
        _mm_store_si128((__m128i *)errors[x + 1], left);
        corner = above;
        above = right;
    }
}

/* The errors beside and above the next pixel of each of eight rows, and one pixel further to the left. */
struct wave { __m128i left, older, above, corner; };

/* Steps of a front. The errors of pixel x of the row above are at x + 22, and those of the last row replace them. */
static inline struct wave steps(struct wave w, int from, int to, int edge) {
    for (int t = from; t < to; t++) {
        __m128i right = _mm_alignr_epi8(w.older, _mm_loadu_si128((const __m128i *)(above_front + t + 16)), 14);
        __m128i left = column(t, w.left, right, w.above, w.corner, &dots[t]);
        if (edge) {
            int16_t lane[8];
            _mm_storeu_si128((__m128i *)lane, left);
            for (int k = 0; k < 8; k++)
                if (t < 3 * k || t - 3 * k >= WIDTH)
                    lane[k] = 0;
            left = _mm_loadu_si128((__m128i *)lane);
        }
        above_front[t + 1] = _mm_extract_epi16(left, 7);
        w = (struct wave){left, w.left, right, w.above};
    }
    return w;
}

/* Rows y to y + 7 of one chain: at step t lane k stands at pixel t - 3 k of row y + k. */
static void front(int y) {
    const uint8_t *rows[8];
    for (int k = 0; k < 8; k++) {
        memcpy(shifted[k] + 3 * k, page[y + k], WIDTH);
        rows[k] = shifted[k];
    }
    weave(rows, WIDTH + 32);
    __m128i zero = _mm_setzero_si128();
    struct wave w = {zero, zero, _mm_insert_epi16(zero, above_front[22], 0), zero};
    w = steps(w, 0, LAG, 1);
    w = steps(w, LAG, WIDTH, 0);
    steps(w, WIDTH, WIDTH + LAG, 1);
}

static void check(const char *which) {
    if (memcmp(wanted, made, sizeof made)) {
        fprintf(stderr, "%s: other bits\n", which);
        exit(1);
    }
}

int main(void) {
    srand(1);
    for (int y = 0; y < ROWS; y++)
        for (int x = 0; x < WIDTH; x++)
            page[y][x] = (x * 255 / WIDTH + rand() % 40) % 256;
    plain();
    for (int y = 0; y < ROWS; y++) {
        lanes(y);
        for (int x = 0; x < WIDTH; x++)
            made[y][x] = dots[x] >> y % 8 & 1;
    }
    check("lanes");
    for (int y = 0; y < ROWS; y += 8) {
        front(y);
        for (int k = 0; k < 8; k++)
            for (int x = 0; x < WIDTH; x++)
                made[y + k][x] = dots[x + 3 * k] >> k & 1;
    }
    check("front");
    double best[3] = {1e9, 1e9, 1e9};
    for (int run = 0; run < 3; run++)
        for (int which = 0; which < 3; which++) {
            double start = now();
            if (which == 0)
                plain();
            for (int y = 0; which && y < ROWS; y += which == 1 ? 1 : 8)
                which == 1 ? lanes(y) : front(y);
            double took = now() - start;
            best[which] = took < best[which] ? took : best[which];
        }
    double pixels = 1e-6 * WIDTH * ROWS;
    printf("plain loop %.0f, eight chains in lanes %.0f (each %.0f), a front %.0f\n", pixels / best[0],
           8 * pixels / best[1], pixels / best[1], pixels / best[2]);
    return 0;
}
