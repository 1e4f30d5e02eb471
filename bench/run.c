/* The four plates of one pair of pages, each page one uncompressed CMYK file of one strip at scale 4, or at the SCALE that
 * it is compiled with, by straightforward loops: what `plateroom run` is measured against. It reads ImageWidth, ImageLength
 * and StripOffsets and tests nothing. Then it prints how many pixels of each plate print in each of 32 keys, counted pixel
 * by pixel, where KEYS is set.
 * usage: run LEFT RIGHT bayer8|bayer8-alone|diffuse|black|black-alone PLATES..; the plate of ink I becomes
 * PLATES-I.tif, for each PLATES; of black K is diffused and the other inks aren't; of black-alone and
 * bayer8-alone there is no ink but K */
#include "plate.h"

#ifndef SCALE
#define SCALE 4
#endif

enum { KEYS = 32, BLACK = INKS - 1 };

static uint64_t counts[INKS][KEYS];

static void count_row(const uint8_t *bits, uint32_t width, uint64_t *keys) {
    for (uint32_t x = 0; x < width; x++)
        keys[(uint64_t)x * KEYS / width] += bits[x / 8] >> (7 - x % 8) & 1;
}

static void print_counts(void) {
    for (int ink = 0; ink < INKS; ink++) {
        printf("keys 0 A-001-%c", "CMYK"[ink]);
        for (int key = 0; key < KEYS; key++)
            printf(" %llu", (unsigned long long)counts[ink][key]);
        printf("\n");
    }
}

/* An image, and the row of the page that is made of it. */
struct page {
    struct image image;
    uint8_t *values[INKS];
    int16_t *errors[INKS];
};

static int read_page(const char *path, struct page *page) {
    int status = read_image(path, &page->image);
    for (int ink = 0; !status && ink < INKS; ink++) {
        page->values[ink] = malloc(SCALE * page->image.width);
        page->errors[ink] = calloc(SCALE * page->image.width + 2, sizeof(int16_t));
    }
    return status;
}

/* The values of all inks in row y of the image, each SCALE times. */
static void spread(struct page *page, uint32_t y) {
    const uint8_t *pixels = page->image.samples + (size_t)4 * page->image.width * y;
    for (int ink = 0; ink < INKS; ink++) {
        uint8_t *values = page->values[ink];
        for (uint32_t x = 0; x < page->image.width; x++)
            memset(values + SCALE * x, pixels[4 * x + ink], SCALE);
    }
}

static void diffuse_row(const uint8_t *v, int16_t *e, uint32_t width, uint8_t *bits) {
    int left = 0, corner = 0;
    unsigned byte = 0;
    for (uint32_t x = 0; x < width; x++) {
        int above = e[x + 1];
        int n = (16 * v[x] + 7 * left + 3 * e[x + 2] + 5 * above + corner) >> 4;
        int bit = n >= 128;
        left = n - 255 * bit;
        corner = above;
        e[x + 1] = left;
        byte = byte * 2 + bit;
        if (x % 8 == 7)
            bits[x / 8] = byte;
    }
}

int main(int argc, char **argv) {
    struct page pages[2];
    static struct plate plates[SITES][INKS];
    int sites = argc - 4;
    if (sites < 1 || sites > SITES)
        return 2;
    for (int side = 0; side < 2; side++)
        if (read_page(argv[1 + side], &pages[side]))
            return 5;
    fill_thresholds();
    int diffused = strcmp(argv[3], "diffuse") == 0, counted = getenv("KEYS") != NULL;
    int black = strncmp(argv[3], "black", 5) == 0, first = strstr(argv[3], "-alone") != NULL ? BLACK : 0;
    uint32_t wide = SCALE * pages[0].image.width, length = SCALE * pages[0].image.length;
    uint32_t row = 2 * wide / 8, each = 8192 / row ? 8192 / row : 1;
    uint8_t *bits = malloc(row), *packed = malloc(row + (row + 127) / 128);
    for (int site = 0; site < sites; site++)
        for (int ink = first; ink < INKS; ink++)
            if (begin(&plates[site][ink], argv[4 + site], ink, (length + each - 1) / each))
                return 7;
    for (uint32_t y = 0; y < length; y++) {
        if (y % SCALE == 0)
            for (int side = 0; side < 2; side++)
                spread(&pages[side], y / SCALE);
        for (int ink = first; ink < INKS; ink++) {
            for (int side = 0; side < 2; side++) {
                struct page *page = &pages[side];
                uint8_t *half = bits + side * wide / 8;
                if (diffused || (black && ink == BLACK))
                    diffuse_row(page->values[ink], page->errors[ink], wide, half);
                else
                    tile_row(page->values[ink], wide, thresholds[y % 8], half);
            }
            if (counted)
                count_row(bits, 2 * wide, counts[ink]);
            size_t count = pack(bits, row, packed);
            for (int site = 0; site < sites; site++) {
                struct plate *plate = &plates[site][ink];
                fwrite(packed, 1, count, plate->file);
                plate->counts[y / each] += count;
                plate->end += count;
            }
        }
    }
    for (int site = 0; site < sites; site++)
        for (int ink = first; ink < INKS; ink++)
            if (finish(&plates[site][ink], 2 * wide, length, each))
                return 7;
    if (counted)
        print_counts();
    return 0;
}
