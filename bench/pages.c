/* Pairs of pages of layers in four inks under Bayer's tile of side 8, with curves and an ink limit, by
 * straightforward loops: what `plateroom run` of such an edition is measured against. Images are uncompressed
 * and of one strip, and a 1 bit of a line image or a mask is marked; nothing is tested.
 * usage: pages WIDTH HEIGHT LIMIT, and behind them, in this order:
 *        curve INK COUNT X Y ..      the curve of ink 0 to 3 through so many points
 *        plates FRONT                the plate of ink I of pair N becomes FRONT-N-I.tif; once for each site
 *        page                        two for each pair, the left one first
 *        layer KIND FILE MASK PAINT X Y SCALE LEFT TOP WIDTH HEIGHT C M Y K
 *                                    a layer of the page before it, with its crop; MASK is - for none */
#include "plate.h"

enum { LAYERS = 32, PAGES = 64, IMAGES = 64, WIDEST = 1 << 16, BLOCK = 64 };

#ifdef SHORT
enum { SHORT_WAYS = 1 };
#else
enum { SHORT_WAYS = 0 };
#endif

struct layer {
    int line, overprint;
    struct image image, mask;
    uint32_t x, y, scale, left, top, width, height;
    uint8_t inks[INKS];
};

struct page {
    struct layer layers[LAYERS];
    int count;
};

static struct page pages[PAGES];
static const char *fronts[SITES];
static struct plate plates[SITES][INKS];
static uint8_t tables[INKS][256], planes[2][INKS][WIDEST];
static int curved[INKS], page_count, sites;
static uint32_t wide, high, limit;

/* The next word of the command. */
static char **word;

static uint32_t next(void) { return strtoul(*word++, NULL, 10); }

/* An image, which is read once. */
static struct image known(const char *path) {
    static struct image images[IMAGES];
    static const char *paths[IMAGES];
    int i = 0;
    while (paths[i] && strcmp(paths[i], path))
        i++;
    if (!paths[i] && read_image(path, &images[i]))
        exit(5);
    paths[i] = path;
    return images[i];
}

static void read_curve(void) {
    uint32_t ink = next(), count = next(), x = next(), y = next();
    curved[ink] = 1;
    while (--count > 0) {
        uint32_t to = next(), end = next();
        for (uint32_t v = x; v <= to; v++)
            tables[ink][v] = (y * (to - v) + end * (v - x)) / (to - x);
        x = to;
        y = end;
    }
}

static void read_layer(struct page *page) {
    struct layer *l = &page->layers[page->count++];
    l->line = !strcmp(*word++, "line");
    l->image = known(*word++);
    if (strcmp(*word, "-"))
        l->mask = known(*word);
    word++;
    l->overprint = !strcmp(*word++, "overprint");
    uint32_t *fields[] = {&l->x, &l->y, &l->scale, &l->left, &l->top, &l->width, &l->height};
    for (int i = 0; i < 7; i++)
        *fields[i] = next();
    for (int ink = 0; ink < INKS; ink++)
        l->inks[ink] = next();
}

static int read_words(void) {
    wide = next();
    high = next();
    limit = next();
    while (*word) {
        const char *name = *word++;
        if (!strcmp(name, "curve"))
            read_curve();
        else if (!strcmp(name, "plates"))
            fronts[sites++] = *word++;
        else if (!strcmp(name, "page"))
            page_count++;
        else if (!strcmp(name, "layer"))
            read_layer(&pages[page_count - 1]);
        else
            return 2;
    }
    return 0;
}

static int marked(const struct image *image, uint32_t x, uint32_t y) {
    return image->samples[(size_t)y * ((image->width + 7) / 8) + x / 8] >> (7 - x % 8) & 1;
}

/* A row of a contone layer without a mask, ink by ink. */
static void paint_whole(const struct layer *l, const uint8_t *pixels, uint32_t end,
                        uint8_t planes[INKS][WIDEST]) {
    uint32_t scale = l->scale;
    for (int ink = 0; ink < INKS; ink++) {
        uint8_t *plane = planes[ink];
        if (l->overprint)
            for (uint32_t x = l->x, k = 0, at = ink; x < end; x++) {
                plane[x] = pixels[at] ? pixels[at] : plane[x];
                if (++k == scale)
                    k = 0, at += 4;
            }
        else if (scale == 1)
            for (uint32_t x = l->x; x < end; x++)
                plane[x] = pixels[4 * (x - l->x) + ink];
        else
            for (uint32_t x = l->x, at = ink; x < end; at += 4)
                for (uint32_t k = 0; k < scale && x < end; k++)
                    plane[x++] = pixels[at];
    }
}

/* A row of a line layer, or of one under a mask, pixel by pixel of the image. */
static void paint_some(const struct layer *l, const uint8_t *pixels, uint32_t row, uint32_t end,
                       uint8_t planes[INKS][WIDEST]) {
    uint32_t x = l->x;
    for (uint32_t column = 0; x < end; column++) {
        const uint8_t *inks = l->line ? l->inks : pixels + 4 * column;
        uint32_t last = x + l->scale < end ? x + l->scale : end;
        int shows = !l->line || marked(&l->image, l->left + column, row);
        if (shows && l->mask.samples)
            shows = marked(&l->mask, l->left + column, row);
        if (shows)
            for (int ink = 0; ink < INKS; ink++)
                if (!l->overprint || inks[ink])
                    for (uint32_t at = x; at < last; at++)
                        planes[ink][at] = inks[ink];
        x = last;
    }
}

/* Row y of a page: its layers from the bottom. */
static void paint(const struct page *page, uint32_t y, uint8_t planes[INKS][WIDEST]) {
    for (int ink = 0; ink < INKS; ink++)
        memset(planes[ink], 0, wide);
    for (int i = 0; i < page->count; i++) {
        const struct layer *l = &page->layers[i];
        if (y < l->y || y >= l->y + l->height * l->scale)
            continue;
        uint32_t row = l->top + (y - l->y) / l->scale, end = l->x + l->width * l->scale;
        const uint8_t *pixels = l->image.samples;
        if (!l->line)
            pixels += 4 * ((size_t)row * l->image.width + l->left);
        if (end > wide)
            end = wide;
        if (l->line || l->mask.samples)
            paint_some(l, pixels, row, end, planes);
        else
            paint_whole(l, pixels, end, planes);
    }
}

/* Whether a block has this one value. */
static int all_are(const uint8_t *values, uint8_t value) {
    uint8_t others = 0;
    for (int i = 0; i < BLOCK; i++)
        others |= values[i] ^ value;
    return !others;
}

static void curve(uint8_t *plane, const uint8_t *table) {
    uint32_t x = 0;
    for (; SHORT_WAYS && x + BLOCK <= wide; x += BLOCK) {
        if (all_are(plane + x, plane[x]))
            memset(plane + x, table[plane[x]], BLOCK);
        else
            for (int i = 0; i < BLOCK; i++)
                plane[x + i] = table[plane[x + i]];
    }
    for (; x < wide; x++)
        plane[x] = table[plane[x]];
}

static void limit_part(uint32_t from, uint32_t to, uint8_t *restrict cyan, uint8_t *restrict magenta,
                       uint8_t *restrict yellow, uint8_t *restrict black) {
    for (uint32_t x = from; x < to; x++) {
        uint32_t c = cyan[x], m = magenta[x], y = yellow[x], k = black[x], colours = c + m + y;
        if (colours + k <= limit)
            continue;
        uint32_t kept = k < limit ? k : limit, rest = limit - kept;
        cyan[x] = colours ? c * rest / colours : 0;
        magenta[x] = colours ? m * rest / colours : 0;
        yellow[x] = colours ? y * rest / colours : 0;
        black[x] = kept;
    }
}

static void limit_row(uint8_t *cyan, uint8_t *magenta, uint8_t *yellow, uint8_t *black) {
    uint32_t x = 0;
    for (; SHORT_WAYS && limit >= 255 && x + BLOCK <= wide; x += BLOCK)
        if (!all_are(cyan + x, 0) || !all_are(magenta + x, 0) || !all_are(yellow + x, 0))
            limit_part(x, x + BLOCK, cyan, magenta, yellow, black);
    limit_part(x, wide, cyan, magenta, yellow, black);
}

/* A row of a page under a row of the tile. */
static void screen(const uint8_t *plane, const uint8_t *tile, uint8_t *bits) {
    uint32_t x = 0;
    for (; SHORT_WAYS && x + BLOCK <= wide; x += BLOCK)
        if (all_are(plane + x, 0))
            memset(bits + x / 8, 0, BLOCK / 8);
        else
            tile_row(plane + x, BLOCK, tile, bits + x / 8);
    tile_row(plane + x, wide - x, tile, bits + x / 8);
}

/* Puts a page's bits behind so many bits of a row. */
static void put(const uint8_t *half, uint32_t bytes, uint32_t at, uint8_t *bits) {
    unsigned shift = at % 8, before = shift ? bits[at / 8] : 0;
    for (uint32_t i = 0; i < bytes; i++) {
        bits[at / 8 + i] = before | half[i] >> shift;
        before = half[i] << (8 - shift);
    }
    if (shift)
        bits[at / 8 + bytes] = before;
}

static int make_pair(const struct page *pair, int number) {
    static uint8_t bits[WIDEST], half[WIDEST], packed[2 * WIDEST];
    uint32_t bytes = (wide + 7) / 8, row = (2 * wide + 7) / 8, each = 8192 / row ? 8192 / row : 1;
    for (int site = 0; site < sites; site++)
        for (int ink = 0; ink < INKS; ink++) {
            char name[2048];
            snprintf(name, sizeof name, "%s-%03d", fronts[site], number);
            if (begin(&plates[site][ink], name, ink, (high + each - 1) / each))
                return 7;
        }
    for (uint32_t y = 0; y < high; y++) {
        for (int side = 0; side < 2; side++) {
            paint(&pair[side], y, planes[side]);
            for (int ink = 0; ink < INKS; ink++)
                if (curved[ink])
                    curve(planes[side][ink], tables[ink]);
            if (limit < 1020)
                limit_row(planes[side][0], planes[side][1], planes[side][2], planes[side][3]);
        }
        for (int ink = 0; ink < INKS; ink++) {
            screen(planes[0][ink], thresholds[y % 8], bits);
            screen(planes[1][ink], thresholds[y % 8], half);
            put(half, bytes, wide, bits);
            size_t count = pack(bits, row, packed);
            for (int site = 0; site < sites; site++) {
                struct plate *plate = &plates[site][ink];
                fwrite(packed, 1, count, plate->file);
                plate->counts[y / each] += count;
                plate->end += count;
            }
        }
    }
    for (int site = 0; site < sites; site++)
        for (int ink = 0; ink < INKS; ink++)
            if (finish(&plates[site][ink], 2 * wide, high, each))
                return 7;
    return 0;
}

int main(int argc, char **argv) {
    word = argv + 1;
    if (argc < 4 || read_words())
        return 2;
    fill_thresholds();
    for (int pair = 0; pair < page_count / 2; pair++)
        if (make_pair(&pages[2 * pair], pair + 1))
            return 7;
    return 0;
}
