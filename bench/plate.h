/* What the plain programs share: a CMYK file, Bayer's tile of side 8, packed rows, and the file of a plate. */
#include <stdint.h>
#include <stdio.h>
#include <stdlib.h>
#include <string.h>

enum { INKS = 4, DPI = 1200, SITES = 16 };

/* A plate that is being written. */
struct plate {
    FILE *file;
    uint32_t end, *counts;
};

static uint8_t thresholds[8][8];

/* Bayer's tile of side 8: its index by the recursion, and 255 times that by 64. */
static void fill_thresholds(void) {
    static const uint8_t quarter[2][2] = {{0, 2}, {3, 1}};
    for (int y = 0; y < 8; y++)
        for (int x = 0; x < 8; x++) {
            int index = 0;
            for (int bit = 0; bit < 3; bit++)
                index = 4 * index + quarter[y >> bit & 1][x >> bit & 1];
            thresholds[y][x] = index * 255 / 64;
        }
}

/* The bits of a row under one row of the tile; the values behind the width fill the last byte. */
static void tile_row(const uint8_t *values, uint32_t width, const uint8_t *tile, uint8_t *bits) {
    for (uint32_t x = 0; x < width; x += 8) {
        unsigned byte = 0;
        for (int k = 0; k < 8; k++)
            byte = byte * 2 + (values[x + k] > tile[k]);
        bits[x / 8] = byte;
    }
}

static uint32_t number(const uint8_t *at, unsigned bytes) {
    uint32_t n = 0;
    for (unsigned i = bytes; i-- > 0;)
        n = n << 8 | at[i];
    return n;
}

/* An uncompressed CMYK file of one strip. */
struct image {
    const uint8_t *samples;
    uint32_t width, length;
};

/* Reads ImageWidth, ImageLength and StripOffsets, and tests nothing. */
static int read_image(const char *path, struct image *image) {
    FILE *file = fopen(path, "rb");
    if (!file)
        return 5;
    fseek(file, 0, SEEK_END);
    size_t size = ftell(file);
    rewind(file);
    uint8_t *bytes = malloc(size);
    if (!bytes || fread(bytes, 1, size, file) != size)
        return 5;
    fclose(file);
    const uint8_t *dir = bytes + number(bytes + 4, 4);
    for (unsigned i = 0; i < number(dir, 2); i++) {
        const uint8_t *e = dir + 2 + 12 * i;
        uint32_t value = number(e + 8, number(e + 2, 2) == 3 ? 2 : 4);
        switch (number(e, 2)) {
        case 256: image->width = value; break;
        case 257: image->length = value; break;
        case 273: image->samples = bytes + value; break;
        }
    }
    return 0;
}

/* Packs a row: runs of three equal bytes and more as repeats, all else as literals. */
static size_t pack(const uint8_t *row, size_t len, uint8_t *out) {
    size_t from = 0, at = 0;
    while (from < len) {
        size_t most = len - from < 128 ? len - from : 128, n = 1;
        while (n < most && row[from + n] == row[from])
            n++;
        if (n >= 3) {
            out[at++] = 257 - n;
            out[at++] = row[from];
        } else {
            for (n = 0; n < most; n++)
                if (from + n + 2 < len && row[from + n] == row[from + n + 1] && row[from + n + 1] == row[from + n + 2])
                    break;
            out[at++] = n - 1;
            memcpy(out + at, row + from, n);
            at += n;
        }
        from += n;
    }
    return at;
}

static uint8_t tail[167 + 8 * 65535];
static size_t tail_len;

static void put16(unsigned n) {
    tail[tail_len++] = n & 255;
    tail[tail_len++] = n >> 8;
}

static void put32(uint32_t n) {
    put16(n & 65535);
    put16(n >> 16);
}

static void entry(unsigned tag, unsigned kind, uint32_t count, uint32_t value) {
    put16(tag);
    put16(kind);
    put32(count);
    put32(value);
}

/* Makes the file of a plate and writes its front. */
static int begin(struct plate *plate, const char *name, int ink, uint32_t strips) {
    char path[4096];
    snprintf(path, sizeof path, "%s-%c.tif", name, "CMYK"[ink]);
    plate->file = fopen(path, "wb");
    plate->counts = calloc(strips, sizeof(uint32_t));
    plate->end = 8;
    if (!plate->file)
        return 7;
    setvbuf(plate->file, NULL, _IOFBF, 1 << 18);
    fwrite("II\x2a\0\0\0\0\0", 1, 8, plate->file);
    return 0;
}

/* Writes directory, resolutions and strip table, and the directory's place into the header. */
static int finish(struct plate *plate, uint32_t width, uint32_t length, uint32_t each) {
    uint32_t end = plate->end, strips = (length + each - 1) / each;
    tail_len = 0;
    if (end & 1)
        tail[tail_len++] = 0;
    uint32_t at = end + tail_len;
    put16(12);
    entry(256, 4, 1, width);
    entry(257, 4, 1, length);
    entry(258, 3, 1, 1);
    entry(259, 3, 1, 32773);
    entry(262, 3, 1, 0);
    entry(273, 4, strips, strips < 2 ? 8 : at + 166);
    entry(277, 3, 1, 1);
    entry(278, 4, 1, each);
    entry(279, 4, strips, strips < 2 ? end - 8 : at + 166 + 4 * strips);
    entry(282, 5, 1, at + 150);
    entry(283, 5, 1, at + 158);
    entry(296, 3, 1, 2);
    put32(0);
    for (int i = 0; i < 2; i++) {
        put32(DPI);
        put32(1);
    }
    if (strips > 1) {
        for (uint32_t i = 0, place = 8; i < strips; place += plate->counts[i++])
            put32(place);
        for (uint32_t i = 0; i < strips; i++)
            put32(plate->counts[i]);
    }
    fwrite(tail, 1, tail_len, plate->file);
    fseek(plate->file, 4, SEEK_SET);
    fwrite(&at, 4, 1, plate->file);
    return fclose(plate->file) ? 7 : 0;
}
