/* The black plate of an uncompressed CMYK file of one strip, packed, by straightforward loops: what `plateroom one` is
 * measured against. It reads ImageWidth, ImageLength and StripOffsets and tests nothing else. */
#include <stdint.h>
#include <stdio.h>
#include <stdlib.h>
#include <string.h>

static const uint8_t thresholds[4][4] = {
    {0, 127, 31, 159}, {191, 63, 223, 95}, {47, 175, 15, 143}, {239, 111, 207, 79}};

static uint8_t tail[167 + 8 * 65535];
static size_t tail_len;
static uint32_t counts[65535];

static void put16(unsigned n) {
    tail[tail_len++] = n & 255;
    tail[tail_len++] = n >> 8;
}

static void put32(uint32_t n) {
    put16(n & 65535);
    put16(n >> 16);
}

static void entry(unsigned tag, unsigned kind, uint32_t count, uint32_t value) {
    put16(tag);
    put16(kind);
    put32(count);
    put32(value);
}

/* Packs a row: runs of three equal bytes and more as repeats, all else as literals. */
static size_t pack(const uint8_t *row, size_t len, uint8_t *out) {
    size_t from = 0, at = 0;
    while (from < len) {
        size_t most = len - from < 128 ? len - from : 128, n = 1;
        while (n < most && row[from + n] == row[from])
            n++;
        if (n >= 3) {
            out[at++] = 257 - n;
            out[at++] = row[from];
        } else {
            for (n = 0; n < most; n++)
                if (from + n + 2 < len && row[from + n] == row[from + n + 1] && row[from + n + 1] == row[from + n + 2])
                    break;
            out[at++] = n - 1;
            memcpy(out + at, row + from, n);
            at += n;
        }
        from += n;
    }
    return at;
}

static uint32_t number(const uint8_t *at, unsigned bytes) {
    uint32_t n = 0;
    for (unsigned i = bytes; i-- > 0;)
        n = n << 8 | at[i];
    return n;
}

int main(int argc, char **argv) {
    FILE *file = argc == 2 ? fopen(argv[1], "rb") : NULL;
    if (!file)
        return 2;
    fseek(file, 0, SEEK_END);
    size_t size = ftell(file);
    rewind(file);
    uint8_t *bytes = malloc(size);
    if (!bytes || fread(bytes, 1, size, file) != size)
        return 5;
    uint32_t width = 0, length = 0, strip = 0;
    const uint8_t *dir = bytes + number(bytes + 4, 4);
    for (unsigned i = 0; i < number(dir, 2); i++) {
        const uint8_t *e = dir + 2 + 12 * i;
        uint32_t value = number(e + 8, number(e + 2, 2) == 3 ? 2 : 4);
        switch (number(e, 2)) {
        case 256: width = value; break;
        case 257: length = value; break;
        case 273: strip = value; break;
        }
    }
    uint32_t row = (width + 7) / 8, each = 8192 / row ? 8192 / row : 1, strips = (length + each - 1) / each;
    size_t room = 1 << 16, end = 8;
    uint8_t *plate = malloc(room), *bits = malloc(row);
    for (uint32_t y = 0; y < length; y++) {
        const uint8_t *pixels = bytes + strip + (size_t)4 * width * y;
        const uint8_t *tile = thresholds[y & 3];
        memset(bits, 0, row);
        for (uint32_t x = 0; x < width; x++)
            bits[x >> 3] |= (pixels[4 * x + 3] > tile[x & 3]) << (7 - (x & 7));
        while (room < end + row + (row + 127) / 128)
            plate = realloc(plate, room *= 2);
        size_t packed = pack(bits, row, plate + end);
        counts[y / each] += packed;
        end += packed;
    }
    if (end & 1)
        tail[tail_len++] = 0;
    uint32_t at = end + tail_len;
    memcpy(plate, "II\x2a", 4);
    memcpy(plate + 4, &at, 4);
    put16(12);
    entry(256, 4, 1, width);
    entry(257, 4, 1, length);
    entry(258, 3, 1, 1);
    entry(259, 3, 1, 32773);
    entry(262, 3, 1, 0);
    entry(273, 4, strips, strips < 2 ? 8 : at + 166);
    entry(277, 3, 1, 1);
    entry(278, 4, 1, each);
    entry(279, 4, strips, strips < 2 ? end - 8 : at + 166 + 4 * strips);
    entry(282, 5, 1, at + 150);
    entry(283, 5, 1, at + 158);
    entry(296, 3, 1, 2);
    put32(0);
    for (int i = 0; i < 2; i++) {
        put32(1200);
        put32(1);
    }
    if (strips > 1) {
        for (uint32_t i = 0, place = 8; i < strips; place += counts[i++])
            put32(place);
        for (uint32_t i = 0; i < strips; i++)
            put32(counts[i]);
    }
    fwrite(plate, 1, end, stdout);
    fwrite(tail, 1, tail_len, stdout);
    return fflush(stdout) ? 7 : 0;
}
