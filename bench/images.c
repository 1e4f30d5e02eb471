/* The black plate of a CMYK file, by straightforward loops: chunky or planar, uncompressed or PackBits. It is what
 * `plateroom one` is measured against. It reads the fields that tell the rows and tests nothing else, and writes the
 * black samples screened to one bit a pixel, without a head. */
#include <stdint.h>
#include <stdio.h>
#include <stdlib.h>
#include <string.h>

static const uint8_t thresholds[4][4] = {
    {0, 127, 31, 159}, {191, 63, 223, 95}, {47, 175, 15, 143}, {239, 111, 207, 79}};

static uint32_t number(const uint8_t *at, unsigned bytes) {
    uint32_t n = 0;
    for (unsigned i = bytes; i-- > 0;)
        n = n << 8 | at[i];
    return n;
}

/* Expands one packed strip. */
static const uint8_t *unpack(const uint8_t *from, const uint8_t *end, uint8_t *into, uint8_t *limit) {
    while (into < limit && from < end) {
        int header = (int8_t)*from++;
        if (header >= 0) {
            memcpy(into, from, header + 1);
            from += header + 1;
            into += header + 1;
        } else if (header != -128) {
            memset(into, *from++, 1 - header);
            into += 1 - header;
        }
    }
    return from;
}

int main(int argc, char **argv) {
    FILE *file = argc == 2 ? fopen(argv[1], "rb") : NULL;
    if (!file)
        return 2;
    fseek(file, 0, SEEK_END);
    size_t size = ftell(file);
    rewind(file);
    uint8_t *bytes = malloc(size);
    if (!bytes || fread(bytes, 1, size, file) != size)
        return 5;
    uint32_t width = 0, length = 0, packed = 0, planar = 1, each = 0, strips = 1, offsets = 0, counts = 0;
    const uint8_t *dir = bytes + number(bytes + 4, 4);
    for (unsigned i = 0; i < number(dir, 2); i++) {
        const uint8_t *e = dir + 2 + 12 * i;
        uint32_t value = number(e + 8, number(e + 2, 2) == 3 ? 2 : 4);
        switch (number(e, 2)) {
        case 256: width = value; break;
        case 257: length = value; break;
        case 259: packed = value == 32773; break;
        case 273: strips = number(e + 4, 4); offsets = strips == 1 ? e + 8 - bytes : value; break;
        case 278: each = value; break;
        case 279: counts = strips == 1 ? e + 8 - bytes : value; break;
        case 284: planar = value; break;
        }
    }
    uint32_t plane_strips = (length + each - 1) / each, row = planar == 2 ? width : 4 * width;
    uint8_t *rows = malloc((size_t)each * row + 128), *bits = malloc((width + 7) / 8);
    for (uint32_t i = 0; i < plane_strips; i++) {
        uint32_t strip = planar == 2 ? 3 * plane_strips + i : i;
        uint32_t high = length - i * each < each ? length - i * each : each;
        const uint8_t *data = bytes + number(bytes + offsets + 4 * strip, 4);
        if (packed) {
            unpack(data, data + number(bytes + counts + 4 * strip, 4), rows, rows + (size_t)high * row);
            data = rows;
        }
        for (uint32_t y = 0; y < high; y++) {
            const uint8_t *samples = data + (size_t)y * row + (planar == 2 ? 0 : 3);
            uint32_t step = planar == 2 ? 1 : 4;
            const uint8_t *tile = thresholds[(i * each + y) & 3];
            memset(bits, 0, (width + 7) / 8);
            for (uint32_t x = 0; x < width; x++)
                bits[x >> 3] |= (samples[step * x] > tile[x & 3]) << (7 - (x & 7));
            fwrite(bits, 1, (width + 7) / 8, stdout);
        }
    }
    return fflush(stdout) ? 7 : 0;
}
