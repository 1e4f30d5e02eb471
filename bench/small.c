/* An edition of small pages in four inks under Bayer's tile of side 8, by straightforward loops: what `plateroom run` of
 * such an edition is measured against. Page number p, from 0, is the part of the image from (p mod 6, p) on.
 * usage: small IMAGE WIDTH HEIGHT PAGES LEFT TOP RIGHT BOTTOM EDITION FOLDER.. */
#include "plate.h"
#include <sys/stat.h>

enum { WIDEST = 1 << 16 };

int main(int argc, char **argv) {
    static struct image image;
    static struct plate plates[SITES][INKS];
    static uint8_t bits[WIDEST], packed[2 * WIDEST];
    int sites = argc - 10, m[7];
    if (sites < 1 || sites > SITES)
        return 2;
    for (int i = 0; i < 7; i++)
        m[i] = atoi(argv[2 + i]);
    int width = m[0], height = m[1], pages = m[2], left = m[3], top = m[4], right = m[5], bottom = m[6];
    if (read_image(argv[1], &image))
        return 5;
    fill_thresholds();
    uint32_t wide = left + 2 * width + right, high = top + height + bottom, row = (wide + 7) / 8;
    uint32_t each = 8192 / row ? 8192 / row : 1;
    for (int site = 0; site < sites; site++)
        mkdir(argv[10 + site], 0777);
    for (int pair = 1; pair <= pages / 2; pair++) {
        int other = pages + 1 - pair, shown[2] = {pair % 2 ? other : pair, pair % 2 ? pair : other};
        for (int site = 0; site < sites; site++)
            for (int ink = 0; ink < INKS; ink++) {
                char name[2048];
                snprintf(name, sizeof name, "%s/%s-A-%03d", argv[10 + site], argv[9], pair);
                if (begin(&plates[site][ink], name, ink, (high + each - 1) / each))
                    return 7;
            }
        for (uint32_t y = 0; y < high; y++)
            for (int ink = 0; ink < INKS; ink++) {
                memset(bits, 0, row);
                int inner = (int)y - top;
                for (int side = 0; side < 2 && inner >= 0 && inner < height; side++) {
                    int p = shown[side] - 1, at = left + side * width;
                    const uint8_t *line = image.samples + 4 * ((size_t)(p + inner) * image.width + p % 6);
                    for (int x = 0; x < width; x++)
                        if (line[4 * x + ink] > thresholds[inner % 8][x % 8])
                            bits[(at + x) / 8] |= 128 >> (at + x) % 8;
                }
                size_t count = pack(bits, row, packed);
                for (int site = 0; site < sites; site++) {
                    struct plate *plate = &plates[site][ink];
                    fwrite(packed, 1, count, plate->file);
                    plate->counts[y / each] += count;
                    plate->end += count;
                }
            }
        for (int site = 0; site < sites; site++)
            for (int ink = 0; ink < INKS; ink++)
                if (finish(&plates[site][ink], wide, high, each))
                    return 7;
    }
    return 0;
}
