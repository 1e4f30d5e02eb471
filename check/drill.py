#!/usr/bin/env python3
"""Prints the report and the dots of the drill of a number by the definitions alone, pixel by pixel.

    python3 check/drill.py N
    plateroom drill N

Both print the same. It shares no code with plateroom: the job's images are functions of the number, and no
TIFF file is made or read.
"""
import sys


def bayer(side):
    """The thresholds of a Bayer tile."""
    index, n = [[0]], 1
    while n < side:
        quarter = [[0, 2], [3, 1]]
        index = [[4 * index[y % n][x % n] + quarter[y // n][x // n] for x in range(2 * n)] for y in range(2 * n)]
        n *= 2
    return [[value * 255 // side ** 2 for value in row] for row in index]


class Job:
    """The generated job of a number."""

    def __init__(self, n):
        self.n = n
        self.sites = n % 4 + 1
        self.count = 4 + 4 * (n // 4 % 2)
        m = 1 + n // 8 % 16
        self.image_width, self.image_length = 16 * m, 12 * m
        self.width, self.height = 64 * m, 48 * m
        self.tiles = [bayer(4), bayer(8), bayer(16)]
        self.values, self.bits = {}, {}

    def colour(self, page):
        """Whether a page prints C, M and Y. Page 0 is the one that the zone puts in place of page 1."""
        return page not in (self.count // 2, self.count // 2 + 1)

    def printed(self, page):
        """C, M, Y and K that each pixel of a page prints."""
        if page in self.values:
            return self.values[page]
        rows = []
        for y in range(self.height):
            row = []
            for x in range(self.width):
                a, b = x // 4, y // 4
                inks = [(self.n % 256 + 29 * page + 61 * i + 3 * a + 7 * b) % 256 for i in range(4)]
                if page % 2 == 1 and 2 * a < self.image_width and (a + b) % 4 == 0:
                    inks[3] = 255
                if not self.colour(page):
                    inks[:3] = [0, 0, 0]
                row.append(self.limited(inks))
            rows.append(row)
        self.values[page] = rows
        return rows

    @staticmethod
    def limited(inks):
        """The inks under the limit of 612."""
        total, black = sum(inks[:3]), inks[3]
        if total + black <= 612:
            return inks
        kept = min(black, 612)
        return [v * (612 - kept) // total if total else 0 for v in inks[:3]] + [kept]

    def screened(self, page, ink):
        """The bits of one ink of a page: by a tile for C, M and Y, by error diffusion for K."""
        if (page, ink) not in self.bits:
            values = [[pixel[ink] for pixel in row] for row in self.printed(page)]
            self.bits[page, ink] = self.diffused(values) if ink == 3 else self.tiled(values, self.tiles[ink])
        return self.bits[page, ink]

    @staticmethod
    def tiled(values, tile):
        n = len(tile)
        return [[int(v > tile[y % n][x % n]) for x, v in enumerate(row)] for y, row in enumerate(values)]

    @staticmethod
    def diffused(values):
        errors, bits = {}, []
        for y, row in enumerate(values):
            out = []
            for x, value in enumerate(row):
                near = [errors.get(at, 0) for at in ((x - 1, y), (x + 1, y - 1), (x, y - 1), (x - 1, y - 1))]
                v = (16 * value + 7 * near[0] + 3 * near[1] + 5 * near[2] + near[3]) // 16
                out.append(int(v >= 128))
                errors[x, y] = v - 255 * out[-1]
            bits.append(out)
        return bits

    def plate(self, left, right, ink):
        """The dots of a plate: those of its two pages, and the mark of 4 by 4 pixels in its corner, which
        is in the margin."""
        return 16 + sum(map(sum, self.screened(left, ink))) + sum(map(sum, self.screened(right, ink)))

    def site(self, number):
        """How many plates a site has, and their dots."""
        plates, dots = 0, 0
        for left, right in self.pairs(number):
            for ink in self.inks(left, right):
                plates, dots = plates + 1, dots + self.plate(left, right, ink)
        return plates, dots

    def pairs(self, site):
        """The left and the right page of each pair of a site, the even page left. Sites of odd number print
        page 0 in place of page 1."""
        for j in range(1, self.count // 2 + 1):
            even, odd = sorted((j, self.count + 1 - j), key=lambda page: page % 2)
            yield even, 0 if odd == 1 and site % 2 == 1 else odd

    def inks(self, left, right):
        return range(4) if self.colour(left) or self.colour(right) else [3]

    def text(self):
        height = self.height + 16
        sites = [self.site(i) for i in range(self.sites)]
        groups = {(j, pair) for i in range(self.sites) for j, pair in enumerate(self.pairs(i))}
        total = sum(len(self.inks(*pair)) for _, pair in groups) * height
        lines = [f"site S{i} finished plates {p} rows {p * height}" for i, (p, _) in enumerate(sites)]
        lines.append(f"total rows {total} sites {self.sites}")
        lines += [f"dots S{i} {d}" for i, (_, d) in enumerate(sites)]
        return "".join(line + "\n" for line in lines)


if __name__ == "__main__":
    sys.stdout.write(Job(int(sys.argv[1])).text())
