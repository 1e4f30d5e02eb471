#!/usr/bin/env python3
"""Makes an edition's plates by the definitions alone, pixel by pixel, and compares them with plateroom's.

    plateroom run PLAN FILES OUT
    python3 check/plates.py PLAN FILES OUT

It shares no code with plateroom and reads what plateroom wrote only to compare it. It is slow: it is for
small editions.
"""
import json
import os
import sys

from tiff import Image, plate_file

INKS = "CMYKS"


def bayer(side):
    """The thresholds of a Bayer tile."""
    index, n = [[0]], 1
    while n < side:
        quarter = [[0, 2], [3, 1]]
        index = [[4 * index[y % n][x % n] + quarter[y // n][x // n] for x in range(2 * n)] for y in range(2 * n)]
        n *= 2
    return [[value * 255 // side ** 2 for value in row] for row in index]


def curve(points):
    """The 256 values of a curve."""
    def at(v):
        for (x0, y0), (x1, y1) in zip(points, points[1:]):
            if x0 <= v <= x1:
                return (y0 * (x1 - v) + y1 * (v - x0)) // (x1 - x0)
    return [at(v) for v in range(256)]


def limited(inks, limit):
    """C, M, Y, K under the ink limit."""
    *colours, black = inks
    total = sum(colours)
    if total + black <= limit:
        return inks
    kept = min(black, limit)
    return [v * (limit - kept) // total if total else 0 for v in colours] + [kept]


class Edition:
    def __init__(self, plan, folder):
        self.plan, self.folder = plan, folder
        self.images, self.values, self.screens, self.made = {}, {}, {}, {}
        self.width, self.height = plan["page"]
        self.left, self.top, self.right, self.bottom = plan.get("margins", [0] * 4)
        self.gutter, self.limit = plan.get("gutter", 0), plan.get("limit", 1020)
        self.pages = {page["name"]: page for page in plan["pages"]}
        self.zones = {zone["name"]: zone["replace"] for zone in plan.get("zones", [])}
        self.curves = [curve(plan.get("curves", {}).get(ink, [[0, 0], [255, 255]])) for ink in INKS]

    def image(self, name):
        if name not in self.images:
            self.images[name] = Image(os.path.join(self.folder, name))
        return self.images[name]

    def lay(self, layer, page):
        """Paints a layer over a page."""
        image, scale = self.image(layer["file"]), layer.get("scale", 1)
        left, top = layer.get("x", 0), layer.get("y", 0)
        x0, y0, width, height = layer.get("crop", [0, 0, image.width, image.length])
        for y in range(top, min(self.height, top + height * scale)):
            for x in range(left, min(self.width, left + width * scale)):
                at = x0 + (x - left) // scale, y0 + (y - top) // scale
                if "mask" in layer and not self.image(layer["mask"]).marked(*at):
                    continue
                if layer["kind"] == "contone":
                    new = image.contone(*at)
                elif image.marked(*at):
                    new = (layer.get("ink", [0, 0, 0, 255]) + [0])[:5]
                else:
                    continue
                if layer.get("paint", "knockout") == "knockout":
                    page[y][x] = list(new)
                else:
                    page[y][x] = [n or old for n, old in zip(new, page[y][x])]

    def printed(self, name):
        """The five values that each pixel of a page prints."""
        if name not in self.values:
            page = [[[0] * 5 for _ in range(self.width)] for _ in range(self.height)]
            for layer in self.pages[name]["layers"]:
                self.lay(layer, page)
            inks = self.pages[name]["inks"]
            for row in page:
                for pixel in row:
                    toned = [self.curves[i][v] for i, v in enumerate(pixel)]
                    toned = [v if ink in inks else 0 for ink, v in zip(INKS, toned)]
                    pixel[:] = limited(toned[:4], self.limit) + toned[4:]
            self.values[name] = page
        return self.values[name]

    def screened(self, name, ink):
        """The bits of one ink of a page."""
        if (name, ink) not in self.screens:
            values = [[pixel[INKS.index(ink)] for pixel in row] for row in self.printed(name)]
            screen = self.plan.get("screens", {}).get(ink, "bayer8")
            is_diffused = screen == "diffuse"
            self.screens[name, ink] = self.diffused(values) if is_diffused else self.tiled(values, screen)
        return self.screens[name, ink]

    def tiled(self, values, screen):
        if screen.startswith("bayer"):
            tile = bayer(int(screen[5:]))
        else:
            own = next(t for t in self.plan["tiles"] if "tile:" + t["name"] == screen)
            tile = [own["at"][y * own["width"]:(y + 1) * own["width"]] for y in range(own["height"])]
        return [[int(v > tile[y % len(tile)][x % len(tile[0])]) for x, v in enumerate(row)]
                for y, row in enumerate(values)]

    def diffused(self, values):
        above, bits = [0] * (self.width + 2), []
        for row in values:
            errors, out = [0] * (self.width + 2), []
            for x, value in enumerate(row):
                v = (16 * value + 7 * errors[x] + 3 * above[x + 2] + 5 * above[x + 1] + above[x]) // 16
                out.append(int(v >= 128))
                errors[x + 1] = v - 255 * out[-1]
            above = errors
            bits.append(out)
        return bits

    def chosen(self, site, section, number):
        for item in self.zones.get(site.get("zone"), []):
            if item["section"] == section["name"] and item["page"] == number:
                return item["with"]
        return section["pages"][number - 1]

    def plate_height(self):
        return self.top + self.height + self.bottom

    def plate_row(self, left, right, ink, y):
        """The bytes of a row of a plate."""
        width = self.left + 2 * self.width + self.gutter + self.right
        bits = [0] * ((width + 7) // 8 * 8)
        if self.top <= y < self.top + self.height:
            for page, at in ((left, self.left), (right, self.left + self.width + self.gutter)):
                bits[at:at + self.width] = self.screened(page, ink)[y - self.top]
        for mark in self.plan.get("marks", []):
            if ink in mark["inks"] and mark["y"] <= y < mark["y"] + mark["h"]:
                bits[mark["x"]:mark["x"] + mark["w"]] = [1] * mark["w"]
        return row_of(bits), width

    def groups(self):
        """The groups of rows in order: a plate's name up to its ink, the two pages, their inks, and the sites."""
        for section in self.plan["sections"]:
            count = len(section["pages"])
            for pair in range(1, count // 2 + 1):
                even, odd = sorted((pair, count + 1 - pair), key=lambda n: n % 2)
                parts = {}
                for site in self.plan["sites"]:
                    pages = tuple(self.chosen(site, section, n) for n in (even, odd))
                    parts.setdefault(pages, []).append(site["name"])
                for (left, right), sites in parts.items():
                    both = self.pages[left]["inks"] + self.pages[right]["inks"]
                    inks = ("CMYK" if "C" in both else "K") + ("S" if "S" in both else "")
                    yield f"{self.plan['edition']}-{section['name']}-{pair:03}", left, right, inks, sites

    def plate(self, left, right, ink):
        """A plate's width and its rows."""
        if (left, right, ink) not in self.made:
            rows = [self.plate_row(left, right, ink, y) for y in range(self.plate_height())]
            self.made[left, right, ink] = rows[0][1], [row for row, _ in rows]
        return self.made[left, right, ink]

    def plates(self):
        """Each site's plates: path below the folder of plates, and bytes."""
        for name, left, right, inks, sites in self.groups():
            for ink in inks:
                file = plate_file(*self.plate(left, right, ink), self.plan["dpi"])
                for site in sites:
                    yield os.path.join(site, f"{name}-{ink}.tif"), file

    def spans(self):
        """Each site's plates in order, as path and numbers of the first and last row, and the count of rows."""
        spans, begin = {site["name"]: [] for site in self.plan["sites"]}, 0
        for name, _, _, inks, sites in self.groups():
            end = begin + self.plate_height() * len(inks)
            for number, ink in enumerate(inks):
                for site in sites:
                    path = os.path.join(site, f"{name}-{ink}.tif")
                    spans[site].append((path, begin + number, end - len(inks) + number))
            begin = end
        return spans, begin

    def end(self, site, broken):
        """A site's finished plates, and the row and the plate at which it left. Those in `broken` can't be made."""
        plates = self.spans()[0][site]
        left = min(((first, path) for path, first, _ in plates if path in broken), default=None)
        return [path for path, _, last in plates if not left or last < left[0]], left

    def report(self, out, broken=()):
        """The report of a run to the folder `out`."""
        lines, (spans, total) = [], self.spans()
        for site in spans:
            plates, left = self.end(site, broken)
            if left:
                row, path = left
                lines.append(f"site {site} left plates {len(plates)} row {row} call begin file {out}/{path}")
            else:
                rows = len(plates) * self.plate_height()
                lines.append(f"site {site} finished plates {len(plates)} rows {rows}")
        lines.append(f"total rows {total} sites {len(spans)}")
        return "".join(line + "\n" for line in lines)


def black_plate(path):
    """The plate of one file: its black under Bayer's tile of side 4, at 1200 pixels an inch."""
    image, tile, rows = Image(path), bayer(4), []
    for y in range(image.length):
        bits = [int(image.contone(x, y)[3] > tile[y % 4][x % 4]) for x in range(image.width)]
        rows.append(row_of(bits + [0] * (-image.width % 8)))
    return plate_file(image.width, rows, 1200)


def row_of(bits):
    """The bytes of so many whole bytes of bits, the first the highest."""
    return bytes(int("".join(map(str, bits[i:i + 8])), 2) for i in range(0, len(bits), 8))


def compared(wanted, out, parts=None):
    """How a folder of plates differs from the expected ones, if it does. Of `parts` a front may be present,
    under the name that a plate has until it is whole."""
    faults, parts = [], parts or {}
    found = {os.path.relpath(os.path.join(at, name), out) for at, _, names in os.walk(out) for name in names}
    for path in sorted(found | set(wanted)):
        if path not in found:
            faults.append(f"{path} is not there")
            continue
        with open(os.path.join(out, path), "rb") as file:
            plate = file.read()
        if path in wanted and plate != wanted[path]:
            same = os.path.commonprefix([plate, wanted[path]])
            faults.append(f"{path} differs at byte {len(same)}")
        elif path not in wanted:
            name = path.removesuffix(".part")
            if name == path or name not in parts or not is_begun(plate, parts[name]):
                faults.append(f"{path} should not be there")
    return "; ".join(faults[:3] + [f"and {len(faults) - 3} more"] * (len(faults) > 3))


def is_begun(part, plate):
    """Whether a file is the front of a plate that isn't finished: the offset of its directory is 0."""
    return part == (plate[:4] + bytes(4) + plate[8:])[:len(part)] and len(part) < len(plate)


def main():
    plan, folder, out = sys.argv[1:]
    with open(plan, encoding="utf-8") as file:
        wanted = dict(Edition(json.load(file), folder).plates())
    fault = compared(wanted, out)
    print(fault or f"{len(wanted)} plates are the same, and there are no more files")
    return 1 if fault else 0


if __name__ == "__main__":
    sys.exit(main())
