"""Editions to test the program with: their plans, and their images in all accepted forms.

Everything comes from fixed seeds. Images are written by separate code, with packets of PackBits that no
regular packer would choose: short, across rows, with headers that give nothing.
"""
import json
import os
import random
import struct


def loosely_packed(data, rng):
    """Packets that expand to the bytes, of random lengths."""
    out, at = bytearray(), 0
    while at < len(data):
        if rng.random() < 0.1:
            out.append(128)
        same = 1
        while same < 128 and data[at:at + 1] == data[at + same:at + same + 1]:
            same += 1
        if same > 1 and rng.random() < 0.8:
            same = rng.randint(2, same)
            out += bytes([257 - same, data[at]])
            at += same
        else:
            piece = data[at:at + rng.randint(1, 128)]
            out += bytes([len(piece) - 1]) + piece
            at += len(piece)
    return bytes(out)


def tiff(width, length, planes, depth=8, order="<", packed=False, rows=None, photometric=5, extra=0, seed=0):
    """A file of one plane of rows, or of four, in strips of so many rows with so many bytes more than needed."""
    rng, each = random.Random(seed), rows or length
    across, begins = len(planes[0]) // length, range(0, length, each)
    strips = [plane[y * across:min(y + each, length) * across] for plane in planes for y in begins]
    if packed:
        strips = [loosely_packed(strip, rng) for strip in strips]
    strips = [strip[:len(strip) + min(0, extra)] + bytes(max(0, extra)) for strip in strips]
    samples = 4 if depth == 8 else 1
    fields = {
        256: (width,), 257: (length,), 258: (depth,) * samples, 259: (32773 if packed else 1,),
        262: (photometric,), 273: None, 277: (samples,), 278: (each,), 279: tuple(map(len, strips)),
        284: (2 if len(planes) > 1 else 1,), 332: (1,), 65000: (7,),
    }
    begin = 8
    places = []
    for strip in strips:
        places.append(begin)
        begin += len(strip)
    fields[273] = tuple(places)
    begin += begin % 2
    directory, beyond = struct.pack(order + "H", len(fields)), b""
    after = begin + 2 + 12 * len(fields) + 4
    for tag, values in sorted(fields.items()):
        kind, letter = (4, "I") if tag in (273, 279) else (3, "H")
        data = struct.pack(order + letter * len(values), *values)
        if len(data) > 4:
            beyond, data = beyond + data, struct.pack(order + "I", after + len(beyond))
        directory += struct.pack(order + "HHI", tag, kind, len(values)) + data.ljust(4, b"\0")
    body = b"".join(strips)
    front = (b"II" if order == "<" else b"MM") + struct.pack(order + "HI", 42, begin)
    return front + body + bytes(begin - 8 - len(body)) + directory + bytes(4) + beyond


def contone(width, length, seed, planar=False, **form):
    """A picture in four inks: slopes with grain, and some flat and bare parts."""
    rng = random.Random(seed)
    planes = [bytearray(width * length) for _ in range(4)]
    for ink, plane in enumerate(planes):
        for y in range(length):
            for x in range(width):
                value = (7 * x + 5 * y + 61 * ink + 29 * seed) % 256 + rng.randint(-40, 40)
                plane[y * width + x] = 0 if (x // 9 + y // 7) % 5 == ink else max(0, min(255, value))
    if not planar:
        whole = bytearray(4 * width * length)
        for ink, plane in enumerate(planes):
            whole[ink::4] = plane
        planes = [whole]
    return tiff(width, length, [bytes(plane) for plane in planes], seed=seed, **form)


def line(width, length, seed, photometric, **form):
    """A picture of one bit a pixel: bars, discs and specks. Padding bits are random."""
    rng, across = random.Random(seed), (width + 7) // 8
    rows = bytearray()
    for y in range(length):
        bits = 0
        for x in range(8 * across):
            in_bar, in_disc = (x // 5 + y // 3 + seed) % 3 == 0, (x - width // 2) ** 2 + y ** 2 < width * 9
            is_marked = (in_bar or in_disc) != (rng.random() < 0.06)
            bits = 2 * bits + (is_marked if x < width else rng.random() < 0.5)
        rows += bits.to_bytes(across, "big")
    return tiff(width, length, [bytes(rows)], depth=1, photometric=photometric, seed=seed, **form)


def write(files, name, data):
    full = os.path.join(files, name)
    os.makedirs(os.path.dirname(full), exist_ok=True)
    with open(full, "wb") as file:
        file.write(data)


def write_images(files):
    """The images of the editions below."""
    write(files, "chunky.tif", contone(24, 98, 1))
    write(files, "planar.tif", contone(31, 50, 2, planar=True, order=">", rows=7))
    write(files, "photos/packed.tif", contone(90, 41, 3, packed=True, rows=6, extra=3))
    write(files, "photos/apart.tif", contone(20, 96, 4, planar=True, packed=True, order=">", rows=96))
    write(files, "bars.tif", line(83, 120, 5, 0, packed=True, rows=16))
    write(files, "white.tif", line(45, 60, 6, 1, order=">", rows=60))
    write(files, "mask31.tif", line(31, 50, 7, 4, packed=True, rows=50))
    write(files, "mask90.tif", line(90, 41, 8, 0, order=">", rows=4))
    write(files, "mask83.tif", line(83, 120, 9, 1))


def own_tiles():
    rng = random.Random(10)
    return [{"name": "T", "width": 7, "height": 5, "at": [rng.randint(0, 255) for _ in range(35)]},
            {"name": "ring_2", "width": 3, "height": 2, "at": [0, 255, 127, 254, 64, 1]}]


CURVES = {
    "C": [[0, 0], [100, 60], [200, 230], [255, 255]],
    "Y": [[0, 0], [1, 9], [128, 110], [254, 200], [255, 250]],
    "K": [[0, 12], [255, 240]],
    "S": [[0, 0], [90, 200], [255, 180]],
}


def five_pages():
    """Pages in all choices of inks: contone and line, in crops, at scales, under masks, over each other."""
    photo = {"kind": "contone", "file": "photos/packed.tif"}
    bars = {"kind": "line", "file": "bars.tif"}
    return [
        {"name": "front", "inks": "CMYKS", "layers": [
            {"kind": "contone", "file": "chunky.tif", "scale": 4},
            dict(photo, x=11, y=40, scale=2, crop=[3, 2, 60, 30], mask="mask90.tif"),
            dict(bars, x=5, y=150, ink=[0, 200, 0, 90, 255], paint="overprint")]},
        {"name": "blank", "inks": "K", "layers": []},
        {"name": "advert", "inks": "KS", "layers": [
            dict(bars, ink=[0, 0, 0, 30, 190], scale=3),
            {"kind": "line", "file": "white.tif", "x": 20, "y": 60, "ink": [9, 9, 9, 222], "scale": 2},
            {"kind": "contone", "file": "planar.tif", "mask": "mask31.tif", "y": 200, "paint": "overprint"}]},
        {"name": "colour", "inks": "CMYK", "layers": [
            {"kind": "contone", "file": "photos/apart.tif", "scale": 5},
            dict(bars, mask="mask83.tif", x=1, y=3, ink=[0, 0, 255, 0, 255], paint="overprint"),
            dict(photo, x=80, y=388)]},
        {"name": "black", "inks": "K", "layers": [
            dict(photo, y=1, scale=7, crop=[70, 20, 12, 21]), dict(bars, x=82),
            dict(bars, x=65535, y=65535)]},
        {"name": "spot", "inks": "CMYKS", "layers": [
            dict(bars, ink=[0, 0, 0, 0, 140], scale=2, y=31),
            {"kind": "contone", "file": "planar.tif", "x": 7, "y": 90, "scale": 2, "mask": "mask31.tif"}]},
        {"name": "local", "inks": "KS", "layers": [dict(bars, crop=[17, 9, 50, 101], x=16, scale=2)]},
        {"name": "town", "inks": "CMYK", "layers": [
            dict(photo, mask="mask90.tif", scale=3, y=50),
            {"kind": "line", "file": "white.tif", "ink": [40, 0, 70, 0], "x": 30, "y": 10, "scale": 4}]},
        {"name": "unused", "inks": "KS", "layers": [dict(bars)]},
    ]


def five():
    """Five inks, 405 rows a plate, two sections, three zones and five sites."""
    return {
        "plan": 2, "edition": "FIVE_5", "dpi": 1270, "page": [83, 390], "margins": [5, 7, 6, 8], "gutter": 11,
        "limit": 520, "tiles": own_tiles(), "curves": CURVES,
        "screens": {"C": "bayer16", "M": "tile:T", "Y": "bayer2", "K": "diffuse", "S": "tile:ring_2"},
        "marks": [{"inks": "CMYKS", "x": 0, "y": 0, "w": 4, "h": 4},
                  {"inks": "MS", "x": 91, "y": 2, "w": 7, "h": 399},
                  {"inks": "K", "x": 60, "y": 404, "w": 128, "h": 1}],
        "pages": five_pages(),
        "sections": [{"name": "A", "pages": ["front", "blank", "colour", "advert", "black", "spot"]},
                     {"name": "Late", "pages": ["black", "colour"]}],
        "zones": [
            {"name": "west", "replace": [{"section": "A", "page": 2, "with": "local"}]},
            {"name": "east", "replace": [{"section": "A", "page": 5, "with": "town"},
                                         {"section": "Late", "page": 1, "with": "spot"}]},
            {"name": "none", "replace": []}],
        "sites": [{"name": "OSLO"}, {"name": "BERGEN", "zone": "west"}, {"name": "TOWN", "zone": "east"},
                  {"name": "west2", "zone": "west"}, {"name": "last", "zone": "none"}],
    }


def wide():
    """Rows of 752 bytes, four strips a plate, sixteen sites in two zones; C and S diffused."""
    pages = [dict(page, layers=[dict(layer, scale=layer.get("scale", 1) * 9, y=layer.get("y", 0) // 40)
                                for layer in page["layers"]]) for page in five_pages()]
    return dict(
        five(), edition="WIDE", page=[2999, 30], margins=[3, 2, 4, 1], gutter=5, marks=[], curves={},
        pages=pages,
        screens={"C": "diffuse", "M": "bayer8", "Y": "tile:ring_2", "K": "bayer4", "S": "diffuse"},
        sections=[{"name": "A", "pages": ["front", "blank", "black", "colour"]}],
        zones=[{"name": "west", "replace": [{"section": "A", "page": 2, "with": "local"}]}],
        sites=[dict(name=f"S{number}", **({"zone": "west"} if number % 3 == 1 else {})) for number in range(16)],
    )


def banded():
    """Five sections of a pair each, of four pages in turn, under tiles alone: so many rows that several threads make a
    band of them, and bands go on from group to group."""
    pages = [dict(page, layers=[dict(layer, scale=min(64, layer.get("scale", 1) * 5), x=layer.get("x", 0) * 5)
                                if layer.get("x") != 65535 else layer for layer in page["layers"]])
             for page in five_pages()]
    return dict(
        five(), edition="BANDS", page=[409, 390], pages=pages,
        screens={"C": "bayer16", "M": "tile:T", "Y": "bayer2", "K": "bayer8", "S": "tile:ring_2"},
        marks=[{"inks": "CMYKS", "x": 0, "y": 0, "w": 4, "h": 4}, {"inks": "K", "x": 60, "y": 404, "w": 700, "h": 1}],
        sections=[{"name": f"P{n}", "pages": ["spot", "black"] if n % 2 else ["front", "colour"]} for n in range(5)],
        zones=[{"name": "west", "replace": [{"section": "P3", "page": 2, "with": "front"}]}],
        sites=[{"name": "OSLO"}, {"name": "BERGEN", "zone": "west"}],
    )


def rows():
    """432 rows for four sites: six pairs in four inks, 18 rows a plate. By plan 1."""
    pages = [{"name": f"p{number}", "inks": "CMYK", "layers": [
        {"kind": "contone", "file": "chunky.tif", "crop": [number % 6, number, 18, 11]}]}
        for number in range(12)]
    return {
        "plan": 1, "edition": "ROWS", "dpi": 1200, "page": [18, 11], "margins": [2, 3, 2, 4], "pages": pages,
        "sections": [{"name": "A", "pages": [page["name"] for page in pages]}],
        "sites": [{"name": f"S{number}"} for number in range(4)],
    }


# The images above by kind, with their widths and lengths, and masks of the same sides.
CONTONE = {"chunky.tif": (24, 98), "planar.tif": (31, 50), "photos/packed.tif": (90, 41), "photos/apart.tif": (20, 96)}
LINE = {"bars.tif": (83, 120), "white.tif": (45, 60), "mask83.tif": (83, 120), "mask90.tif": (90, 41)}
MASKS = {(31, 50): "mask31.tif", (90, 41): "mask90.tif", (83, 120): "mask83.tif", (45, 60): "white.tif"}


def layer_by_chance(rng, inks):
    kind = rng.choice(("contone", "line"))
    images = CONTONE if kind == "contone" else LINE
    name = rng.choice(sorted(images))
    width, length = images[name]
    layer = {"kind": kind, "file": name, "x": rng.choice((0, rng.randint(0, 70))), "y": rng.randint(0, 12),
             "scale": rng.choice((1, 1, 2, 3, 4, 5, 8, 64)), "paint": rng.choice(("knockout", "overprint")),
             "ink": [rng.choice((0, 255, rng.randint(0, 255))) for _ in range(rng.choice((4, inks)))]}
    if rng.random() < 0.5:
        x, y = rng.randint(0, width - 1), rng.randint(0, length - 1)
        layer["crop"] = [x, y, rng.randint(1, width - x), rng.randint(1, length - y)]
    if rng.random() < 0.5 and (width, length) in MASKS:
        layer["mask"] = MASKS[width, length]
    return {key: value for key, value in layer.items() if key in ("kind", "file") or rng.random() < 0.9}


def curve_by_chance(rng):
    inner = sorted({rng.randint(1, 254) for _ in range(rng.randint(0, 4))})
    return [[x, rng.choice((x, rng.randint(0, 255)))] for x in [0, *inner, 255]]


def by_chance(seed, most_sections=2, most_zones=2, most_sites=4):
    """A random small edition."""
    rng = random.Random(seed)
    number = rng.choice((1, 2, 2))
    letters = "CMYKS"[:3 + number]
    width, height = rng.randint(1, 60), rng.randint(1, 24)
    margins, gutter = [rng.choice((0, rng.randint(0, 19))) for _ in range(4)], rng.choice((0, rng.randint(0, 9)))
    across, down = margins[0] + 2 * width + gutter + margins[2], margins[1] + height + margins[3]
    tiles = []
    for tile in range(rng.randint(0, 3)):
        sides = rng.randint(1, 9), rng.randint(1, 9)
        tiles.append({"name": f"t_{tile}", "width": sides[0], "height": sides[1],
                      "at": [rng.randint(0, 255) for _ in range(sides[0] * sides[1])]})
    screens = ["bayer2", "bayer4", "bayer8", "bayer16", "diffuse", *(f"tile:{tile['name']}" for tile in tiles)]
    marks = []
    for _ in range(rng.randint(0, 3)):
        x, y = rng.randint(0, across - 1), rng.randint(0, down - 1)
        inks = "".join(ink for ink in letters if rng.random() < 0.5) or "K"
        marks.append({"inks": inks, "x": x, "y": y, "w": rng.randint(1, across - x), "h": rng.randint(1, down - y)})
    names = [f"p{page}" for page in range(rng.randint(2, 5))]
    sections = [{"name": f"S{section}", "pages": [rng.choice(names) for _ in range(rng.choice((2, 4, 6)))]}
                for section in range(rng.randint(1, most_sections))]
    places = [(section["name"], page + 1) for section in sections for page in range(len(section["pages"]))]
    zones = [{"name": f"Z{zone}", "replace": [
        {"section": section, "page": page, "with": rng.choice(names)}
        for section, page in places if rng.random() < 0.3]} for zone in range(rng.randint(0, most_zones))]
    return {
        "plan": number, "edition": f"E{seed}", "dpi": rng.randint(1, 10000), "page": [width, height],
        "margins": margins, "gutter": gutter, "limit": rng.choice((0, 200, 400, 612, 1020, rng.randint(0, 1020))),
        "tiles": tiles, "screens": {ink: rng.choice(screens) for ink in letters if rng.random() < 0.8},
        "curves": {ink: curve_by_chance(rng) for ink in letters if rng.random() < 0.5}, "marks": marks,
        "pages": [{"name": name, "inks": rng.choice(("K", "CMYK", "KS", "CMYKS")[:2 * number]), "layers": [
            layer_by_chance(rng, len(letters)) for _ in range(rng.randint(0, 4))]} for name in names],
        "sections": sections, "zones": zones,
        "sites": [dict(name=f"O{site}", **({"zone": rng.choice(zones)["name"]} if zones and site else {}))
                  for site in range(rng.randint(1, most_sites))],
    }


def write_plan(path, plan):
    with open(path, "w", encoding="utf-8") as file:
        json.dump(plan, file)
