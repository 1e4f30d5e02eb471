"""The images and the plan of the large pair; used by the other programs here."""
import struct

WIDTH, LENGTH, SCALE = 4000, 6000, 4
# The width and length of the images at each scale.
SIZES = {SCALE: (WIDTH, LENGTH), 1: (2 * WIDTH, 2 * LENGTH)}


def make(path, phase, width=WIDTH, length=LENGTH):
    """Writes a CMYK file of one strip with a running pattern."""
    def entry(tag, kind, count, value):
        return struct.pack("<HHII", tag, kind, count, value)

    head = struct.pack("<2sHIH", b"II", 42, 8, 9)
    head += entry(256, 4, 1, width) + entry(257, 4, 1, length) + entry(258, 3, 4, 122)
    head += entry(259, 3, 1, 1) + entry(262, 3, 1, 5) + entry(273, 4, 1, 130)
    head += entry(277, 3, 1, 4) + entry(278, 4, 1, length) + entry(279, 4, 1, 4 * width * length)
    head += struct.pack("<I4H", 0, 8, 8, 8, 8)
    pattern = bytes((x * x // 977 + x * phase + (x >> 4)) % 256 for x in range(8 * width))
    with open(path, "wb") as file:
        file.write(head)
        for y in range(length):
            at = 977 * y % (4 * width)
            file.write(pattern[at:at + 4 * width])


def plan(screen, scale=SCALE):
    width, length = SIZES[scale]
    pages = [
        {"name": name, "inks": "CMYK", "layers": [{"kind": "contone", "file": f"{name}.tif", "scale": scale}]}
        for name in ("right", "left")
    ]
    return {
        "plan": 1, "edition": "E1", "dpi": 1200, "page": [scale * width, scale * length],
        "screens": {ink: screen for ink in "CMYK"}, "pages": pages,
        "sections": [{"name": "A", "pages": ["right", "left"]}], "sites": [{"name": "OSLO"}],
    }
