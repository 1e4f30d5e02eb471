"""The image of `plateroom one` for pages.py: CMYK, uncompressed, one strip of noise."""
import random
import struct

WIDTH, LENGTH = 12000, 9000


def make(path):
    """Writes the image."""
    def entry(tag, kind, count, value):
        return struct.pack("<HHII", tag, kind, count, value)

    strip = 4 * WIDTH * LENGTH
    head = struct.pack("<2sHIH", b"II", 42, 8, 9)
    head += entry(256, 4, 1, WIDTH) + entry(257, 4, 1, LENGTH) + entry(258, 3, 4, 122)
    head += entry(259, 3, 1, 1) + entry(262, 3, 1, 5) + entry(273, 4, 1, 130)
    head += entry(277, 3, 1, 4) + entry(278, 4, 1, LENGTH) + entry(279, 4, 1, strip)
    head += struct.pack("<I4H", 0, 8, 8, 8, 8)
    noise = random.Random(7).randbytes(8 * WIDTH)
    with open(path, "wb") as file:
        file.write(head)
        for y in range(LENGTH):
            at = 977 * y % (4 * WIDTH)
            file.write(noise[at : at + 4 * WIDTH])
