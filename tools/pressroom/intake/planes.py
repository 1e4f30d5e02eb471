"""Reads the planes of a page that Ghostscript's device psdcmyk writes: the four inks and each spot, 255 where
bare.

A PSD file (Adobe Photoshop File Formats) has a header of 26 bytes, colour data, resources, layers and the
planes. All numbers are big-endian. The file contains the spots' names, so none becomes a file name.
"""
import os
import struct

from pressroom.intake.pdf import Refused
from pressroom.intake.separations import Spot
from pressroom.tiff.strips import STRIP

HEAD, RESOURCE = ">4sH6xHIIHH", b"8BIM"
# Resources: the names of the planes after the first four, and their colours.
NAMES, COLOURS = 1006, 1007
# The most spots of a page. Each is a plane of the page's size.
MOST_SPOTS = 12


class Planes:
    """A PSD file of a page. Samples are read as ink: 0 is bare, 255 is full."""

    def __init__(self, path, size):
        self.path, self.spots = path, []
        with open(path, "rb") as file:
            sign, version, self.count, self.height, self.width, depth, _ = struct.unpack(HEAD, file.read(26))
            if (sign, version, depth, self.width, self.height) != (b"8BPS", 1, 8, *size) or self.count < 4:
                raise Refused("damaged", "can't be rendered: its planes have an unexpected format")
            if self.count - 4 > MOST_SPOTS:
                raise Refused("spot", f"it has {self.count - 4} spots; the limit is {MOST_SPOTS}")
            self.block(file)
            self.read_spots(self.block(file))
            self.block(file)
            self.start = file.tell() + 2
        if os.path.getsize(path) < self.start + self.count * self.width * self.height:
            raise Refused("damaged", "can't be rendered: its planes are cut off")

    @staticmethod
    def block(file):
        """Reads the length of a block and returns its bytes."""
        return file.read(struct.unpack(">I", file.read(4))[0])

    def read_spots(self, data):
        """Reads the spots from the resources."""
        at, found = 0, {}
        while data.startswith(RESOURCE, at):
            number, length = struct.unpack_from(">HB", data, at + 4)
            at += 6 + (length + 2) // 2 * 2
            size = struct.unpack_from(">I", data, at)[0]
            found[number] = data[at + 4 : at + 4 + size]
            at += 4 + size + size % 2
        names, at = [], 0
        text = found.get(NAMES, b"")
        while at < len(text) and len(names) < self.count - 4:
            names.append(text[at + 1 : at + 1 + text[at]])
            at += 1 + text[at]
        colours = found.get(COLOURS, b"")
        if len(names) != self.count - 4 or len(colours) < 14 * len(names):
            raise Refused("spot", "can't be rendered: its spots have no names")
        for number, name in enumerate(names):
            inks = struct.unpack_from(">4H", colours, 14 * number + 2)
            self.spots.append(Spot(name, 4 + number, tuple(1 - ink / 65535 for ink in inks)))

    def mapped(self):
        """Returns all planes as an array, as they are in the file."""
        import numpy as np

        shape = self.count, self.height, self.width
        return np.memmap(self.path, dtype=np.uint8, mode="r", offset=self.start, shape=shape)

    def mixed(self, house):
        """Returns the four inks with all spots mixed in but the house's, as an array of rows, columns and inks."""
        import numpy as np

        stored = self.mapped()
        inks = []
        for ink in range(4):
            total = 255.0 - stored[ink]
            for spot in self.spots:
                if house and spot.is_named(house):
                    continue
                total += (255.0 - stored[spot.plane]) * spot.mixture[ink]
            inks.append(np.minimum(total, 255).astype(np.uint8))
        return np.stack(inks, axis=2)

    def strips(self):
        """Yields the strips of ink from the top with their numbers: arrays of planes, rows and columns that
        share the same memory.
        """
        import numpy as np

        memory, page = np.empty((self.count, STRIP, self.width), np.uint8), self.width * self.height
        with open(self.path, "rb", buffering=0) as file:
            for number, top in enumerate(range(0, self.height, STRIP)):
                strip = memory[:, : min(STRIP, self.height - top)]
                for plane, rows in enumerate(strip):
                    place = self.start + plane * page + top * self.width
                    if os.preadv(file.fileno(), [rows], place) != rows.size:
                        raise Refused("damaged", "can't be rendered: its planes are cut off")
                    np.invert(rows, out=rows)
                yield number, strip
