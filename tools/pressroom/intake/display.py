"""Renders a page into memory with Ghostscript's library, strip by strip, and writes the page's files.

intake runs this file as a separate process, under limits, in the page's folder. Its one argument is a JSON
object: `words`, the arguments of Ghostscript; `file`, those that name the file; `size` in pixels; `dpi`;
`house`, the name of the house's spot or null; `has_all`, whether the page has the separation All; `shrunk`, the
fields of an Asked or null; and `version`, the output of `gs --version`, which the library must match. The process
writes `seen.npy` and `answer.json`, and exits with 0 if everything was made.

It uses Ghostscript's device `display` with separations in planes (gdevdsp.h). The device asks for one
rectangle after another, and calls back when each is painted. Its bytes are ink: 0 is bare.
"""
import ctypes
import ctypes.util
import json
import os
import sys
from ctypes import CFUNCTYPE, POINTER, c_char_p, c_int, c_long, c_size_t, c_uint, c_ushort, c_void_p

# By default OpenBLAS starts a thread for each processor, and their memory counts against the limit.
os.environ["OPENBLAS_NUM_THREADS"] = "1"
sys.path.insert(0, os.path.dirname(os.path.dirname(os.path.dirname(os.path.abspath(__file__)))))
from pressroom.intake.separations import Separations, Spot
from pressroom.intake.shrunk import Asked
from pressroom.tiff.strips import STRIP

# DISPLAY_COLORS_SEPARATION, DISPLAY_DEPTH_8 and DISPLAY_PLANAR; all other bits are 0.
FORMAT = 1 << 19 | 1 << 11 | 1 << 23
# The most planes that the device paints, whether the page has spots or not.
PLANES = 8
VERSION = 3, 0
UTF8, QUIT = 1, -101
# The value of 1 among Ghostscript's fractions.
FRACTION = 32760

HANDLE = c_void_p, c_void_p
Call = CFUNCTYPE(c_int, *HANDLE)
Presize = CFUNCTYPE(c_int, *HANDLE, c_int, c_int, c_int, c_uint)
Size = CFUNCTYPE(c_int, *HANDLE, c_int, c_int, c_int, c_uint, c_void_p)
Page = CFUNCTYPE(c_int, *HANDLE, c_int, c_int)
Update = CFUNCTYPE(c_int, *HANDLE, c_int, c_int, c_int, c_int)
Allocate = CFUNCTYPE(c_void_p, *HANDLE, c_size_t)
Free = CFUNCTYPE(c_int, *HANDLE, c_void_p)
Separation = CFUNCTYPE(c_int, *HANDLE, c_int, c_char_p, *[c_ushort] * 4)
Band = CFUNCTYPE(c_int, *HANDLE, c_int)
Rectangle = CFUNCTYPE(c_int, *HANDLE, POINTER(c_void_p), *[POINTER(c_int)] * 8)


class Callback(ctypes.Structure):
    """Ghostscript's display_callback."""

    _fields_ = [
        ("size", c_int),
        ("major", c_int),
        ("minor", c_int),
        ("open", Call),
        ("preclose", Call),
        ("close", Call),
        ("presize", Presize),
        ("resized", Size),
        ("sync", Call),
        ("page", Page),
        ("update", Update),
        ("allocate", Allocate),
        ("free", Free),
        ("separation", Separation),
        ("band", Band),
        ("rectangle", Rectangle),
    ]


class Revision(ctypes.Structure):
    """Ghostscript's gsapi_revision_t."""

    _fields_ = [("product", c_char_p), ("copyright", c_char_p), ("revision", c_long), ("date", c_long)]


def is_version(library, text):
    """Returns whether the library has this version: 10.02.1 is the revision 10021."""
    found = Revision()
    library.gsapi_revision(ctypes.byref(found), ctypes.sizeof(found))
    major, minor, patch = (*map(int, text.split(".")), 0)[:3]
    return found.revision == major * 1000 + minor * 10 + patch


def mixture(inks):
    """Returns these inks as a PSD file has them, from 0 to 1: it rounds colours down once more."""
    fractions = [round(ink * FRACTION / 65535) for ink in inks]
    return tuple(1 - (65535 * (FRACTION - fraction) // FRACTION) / 65535 for fraction in fractions)


class Painter:
    """Receives a page from the device."""

    def __init__(self, folder, asked):
        self.folder, self.size, self.dpi = folder, tuple(asked["size"]), asked["dpi"]
        self.house, self.has_all = asked["house"], asked["has_all"]
        self.asked = Asked.read(asked["shrunk"]) if asked["shrunk"] else None
        self.names, self.made, self.memory, self.wrong = {}, None, None, None
        # Rows in a band, rows that are painted, and rows whose strips are written.
        self.rows, self.painted, self.taken = STRIP, 0, 0

    def callback(self):
        """Returns the device's table of callbacks."""

        def done(*_):
            return 0

        def no_memory(*_):
            return None

        calls = [Call(done), Call(done), Call(done), Presize(done), Size(done), Call(done), Page(done)]
        calls += [Update(), Allocate(no_memory), Free(done), Separation(self.separation), Band(self.band)]
        return Callback(ctypes.sizeof(Callback), *VERSION, *calls, Rectangle(self.rectangle))

    def separation(self, handle, device, number, name, *inks):
        self.names[number] = Spot(name, number, mixture(inks))
        return 0

    def band(self, handle, device, rows):
        """Stores the number of rows in a band. `psdcmyk` has the same bands; with others, curves differ by
        single pixels.
        """
        self.rows = max(1, rows)
        return 0

    def rectangle(self, handle, device, memory, left, top, raster, plane, *rectangle):
        """Receives the band that was painted, and asks for the next one."""
        try:
            if self.made is None:
                self.begin()
            else:
                self.take()
            rows = max(0, min(self.rows, self.memory.shape[1] - STRIP, self.size[1] - self.painted))
            # The memory begins with the band: 10.00 paints at its first row, whatever the corner is.
            memory[0] = self.memory.ctypes.data + (self.painted - self.taken) * self.size[0]
            left[0], top[0], raster[0], plane[0] = 0, self.painted, *self.memory.strides[1::-1]
            for place, value in zip(rectangle, (0, self.painted, self.size[0] if rows else 0, rows)):
                place[0] = value
            self.painted += rows
            return 0
        except Exception as error:  # Exceptions can't pass through Ghostscript.
            self.wrong = self.wrong or error
            rectangle[2][0] = rectangle[3][0] = 0
            return -1

    def begin(self):
        import numpy as np

        spots = [self.names[number] for number in sorted(self.names) if number >= 4]
        if len(spots) > 1:
            raise ValueError("the order of spots may differ from that of planes in a file")
        self.made = Separations(
            self.folder, self.size, self.dpi, spots, self.house, None, self.has_all, self.asked
        )
        self.memory = np.zeros((PLANES, STRIP + self.rows, self.size[0]), np.uint8)

    def take(self):
        """Writes the strips that are painted, and moves the rows after them to the front."""
        planes, first = self.memory[: 4 + len(self.made.spots)], self.taken
        least = 1 if self.painted == self.size[1] else STRIP
        while self.painted - self.taken >= least:
            rows = min(STRIP, self.painted - self.taken)
            at = self.taken - first
            self.made.add(self.taken // STRIP, planes[:, at : at + rows])
            self.taken += rows
        rest = self.painted - self.taken
        if rest and self.taken > first:
            planes[:, :rest] = planes[:, self.taken - first : self.taken - first + rest]


def rendered(words, version, painter):
    """Renders with Ghostscript. Returns 0 if that succeeds, otherwise 1."""
    library = ctypes.CDLL(ctypes.util.find_library("gs"))
    if not is_version(library, version):
        return 1
    instance, callback = c_void_p(), painter.callback()
    if library.gsapi_new_instance(ctypes.byref(instance), None) < 0:
        return 1
    library.gsapi_set_arg_encoding(instance, UTF8)
    library.gsapi_set_display_callback(instance, ctypes.byref(callback))
    words = [os.fsencode(word) for word in words]
    status = library.gsapi_init_with_args(instance, len(words), (c_char_p * len(words))(*words))
    last = library.gsapi_exit(instance)
    return 0 if status in (0, QUIT) and last in (0, QUIT) else 1


def main():
    import numpy as np

    asked = json.loads(sys.argv[1])
    painter, form = Painter(".", asked), f"-dDisplayFormat={FORMAT}"
    words = [*asked["words"], "-sDEVICE=display", form, *asked["file"]]
    status = rendered(words, asked["version"], painter)
    if painter.wrong:
        raise painter.wrong
    if status or painter.taken != asked["size"][1]:
        return 1
    answer = painter.made.end()
    np.save("seen.npy", painter.made.seen)
    with open("answer.json", "w", encoding="utf-8") as file:
        json.dump(answer, file)
    return 0


if __name__ == "__main__":
    sys.exit(main())
