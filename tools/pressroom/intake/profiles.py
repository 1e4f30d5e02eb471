"""Makes the ICC device link that converts RGB to the four inks, and the table of neutral colours.

Ghostscript's `-dBlackText` makes all text black, even coloured text, and a profile makes black from four
inks. So pressroom.reading gives neutral text and line art the black ink of the same lightness, from a table
that is made here. All other RGB text, line art and gradients are converted by a link that uses the house's
profile. A gradient that crosses neutral colours has no seam there.
"""
import ctypes
import ctypes.util
import os
import shutil
import struct

SIDE = 33
# lcms2.h: three and four samples of 16 bits, and cmsFLAGS_HIGHRESPRECALC.
TYPE_RGB_16, TYPE_CMYK_16, HIGH_RESOLUTION = 4 << 16 | 3 << 3 | 2, 6 << 16 | 4 << 3 | 2, 0x400
# Ghostscript's own CMYK profile, for a house that names none.
PLAIN = "/usr/share/color/icc/ghostscript/default_cmyk.icc"


def colours():
    """Returns the RGB colours of the link's table. Blue varies fastest."""
    import numpy as np

    steps = np.array([round(255 * i / (SIDE - 1)) for i in range(SIDE)], dtype=np.uint8)
    return np.stack(np.meshgrid(steps, steps, steps, indexing="ij"), -1).reshape(SIDE * SIDE, SIDE, 3)


def converted(profile):
    """Returns the four inks of all colours of the table, by a CMYK profile."""
    import numpy as np
    from PIL import Image, ImageCms

    change = ImageCms.buildTransform(
        ImageCms.createProfile("sRGB"), profile, "RGB", "CMYK", renderingIntent=1,
        flags=ImageCms.FLAGS["BLACKPOINTCOMPENSATION"],
    )  # fmt: skip
    inks = np.asarray(ImageCms.applyTransform(Image.fromarray(colours()), change))
    return inks.reshape(SIDE, SIDE, SIDE, 4).copy()


def blacks(profile):
    """Returns the black ink, 0 to 255, that alone has the lightness of each neutral step."""
    import numpy as np
    from PIL import Image, ImageCms

    lab = ImageCms.createProfile("LAB")
    ramp = np.zeros((1, 256, 4), dtype=np.uint8)
    ramp[0, :, 3] = np.arange(256)
    to_lab = ImageCms.buildTransform(profile, lab, "CMYK", "LAB", renderingIntent=1)
    inked = np.asarray(ImageCms.applyTransform(Image.frombytes("CMYK", (256, 1), ramp.tobytes()), to_lab))
    steps = np.array([[[round(255 * i / (SIDE - 1))] * 3 for i in range(SIDE)]], dtype=np.uint8)
    from_rgb = ImageCms.buildTransform(ImageCms.createProfile("sRGB"), lab, "RGB", "LAB", renderingIntent=1)
    wanted = np.asarray(ImageCms.applyTransform(Image.fromarray(steps), from_rgb))[0, :, 0].astype(float)
    light = inked[0, :, 0].astype(float)
    # Black ink alone is lighter than RGB black, so the range of lightness is scaled to the ink's.
    stretched = light[255] + (wanted - wanted[0]) / (wanted[-1] - wanted[0]) * (light[0] - light[255])
    return [int(np.argmin(abs(light - value))) for value in stretched]


def link(table):
    """Returns the bytes of a device link from RGB to CMYK with these inks, SIDE steps for each colour."""
    lut = b"mft2" + bytes(4) + bytes([3, 4, SIDE, 0])
    lut += struct.pack(">9i", 65536, 0, 0, 0, 65536, 0, 0, 0, 65536) + struct.pack(">2H", 2, 2)
    lut += struct.pack(">6H", *[0, 65535] * 3) + (table.astype(">u2") * 257).astype(">u2").tobytes()
    lut += struct.pack(">8H", *[0, 65535] * 4)
    name = b"pressroom\0"
    described = b"desc" + bytes(4) + struct.pack(">I", len(name)) + name + bytes(78)
    tags = {
        b"desc": described,
        b"cprt": b"text" + bytes(4) + b"none\0",
        b"pseq": b"pseq" + bytes(8),
        b"A2B0": lut,
    }
    place, directory, body = 132 + 12 * len(tags), struct.pack(">I", len(tags)), b""
    for sign, data in tags.items():
        data += bytes(-len(data) % 4)
        directory += sign + struct.pack(">2I", place + len(body), len(data))
        body += data
    head = struct.pack(">I4sI", 132 + 12 * len(tags) + len(body), b"lcms", 0x02400000)
    head += b"link" + b"RGB " + b"CMYK" + struct.pack(">6H", 2026, 1, 1, 0, 0, 0) + b"acsp"
    head = head.ljust(68, b"\0") + struct.pack(">3I", 0xF6D6, 0x10000, 0xD32D)
    return head.ljust(128, b"\0") + directory + body


def neutral_inks(table, steps=65536):
    """Returns the black ink, a byte for each of the neutral colours from black to white, that Ghostscript makes of
    them by a link with this table: lcms interpolates with 16 bits and a precise grid, and the high byte prints.
    """
    import numpy as np

    lcms = ctypes.CDLL(ctypes.util.find_library("lcms2"))
    lcms.cmsOpenProfileFromMem.restype = lcms.cmsCreateTransform.restype = ctypes.c_void_p
    data = link(table)
    profile = ctypes.c_void_p(lcms.cmsOpenProfileFromMem(data, ctypes.c_uint32(len(data))))
    numbers = map(ctypes.c_uint32, (TYPE_RGB_16, TYPE_CMYK_16, 1, HIGH_RESOLUTION))
    source, target, intent, flags = numbers
    change = ctypes.c_void_p(lcms.cmsCreateTransform(profile, source, None, target, intent, flags))
    if not change:
        raise OSError(None, "lcms can't use the link of neutral colours", "liblcms2")
    given = np.repeat(np.arange(steps, dtype=np.uint16)[:, None], 3, axis=1)
    made = np.zeros((steps, 4), np.uint16)
    lcms.cmsDoTransform(
        change, ctypes.c_void_p(given.ctypes.data), ctypes.c_void_p(made.ctypes.data), ctypes.c_uint32(steps)
    )
    lcms.cmsDeleteTransform(change)
    lcms.cmsCloseProfile(profile)
    return (made[:, 3] >> 8).astype(np.uint8).tobytes()


def write(path, data):
    with open(path, "wb") as file:
        file.write(data)


def write_profiles(folder, profile):
    """Writes what Ghostscript reads: `press.icc`; `colour.txt`, which pages are made with; and `marked.txt`. Also
    writes `neutral.bin`, the black ink of neutral colours.

    Rendered with `marked.txt` instead of `colour.txt`, a page differs wherever RGB shows, except in white. CMYK
    keeps its numbers.
    """
    import numpy as np

    press = os.path.join(folder, "press.icc")
    shutil.copyfile(profile or PLAIN, press)
    table = converted(press)
    neutral = np.arange(SIDE)
    grey = table.copy()
    grey[neutral, neutral, neutral] = [(0, 0, 0, black) for black in blacks(press)]
    grey[-1, -1, -1] = table[-1, -1, -1] = 0
    marked = 255 - table
    marked[-1, -1, -1] = 0
    write(os.path.join(folder, "neutral.bin"), neutral_inks(grey))
    for name, data in (("art", table), ("marked", marked)):
        write(os.path.join(folder, f"{name}.icc"), link(data))
    for name, first in (("colour", "art"), ("marked", "marked")):
        rows = [f"{kind}_RGB\t{first}.icc\t1\t1\t1" for kind in ("Text", "Graphic")]
        rows += ["Image_RGB\tmarked.icc\t1\t1\t1"] if first == "marked" else []
        # Rows for CMYK would turn off overprint mode 1, with which black overprints on nearly every page.
        write(os.path.join(folder, f"{name}.txt"), ("\n".join(rows) + "\n").encode())
