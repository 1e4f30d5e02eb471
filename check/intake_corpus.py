"""Tests pages made by several PDF writers: their plates look like poppler's rendering of the page.

Each page has black text and fields of solid colour. The plates and the output of pdftoppm are compared ink
by ink in squares of a millimetre. The sum of the differences is at most a fixed part of the larger amount of
ink. A page without its text, or without its fields, exceeds these bounds. For writers of CMYK, poppler
renders the inks. For writers of RGB it renders RGB, which is converted to inks here by the house's rules.
"""
import os
import subprocess

from intake_pages import HOUSE, PROFILE, Pages, intake, missing_program, plates_of

# The largest part of an ink that may differ.
BOUNDS = {"K": 0.15, "C": 0.06, "M": 0.06, "Y": 0.06}
# Inks that cover less than this part of the page in both aren't compared.
LEAST = 0.002
CELL = 12
WORDS = "The council voted late/on Tuesday to close/the harbour road for/three weeks while the/sea wall is mended."
WORDS = WORDS.split("/")
FIELDS = (("#00ffff", 10), ("#ff00ff", 22), ("#ffff00", 34), ("#000000", 46))

SVG = (
    '<svg xmlns="http://www.w3.org/2000/svg" width="60.96mm" height="81.28mm" viewBox="0 0 60.96 81.28">'
    + "".join(
        f'<text x="6" y="{12 + 6 * number}" font-size="4" font-family="DejaVu Sans">{words}</text>'
        for number, words in enumerate(WORDS)
    )
    + "".join(f'<rect x="{x}" y="50" width="10" height="14" fill="{colour}"/>' for colour, x in FIELDS)
    + "</svg>"
)
HTML = (
    "<!DOCTYPE html><style>@page { size: 60.96mm 81.28mm; margin: 0 } body { margin: 0 }</style>"
    + SVG.replace("81.28", "79")
)
TEX = r"""\pdfpagewidth=60.96mm \pdfpageheight=81.28mm \hoffset=-1in \voffset=-1in
\hsize=60mm \vsize=81mm \parindent=6mm \nopagenumbers
\topskip=12mm \font\f=cmr10 scaled 1400 \f \baselineskip=6mm
%s
\vskip 8mm \moveright 10mm\hbox{%s}
\bye
"""

def by_ghostscript(pages, name):
    body = "0 0 0 1 setcmykcolor /Helvetica findfont 12 scalefont setfont\n"
    body += "".join(f"17 {190 - 17 * n} moveto ({words}) show\n" for n, words in enumerate(WORDS))
    inks = ("1 0 0 0", "0 1 0 0", "0 0 1 0", "0 0 0 1")
    for (_, x), ink in zip(FIELDS, inks):
        body += f"{ink} setcmykcolor {x * 72 / 25.4:.2f} 45 28 40 rectfill\n"
    pages.write(name, body, trim=False)


def by_cairo(pages, name):
    import cairo

    point = 72 / 25.4
    surface = cairo.PDFSurface(pages.path(name), 60.96 * point, 81.28 * point)
    context = cairo.Context(surface)
    context.scale(point, point)
    context.set_font_size(4)
    for number, words in enumerate(WORDS):
        context.move_to(6, 12 + 6 * number)
        context.show_text(words)
    for colour, x in FIELDS:
        context.set_source_rgb(*(int(colour[i : i + 2], 16) / 255 for i in (1, 3, 5)))
        context.rectangle(x, 50, 10, 14)
        context.fill()
    # Something transparent, so that the page's RGB group matters.
    context.set_source_rgba(0, 0, 0, 0.5)
    context.rectangle(10, 66, 46, 6)
    context.fill()
    surface.finish()


def by_inkscape(pages, name):
    path = pages.path(name, "svg")
    write(path, SVG)
    run(["inkscape", path, "--export-type=pdf", f"--export-filename={pages.path(name)}"], pages)
    os.remove(path)


def by_chromium(pages, name):
    path = pages.path(name, "html")
    write(path, HTML)
    words = ["chromium", "--headless", "--no-sandbox", "--disable-gpu", "--no-pdf-header-footer"]
    words += ["--print-to-pdf-no-header", f"--user-data-dir={pages.work}-chromium"]
    run([*words, f"--print-to-pdf={pages.path(name)}", f"file://{path}"], pages)
    os.remove(path)


def by_pdftex(pages, name):
    rules = ("1 0 0 0", "0 1 0 0", "0 0 1 0", "0 0 0 1")
    boxes = "".join(rf"\pdfliteral{{q {ink} k 0 0 28 40 re f Q}}\hskip 12mm" for ink in rules)
    lines = "\n".join(rf"\line{{\hskip 6mm {words}\hfil}}" for words in WORDS)
    write(pages.path(name, "tex"), TEX % (lines, boxes))
    run(["pdftex", "-interaction=batchmode", f"{name}.tex"], pages)
    for ending in ("tex", "log"):
        os.remove(pages.path(name, ending))


def by_libreoffice(pages, name):
    write(pages.path(name, "svg"), SVG)
    profile = f"-env:UserInstallation=file://{pages.work}-office"
    run(["soffice", profile, "--headless", "--convert-to", "pdf", f"{name}.svg"], pages)
    os.remove(pages.path(name, "svg"))


WRITERS = {
    "gs": (by_ghostscript, True),
    "cairo": (by_cairo, False),
    "inkscape": (by_inkscape, False),
    "chromium": (by_chromium, False),
    "pdftex": (by_pdftex, True),
    "soffice": (by_libreoffice, False),
}


def write(path, text):
    with open(path, "w", encoding="utf-8") as file:
        file.write(text)


def run(words, pages):
    subprocess.run(words, cwd=pages.folder, check=True, capture_output=True, timeout=180)


def lacks(name):
    """Returns whether a writer isn't installed."""
    if name == "cairo":
        try:
            import cairo

            return not cairo.version
        except ImportError:
            return True
    return missing_program(name) is not None


def cells(samples):
    """Returns the mean of each square."""
    height, width = (side // CELL * CELL for side in samples.shape)
    part = samples[:height, :width].astype(float)
    return part.reshape(height // CELL, CELL, width // CELL, CELL).mean(axis=(1, 3))


def drawn(pages, name, is_cmyk):
    """Returns poppler's rendering of a page: the ink of each square, 0 to 1. Pages are aligned at the lower left
    corner.
    """
    import numpy as np
    from PIL import Image

    stem, ending = pages.work + "-drawn", "jpg" if is_cmyk else "png"
    words = ["pdftoppm", "-r", "300", "-aa", "no", "-aaVector", "no", "-singlefile"]
    words += ["-jpegcmyk" if is_cmyk else "-png", pages.path(name), stem]
    subprocess.run(words, check=True)
    with Image.open(f"{stem}.{ending}") as image:
        samples = np.asarray(image) if is_cmyk else inked(image.convert("RGB"))
    part, padded = samples[-HOUSE.height :, : HOUSE.width], np.zeros((HOUSE.height, HOUSE.width, 4))
    padded[-part.shape[0] :, : part.shape[1]] = part / 255
    return {ink: cells(padded[:, :, number]) for number, ink in enumerate("CMYK")}


def inked(image):
    """Converts an RGB picture to the four inks by the house's profile, and neutral colours to black ink of the
    same lightness.
    """
    import numpy as np
    from PIL import Image, ImageCms

    rgb, lab = ImageCms.createProfile("sRGB"), ImageCms.createProfile("LAB")
    black = ImageCms.FLAGS["BLACKPOINTCOMPENSATION"]
    to_inks = ImageCms.buildTransform(rgb, PROFILE, "RGB", "CMYK", renderingIntent=1, flags=black)
    to_lab = ImageCms.buildTransform(PROFILE, lab, "CMYK", "LAB", renderingIntent=1)
    inks = np.asarray(ImageCms.applyTransform(image, to_inks)).copy()
    ramp = np.array([[[0, 0, 0, value] for value in range(256)]], dtype=np.uint8)
    light = np.asarray(ImageCms.applyTransform(Image.frombytes("CMYK", (256, 1), ramp.tobytes()), to_lab))
    light = light[0, :, 0].astype(float)
    samples = np.asarray(image)
    neutral = (samples == samples[:, :, :1]).all(axis=2)
    from_rgb = ImageCms.buildTransform(rgb, lab, "RGB", "LAB")
    wanted = np.asarray(ImageCms.applyTransform(image, from_rgb))[:, :, 0]
    wanted = light[255] + wanted[neutral] / 255 * (light[0] - light[255])
    inks[neutral] = 0
    inks[neutral, 3] = np.interp(wanted, light[::-1], np.arange(256)[::-1])
    return inks


def printed(plates):
    """Returns what the plates of the first page print: the ink of each square, 0 to 1."""
    import numpy as np

    found = {}
    for ink in "CMYK":
        plate, bits = plates(ink), np.zeros((HOUSE.height, HOUSE.width))
        if hasattr(plate, "strip"):
            size = (plate.width + 7) // 8
            for y in range(HOUSE.height):
                row = plate.strip((HOUSE.top + y) // plate.each)[(HOUSE.top + y) % plate.each * size :][:size]
                bits[y] = np.unpackbits(np.frombuffer(row, np.uint8))[HOUSE.right : HOUSE.right + HOUSE.width]
        found[ink] = cells(bits)
    return found


def off(one, other):
    """Returns the difference as a part of the larger amount of ink; 0 if both have next to none."""
    most = max(one.mean(), other.mean())
    return abs(one - other).mean() / most if most >= LEAST else 0.0


def see_corpus(results, program, folder):
    """Tests the page of each writer that is installed."""
    for name, (maker, is_cmyk) in WRITERS.items():
        if lacks(name):
            print(f"skipped: {name} isn't installed")
            continue
        pages = Pages(folder, f"corpus-{name}")
        try:
            maker(pages, "A1")
        except (OSError, subprocess.SubprocessError) as error:
            results.see(False, f"{name} makes no page: {error}")
            continue
        pages.write("A2", "")
        found, status = intake(pages, pages.house(colour="convert"))
        results.see(status == 0, f"{name}: {found}")
        if status:
            continue
        wanted, got = drawn(pages, "A1", is_cmyk), printed(plates_of(results, program, pages))
        said = []
        for ink, bound in BOUNDS.items():
            part = off(wanted[ink], got[ink])
            said.append(f"{ink} {100 * part:.1f}")
            results.see(part <= bound, f"{name}: {ink} differs by {100 * part:.1f} percent of the ink")
        # A page without its text, in the upper half, or without its fields, in the lower, must exceed a bound.
        half = got["K"].shape[0] * 5 // 9
        for part, ink in ((slice(0, half), "K"), (slice(half, None), "C")):
            erased = got[ink].copy()
            erased[part] = 0
            results.see(off(wanted[ink], erased) > BOUNDS[ink], f"{name}: the bound of {ink} is too wide")
        notes = sorted({item["kind"] for item in found if item["event"] == "note"})
        print(f"{name}: percent of ink that differs: {', '.join(said)}; notes: {', '.join(notes) or 'none'}")
