"""Tests which wrong pages the second opinion finds while nothing else corrects them.

Each row is a kind of PDF that Ghostscript 10.00, or a mixing that is linear, prints wrong. Its page is rendered from the
PDF that came, without the edits of pressroom.reading and with links that print neutral RGB in black alone, or from a
PDF with the ink that such a mixing prints, and compared with what mutool shows of the PDF that came.
"""
from __future__ import annotations

import os
import subprocess
import sys
from dataclasses import dataclass

from intake_cells import SIZE, Sheet, coded, form, mask
from intake_ink import FILL, GROUND, axial, image_of
from intake_pages import PROFILE
from newspaper import TOP
from trial import Count as Results

sys.path.insert(0, os.path.join(TOP, "tools"))
from pressroom.base.limits import Limits
from pressroom.intake import ghostscript, profiles
from pressroom.intake.ghostscript import Ghostscript
from pressroom.intake.opinion import Opinion, Page
from pressroom.intake.pdf import inspect

DPI = 127
PICTURE = "q 20 0 0 20 0 0 cm /I Do Q"
SPOT = "[/Separation /{} /DeviceCMYK << /FunctionType 2 /Domain [0 1] /C0 [0 0 0 0] /C1 [{}] /N {} >>]"
# How many rows must be found.
LEAST = 12


@dataclass(frozen=True)
class Row:
    """A page as it came, the page with the ink that is printed, None for the same PDF, whether RGB shows, and
    whether it is found.
    """

    came: Sheet
    printed: Sheet | None = None
    rgb: bool = False
    found: bool = True


def cell(content: str, resources: str = "", **how: object) -> Sheet:
    """Returns a page of one cell with this content."""
    return Sheet({"cell": (content, ())}, resources=resources, **how)  # type: ignore[arg-type]


def masked(content: str) -> Sheet:
    """Returns a page with cyan below a luminosity mask of this content."""
    group = form(content, "/Group << /S /Transparency /CS /DeviceGray >>")
    return cell(f"/M gs .8 0 0 0 k {FILL}", f"/ExtGState << /M {mask('group')} >>", objects={"group": group})


def pictured(picture: tuple[str, bytes], before: str = "") -> Sheet:
    return cell(before + PICTURE, "/XObject << /I {picture} >>", objects={"picture": picture})


def inherited() -> Sheet:
    inner = form(FILL, "/Group << /S /Transparency /CS /DeviceGray >>")
    return cell(".2 .4 .6 .1 k /F Do", "/XObject << /F {inner} >>", objects={"inner": inner})


def layered() -> Sheet:
    objects = {"off": "<< /Type /OCG /Name (off) >>", "hidden": form(f"0 1 0 0 k {FILL}", "/OC {off}")}
    root = "/OCProperties << /OCGs [{off}] /D << /OFF [{off}] >> >>"
    return cell(f"{GROUND} /F Do", "/XObject << /F {hidden} >>", objects=objects, root=root)


def off_for_print() -> Sheet:
    usage = "/Usage << /Print << /PrintState /OFF >> /View << /ViewState /ON >> >>"
    objects = {"group": f"<< /Type /OCG /Name (group) {usage} >>"}
    state = "/D << /AS [<< /Event /Print /Category [/Print] /OCGs [{group}] >>] >>"
    root = f"/OCProperties << /OCGs [{{group}}] {state} >>"
    content = f"{GROUND} /OC /g BDC 0 1 0 0 k {FILL} EMC"
    return cell(content, "/Properties << /g {group} >>", objects=objects, root=root)


def by_function() -> Sheet:
    calculator = "/FunctionType 4 /Domain [0 999 0 999] /Range [0 1 0 1 0 1 0 1]", b"{pop pop .8 .2 0 0}"
    shading = "<< /ShadingType 1 /ColorSpace /DeviceCMYK /Domain [0 999 0 999] /Function {calculator} >>"
    patterns = f"/Pattern << /P << /PatternType 2 /Shading {shading} >> >>"
    return cell(f"/Pattern cs /P scn {FILL}", patterns, objects={"calculator": calculator})


def spotted(name: str, tint: float, exponent: float = 1) -> Sheet:
    spaces = f"/ColorSpace << /S {SPOT.format(name, '0 1 .8 0', exponent)} >>"
    return cell(f"/S cs {tint} scn {FILL}", spaces)


def transferred() -> Sheet:
    objects = {"inverse": ("/FunctionType 4 /Domain [0 1] /Range [0 1]", b"{1 exch sub}")}
    return cell(f"/T gs 0 0 0 .2 k {FILL}", "/ExtGState << /T << /TR {inverse} >> >>", objects=objects)


def streaked() -> Sheet:
    """Returns a gradient that crosses neutral."""
    return cell("0 0 20 20 re W n /S sh", f"/Shading << /S {axial('/DeviceRGB', '.9 .5 .1', '.1 .5 .9')} >>")


def write_links(folder: str) -> None:
    """Writes the links by which neutral RGB is black ink alone, as a step on the diagonal of their table."""
    import numpy as np

    press = os.path.join(folder, "press.icc")
    table, neutral = profiles.converted(press), np.arange(profiles.SIDE)
    table[neutral, neutral, neutral] = [(0, 0, 0, black) for black in profiles.blacks(press)]
    profiles.write(os.path.join(folder, "art.icc"), profiles.link(table))


def rows() -> dict[str, Row]:
    """Returns all rows by the kind of their PDFs."""
    noise = bytes(37 * n * n % 251 for n in range(64 * 64 * 3))
    jpeg = coded("JPEG", noise, "RGB", 64, quality=90)
    alpha = coded("JPEG2000", b"\0\0\0\x40" * 64 * 64, "RGBA", 64)
    stencil = "/Type /XObject /Subtype /Image /Width 8 /Height 1 /ImageMask true /BitsPerComponent 1", b"\0"
    grey = "/ColorSpace << /I [/CalGray << /WhitePoint [.95 1 1.09] /Gamma 2.2 >>] >>"
    four = cell(f".5 .5 .5 .5 k {FILL}")
    return {
        "RGB in a luminosity mask": Row(masked(f".5 .5 .5 rg {FILL}")),
        "grey in a mask, the page without a group": Row(masked(f".5 g {FILL}")),
        "a form whose group names a space": Row(inherited()),
        "grey with a gamma": Row(cell(f"/I cs 0 sc {FILL}", grey)),
        "a stencil in RGB black": Row(pictured(stencil, "0 0 0 rg "), rgb=True, found=False),
        "a seam in an RGB gradient": Row(streaked(), rgb=True, found=False),
        "a transform that isn't linear": Row(spotted("WINE", 0.5, 3), spotted("WINE", 0.5)),
        "All with a mixed spot": Row(spotted("All", 0.5), cell(f".5 1 .9 .5 k {FILL}")),
        "a form that is off": Row(layered()),
        "a layer that is off for print": Row(off_for_print(), found=False),
        "a pattern that is left out": Row(by_function()),
        "a JPEG file without its end": Row(pictured(image_of(jpeg[: len(jpeg) // 3], "/DCTDecode", "/DeviceRGB")), rgb=True),
        "alpha within JPEG 2000": Row(pictured(image_of(alpha, "/JPXDecode", "", keys="/SMaskInData 1")), rgb=True),
        "All beside a spot that nothing uses": Row(spotted("All", 0.5), cell(f".5 .5 .5 1 k {FILL}")),
        "a transfer function": Row(transferred()),
        "nothing": Row(four, found=False),
    }  # fmt: skip


def notes_on(row: Row, folder: str) -> list[str]:
    """Returns the notes on a page that is printed as it came, or as a wrong mixing prints it."""
    os.makedirs(folder)
    profiles.write_profiles(folder, PROFILE)
    write_links(folder)
    row.came.write(os.path.join(folder, "page.pdf"))
    (row.printed or row.came).write(os.path.join(folder, "printed.pdf"))
    cell(f"0 0 0 1 k {FILL}").write(os.path.join(folder, "plain.pdf"))
    limits, size = Limits(), (round(SIZE * DPI / 25.4),) * 2
    _, plain = inspect(limits, "plain.pdf", folder)
    version = subprocess.run(["gs", "--version"], capture_output=True, text=True, check=True).stdout.strip()
    opinion = Opinion("note", os.path.join(folder, "press.icc"), lambda spot: spot == b"HOUSE", limits)
    rgb = (0.0, 0.0, SIZE, SIZE) if row.rgb else None
    page = Page(folder, "page.pdf", plain, rgb, False, DPI)
    asked = opinion.asked(page, size[1])
    Ghostscript(version, limits, "printed.pdf", plain.box, folder).separate(DPI, size, None, False, means=asked)
    return [text for _, text, _ in opinion.notes(page, asked)]


def see_rows(results: Results, folder: str) -> None:
    """Tests which rows are found, and prints their table."""
    refuses = ghostscript.was_repaired
    ghostscript.was_repaired = lambda out, note: False
    count, every = 0, rows()
    try:
        for number, (name, row) in enumerate(every.items()):
            notes = notes_on(row, os.path.join(folder, f"row-{number}"))
            count += bool(notes)
            print(f"second opinion: {name}: {notes[0] if notes else 'nothing'}")
            results.see(bool(notes) == row.found, f"the second opinion on {name}: {notes}")
    finally:
        ghostscript.was_repaired = refuses
    results.see(count >= LEAST, f"the second opinion finds {count} of {len(every) - 1} kinds")


def main() -> int:
    import tempfile

    results = Results()
    with tempfile.TemporaryDirectory(prefix="plateroom-rows-") as folder:
        see_rows(results, folder)
    return results.end()


if __name__ == "__main__":
    sys.exit(main())
