"""Tests ink of known kinds one level deeper: in a form within a form, in a tiling pattern, and in a glyph of a Type 3 font."""
from __future__ import annotations

from collections.abc import Callable

from intake_cells import MILLIMETRE, Ink, Sheet, form, image, place, see_sheets
from intake_ink import (
    BLACK, CLIP, FILL, GREY, GROUND, HALF, OVER, TINT, TINTED, axial, coded, image_of, masked,
)  # fmt: skip
from intake_refused import four_inks
from trial import Count as Results

RESOLUTIONS = 127, 254
PICTURE = "q 20 0 0 20 0 0 cm /{} Do Q"
TRANSFORM = "<< /FunctionType 2 /Domain [0 1] /C0 [0 0 0 0] /C1 [{}] /N {} >>"
Objects = dict[str, "str | tuple[str, bytes]"]


def objects() -> tuple[Objects, str]:
    """Returns what the contents name: their objects, and their resources."""
    half = ".5 .5 .5"
    found, states = masked(rgb=f"{half} rg {FILL}", grey=f".5 g {FILL}", shade=("/S sh", shade(half)))
    found |= {
        "group": form(FILL, "/Group << /S /Transparency /CS /DeviceGray >>"),
        "stencil": ("/Type /XObject /Subtype /Image /Width 8 /Height 1 /ImageMask true /BitsPerComponent 1", b"\0"),
        "off": "<< /Type /OCG /Name (off) >>",
        "hidden": form(f"0 1 0 0 k {FILL}", "/OC {off}"),
        "calculator": ("/FunctionType 4 /Domain [0 20 0 20] /Range [0 1 0 1 0 1 0 1]", b"{pop pop .4 0 0 0}"),
        "alpha": image_of(
            coded("JPEG2000", b"\0\0\0\x80" * 64 * 64, "RGBA", 64), "/JPXDecode", "", keys="/SMaskInData 1"
        ),
        "cal": image(b"\x80" * 16, "[/CalGray << /WhitePoint [.95 1 1.09] /Gamma 2.2 >>]"),
    }  # fmt: skip
    area = "<< /ShadingType 1 /ColorSpace /DeviceCMYK /Domain [0 20 0 20] /Function {calculator} >>"
    spaces = "/I [/CalGray << /WhitePoint [.95 1 1.09] /Gamma 2.2 >>] "
    spaces += f"/W [/Separation /WINE /DeviceCMYK {TRANSFORM.format('0 1 .8 0', 3)}] "
    spaces += f"/A [/Separation /All /DeviceCMYK {TRANSFORM.format('1 1 1 1', 1)}]"
    names = "/G {group} /T {stencil} /H {hidden} /X {alpha} /C {cal}"
    grey = axial("/DeviceRGB", ".50196 .50196 .50196", ".50196 .50196 .50196")
    resources = f"{states} /XObject << {names} >> /ColorSpace << {spaces} >> /Properties << /o {{off}} >> "
    return found, resources + f"/Shading << /F {area} /N {grey} >>"


def shade(colour: str) -> str:
    return f"/Shading << /S {axial('/DeviceRGB', colour, colour)} >>"


def contents() -> dict[str, tuple[str, Ink]]:
    """Returns the contents of cells by their kinds, with their ink."""
    four = tuple(ink / 2 for ink in four_inks())
    return {
        "RGB in a mask": (f"/rgb gs .8 0 0 0 k {FILL}", HALF),
        "grey in a mask": (f"/grey gs .8 0 0 0 k {FILL}", HALF),
        "an RGB shading in a mask": (f"/shade gs .8 0 0 0 k {FILL}", HALF),
        "a group that names a space": (f"{TINT} k /G Do", TINTED),
        "grey with a gamma": (f"/I cs .5 sc {FILL}", (0, 0, 0, 50)),
        "a grey picture with a gamma": (PICTURE.format("C"), (0, 0, 0, 50)),
        "a stencil in RGB": ("0 0 0 rg " + PICTURE.format("T"), BLACK),
        "a neutral gradient": (f"{CLIP} /N sh", GREY),
        "a form that is off": (f"{GROUND} /H Do", OVER),
        "content that is off": (f"{GROUND} /OC /o BDC 0 1 0 0 k {FILL} EMC", OVER),
        "a shading by a function": (f"{CLIP} /F sh", HALF),
        "alpha within JPEG 2000": (PICTURE.format("X"), four),
        "a transform that isn't linear": (f"/W cs .5 scn {FILL}", (0, 12.5, 10, 0)),
    }


def in_forms(number: int, content: str, made: Objects, resources: str) -> tuple[str, str, str]:
    """Returns what a cell of the page paints, and its entries of XObject, Pattern and Font."""
    made[f"inner{number}"] = form(content, "", resources)
    made[f"outer{number}"] = form("/I Do", "", f"/XObject << /I {{inner{number}}} >>")
    return f"/O{number} Do", f"/XObject /O{number} {{outer{number}}}", ""


def in_pattern(number: int, content: str, made: Objects, resources: str) -> tuple[str, str, str]:
    x, y = (side * MILLIMETRE for side in place(number))
    matrix = f"/Matrix [{MILLIMETRE:.6f} 0 0 {MILLIMETRE:.6f} {x:.4f} {y:.4f}]"
    head = "/PatternType 1 /PaintType 1 /TilingType 1 /BBox [0 0 20 20] /XStep 20 /YStep 20"
    made[f"tile{number}"] = f"{head} {matrix} /Resources << {resources} >>", content.encode()
    return f"/Pattern cs /P{number} scn {FILL}", f"/Pattern /P{number} {{tile{number}}}", ""


def in_glyph(number: int, content: str, made: Objects, resources: str) -> tuple[str, str, str]:
    head = "/Type /Font /Subtype /Type3 /FontBBox [0 0 20 20] /FontMatrix [1 0 0 1 0 0] /FirstChar 65 /LastChar 65"
    made[f"glyph{number}"] = "", b"20 0 d0 " + content.encode()
    made[f"font{number}"] = (
        f"<< {head} /Widths [20] /Encoding << /Differences [65 /A] >> "
        f"/CharProcs << /A {{glyph{number}}} >> /Resources << {resources} >> >>"
    )
    return f"BT /T{number} 1 Tf (A) Tj ET", f"/Font /T{number} {{font{number}}}", ""


def nested(how: Callable[..., tuple[str, str, str]]) -> Sheet:
    """Returns a page whose cells paint each content at one more level."""
    made, resources = objects()
    cells, names, kind = {}, "", ""
    for number, (name, (content, ink)) in enumerate(contents().items()):
        painted, entry, _ = how(number, content, made, resources)
        kind, _, one = entry.partition(" ")
        cells[name], names = (painted, ink), f"{names} {one}"
    root = "/OCProperties << /OCGs [{off}] /D << /OFF [{off}] >> >>"
    return Sheet(cells, made, f"{kind} << {names} >>", root=root, notes=("rgb", "spot"))


def see_nested(results: Results, folder: str) -> None:
    """Tests all contents in forms, patterns and glyphs."""
    ways = {"in forms": in_forms, "in a pattern": in_pattern, "in a glyph": in_glyph}
    see_sheets(results, folder, "nested", {name: nested(how) for name, how in ways.items()}, RESOLUTIONS)


def main() -> int:
    import tempfile

    results = Results()
    with tempfile.TemporaryDirectory(prefix="plateroom-nested-") as folder:
        see_nested(results, folder)
    return results.end()


if __name__ == "__main__":
    raise SystemExit(main())
