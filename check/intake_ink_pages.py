"""The pages of check/intake_inks.py: squares of 10 mm whose inks follow from their colour spaces by arithmetic.

A cell is content in millimetres from its lower left corner, in which FILL paints the square, and the inks C, M,
Y, K and S in its middle in percent. In a page's texts {0} and so on are the numbers of its objects.
"""
import io
from dataclasses import dataclass
from functools import cache

Ink = tuple[float, float, float, float, float]
Objects = tuple[tuple[str, bytes], ...]
BARE: Ink = (0, 0, 0, 0, 0)


@dataclass(frozen=True)
class Page:
    """A page, its notes, and its fault, a pattern of its kind and text. `overprints` is whether the page is
    also made with a graphics state that overprints and that nothing uses.
    """

    cells: tuple[tuple[str, Ink], ...]
    spaces: str = ""
    objects: Objects = ()
    more: str = ""
    states: str = ""
    notes: tuple[str, ...] = ("spot",)
    fault: str = ""
    overprints: bool = True


def power(last: str, exponent: float = 1, first: str = "0 0 0 0") -> str:
    """Returns a function of type 2: the first inks at tint 0, the last at tint 1."""
    return f"<< /FunctionType 2 /Domain [0 1] /C0 [{first}] /C1 [{last}] /N {exponent} >>"


def program(text: str, inputs: int = 1, outputs: int = 4) -> tuple[str, bytes]:
    """Returns the object of a function of type 4."""
    return f"/FunctionType 4 /Domain [{'0 1 ' * inputs}] /Range [{'0 1 ' * outputs}]", text.encode()


def spot(name: str, transform: str, alternate: str = "/DeviceCMYK") -> str:
    return f"[/Separation /{name} {alternate} {transform}]"


def image(space: str, samples: bytes, width: int, keys: str = "", bits: int = 8) -> tuple[str, bytes]:
    """Returns the object of a picture that is one row of samples high."""
    head = f"/Type /XObject /Subtype /Image /Width {width} /Height 1 /BitsPerComponent {bits}"
    return f"{head} /ColorSpace {space} {keys}", samples


@cache
def jpeg(value: int) -> bytes:
    """Returns a grey JPEG of one value."""
    from PIL import Image

    out = io.BytesIO()
    Image.new("L", (16, 16), value).save(out, "JPEG", quality=100)
    return out.getvalue()


LINEAR, CUBE = power("0 1 .8 0"), power("0 1 .8 0", 3)
RED, CUBED, BLUE = spot("RED", LINEAR), spot("RED", CUBE), spot("BLUE", power("1 .4 0 0"))
HOUSE = spot("NORDLYS", power("1 .6 0 0"))
ALL = spot("All", power("1 1 1 1"))
HALF, FULL, NONE = "/P cs .5 scn FILL", "/P cs 1 scn FILL", "/P cs 0 scn FILL"
PICTURE = "10 0 0 10 0 0 cm /I Do"
# Black and a spot that also has black: not the sum of both. C, M, Y, K from k and r: 0, r r, 0, 1 - (1 - k)(1 - r / 2).
UNEVEN = program("{ dup 2 div 1 exch sub 3 -1 roll 1 exch sub mul 1 exch sub exch dup mul 0 exch 0 4 -1 roll }", 2)
NAMES = "[/Black /RED]"
UNEVENLY = f"/P [/DeviceN {NAMES} /DeviceCMYK {{0}} 0 R]"
OVER = "/OVER << /OP true /op true /OPM 1 >> /OVER0 << /OP true /op true /OPM 0 >>"
GROUND = ".3 .2 .1 0 k FILL "

TRANSFORMS = {
    "type 2": Page(((HALF, (0, 12.5, 10, 0, 0)), (FULL, (0, 100, 80, 0, 0)), (NONE, BARE)), f"/P {CUBED}"),
    "linear": Page(((HALF, (0, 50, 40, 0, 0)), (FULL, (0, 100, 80, 0, 0))), f"/P {RED}"),
    "type 0": Page(
        ((HALF, (0, 20, 80, 0, 0)), (FULL, (100, 100, 0, 20, 0)), ("/P cs .25 scn FILL", (0, 10, 40, 0, 0))),
        f"/P {spot('RED', '{0} 0 R')}",
        ((
            "/FunctionType 0 /Domain [0 1] /Range [0 1 0 1 0 1 0 1] /Size [3] /BitsPerSample 8",
            bytes((0, 0, 0, 0, 0, 51, 204, 0, 255, 255, 0, 51)),
        ),),
    ),
    "type 3": Page(
        ((HALF, (0, 20, 0, 0, 0)), (FULL, (0, 100, 40, 0, 0)), ("/P cs .75 scn FILL", (0, 60, 20, 0, 0))),
        "/P " + spot("RED", f"<< /FunctionType 3 /Domain [0 1] /Bounds [.5] /Encode [0 1 0 1] /Functions "
        f"[{power('0 .2 0 0')} {power('0 1 .4 0', 1, '0 .2 0 0')}] >>"),
    ),
    "type 4": Page(
        ((HALF, (0, 25, 50, 0, 0)), (FULL, (0, 100, 100, 0, 0))),
        f"/P {spot('RED', '{0} 0 R')}",
        (program("{ dup dup mul exch 0 3 1 roll 0 }"),),
    ),
    "alternate of grey": Page(
        ((HALF, (0, 0, 0, 25, 0)), (FULL, (0, 0, 0, 100, 0))), "/P " + spot("RED", power("0", 2, "1"), "/DeviceGray")
    ),
    "alternate of RGB": Page(
        # Red by Ghostscript's CMYK profile, as Pillow converts it.
        ((FULL, (0, 100, 100, 0, 0)), (NONE, BARE)),
        "/P " + spot("RED", power("1 0 0", 2, "1 1 1"), "/DeviceRGB"), notes=("rgb", "spot"),
    ),
    "alternate of Lab": Page(
        ((NONE, BARE),), "/P " + spot("RED", power("50 70 50", 1, "100 0 0"), "[/Lab << /WhitePoint [.9642 1 .8249] /Range [-128 127 -128 127] >>]"),
        notes=("rgb",),
    ),
    "the house's of RGB": Page(
        (("/P cs .5 scn FILL", (0, 0, 0, 0, 50)),), "/P " + spot("NORDLYS", power("1 0 0", 1, "1 1 1"), "/DeviceRGB"), notes=(),
    ),
    "ink at tint 0": Page(
        ((HALF, (0, 30, 0, 0, 0)), (FULL, BARE), (NONE, (0, 60, 0, 0, 0))),
        "/P " + spot("RED", power("0 0 0 0", 1, "0 .6 0 0")),
    ),
    "two transforms": Page(
        ((HALF, (0, 12.5, 10, 0, 0)), ("/Q cs .5 scn FILL", (50, 0, 0, 0, 0)), ("/R cs .5 scn FILL", (0, 50, 40, 0, 0))),
        f"/P {CUBED} /Q {spot('RED', power('1 0 0 0'))} /R {RED}",
    ),
    "two transforms, in forms": Page(
        (
            ("/F Do", (0, 12.5, 10, 0, 0)), ("/G Do", (0, 50, 40, 0, 0)), ("/q cs .5 scn FILL", (50, 0, 0, 0, 0)),
            ("/P cs .5 .5 scn FILL", (0, 25, 0, 62.5, 0)),
        ),
        f"/q {spot('RED', power('1 0 0 0'))} {UNEVENLY.replace('{0}', '{2}')}", more="/XObject << /F {0} 0 R /G {1} 0 R >>",
        objects=(*(
            (f"/Type /XObject /Subtype /Form /BBox [0 0 10 10] /Resources << /ColorSpace << /P {space} >> >>", b"/P cs .5 scn 0 0 10 10 re f")
            for space in (CUBED, RED)
        ), UNEVEN),
    ),
    "the house's isn't mixed": Page(
        ((HALF, (0, 0, 0, 0, 50)), ("/Q cs .5 scn FILL", (0, 12.5, 10, 0, 0))),
        f"/P {spot('NORDLYS', power('1 .6 0 0', 3))} /Q {CUBED}",
    ),
    "indirect": Page(
        ((HALF, (0, 12.5, 10, 0, 0)), ("/Q cs .5 .5 scn FILL", (50, 12.5, 10, 0, 0))),
        "/P [/Separation {0} 0 R {1} 0 R {2} 0 R] /Q [/DeviceN {3} 0 R {1} 0 R {4} 0 R]",
        (
            ("VALUE", b"/RED"), ("VALUE", b"/DeviceCMYK"), ("VALUE", CUBE.encode()), ("VALUE", b"[/Cyan /RED]"),
            program("{ dup dup mul mul dup .8 mul 0 }", 2),
        ),
    ),
    "alternate of a profile": Page(
        ((HALF, (0, 12.5, 10, 0, 0)),), "/P " + spot("RED", CUBE, "[/ICCBased {0} 0 R]"), (("PROFILE", b""),),
    ),
    "tints out of range": Page((("/P cs 2 scn FILL", (0, 100, 80, 0, 0)), ("/P cs -1 scn FILL", BARE)), f"/P {CUBED}"),
    "any name": Page(
        (
            (HALF, (0, 12.5, 10, 0, 0)), ("/Q cs .5 scn FILL", (50, 0, 0, 0, 0)),
            ("/R cs .5 scn FILL", (0, 0, 50, 0, 0)), ("/S cs .5 scn FILL", (0, 0, 0, 50, 0)),
        ),
        f"/P {spot('Bl#e5', CUBE)} /Q {spot('Bl#c3#a5#28#29#2f', power('1 0 0 0'))} /R {spot('A' * 90, power('0 0 1 0'))} "
        f"/S {spot('#3cx#ff', power('0 0 0 1'))}",
    ),
    "process": Page(
        (("/P cs .5 scn FILL", (0, 0, 0, 50, 0)), ("/Q cs .5 scn FILL", (50, 0, 0, 0, 0))),
        f"/P {spot('Black', power('0 0 0 1', 3))} /Q {spot('Cyan', power('0 0 1 0'))}", notes=(),
    ),
}  # fmt: skip
SEVERAL = {
    "uneven": Page(
        (
            ("/P cs .5 0 scn FILL", (0, 0, 0, 50, 0)),
            ("/P cs 0 .5 scn FILL", (0, 25, 0, 25, 0)),
            ("/P cs .5 .5 scn FILL", (0, 25, 0, 62.5, 0)),
            ("/P cs 1 1 scn FILL", (0, 100, 0, 100, 0)),
        ),
        UNEVENLY, (UNEVEN,),
    ),
    "sum": Page(
        (("/P cs .3 .5 scn FILL", (0, 25, 0, 30, 0)), ("/Q cs .2 .5 .4 scn FILL", (40, 45, 20, 0, 0))),
        f"/P [/DeviceN {NAMES} /DeviceCMYK {{0}} 0 R] /Q [/DeviceN [/Magenta /RED2 /BLUE2] /DeviceCMYK {{1}} 0 R]",
        (program("{ dup mul 0 exch 0 4 -1 roll }", 2), program("{ 3 1 roll dup .4 mul 3 1 roll .5 mul add exch 0 }", 3)),
    ),
    "NChannel": Page(
        (("/P cs .3 .5 scn FILL", (0, 25, 0, 30, 0)), ("/Q cs .5 scn FILL", (0, 25, 0, 0, 0))),
        f"/P [/DeviceN {NAMES} /DeviceCMYK {{0}} 0 R << /Subtype /NChannel /Colorants << /RED {spot('RED', power('0 1 0 0', 2))} >> "
        "/Process << /ColorSpace /DeviceCMYK /Components [/Cyan /Magenta /Yellow /Black] >> >>] /Q " + spot("RED", power("0 1 0 0", 2)),
        (program("{ dup mul 0 exch 0 4 -1 roll }", 2),),
    ),
    "with the house's": Page(
        (("/P cs .3 .5 scn FILL", (0, 25, 0, 0, 30)),),
        "/P [/DeviceN [/NORDLYS /RED] /DeviceCMYK {0} 0 R]", (program("{ dup mul 0 0 }", 2),),
    ),
    "with the house's, uneven": Page(
        ((HALF, BARE),), "/P [/DeviceN [/NORDLYS /Black /RED] /DeviceCMYK {0} 0 R]",
        (program("{ dup 2 div 1 exch sub 3 -1 roll 1 exch sub mul 1 exch sub exch dup mul 0 exch 0 4 -1 roll 5 -1 roll pop }", 3),),
        fault="spot .*can't be split",
    ),
    "None": Page(
        (("/P cs .3 .5 .7 scn FILL", (0, 25, 0, 30, 0)),),
        "/P [/DeviceN [/Black /RED /None] /DeviceCMYK {0} 0 R]", (program("{ pop dup mul 0 exch 0 4 -1 roll }", 3),),
    ),
}  # fmt: skip
SAMPLE = bytes((128,))
PAINTED = {
    "picture": Page(((PICTURE, (0, 12.6, 10.1, 0, 0)),), more="/XObject << /I {0} 0 R >>", objects=(image(CUBED, SAMPLE, 1),)),
    "picture by Decode": Page(
        ((PICTURE, (0, 51, 40.8, 0, 0)),), more="/XObject << /I {0} 0 R >>",
        objects=(image(CUBED, bytes((51,)), 1, "/Decode [1 0]"),),
    ),
    "indexed": Page(
        ((PICTURE, (0, 51, 40.8, 0, 0)),), more="/XObject << /I {0} 0 R >>",
        objects=(image(f"[/Indexed {CUBED} 1 <33CC>]", bytes((0x80,)), 1, bits=1),),
    ),
    "indexed of the house's": Page(
        ((PICTURE, (0, 0, 0, 0, 80)),), more="/XObject << /I {0} 0 R >>", notes=(),
        objects=(image(f"[/Indexed {HOUSE} 1 <33CC>]", bytes((0x80,)), 1, bits=1),),
    ),
    "picture of the house's": Page(
        ((PICTURE, (0, 0, 0, 0, 80)),), more="/XObject << /I {0} 0 R >>", notes=(), objects=(image(HOUSE, bytes((204,)), 1),),
    ),
    "JPEG": Page(
        ((PICTURE, (0, 51, 40.8, 0, 0)),), more="/XObject << /I {0} 0 R >>",
        objects=(("JPEG", (CUBED, 204)),),
    ),
    "JPEG of the house's": Page(
        ((PICTURE, (0, 0, 0, 0, 80)),), more="/XObject << /I {0} 0 R >>", notes=(), objects=(("JPEG", (HOUSE, 204)),),
    ),
    "picture of several": Page(
        ((PICTURE, (0, 64, 0, 30, 0)),), more="/XObject << /I {1} 0 R >>",
        objects=(program("{ dup mul 0 exch 0 4 -1 roll }", 2), image(f"[/DeviceN {NAMES} /DeviceCMYK {{0}} 0 R]", bytes((77, 204)), 1)),
    ),
    "stencil": Page(
        (("/P cs .5 scn 10 0 0 10 0 0 cm /I Do", (0, 12.5, 10, 0, 0)),), f"/P {CUBED}", more="/XObject << /I {0} 0 R >>",
        objects=(("/Type /XObject /Subtype /Image /Width 1 /Height 1 /BitsPerComponent 1 /ImageMask true", b"\0"),),
    ),
    "inline picture": Page(
        (("10 0 0 10 0 0 cm BI /W 1 /H 1 /BPC 8 /CS /P ID \x80 EI", (0, 12.6, 10.1, 0, 0)),), f"/P {CUBED}",
    ),
    "shading": Page(
        (("q 0 0 10 10 re W n /G sh Q", (0, 12.5, 10, 0, 0)),),
        more=f"/Shading << /G << /ShadingType 2 /ColorSpace {CUBED} /Coords [0 0 10 0] /Extend [true true] "
        f"/Function {power('1', 1, '0')} >> >>",
    ),
    "shading of the house's": Page(
        (("q 0 0 10 10 re W n /G sh Q", (0, 0, 0, 0, 50)),), notes=("tints",),
        more=f"/Shading << /G << /ShadingType 2 /ColorSpace {HOUSE} /Coords [0 0 10 0] /Extend [true true] "
        f"/Function {power('1', 1, '0')} >> >>",
    ),
    "shading pattern": Page(
        (("/Pattern cs /S scn FILL", (0, 12.5, 10, 0, 0)),),
        more=f"/Pattern << /S << /PatternType 2 /Matrix [2.8346 0 0 2.8346 14.173 0] /Shading << /ShadingType 2 /ColorSpace {CUBED} "
        f"/Coords [0 0 10 0] /Extend [true true] /Function {power('1', 1, '0')} >> >> >>",
    ),
    "pattern": Page(
        (("/U cs .5 /T scn FILL", (0, 12.5, 10, 0, 0)),), f"/U [/Pattern {CUBED}]",
        more="/Pattern << /T {0} 0 R >>",
        objects=(("/PatternType 1 /PaintType 2 /TilingType 1 /BBox [0 0 9 9] /XStep 9 /YStep 9 /Resources << >>", b"0 0 9 9 re f"),),
    ),
    "form": Page(
        (("/F Do", (0, 12.5, 10, 0, 0)),), more="/XObject << /F {0} 0 R >>",
        objects=((f"/Type /XObject /Subtype /Form /BBox [0 0 10 10] /Resources << /ColorSpace << /P {CUBED} >> >>", b"/P cs .5 scn 0 0 10 10 re f"),),
    ),
    "stroke": Page((("/P CS .5 SCN 10 w 0 5 m 10 5 l S", (0, 12.5, 10, 0, 0)),), f"/P {CUBED}"),
    "glyph": Page(
        (("BT /F 10 Tf /P cs .5 scn (a) Tj ET", (0, 12.5, 10, 0, 0)),), f"/P {CUBED}", more="/Font << /F {0} 0 R >>",
        objects=(("FONT", b""), ("", b"1000 0 0 0 1000 1000 d1 0 0 1000 1000 re f")),
    ),
}  # fmt: skip
EVERYWHERE = {
    "All beside a mixed spot": Page(
        (("/A cs .5 scn FILL", (50, 50, 50, 50, 0)), (FULL, (0, 100, 80, 0, 0))), f"/A {ALL} /P {RED}",
    ),
    "All beside both": Page(
        (("/A cs .5 scn FILL", (50, 50, 50, 50, 50)), ("/A cs 1 scn FILL", (100, 100, 100, 100, 100)), (FULL, (0, 100, 80, 0, 0)), ("/H cs .4 scn FILL", (0, 0, 0, 0, 40))),
        f"/A {ALL} /P {CUBED} /H {HOUSE}",
    ),
    "All beside an unused spot": Page(
        (("/A cs .5 scn FILL", (50, 50, 50, 50, 0)),), f"/A {ALL} /P {spot('DARK', power('0 0 0 1'))} /Q {BLUE}", notes=(),
    ),
    "All beside the house's, unused": Page(
        (("/A cs .5 scn FILL", (50, 50, 50, 50, 50)),), f"/A {ALL} /H {HOUSE}", notes=(),
    ),
    "All alone": Page((("/A cs .5 scn FILL", (50, 50, 50, 50, 0)),), f"/A {ALL}", notes=()),
    "All in a form": Page(
        (("/F Do", (50, 50, 50, 50, 0)), (FULL, (0, 100, 80, 0, 0))), f"/P {RED}", more="/XObject << /F {0} 0 R >>",
        objects=((f"/Type /XObject /Subtype /Form /BBox [0 0 10 10] /Resources << /ColorSpace << /A {ALL} >> >>", b"/A cs .5 scn 0 0 10 10 re f"),),
    ),
    "black over All": Page(
        (("/A cs .5 scn FILL /OVER gs 0 0 0 1 k FILL", (50, 50, 50, 100, 0)), (FULL, (0, 100, 80, 0, 0))),
        f"/A {ALL} /P {RED}", states=OVER, overprints=False,
    ),
    "All over inks": Page(
        ((f"{GROUND} /A cs .5 scn FILL", (50, 50, 50, 50, 0)), (f"{GROUND} /OVER gs /A cs .5 scn FILL", (50, 50, 50, 50, 0)), (FULL, (0, 100, 80, 0, 0))),
        f"/A {ALL} /P {RED}", states=OVER, overprints=False,
    ),
}  # fmt: skip
OVERPRINTS = {
    "spot over inks": Page(
        (
            (f"{GROUND} /OVER gs /P cs .5 scn FILL", (30, 32.5, 20, 0, 0)),
            (f"{GROUND} /P cs .5 scn FILL", (0, 12.5, 10, 0, 0)),
            (f"{GROUND} /OVER gs /H cs .5 scn FILL", (30, 20, 10, 0, 50)),
            (f"{GROUND} /H cs .5 scn FILL", (0, 0, 0, 0, 50)),
        ),
        f"/P {CUBED} /H {HOUSE}", states=OVER, overprints=False,
    ),
    "inks over spots": Page(
        (
            ("/P cs .5 scn FILL /OVER gs 0 0 0 1 k FILL", (0, 12.5, 10, 100, 0)),
            ("/P cs .5 scn FILL /OVER0 gs 0 0 0 1 k FILL", (0, 12.5, 10, 100, 0)),
            ("/P cs .5 scn FILL 0 0 0 1 k FILL", (0, 0, 0, 100, 0)),
            ("/H cs .5 scn FILL /OVER gs 0 0 0 1 k FILL", (0, 0, 0, 100, 50)),
            ("/H cs .5 scn FILL /P cs 1 scn FILL", (0, 100, 80, 0, 0)),
            ("/H cs .5 scn FILL /OVER gs /P cs 1 scn FILL", (0, 100, 80, 0, 50)),
        ),
        f"/P {CUBED} /H {HOUSE}", states=OVER, overprints=False,
    ),
    "spots over spots": Page(
        (
            ("/P cs 1 scn FILL /OVER gs /Q cs 1 scn FILL", (100, 100, 80, 0, 0)),
            ("/P cs .5 scn FILL /OVER gs /P cs .8 scn FILL", (0, 51.2, 41, 0, 0)),
            ("/P cs .5 scn FILL /OVER gs /K cs 1 scn FILL", (0, 12.5, 10, 100, 0)),
        ),
        f"/P {CUBED} /Q {spot('BLUE', power('1 .4 0 0', 2))} /K {spot('Black', power('0 0 0 1'))}", states=OVER, overprints=False,
    ),
    "pictures over inks": Page(
        (
            (f"{GROUND} /OVER gs 10 0 0 10 0 0 cm /I Do", (30, 32.6, 20, 0, 0)),
            (f"{GROUND} /OVER gs 10 0 0 10 0 0 cm /J Do", (30, 20, 10, 0, 80)),
        ),
        more="/XObject << /I {0} 0 R /J {1} 0 R >>", objects=(image(CUBED, SAMPLE, 1), image(HOUSE, bytes((204,)), 1)),
        states=OVER, overprints=False,
    ),
    "in a form": Page(
        ((f"{GROUND} /F Do", (30, 32.5, 20, 0, 0)),), more="/XObject << /F {0} 0 R >>",
        objects=((
            f"/Type /XObject /Subtype /Form /BBox [0 0 10 10] /Resources << /ColorSpace << /P {CUBED} >> "
            "/ExtGState << /O << /OP true /op true >> >> >>", b"/O gs /P cs .5 scn 0 0 10 10 re f",
        ),),
        overprints=False,
    ),
    "black over an uneven one": Page(
        (("/P cs .5 .5 scn FILL /OVER gs 0 0 0 1 k FILL", (0, 25, 0, 100, 0)),), UNEVENLY, (UNEVEN,), states=OVER, overprints=False,
    ),
    "black in mode 0 over an uneven one": Page(
        (("/P cs .5 .5 scn FILL /OVER0 gs 0 0 0 1 k FILL", BARE),), UNEVENLY, (UNEVEN,), states=OVER, overprints=False,
        fault="spot .*RED overprints",
    ),
    "an uneven one over inks": Page(
        ((f"{GROUND} /OVER gs /P cs .5 .5 scn FILL", BARE),), UNEVENLY, (UNEVEN,), states=OVER, overprints=False,
        fault="spot .*RED overprints",
    ),
}  # fmt: skip
INVERSE = program("{ 1 exch sub }", 1, 1)


def mask(content: str, spaces: str) -> tuple[str, bytes]:
    """Returns the object of a group that is a luminosity mask."""
    head = "/Type /XObject /Subtype /Form /BBox [0 0 10 10] /Group << /S /Transparency /CS /DeviceCMYK >>"
    return f"{head} /Resources << /ColorSpace << {spaces} >> >>", f"{content} 0 0 10 10 re f".encode()


MASKED = "/M gs .8 0 0 0 k FILL"
BLENDS = {
    "half": Page(
        (("/B gs /P cs .5 scn FILL", (0, 6.25, 5, 0, 0)), ("/B gs /H cs .5 scn FILL", (0, 0, 0, 0, 25)),
         ("/P cs 1 scn FILL /B gs /H cs .5 scn FILL", (0, 50, 40, 0, 25))),
        f"/P {CUBED} /H {HOUSE}", states="/B << /ca .5 >>", overprints=False,
    ),
    "multiplied": Page(
        (("/P cs .5 scn FILL /B gs .5 0 0 0 k FILL", (50, 50, 40, 0, 0)), ("/H cs .5 scn FILL /B gs .5 0 0 0 k FILL", (50, 0, 0, 0, 50))),
        f"/P {RED} /H {HOUSE}", states="/B << /BM /Multiply >>",
    ),
    "mask of a spot": Page(
        ((MASKED, (40, 0, 0, 0, 0)),), objects=(mask("/P cs .5 scn", f"/P {spot('DARK', power('0 0 0 1'))}"),),
        states="/M << /SMask << /S /Luminosity /G {0} 0 R >> >>", notes=(),
    ),
    "mask of the house's": Page(
        ((MASKED, (40, 0, 0, 0, 0)),), objects=(mask("/P cs .5 scn", f"/P {spot('NORDLYS', power('0 0 0 1'))}"),),
        states="/M << /SMask << /S /Luminosity /G {0} 0 R >> >>", notes=(),
    ),
    "mask with a transfer function": Page(
        ((MASKED, (16, 0, 0, 0, 0)),), objects=(mask("0 0 0 .2 k", ""), INVERSE),
        states="/M << /SMask << /S /Luminosity /G {0} 0 R /TR {1} 0 R >> >>", notes=("uncompared",),
    ),
}  # fmt: skip
HALFTONE = "/Type /Halftone /HalftoneType 1 /Frequency 60 /Angle 45 /SpotFunction /Round"
INKS = (("/T gs 0 0 0 .2 k FILL", (0, 0, 0, 20, 0)), ("/H cs .5 scn FILL", (0, 0, 0, 0, 50)))


def transfer(keys: str, fault: str = "", objects: Objects = ()) -> Page:
    """Returns a page with a graphics state of these keys."""
    notes = () if not fault else ("spot",)
    return Page(INKS, f"/H {HOUSE}", objects, states=f"/T << {keys} >>", notes=notes, fault=fault, overprints=False)


TRANSFERS = {
    "TR": transfer("/TR {0} 0 R", "transfer .*TR of T", (INVERSE,)),
    "TR2": transfer("/TR2 {0} 0 R", "transfer .*TR2 of T", (INVERSE,)),
    "four": transfer("/TR2 [/Identity /Identity /Identity {0} 0 R]", "transfer .*TR2 of T", (INVERSE,)),
    "halftone": transfer(f"/HT << {HALFTONE} /TransferFunction {{0}} 0 R >>", "transfer .*halftone of T", (INVERSE,)),
    "halftones": transfer(
        f"/HT << /Type /Halftone /HalftoneType 5 /Default << {HALFTONE} >> /Black << {HALFTONE} /TransferFunction {{0}} 0 R >> >>",
        "transfer .*halftone of T", (INVERSE,),
    ),
    "identity": transfer("/TR /Identity"),
    "default": transfer("/TR {0} 0 R /TR2 /Default", objects=(INVERSE,)),
    "no change": transfer("/TR {0} 0 R", objects=(program("{ }", 1, 1),)),
    "power of one": transfer(f"/TR2 {power('1', 1, '0')}"),
    "own halftone": transfer(f"/HT << {HALFTONE} >>"),
    "black generation": transfer("/BG {0} 0 R /UCR {0} 0 R /BG2 /Default /UCR2 {0} 0 R", objects=(INVERSE,)),
    "not used": Page(
        (("0 0 0 .2 k FILL", (0, 0, 0, 20, 0)),), objects=(INVERSE,), states="/T << /TR {0} 0 R >>", notes=(),
    ),
    "in a form": Page(
        (("/F Do", BARE),), more="/XObject << /F {1} 0 R >>", fault="transfer .*TR of T",
        objects=(INVERSE, ("/Type /XObject /Subtype /Form /BBox [0 0 10 10] /Resources << /ExtGState << /T << /TR {0} 0 R >> >> >>", b"/T gs 0 0 0 .2 k 0 0 10 10 re f")),
    ),
    "in a pattern": Page(
        (("/Pattern cs /T scn FILL", BARE),), more="/Pattern << /T {1} 0 R >>", fault="transfer .*TR of T",
        objects=(INVERSE, ("/PatternType 1 /PaintType 1 /TilingType 1 /BBox [0 0 9 9] /XStep 9 /YStep 9 /Resources << /ExtGState << /T << /TR {0} 0 R >> >> >>", b"/T gs 0 0 0 .2 k 0 0 9 9 re f")),
    ),
}  # fmt: skip
NAMED = {
    "case and blanks": Page(
        (("/P cs .5 scn FILL", (0, 0, 0, 0, 50)), ("/Q cs .4 scn FILL", (0, 0, 0, 0, 40)), ("/R cs .3 scn FILL", (0, 0, 0, 0, 30))),
        f"/P {spot('NORDLYS', LINEAR)} /Q {spot('Nordlys#20', LINEAR)} /R {spot('#20pantone#20185#20c', LINEAR)}", notes=(),
    ),
    "knocked out": Page(
        (("/P cs .5 scn FILL /OVER gs /Q cs .4 scn FILL", (0, 0, 0, 0, 40)),),
        f"/P {spot('NORDLYS', LINEAR)} /Q {spot('PANTONE#20185#20C', LINEAR)}", states=OVER, notes=(), overprints=False,
    ),
    "aliases": Page(
        (("/P cs .5 scn FILL", (0, 0, 0, 0, 50)), ("/Q cs .4 scn FILL", (0, 0, 0, 40, 0))),
        f"/P {spot('PMS#20185', CUBE)} /Q {spot('SCHWARZ', LINEAR)}", notes=(),
    ),
    "not the house's": Page((("/P cs .5 scn FILL", (0, 50, 40, 0, 0)),), f"/P {spot('NORDLYS#202', LINEAR)}"),
    "several with an alias": Page(
        (("/P cs .4 .5 scn FILL", (0, 0, 0, 40, 50)),),
        "/P [/DeviceN [/SCHWARZ /PMS#20185] /DeviceCMYK {0} 0 R]", (program("{ 0 0 4 2 roll }", 2),), notes=(),
    ),
    "one ink twice": Page(
        (("/P cs .4 .5 scn FILL", BARE),),
        "/P [/DeviceN [/NORDLYS /PMS#20185] /DeviceCMYK {0} 0 R]", (program("{ 0 0 4 2 roll }", 2),), fault="spot .*one ink has two names",
    ),
}  # fmt: skip
KINDS = {"transforms": TRANSFORMS, "several": SEVERAL, "painted": PAINTED, "All": EVERYWHERE, "overprint": OVERPRINTS}
KINDS |= {"blends": BLENDS, "transfers": TRANSFERS, "names": NAMED}
