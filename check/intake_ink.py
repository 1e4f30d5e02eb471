"""Tests the ink of pages that are made by hand, cell by cell: colours in masks, groups, greys of every tag, gradients, optional
content, shadings and pictures. The ink wanted is that of ISO 32000-1 and of the house's rules, by arithmetic.
"""
import os

from intake_cells import MILLIMETRE, RESOLUTIONS, Sheet, coded, form, house, image, mask, planes, see_sheets
from intake_corpus import inked
from intake_pages import Pages, fields, intake

ICC = "/usr/share/color/icc/ghostscript/"
FILL, CLIP = "0 0 20 20 re f", "0 0 20 20 re W n"
BARE, CYAN, HALF, BLACK = (0, 0, 0, 0), (80, 0, 0, 0), (40, 0, 0, 0), (0, 0, 0, 100)
GROUND, OVER = "0.3 0.2 0.1 0 k 0 0 20 20 re f", (30, 20, 10, 0)
TINT, TINTED = "0.2 0.4 0.6 0.1", (20, 40, 60, 10)
PAGE_GROUP = "/Group << /S /Transparency /CS /DeviceCMYK >>"


def profile(name):
    """Returns a profile's stream. `name` is that of a file, and `N` its components."""
    with open(f"{ICC}{name}.icc", "rb") as file:
        return file.read()


def inks(red, green, blue):
    """Returns the inks of an RGB colour by the house's rules, in percent."""
    from PIL import Image

    return tuple(float(ink) / 2.55 for ink in inked(Image.new("RGB", (1, 1), (red, green, blue)))[0, 0])


GREY = inks(128, 128, 128)
# The corners and control points of a square patch, from the lower left corner upwards.
PATCH = [(0, 8 * n) for n in range(4)] + [(8 * n, 24) for n in range(1, 4)]
PATCH += [(24, 8 * n) for n in (2, 1, 0)] + [(8 * n, 0) for n in (2, 1)]
AXIAL = "<< /ShadingType 2 /ColorSpace {0} /Coords [{3}] /Extend [true true] /Function {1} {2} >>"
LINEAR = "<< /FunctionType 2 /Domain [0 1] /C0 [{}] /C1 [{}] /N 1 >>"


def axial(space, first, last, more="", coords="0 0 20 0"):
    return AXIAL.format(space, LINEAR.format(first, last), more, coords)


def masked(group="/CS /DeviceGray", **contents):
    """Returns the objects and graphics states of masks with these contents, (content, resources) or a content."""
    objects, states = {}, ""
    for name, content in contents.items():
        content, resources = content if isinstance(content, tuple) else (content, "")
        objects[f"mask_{name}"] = form(content, f"/Group << /S /Transparency {group} >>", resources)
        states += f"/{name} {mask(f'mask_{name}')} "
    return objects, f"/ExtGState << {states} >>"


def mask_sheet(group, keys):
    """Returns a page of masks whose content is in RGB, and of some that must not change."""
    half = ".5 .5 .5"
    pattern = f"<< /PatternType 2 /Shading {axial('/DeviceRGB', half, half)} >>"
    type3 = "<< /Type /Font /Subtype /Type3 /FontBBox [0 0 1 1] /FontMatrix [1 0 0 1 0 0] /FirstChar 65 /LastChar 65 "
    type3 += (
        "/Widths [1] /Encoding << /Differences [65 /A] >> /CharProcs << /A {glyph} >> /Resources << >> >>"
    )
    space = "/ColorSpace << /I [/ICCBased {srgb}] /X [/Indexed /DeviceRGB 1 <000000808080>] /P [/Pattern /DeviceRGB] >>"
    mesh = bytes.fromhex("".join(f"00{x:04x}{y:04x}808080" for x, y in ((0, 0), (0xFFFF, 0), (0, 0xFFFF))))
    objects, states = masked(
        group,
        rgb=f"{half} rg {FILL}",
        white=f"1 1 1 rg {FILL}",
        red=f"1 0 0 rg {FILL}",
        icc=(f"/I cs {half} sc {FILL}", space),
        index=(f"/X cs 1 sc {FILL}", space),
        shading=("/S sh", f"/Shading << /S {axial('/DeviceRGB', half, half)} >>"),
        pattern=(f"/Pattern cs /P scn {FILL}", f"/Pattern << /P {pattern} >>"),
        stencil=(f"{half} rg q 20 0 0 20 0 0 cm /I Do Q", "/XObject << /I {stencil} >>"),
        glyph=(f"{half} rg BT /T 20 Tf 0 0 Td (A) Tj ET", "/Font << /T {type3} >>"),
        form=("/F Do", "/XObject << /F {inner} >>"),
        tiles=(f"/Pattern cs /T scn {FILL}", "/Pattern << /T {tile} >>"),
        mesh=("/M sh", "/Shading << /M {mesh} >>"),
        patch=("/M sh", "/Shading << /M {patch} >>"),
        lattice=("/M sh", "/Shading << /M {lattice} >>"),
        picture=("q 20 0 0 20 0 0 cm /I Do Q", "/XObject << /I {picture} >>"),
        grey=f".5 g {FILL}",
    )
    objects |= {
        "srgb": ("/N 3", profile("srgb")),
        "stencil": (
            "/Type /XObject /Subtype /Image /Width 8 /Height 1 /ImageMask true /BitsPerComponent 1",
            b"\0",
        ),
        "glyph": ("", b"1 0 0 0 1 1 d1 0 0 1 1 re f"),
        "type3": type3,
        "inner": form(f"{half} rg {FILL}"),
        "tile": (
            "/PatternType 1 /PaintType 1 /TilingType 1 /BBox [0 0 5 5] /XStep 5 /YStep 5 /Resources << >>",
            f"{half} rg 0 0 5 5 re f".encode(),
        ),
        "mesh": (
            "/ShadingType 4 /ColorSpace /DeviceRGB /BitsPerCoordinate 16 /BitsPerComponent 8 /BitsPerFlag 8 "
            "/Decode [0 40 0 40 0 1 0 1 0 1]",
            mesh,
        ),
        "patch": (
            "/ShadingType 6 /ColorSpace /DeviceRGB /BitsPerCoordinate 8 /BitsPerComponent 4 /BitsPerFlag 8 "
            "/Decode [0 255 0 255 0 1 0 1 0 1]",
            bytes([0, *(side for point in PATCH for side in point)]) + bytes.fromhex("888" * 4),
        ),
        "lattice": (
            "/ShadingType 5 /ColorSpace /DeviceRGB /BitsPerCoordinate 8 /BitsPerComponent 8 /VerticesPerRow 2 "
            "/Decode [0 255 0 255 0 1 0 1 0 1]",
            b"".join(bytes([x, y, 128, 128, 128]) for x, y in ((0, 0), (30, 0), (0, 30), (30, 30))),
        ),
        "picture": image(b"\x80" * 48, "/DeviceRGB"),
    }
    wanted = dict.fromkeys((name[5:] for name in objects if name.startswith("mask_")), HALF)
    wanted |= {"white": CYAN, "red": (24, 0, 0, 0), "patch": (80 * 8 / 15, 0, 0, 0)}
    cells = {name: (f"/{name} gs .8 0 0 0 k {FILL}", ink) for name, ink in wanted.items()}
    notes = ("blending",) if "RGB" in keys else ()
    return Sheet(cells, objects, states, keys, notes=notes)


def flat_jpeg():
    """Returns a JPEG file of 8 by 8 pixels in RGB that are half grey."""
    return coded("JPEG", b"\x80" * 192, "RGB", 8)


def more_masks():
    """Returns a page of masks of other kinds, most of which must not change."""
    states = "/Alpha << /SMask << /S /Alpha /G {alpha} >> >> /Lum << /SMask << /S /Luminosity /G {lum} >> >> "
    states += (
        "/Twice << /SMask << /S /Luminosity /G {twice} >> >> /Half << /ca .5 >> /None << /SMask /None >> "
    )
    states += "/Wide << /SMask << /S /Luminosity /G {pictures} >> >> /Bits << /SMask << /S /Luminosity /G {bits} >> >> "
    states += "/Table << /SMask << /S /Luminosity /G {table} >> >> /Turned << /SMask << /S /Luminosity /G {turned} >> >>"
    one = LINEAR.format(".5", ".5")
    three = f"<< /ShadingType 2 /ColorSpace /DeviceRGB /Coords [0 0 20 0] /Function [{one} {one} {one}] >>"
    for name in ("Line", "Lines", "Jpeg", "Ink", "Strokes", "Three"):
        states += f" /{name} {mask(name.lower())}"
    group = "/Group << /S /Transparency /CS /DeviceRGB >>"
    objects = {
        "alpha": form("/H gs 1 0 0 rg 0 0 20 20 re f", group, "/ExtGState << /H << /ca .5 >> >>"),
        "lum": form(".5 .5 .5 rg 0 0 20 20 re f", group),
        "twice": form(
            f"/L gs 1 1 1 rg {FILL}", group, "/ExtGState << /L << /SMask << /S /Luminosity /G {lum} >> >> >>"
        ),
        "pictures": form("q 20 0 0 20 0 0 cm /I Do Q", group, "/XObject << /I {sixteen} >>"),
        "bits": form("q 20 0 0 20 0 0 cm /I Do Q", group, "/XObject << /I {four} >>"),
        "table": form("q 20 0 0 20 0 0 cm /I Do Q", group, "/XObject << /I {indexed} >>"),
        "turned": form("q 20 0 0 20 0 0 cm /I Do Q", group, "/XObject << /I {inverse} >>"),
        "ink": form(f"0 0 0 .5 k {FILL}", group),
        "strokes": form(".5 .5 .5 RG 20 w 0 10 m 20 10 l S", group),
        "three": form("/S sh", group, f"/Shading << /S {three} >>"),
        "line": form(f"q 20 0 0 20 0 0 cm BI /W 2 /H 1 /CS /RGB /BPC 8 /F /AHx ID {'80' * 6}> EI Q", group),
        "lines": form(
            "q 20 0 0 20 0 0 cm BI /W 1 /H 1 /CS [/I /RGB 1 <000000808080>] /BPC 8 /F /AHx ID 01> EI Q", group
        ),
        "jpeg": form(
            f"q 20 0 0 20 0 0 cm BI /W 8 /H 8 /CS /RGB /BPC 8 /F [/AHx /DCT] ID {flat_jpeg().hex()}> EI Q",
            group,
        ),
        "sixteen": image(b"\x80\0" * 48, "/DeviceRGB", bits=16),
        "four": image(b"\x88" * 24, "/DeviceRGB", bits=4),
        "indexed": image(b"\1" * 16, "[/Indexed /DeviceRGB 1 <000000808080>]"),
        "inverse": image(b"\x33" * 48, "/DeviceRGB", keys="/Decode [1 0 1 0 1 0]"),
        "soft": image(b"\0\xff\0\0", "/DeviceCMYK", side=1, keys="/SMask {softness}"),
        "softness": image(b"\x80", "/DeviceGray", side=1),
        "both": form(
            f"/Lum gs .8 0 0 0 k {FILL}",
            "",
            "/ExtGState << /Lum << /SMask << /S /Luminosity /G {lum} >> >> >>",
        ),
    }
    paint = f"gs .8 0 0 0 k {FILL}"
    cells = {
        "alpha": (f"/Alpha {paint}", HALF),
        "a mask in a mask": (f"/Twice {paint}", HALF),
        "16 bits": (f"/Wide {paint}", HALF),
        "4 bits": (f"/Bits {paint}", (80 * 8 / 15, 0, 0, 0)),
        "indexed": (f"/Table {paint}", HALF),
        "decode": (f"/Turned {paint}", (64, 0, 0, 0)),
        "CMYK": (f"/Ink {paint}", HALF),
        "strokes": (f"/Strokes {paint}", HALF),
        "three functions": (f"/Three {paint}", HALF),
        "opacity": (f"/Half {paint}", HALF),
        "inline": (f"/Line {paint}", HALF),
        "inline, indexed": (f"/Lines {paint}", HALF),
        "inline JPEG": (f"/Jpeg {paint}", HALF),
        "a picture's mask": ("20 0 0 20 0 0 cm /Soft Do", (0, 50, 0, 0)),
        "within a form": ("/Both Do", HALF),
    }
    names = "/XObject << /Soft {soft} /Both {both} >>"
    return Sheet(cells, objects, f"/ExtGState << {states} >> {names}")


def groups():
    """Returns a page of forms whose groups name a colour space, which inherit colours."""
    objects, names = {}, ""
    for space in ("DeviceGray", "DeviceRGB", "DeviceCMYK", "icc", "grey"):
        value = {"icc": "[/ICCBased {srgb}]", "grey": "[/ICCBased {dgrey}]"}.get(space, f"/{space}")
        for more, name in (("", space), ("/I true", f"{space}I"), ("/K true", f"{space}K")):
            objects[name] = form(FILL, f"/Group << /S /Transparency /CS {value} {more} >>")
            names += f"/{name} {{{name}}} "
    objects["outer"] = form(
        "/F Do", "/Group << /S /Transparency /CS /DeviceRGB >>", "/XObject << /F {DeviceGray} >>"
    )
    objects["line"] = form("20 w 0 10 m 20 10 l S", "/Group << /S /Transparency /CS /DeviceGray >>")
    objects["own"] = form(f".4 .3 0 0 k {FILL}", "/Group << /S /Transparency /CS /DeviceGray >>")
    objects |= {"srgb": ("/N 3", profile("srgb")), "dgrey": ("/N 1", profile("default_gray"))}
    tint = f"{TINT} k"
    cells = {name: (f"{tint} /{name} Do", TINTED) for name in list(objects)[:9]}
    cells |= {
        "icc": (f"{tint} /icc Do", TINTED),
        "icc grey": (f"{tint} /grey Do", TINTED),
        "nested": (f"{tint} /outer Do", TINTED),
        "stroke": (f"{TINT} K /line Do", TINTED),
        "white on black": (f"0 0 0 1 k {FILL} 0 0 0 0 k /DeviceCMYK Do", BARE),
        "half": (f"/H gs {tint} /DeviceRGBI Do", tuple(ink / 2 for ink in TINTED)),
        "its own colour": ("/own Do", (40, 30, 0, 0)),
    }
    names += "/outer {outer} /line {line} /own {own}"
    resources = f"/XObject << {names} >> /ExtGState << /H << /ca .5 >> >>"
    return Sheet(cells, objects, resources, notes=("blending",))


def greys():
    """Returns a page of greys of every tag."""
    spaces = "/I [/ICCBased {dgrey}] /C [/CalGray << /WhitePoint [.95 1 1.09] /Gamma 2.2 >>] /DefaultGray [/ICCBased {dgrey}] "
    spaces += "/L [/Lab << /WhitePoint [.9642 1 .8249] /Range [-128 127 -128 127] >>] /X [/Indexed [/ICCBased {dgrey}] 1 <0080>] "
    spaces += "/P [/Pattern [/ICCBased {dgrey}]]"
    jpx = coded("JPEG2000", b"\x80" * 64 * 64, "L", 64)
    objects = {
        "dgrey": ("/N 1", profile("default_gray")),
        "icc": image(b"\x80" * 16, "[/ICCBased {dgrey}]"),
        "cal": image(b"\x80" * 16, "[/CalGray << /WhitePoint [.95 1 1.09] /Gamma 2.2 >>]"),
        "index": image(b"\1" * 16, "[/Indexed [/ICCBased {dgrey}] 1 <0080>]"),
        "jpx": image_of(jpx, "/JPXDecode", ""),
        "tile": (
            "/PatternType 1 /PaintType 2 /TilingType 1 /BBox [0 0 5 5] /XStep 5 /YStep 5 /Resources << >>",
            b"0 0 5 5 re f",
        ),
    }
    half, picture = (0, 0, 0, 50), "20 0 0 20 0 0 cm /{} Do"
    cells = {
        "ICC": (f"/I cs .5 sc {FILL}", half),
        "ICC black": (f"/I cs 0 sc {FILL}", BLACK),
        "ICC, its first colour": (f"/I cs {FILL}", BLACK),
        "CalGray": (f"/C cs .5 sc {FILL}", half),
        "DefaultGray": (f".5 g {FILL}", half),
        "indexed": (f"/X cs 1 sc {FILL}", half),
        "a pattern's colour": (f"/P cs .5 /T scn {FILL}", half),
        "shading": (f"{CLIP} /S sh", half),
        "Lab black": (f"/L cs 0 0 0 sc {FILL}", BLACK),
        "Lab white": (f"0 0 0 1 k {FILL} /L cs 100 0 0 sc {FILL}", BARE),
        "Lab grey": (f"/L cs 53.585 0 0 sc {FILL}", GREY),
        "ICC picture": (picture.format("A"), half),
        "CalGray picture": (picture.format("B"), half),
        "indexed picture": (picture.format("D"), half),
        "JPEG 2000": (picture.format("J"), half),
        "plain": (f".5 g {FILL}", half),
    }
    resources = f"/ColorSpace << {spaces} >> /XObject << /A {{icc}} /B {{cal}} /D {{index}} /J {{jpx}} >> "
    resources += f"/Pattern << /T {{tile}} >> /Shading << /S {axial('[/ICCBased {dgrey}]', '.5', '.5')} >>"
    return Sheet(cells, objects, resources)


def image_of(data, filters, space, side=64, keys=""):
    """Returns a picture that is a file of JPEG or JPEG 2000."""
    return image(data, space, side, keys=f"{keys} /Filter {filters}")[0], data


def neutrals():
    """Returns two pages of neutral RGB that is black ink alone, and of RGB that isn't neutral."""
    spaces = "/I [/ICCBased {srgb}] /C [/CalRGB << /WhitePoint [.95 1 1.09] >>] /X [/Indexed /DeviceRGB 3 <000000808080FFFFFFFF0000>] "
    spaces += "/P [/Pattern /DeviceRGB] /Q [/Pattern [/ICCBased {srgb}]]"
    type3 = "<< /Type /Font /Subtype /Type3 /FontBBox [0 0 1 1] /FontMatrix [1 0 0 1 0 0] /FirstChar 65 /LastChar 66 "
    type3 += "/Widths [1 1] /Encoding << /Differences [65 /A /B] >> /CharProcs << /A {plain} /B {painted} >> "
    type3 += "/Resources << >> >>"
    objects = {
        "srgb": ("/N 3", profile("srgb")),
        "stencil": (
            "/Type /XObject /Subtype /Image /Width 8 /Height 1 /ImageMask true /BitsPerComponent 1",
            b"\0",
        ),
        "plain": ("", b"1 0 0 0 1 1 d1 0 0 1 1 re f"),
        "painted": ("", b"1 0 d0 0 0 0 rg 0 0 1 1 re f"),
        "type3": type3,
        "tile": (
            "/PatternType 1 /PaintType 2 /TilingType 1 /BBox [0 0 5 5] /XStep 5 /YStep 5 /Resources << >>",
            b"0 0 5 5 re f",
        ),
        "coloured": (
            "/PatternType 1 /PaintType 1 /TilingType 1 /BBox [0 0 5 5] /XStep 5 /YStep 5 /Resources << >>",
            b"0 0 0 rg 0 0 5 5 re f",
        ),
        "fills": form(FILL),
        "sets": form(f".5 .5 .5 sc {FILL}"),
    }
    resources = (
        f"/ColorSpace << {spaces} >> /Font << /T {{type3}} >> /Pattern << /U {{tile}} /V {{coloured}} >> "
    )
    resources += "/XObject << /M {stencil} /F {fills} /G {sets} >>"
    stencil = "q 20 0 0 20 0 0 cm {} Q"
    inline = "BI /W 8 /H 1 /IM true /BPC 1 /F /AHx ID 00> EI"
    first = {
        "black": (f"0 0 0 rg {FILL}", BLACK),
        "grey": (f".50196 .50196 .50196 rg {FILL}", GREY),
        "white": (f"0 0 0 1 k {FILL} 1 1 1 rg {FILL}", BARE),
        "stroke": ("0 0 0 RG 20 w 0 10 m 20 10 l S", BLACK),
        "ICC": (f"/I cs .50196 .50196 .50196 sc {FILL}", GREY),
        "ICC, its first colour": (f"/I cs {FILL}", BLACK),
        "CalRGB": (f"/C cs 0 0 0 scn {FILL}", BLACK),
        "indexed": (f"/X cs 1 sc {FILL}", GREY),
        "stencil": ("0 0 0 rg " + stencil.format("/M Do"), BLACK),
        "grey stencil": (".50196 .50196 .50196 rg " + stencil.format("/M Do"), GREY),
        "inline stencil": ("0 0 0 rg " + stencil.format(inline), BLACK),
        "a glyph in its colour": ("0 0 0 rg BT /T 20 Tf (A) Tj ET", BLACK),
        "a glyph of its own colour": (f"{TINT} k BT /T 20 Tf (B) Tj ET", BLACK),
        "a pattern's colour": (f"/P cs 0 0 0 /U scn {FILL}", BLACK),
        "a pattern's ICC colour": (f"/Q cs .50196 .50196 .50196 /U scn {FILL}", GREY),
        "a pattern of its own colour": (f"/Pattern cs /V scn {FILL}", BLACK),
    }
    red, both = inks(255, 0, 0), "/OP true /op true"
    second = {
        "a form that inherits": ("0 0 0 rg /F Do", BLACK),
        "a form that sets": ("/DeviceRGB cs 1 0 0 sc /G Do", GREY),
        "saved": (f"0 0 0 rg q 1 0 0 rg Q {FILL}", BLACK),
        "red after grey": (f"/I cs 0 0 0 sc 1 0 0 sc {FILL}", red),
        "red, its space chosen": (f"/I cs 1 0 0 sc {FILL}", red),
        "red": (f"1 0 0 rg {FILL}", red),
        "red, indexed": (f"/X cs 3 sc {FILL}", red),
        "CMYK after RGB": (f"0 0 0 rg {TINT} k {FILL}", TINTED),
        "four inks of a picture": (
            "q 20 0 0 20 0 0 cm BI /W 1 /H 1 /CS /CMYK /BPC 8 /F /AHx ID 33669919> EI Q",
            TINTED,
        ),
        "black that overprints": (f"1 0 0 0 k {FILL} /O gs 0 0 0 rg {FILL}", BLACK),
        "CMYK black that overprints": (f"1 0 0 0 k {FILL} /O gs 0 0 0 1 k {FILL}", (100, 0, 0, 100)),
        "text filled and stroked": ("0 0 0 rg 0 0 0 RG BT 2 Tr /T 20 Tf (A) Tj ET", BLACK),
        "a pattern's red": (f"/P cs 0 0 0 /U scn 1 0 0 /U scn {FILL}", red),
        "a comment within": (f"0 0 % black\n0 rg {FILL}", BLACK),
        "other white space": ("0\t0\f0\rrg 0 0 20 20 re\nf", BLACK),
    }
    states = f"/ExtGState << /O << {both} /OPM 1 >> >>"
    return (
        Sheet(first, objects, resources),
        Sheet(second, objects, f"{resources} {states}", notes=("rgb",)),
    )


def optional():
    """Returns a page of content that is optional."""
    usage = "/Usage << /Print << /PrintState /{} >> /View << /ViewState /{} >> >>"
    objects = {
        "off": "<< /Type /OCG /Name (off) >>",
        "on": "<< /Type /OCG /Name (on) >>",
        "noprint": f"<< /Type /OCG /Name (noprint) {usage.format('OFF', 'ON')} >>",
        "print": f"<< /Type /OCG /Name (print) {usage.format('ON', 'OFF')} >>",
        "unasked": f"<< /Type /OCG /Name (unasked) {usage.format('OFF', 'ON')} >>",
        "hidden": form(f"0 1 0 0 k {FILL}", "/OC {off}"),
        "shown": form(f".8 0 0 0 k {FILL}", "/OC {on}"),
        "member": form(f".8 0 0 0 k {FILL}", "/OC << /Type /OCMD /OCGs [{off} {on}] /P /AnyOff >>"),
        "picture": image(b"\0\xff\0\0", "/DeviceCMYK", side=1, keys="/OC {noprint}"),
        "deep": form(
            "/F Do /OC /o BDC 0 0 0 1 k 0 0 20 20 re f EMC",
            "",
            "/XObject << /F {hidden} >> /Properties << /o {off} >>",
        ),
        "type3": "<< /Type /Font /Subtype /Type3 /FontBBox [0 0 1 1] /FontMatrix [1 0 0 1 0 0] /FirstChar 65 /LastChar 65 "
        "/Widths [1] /Encoding << /Differences [65 /A] >> /CharProcs << /A {glyph} >> /Resources << >> >>",
        "glyph": ("", b"1 0 0 0 1 1 d1 0 0 1 1 re f"),
        "look": form(f"0 1 0 0 k {FILL}"),
        "note": "<< /Type /Annot /Subtype /Stamp /F 4 /Rect [7 7 64 64] /OC {noprint} /AP << /N {look} >> >>",
    }
    member = "<< /Type /OCMD /OCGs {} /P /{} >>"
    properties = {
        "o": "{off}", "n": "{noprint}", "p": "{print}", "u": "{unasked}",
        "alloff": member.format("{off}", "AllOff"), "allon": member.format("[{off} {on}]", "AllOn"),
        "anyon": member.format("[{off} {on}]", "AnyOn"),
        "not": "<< /Type /OCMD /VE [/Not {off}] >>",
        "and": "<< /Type /OCMD /OCGs {on} /VE [/And {on} [/Or {off} {noprint}]] >>",
    }  # fmt: skip
    names = " ".join(f"/{name} {value}" for name, value in properties.items())
    resources = f"/Properties << {names} >> /Font << /T {{type3}} >> "
    resources += "/XObject << /H {hidden} /S {shown} /M {member} /I {picture} /D {deep} >>"
    paint, cyan = f"0 1 0 0 k {FILL}", f".8 0 0 0 k {FILL}"

    def marked(name, content):
        return f"{GROUND} /OC /{name} BDC {content} EMC"

    cells = {
        "a form that is off": (f"{GROUND} /H Do", OVER),
        "a form that is on": (f"{GROUND} /S Do", CYAN),
        "a form of a membership": (f"{GROUND} /M Do", CYAN),
        "a picture off for print": (f"{GROUND} q 20 0 0 20 0 0 cm /I Do Q", OVER),
        "forms within a form": (f"{GROUND} /D Do", OVER),
        "off": (marked("o", paint), OVER),
        "off for print": (marked("n", paint), OVER),
        "on for print": (marked("p", cyan), CYAN),
        "off for print, if asked": (marked("u", cyan), CYAN),
        "all off": (marked("alloff", cyan), CYAN),
        "all on": (marked("allon", paint), OVER),
        "any on": (marked("anyon", cyan), CYAN),
        "not": (marked("not", cyan), CYAN),
        "and, or": (marked("and", paint), OVER),
        "text, strokes, marks within": (
            marked("o", "0 1 0 0 k 0 1 0 0 K /P BMC BT /T 20 Tf (A) Tj ET EMC 20 w 0 10 m 20 10 l S"), OVER,
        ),
        "colour, clip and place remain": (
            f"{GROUND} /OC /o BDC .8 0 0 0 k 0 0 20 20 re W f BT /T 10 Tf (A) Tj EMC 0 10 Td (A) Tj ET {FILL}",
            CYAN,
        ),
    }  # fmt: skip
    state = "/OFF [{off} {print}] /ON [{on}] /AS [<< /Event /Print /Category [/Print] /OCGs [{noprint} {print}] >> "
    state += "<< /Event /View /Category [/View] /OCGs [{unasked}] >>]"
    groups_ = "[{off} {on} {noprint} {print} {unasked}]"
    return Sheet(
        cells, objects, resources, "/Annots [{note}]", f"/OCProperties << /OCGs {groups_} /D << {state} >> >>"
    )


def shadings():
    """Returns a page of shadings by functions, and of others that must not change."""
    calculator = "/FunctionType 4 /Domain [0 20 0 20] /Range [0 1 0 1 0 1 0 1]"
    corner = "/FunctionType 4 /Domain [0 1 0 1] /Range [0 1]"
    objects = {
        "flat": (calculator, b"{pop pop .4 0 0 0}"),
        "along": (calculator, b"{exch pop 20 div 0 exch 0 0}"),
        "samples": ("/FunctionType 0 /Domain [0 20 0 20] /Range [0 1 0 1 0 1 0 1] /Size [2 2] /BitsPerSample 8",
                    bytes([102, 51, 0, 0] * 4)),
        "round": (corner, b"{.5 sub dup mul exch .5 sub dup mul add sqrt .4 lt {0}{1} ifelse}"),
        "grey": ("/FunctionType 4 /Domain [0 20 0 20] /Range [0 1 0 1 0 1]", b"{pop pop .50196 dup dup}"),
        "spot": ("/FunctionType 4 /Domain [0 20 0 20] /Range [0 1]", b"{pop pop .5}"),
        "tint": "<< /FunctionType 2 /Domain [0 1] /C0 [0 0 0 0] /C1 [0 .6 1 0] /N 1 >>",
    }  # fmt: skip
    by = "<< /ShadingType 1 /ColorSpace {} /Domain [0 20 0 20] /Function {} {} >>"
    kinds = {
        "A": by.format("/DeviceCMYK", "{flat}", ""),
        "B": by.format("/DeviceCMYK", "{along}", ""),
        "C": by.format("/DeviceCMYK", "{samples}", ""),
        "D": "<< /ShadingType 1 /ColorSpace /DeviceGray /Matrix [20 0 0 20 0 0] /Function {round} >>",
        "E": by.format("/DeviceRGB", "{grey}", ""),
        "F": by.format("[/Separation /HOUSE /DeviceCMYK {tint}]", "{spot}", ""),
        "G": axial("/DeviceCMYK", TINT, TINT),
        "H": "<< /ShadingType 3 /ColorSpace /DeviceCMYK /Coords [10 10 0 10 10 30] /Function " + LINEAR.format(TINT, TINT) + " >>",
        "I": axial("/DeviceRGB", ".50196 .50196 .50196", ".50196 .50196 .50196"),
        "J": axial("/DeviceRGB", "1 0 0", "1 0 0"),
        "K": axial("/DeviceRGB", "0 0 0", "0 0 0"),
    }  # fmt: skip
    matrix = f"[{MILLIMETRE} 0 0 {MILLIMETRE} {{}} {{}}]"
    at = matrix.format(2.5 * MILLIMETRE, 2.5 * MILLIMETRE)
    patterns = f"/P << /PatternType 2 /Matrix {at} /Shading {kinds['A']} >>"
    ramp = (0, 50, 0, 0)
    cells = {
        "a constant": (f"{CLIP} /A sh", HALF), "along y": (f"{CLIP} /B sh", ramp), "samples": (f"{CLIP} /C sh", (40, 20, 0, 0)),
        "a disc": (f"{CLIP} /D sh", BLACK), "neutral RGB": (f"{CLIP} /E sh", GREY), "a spot": (f"{CLIP} /F sh", (0, 0, 0, 0, 50)),
        "axial": (f"{CLIP} /G sh", TINTED), "radial": (f"{CLIP} /H sh", TINTED), "neutral axial": (f"{CLIP} /I sh", GREY),
        "red axial": (f"{CLIP} /J sh", inks(255, 0, 0)), "black axial": (f"{CLIP} /K sh", BLACK),
        "outside of its domain": (f"{CLIP} 1 0 0 1 30 0 cm /A sh", BARE),
        "a pattern": (f"/Pattern cs /P scn {FILL}", HALF),
    }  # fmt: skip
    resources = "/Shading << " + " ".join(f"/{name} {value}" for name, value in kinds.items()) + " >> "
    return Sheet(cells, objects, resources + f"/Pattern << {patterns} >>", notes=("rgb",))


def see_seams(results, folder):
    """Tests that the ink of a gradient has no step, where it crosses grey or not, and that a grey one is black."""
    pages = Pages(folder, "seams")
    ends = {
        "orange to blue": (".9 .5 .1", ".1 .5 .9"), "green to magenta": ("0 .9 .1", ".9 .1 .8"),
        "black to white": ("0 0 0", "1 1 1"), "black to red": ("0 0 0", "1 0 0"),
    }  # fmt: skip
    bands = "".join(f"q 5 {80 - 20 * number} 90 15 re W n /S{number} sh Q\n" for number in range(len(ends)))
    names = " ".join(
        f"/S{number} {axial('/DeviceRGB', *colours, coords='5 0 95 0')}"
        for number, colours in enumerate(ends.values())
    )
    for name in ("A1", "A2"):
        Sheet(resources=f"/Shading << {names} >>", before=bands).write(pages.path(name))
    for dpi in RESOLUTIONS[1:]:
        intake(pages, house(2, dpi))
        plan = fields(os.path.join(pages.work, "plan.json"))
        made = planes(pages.work, plan["pages"][0], dpi).astype(int) if plan else None
        for number, name in enumerate(ends):
            if made is None:
                results.see(False, f"no page of gradients at {dpi}")
                continue
            row = made[
                :4,
                round((100 - 87 + 20 * number) * dpi / 25.4),
                round(6 * dpi / 25.4) : round(94 * dpi / 25.4),
            ]
            step = abs(row.sum(axis=0)[1:] - row.sum(axis=0)[:-1]).max()
            results.see(
                step <= 8, f"{name} at {dpi}: the sum of inks has a step of {step / 2.55:.1f} percent"
            )
            if name == "black to white":
                results.see(not row[:3].any(), f"{name} at {dpi}: coloured ink")
                wanted = inks(128, 128, 128)[3]
                results.see(
                    abs(row[3][row.shape[1] // 2] / 2.55 - wanted) <= 1.5, f"{name} at {dpi}: not {wanted}"
                )


def see_ink(results, folder):
    """Tests all pages of cells at resolutions below and above that from which pages are painted in strips."""
    blends = "/Group << /S /Transparency /CS /DeviceRGB >>"
    first, second = neutrals()
    sheets = {
        "masks in grey": mask_sheet("/CS /DeviceGray", ""),
        "masks in RGB": mask_sheet("/CS /DeviceRGB", PAGE_GROUP),
        "masks on a page in RGB": mask_sheet("/CS /DeviceGray", blends),
        "masks without a space": mask_sheet("", ""),
        "more masks": more_masks(),
        "groups": groups(),
        "greys": greys(),
        "neutral RGB": first,
        "RGB": second,
    }
    see_sheets(results, folder, "ink", sheets, RESOLUTIONS)
    more = {"optional content": optional(), "shadings": shadings()}
    see_sheets(results, folder, "more-ink", more, RESOLUTIONS)
    see_seams(results, folder)
