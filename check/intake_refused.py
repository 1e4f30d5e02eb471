"""Tests which pages are refused, with texts that name what is wrong, and pages that look like these and are made."""
import os
import re
import zlib

from intake_cells import Sheet, coded, form, house, image, mask, middle, planes
from intake_ink import BLACK, CYAN, FILL, GROUND, HALF, OVER, image_of, inks
from intake_pages import Pages, fields, intake

DPI = 127
PLAIN = {"cyan": (f".8 0 0 0 k {FILL}", CYAN)}
NOISE = bytes(37 * n * n % 251 for n in range(64 * 64 * 4))
PICTURE = "q 20 0 0 20 0 0 cm /I Do Q"
HELVETICA = "<< /Type /Font /Subtype /Type1 /BaseFont /Helvetica >>"
TEXT = "BT /H 12 Tf {} Tr 2 2 Td (Hi) Tj ET"
TABLE = "[/Indexed [/Separation /HOUSE /DeviceCMYK {tint}] 1 <0099>]"
TINTS = "/C0 [0 0 0 0] /C1 [0 0 0 1]"
NESTED = "[" * 3000 + "]" * 3000


def painted(content, resources="", **how):
    """Returns a page of one cell with this content after a cyan square."""
    return Sheet({"cyan": (f".8 0 0 0 k {FILL} {content}", CYAN)}, resources=resources, **how)


def jpeg(mode="RGB", **how):
    """Returns a JPEG file of 64 by 64 pixels."""
    count = {"L": 1, "RGB": 3, "CMYK": 4}[mode]
    return coded("JPEG", NOISE[: 64 * 64 * count], mode, 64, quality=90, **how)


def pictured(data, space="/DeviceRGB", filters="/DCTDecode", **how):
    """Returns a page with a picture that is a file of JPEG."""
    return painted(
        PICTURE, "/XObject << /I {picture} >>", objects={"picture": image_of(data, filters, space)}, **how
    )


def within(data, where):
    """Returns a page with a JPEG picture in a form, in a picture's soft mask, in a luminosity mask or inline."""
    if where == "inline":
        text = data.hex().upper()
        content = f"q 20 0 0 20 0 0 cm BI /W 64 /H 64 /CS /G /BPC 8 /F [/AHx /DCT] ID {text}> EI Q"
        return painted(content)
    objects = {"picture": image_of(data, "/DCTDecode", "/DeviceGray")}
    if where == "form":
        objects["form"] = form(PICTURE, "", "/XObject << /I {picture} >>")
        return painted("/F Do", "/XObject << /F {form} >>", objects=objects)
    if where == "soft mask":
        objects["outer"] = image(b"\0\0\0\xff", "/DeviceCMYK", side=1, keys="/SMask {picture}")
        return painted("q 20 0 0 20 0 0 cm /O Do Q", "/XObject << /O {outer} >>", objects=objects)
    objects["group"] = form(
        PICTURE, "/Group << /S /Transparency /CS /DeviceGray >>", "/XObject << /I {picture} >>"
    )
    return painted(f"/M gs {FILL}", f"/ExtGState << /M {mask('group')} >>", objects=objects)


def refused():
    """Returns pages that are refused, each with the kind of its fault and a pattern of its text."""
    cut = {name: jpeg(*how)[:-200] for name, how in {"RGB": (), "grey": ("L",), "CMYK": ("CMYK",)}.items()}
    spaces = {"RGB": "/DeviceRGB", "grey": "/DeviceGray", "CMYK": "/DeviceCMYK"}
    missing = {
        "font": ("BT /F2 12 Tf (a) Tj ET", "font F2"),
        "object": ("/X9 Do", "object X9"),
        "graphics state": ("/G9 gs", "graphics state G9"),
        "colour space": ("/C9 cs 1 scn", "colour space C9"),
        "shading": ("/S9 sh", "shading S9"),
        "pattern": ("/Pattern cs /P9 scn", "pattern P9"),
    }
    found = {
        f"no {name}": (painted(content), "damaged", rf"damaged: {what} isn't in the page's resources$")
        for name, (content, what) in missing.items()
    }
    inner = {"form": form("BT /F2 12 Tf (a) Tj ET")}
    loop = {"form": form("/F Do", "", "/XObject << /F {form} >>")}
    bad = "/P << /PatternType 2 /Shading << /ShadingType 2 /ColorSpace /DeviceCMYK /Coords [0 0 9 0] /Function {} >> >>"
    lost = "<< /FunctionType 4 >>"
    end = r" is a JPEG file without its end$"
    found |= {
        "no font in a form": (painted("/F Do", "/XObject << /F {form} >>", objects=inner), "damaged", "F2 isn't in the form F's"),
        "a form in itself": (painted("/F Do", "/XObject << /F {form} >>", objects=loop), "damaged", "the form F paints itself$"),
        "a pattern that can't be painted": (
            painted(f"/Pattern cs /P scn {FILL}", f"/Pattern << {bad.format(lost)} >>"), "damaged", "error in pattern$",
        ),
        "a font that shows": (painted(TEXT.format(0), f"/Font << /H {HELVETICA} >>"), "font", "not embedded: font Helvetica$"),
        "a font that clips": (painted(TEXT.format(7), f"/Font << /H {HELVETICA} >>"), "font", "not embedded: font Helvetica$"),
        "a font in a graphics state": (
            painted("/G gs BT 2 2 Td (Hi) Tj ET", f"/ExtGState << /G << /Font [{HELVETICA} 9] >> >>"), "font", "Helvetica$",
        ),
        "PostScript": (Sheet(PLAIN, first=b"%!PS\n"), "damaged", "it doesn't begin with %PDF-$"),
        "zeros in place of its end": (Sheet(PLAIN, extra=b"x" * 2000), "damaged", "no %%EOF at its end$"),
        "deep nesting": (Sheet(PLAIN, keys=f"/X {NESTED}"), "damaged", "damaged"),
        "a deep content": (painted("<<" * 3000 + ">>" * 3000 + " /F9 12 Tf (a) Tj"), "damaged", "font F9"),
        "JPEG within Flate": (
            pictured(zlib.compress(cut["RGB"]), filters="[/FlateDecode /DCTDecode]"), "damaged", f"picture I of the page{end}",
        ),
        "progressive JPEG": (pictured(jpeg(progressive=True)[:-300]), "damaged", f"the picture I of the page{end}"),
        "JPEG of its head alone": (pictured(jpeg()[:300]), "damaged", f"the picture I of the page{end}"),
        "JPEG with a preview": (pictured(with_preview(cut["RGB"])), "damaged", f"the picture I of the page{end}"),
        "progressive JPEG, ended": (
            pictured(jpeg(progressive=True)[:-300] + b"\xff\xd9"), "damaged", "of the page is a JPEG file without its last rows$",
        ),
    }  # fmt: skip
    rows = r" is a JPEG file without its last rows$"
    for name, data in cut.items():
        found[f"JPEG in {name}"] = pictured(data, spaces[name]), "damaged", f"the picture I of the page{end}"
        ended = data.rstrip(b"\xff") + b"\xff\xd9"
        found[f"JPEG in {name}, ended"] = (
            pictured(ended, spaces[name]), "damaged", f"the picture I of the page{rows}",
        )  # fmt: skip
    places = {
        "inline": "an inline picture of the page",
        "form": "the picture I of the form F", "soft mask": "the mask of the picture O of the page",
        "luminosity mask": "the picture I of a soft mask of the page",
    }  # fmt: skip
    for where, named in places.items():
        found[f"JPEG in a {where}"] = within(cut["grey"], where), "damaged", named + end
        found[f"JPEG in a {where}, ended"] = within(cut["grey"] + b"\xff\xd9", where), "damaged", named + rows
    return found


def with_preview(data):
    """Returns a JPEG file with a whole JPEG file in an application's segment."""
    inner = b"Exif\0\0" + jpeg("L")
    return data[:2] + b"\xff\xe1" + (len(inner) + 2).to_bytes(2, "big") + inner + data[2:]


def accepted():
    """Returns pages that are made, though they look like those that are refused."""
    forged = (
        "/Title (x\\nPages: 7\\nPage    1 MediaBox: 0 0 9 9\\nPage    1 TrimBox: 0 0 9 9\\nPage    1 rot: 90)"
    )
    shared = {
        "names": "<< /XObject << /F {form} /G {group} >> /ExtGState << /M {state} >> >>",
        "form": form(f".8 0 0 0 k {FILL}"),
        "group": form(f".5 g {FILL}", "/Group << /S /Transparency /CS /DeviceGray >>"),
        "state": "<< /SMask << /S /Luminosity /G {group} >> >>",
    }
    for name in ("form", "group"):
        head, data = shared[name]
        shared[name] = head.replace("/Resources <<  >>", "/Resources {names}"), data
    alpha = coded("JPEG2000", b"\0\0\0\x80" * 64 * 64, "RGBA", 64)
    four = tuple(ink / 2 for ink in four_inks())
    grey = jpeg("L")
    return {
        "zeros after its end": Sheet(PLAIN, extra=bytes(2000)),
        "metadata": Sheet(
            {"black": (f"0 0 0 rg {FILL}", BLACK)}, {"data": ("/Type /Metadata /Subtype /XML", b"<x/>")},
            root="/Metadata {data}",
        ),
        "a unit of 1": Sheet(PLAIN, keys="/UserUnit 1"),
        "a unit of 2": Sheet(PLAIN, keys="/UserUnit 2", unit=2),
        "a unit of a half": Sheet(PLAIN, keys="/UserUnit .5", unit=0.5),
        "a font that isn't used": painted("", f"/Font << /H {HELVETICA} >>"),
        "a font that is chosen": painted("BT /H 12 Tf ET", f"/Font << /H {HELVETICA} >>"),
        "a font that is invisible": painted(TEXT.format(3), f"/Font << /H {HELVETICA} >>"),
        "a forged title": Sheet(PLAIN, {"info": f"<< {forged} >>"}, root=f"/Info {{info}} {forged}"),
        "shared resources": Sheet(
            {"form": ("/F Do", CYAN), "mask": (f"/M gs .8 0 0 0 k {FILL}", HALF)}, shared,
            "/XObject << /F {form} /G {group} >> /ExtGState << /M {state} >>",
        ),
        "JPEG": pictured(jpeg(), notes=("rgb",)),
        "progressive JPEG": pictured(jpeg(progressive=True), notes=("rgb",)),
        "JPEG with bytes after its end": pictured(jpeg() + b"\n\0\0", notes=("rgb",)),
        "grey JPEG in a form": within(grey, "form"),
        "alternates": alternates(),
        "a table in the house's spot": Sheet(
            {"spot": (f"/X cs 1 scn {FILL}", (0, 0, 0, 0, 60)), "picture": (PICTURE, (0, 0, 0, 0, 60))},
            {"tint": f"<< /FunctionType 2 /Domain [0 1] {TINTS} /N 1 >>", "picture": image(b"\1" * 16, TABLE)},
            f"/ColorSpace << /X {TABLE} >> /XObject << /I {{picture}} >>",
        ),
        "the separation None": Sheet(
            {"ground": (f"{GROUND} /N cs .5 scn {FILL}", OVER)}, {"tint": f"<< /FunctionType 2 /Domain [0 1] {TINTS} /N 1 >>"},
            "/ColorSpace << /N [/Separation /None /DeviceCMYK {tint}] >>", notes=("uncompared",),
        ),
        "JPEG that ends in grey": pictured(coded("JPEG", b"\x80" * 64 * 64, "L", 64), "/DeviceGray"),
        "alpha within JPEG 2000": Sheet(
            {"half black": (PICTURE, four)},
            {"picture": image_of(alpha, "/JPXDecode", "", keys="/SMaskInData 1")}, "/XObject << /I {picture} >>",
            notes=("rgb",),
        ),
        "Lab": Sheet(
            {"red": (f"/L cs 53.24 80.09 67.2 sc {FILL}", inks(255, 0, 0)), "black": (f"/L cs 0 0 0 sc {FILL}", BLACK)},
            resources="/ColorSpace << /L [/Lab << /WhitePoint [.9642 1 .8249] /Range [-128 127 -128 127] >>] >>",
            notes=("rgb",),
        ),
    }  # fmt: skip


def alternates():
    """Returns a page of two pictures, one of which has another for print."""
    names, objects = "", {"half": image(b"\x80" * 16, "/DeviceGray")}
    for name, word in (("P", "true"), ("Q", "false")):
        other = f"/Alternates [<< /Image {{half}} /DefaultForPrinting {word} >>]"
        objects[name] = image(bytes(16), "/DeviceGray", keys=other)
        names += f"/{name} {{{name}}} "
    cells = {"for print": ("20 0 0 20 0 0 cm /P Do", (0, 0, 0, 50)), "for others": ("20 0 0 20 0 0 cm /Q Do", BLACK)}
    return Sheet(cells, objects, f"/XObject << {names} >>")


def four_inks():
    """Returns the inks of black in an RGB picture: the profile's, which are those of a colour next to black."""
    from PIL import Image, ImageCms

    change = ImageCms.buildTransform(
        ImageCms.createProfile("sRGB"), "/usr/share/color/icc/ghostscript/default_cmyk.icc", "RGB", "CMYK", renderingIntent=1,
        flags=ImageCms.FLAGS["BLACKPOINTCOMPENSATION"],
    )  # fmt: skip
    return tuple(
        ink / 2.55 for ink in ImageCms.applyTransform(Image.new("RGB", (1, 1)), change).getpixel((0, 0))
    )


def see_refused(results, folder):
    """Tests pages that are refused, and the texts of their faults."""
    pages = Pages(folder, "refused", count=(len(refused()) + 1) // 2 * 2)
    for number, (sheet, _, _) in enumerate(refused().values(), 1):
        sheet.write(pages.path(f"A{number}"))
    found, _ = intake(pages, house(pages.count, DPI))
    faults = {item["file"]: item for item in found if item["event"] == "fault"}
    for number, (name, (_, kind, pattern)) in enumerate(refused().items(), 1):
        fault = faults.get(f"A{number}.pdf", {})
        right = fault.get("kind") == kind and re.search(pattern, fault["text"])
        results.see(right, f"{name}: {fault or 'is made'}, not {kind} {pattern}")


def see_accepted(results, folder):
    """Tests pages that are made, their ink and their notes; and Lab where the house refuses RGB."""
    kinds = accepted()
    pages = Pages(folder, "accepted", count=(len(kinds) + 1) // 2 * 2)
    for number, sheet in enumerate(kinds.values(), 1):
        sheet.write(pages.path(f"A{number}"))
    found, _ = intake(pages, house(pages.count, DPI), "--partial")
    made = {page["name"]: page for page in fields(os.path.join(pages.work, "plan.json"))["pages"]}
    for number, (kind, sheet) in enumerate(kinds.items(), 1):
        said = [item for item in found if item.get("file") == f"A{number}.pdf" and item["event"] != "page"]
        results.see(tuple(item["kind"] for item in said) == sheet.notes, f"{kind}: {said}")
        if f"A{number:02}" in made:
            ink = planes(pages.work, made[f"A{number:02}"], DPI)
            for place, (name, (_, wanted)) in enumerate(sheet.cells.items()):
                got, close = middle(ink, place, DPI), 3 if kind in ("Lab", "alpha within JPEG 2000") else 1.5
                if "JPEG" not in kind or kind.startswith("alpha"):
                    right = all(abs(one - other) <= close for one, other in zip(got, (*wanted, 0)[:5]))
                    results.see(right, f"{kind}: {name}: {got}, not {wanted}")
    found, _ = intake(pages, house(pages.count, DPI, "refuse"))
    number = list(kinds).index("Lab") + 1
    said = [
        item["kind"] for item in found if item.get("file") == f"A{number}.pdf" and item["event"] == "fault"
    ]
    results.see(said == ["rgb"], f"Lab where RGB is refused: {said}")


def see_names(results, folder):
    """Tests names of files that aren't text or have an end of line: each is named on a line of its own."""
    pages = Pages(folder, "names")
    for number in (1, 2):
        Sheet(PLAIN).write(pages.path(f"A{number}"))
    stem = os.fsencode(pages.folder)
    for name in (b"A1\xe9.pdf", b"A2\nfault: A1.pdf: forged.pdf", b"x\x1b[2Jy.pdf", "é.pdf".encode()):
        with open(os.path.join(stem, name), "wb") as file:
            file.write(b"x")
    found, status = intake(pages, house(2, DPI))
    strays = [item["file"] for item in found if item["event"] == "note" and item["kind"] == "stray"]
    results.see(
        status == 0 and len(strays) == 4 and not pages.said,
        f"names of strays: {status} {strays} {pages.said}",
    )
    results.see("A1\udce9.pdf" in strays, f"a name in Latin-1: {strays}")
    pattern = house(2, DPI).replace('edition = "E1"', 'edition = "E1"\nnames = "{section}{page}*"')
    found, status = intake(pages, pattern)
    kinds = sorted((item["kind"], item["file"]) for item in found if item["event"] == "fault")
    results.see(
        kinds and {kind for kind, _ in kinds} <= {"second", "file"}, f"a page's name in Latin-1: {kinds}"
    )
    os.remove(pages.path("A1"))
    found, status = intake(pages, pattern)
    kinds = [(item["kind"], item["file"]) for item in found if item["event"] == "fault"]
    results.see(
        kinds == [("file", "A1\udce9.pdf")] and not pages.said,
        f"a page's name in Latin-1: {kinds} {pages.said}",
    )


def see_words(results, folder):
    """Tests all of this module."""
    see_refused(results, folder)
    see_accepted(results, folder)
    see_names(results, folder)
