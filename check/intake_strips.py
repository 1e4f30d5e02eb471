"""Tests that pages painted in strips have the same pixels as those that `gs` renders to a file, and that
pages that may have RGB are recognized.
"""
import os
import shutil
import subprocess
import sys

from intake_pages import PROFILE
from newspaper import NEWSPAPER, TOP

sys.path[:0] = [NEWSPAPER, os.path.join(TOP, "tools")]
from pdf import Pdf
from pressroom.base.limits import Limits
from pressroom.intake import profiles
from pressroom.intake.ghostscript import Ghostscript
from pressroom.intake.pdf import Refused, inspect
from pressroom.reading.tokens import Watch, instructions
from pressroom.tiff.tiff import Tiff

# 60.96 by 81.28 mm: 14 million pixels.
DPI, SIZE = 1350, (3240, 4320)
TEXT = "0 0 0 1 setcmykcolor /Times-Roman findfont {} scalefont setfont 12 {} moveto (Harbour & quay) show\n"
TEXTS = TEXT.format(7, 200) + TEXT.format(60, 150)
PICTURE = "gsave 60 90 translate 80 70 scale 12 rotate {0} setcolorspace << /ImageType 1 /Width {3} /Height {3} "
PICTURE += "/BitsPerComponent 8 /Decode [{1}] /ImageMatrix [{3} 0 0 {3} 0 0] /DataSource <{2}> >> image grestore\n"
CURVE = "3 setlinewidth 10 10 moveto 160 20 10 90 150 110 curveto stroke 0.7 setgray 90 60 40 0 300 arc fill\n"
SPOT = "[/Separation /{} /DeviceCMYK {{ 0 exch dup 0.6 mul exch 0 }}] setcolorspace {} setcolor {} 40 30 30 rectfill\n"


def picture(space, count, side=40):
    """Returns a picture of so many components and so many pixels a side. pdfwrite writes small ones inline."""
    data = bytes(37 * n * n % 251 for n in range(side * side * count))
    return PICTURE.format(space, "0 1 " * count, data.hex(), side)


# Pages, whether they may have RGB, and whether they may be painted in strips.
KINDS = {
    "black": (TEXTS + CURVE, False, True),
    "picture": (picture("/DeviceCMYK", 4) + TEXTS, False, True),
    "picture in the line": (picture("/DeviceCMYK", 4, 16) + TEXTS, False, True),
    "rgb": (picture("/DeviceRGB", 3) + TEXTS, True, True),
    "rgb text": (TEXTS.replace("0 0 0 1 setcmykcolor", "0.2 0.4 0.1 setrgbcolor"), True, True),
    "house": (picture("/DeviceCMYK", 4) + SPOT.format("HOUSE", 1, 20) + SPOT.format("HOUSE", 0.3, 50), False, True),
    "mixed": (picture("/DeviceCMYK", 4) + SPOT.format("OTHER", 0.5, 70) + TEXTS, False, True),
    "two spots": (SPOT.format("HOUSE", 1, 20) + SPOT.format("OTHER", 0.5, 70), False, False),
    "overprint": (picture("/DeviceCMYK", 4) + "true setoverprint\n" + TEXTS, False, False),
    "transparent": (picture("/DeviceCMYK", 4) + "0.5 .setfillconstantalpha\n" + TEXTS, False, False),
}
# Content streams, and the colour operators that stand in them.
CONTENTS = (
    (b"0 0 0 1 k (large Norge) Tj [(a\\)rg)-20(RG)] TJ /P <</MCID 0>> BDC", ["k"]),
    (b"1 0 0 rg", ["rg"]),
    (b"1 0 0 RG", ["RG"]),
    (b"q1 0 0rgQ", ["rg"]),
    (b"/DeviceRGB cs 1 0 0 sc", ["cs", "sc"]),
    (b"(a) Tj % (\n1 0 0 rg\n% )", ["rg"]),
    (b"((a) b) Tj 1 0 0 k", ["k"]),
    (b"BI /W 1 /H 1 /CS /G /BPC 8 ID ( EI 1 0 0 rg )", ["rg"]),
    (b"BI /W 8 /H 1 /CS /G /BPC 8 ID  EI RG k EI 1 0 0 rg", ["rg"]),
    (b"[(a) 1 (b\\)) <72672072> (rg) 0.5] TJ << /A (rg) /B << /C [/rg] >> >> 1 0 0 rg", ["rg"]),
    (b"(a Tj 1 0 0 rg", []),
)


def files(folder):
    """Returns the rows of all TIFF files in a folder."""
    found = {}
    for name in sorted(os.listdir(folder)):
        if name.endswith(".tif"):
            image = Tiff(os.path.join(folder, name))
            found[name] = [list(image.rows(plane=plane)) for plane in range(4 if image.planar == 2 else 1)]
            image.close()
    return found


def see_strips(results, folder):
    """Tests each kind of page, painted in strips and rendered to a file."""
    for text, right in CONTENTS:
        found = [item.operator.decode() for item in instructions(text, Watch())]
        found = [word for word in found if word in ("rg", "RG", "k", "cs", "sc")]
        results.see(found == right, f"{text!r}: the colour operators are {found}")
    given = os.path.join(folder, "strips")
    os.makedirs(given)
    profiles.write_profiles(given, PROFILE)
    version = subprocess.run(["gs", "--version"], capture_output=True, text=True, check=True).stdout.strip()
    for kind, (body, rgb, strips) in KINDS.items():
        places = [os.path.join(folder, f"strips-{way}-{kind.replace(' ', '-')}") for way in ("memory", "file")]
        words = ["gs", "-q", "-dNOPAUSE", "-dBATCH", "-dNOSAFER", "-dALLOWPSTRANSPARENCY", "-sDEVICE=pdfwrite"]
        words += [f"-sOutputFile={given}/page.pdf", "-c", "<< /NeverEmbed [] >> setdistillerparams", "-f", "-"]
        text = f"%!PS\n<< /PageSize [172.8 230.4] >> setpagedevice\n{body}showpage\n"
        subprocess.run(words, input=text.encode(), check=True, capture_output=True)
        for place in places:
            shutil.copytree(given, place)
        name, inspected = inspect(Limits(), "page.pdf", places[0])
        shutil.copy(os.path.join(places[0], name), places[1])
        planes = inspected.may_be_painted(len(inspected.spots))
        results.see((inspected.rgb, planes) == (rgb, strips), f"{kind}: {inspected}")
        calls = [Ghostscript(version, Limits(), name, inspected.box, place) for place in places]
        wanted, wanted_seen = calls[1].separate(DPI, SIZE, "HOUSE", False)
        painted = calls[0].painted(DPI, SIZE, "HOUSE") if strips else None
        results.see(bool(painted) == strips, f"{kind}: painted in strips: {painted}")
        if painted:
            results.see(painted[0] == wanted, f"{kind}: in strips: {painted[0]}, in a file: {wanted}")
            results.see((painted[1] == wanted_seen).all(), f"{kind}: the low resolutions differ")
            results.see(files(places[0]) == files(places[1]), f"{kind}: pixels differ")
        if kind == "black":
            other = Ghostscript("9.55.0", Limits(), name, inspected.box, places[0])
            results.see(other.painted(DPI, SIZE, "HOUSE") is None, "a library of another version is used")
        for place in places:
            shutil.rmtree(place)
    see_by_hand(results, given, version)


def by_hand(folder, content, head=None, samples=b"", keys=""):
    """Writes a page by hand, with a picture if `head` is given."""
    pdf = Pdf()
    image = pdf.add(f"/Type /XObject /Subtype /Image {head}", samples) if head else 0
    text = pdf.add("", content)
    keys += f" /Contents {text} 0 R /Resources << " + (f"/XObject << /I {image} 0 R >> >>" if image else ">>")
    page = pdf.add(f"<< /Type /Page /Parent {text + 2} 0 R /MediaBox [0 0 172.8 230.4] {keys} >>")
    pages = pdf.add(f"<< /Type /Pages /Kids [{page} 0 R] /Count 1 >>")
    pdf.write(os.path.join(folder, "page.pdf"), pdf.add(f"<< /Type /Catalog /Pages {pages} 0 R >>"))


def see_by_hand(results, folder, version):
    """Tests a page that is a group, and a picture with too few samples. Ghostscript repairs the picture, so the
    library's page isn't used, and `gs` reports what is wrong.
    """
    call = Ghostscript(version, Limits(), "page.pdf", "Crop", folder)
    curve = b"0.3 0 0 1 k 0 0 1 0.2 K 2 w 10 10 m 160 20 10 90 150 110 c b 20 120 60 60 re f"
    by_hand(folder, curve, keys="/Group << /S /Transparency /CS /DeviceCMYK >>")
    results.see(inspect(Limits(), "page.pdf", folder)[1].may_be_painted(0), "a page that is a group may not be painted")
    painted = call.painted(DPI, SIZE, None)
    found = files(folder)
    wanted, seen = call.separate(DPI, SIZE, None, False)
    results.see(painted and painted[0] == wanted and (painted[1] == seen).all(), f"a group: {painted}, not {wanted}")
    results.see(found == files(folder), "a group: pixels differ")
    head = "/Width 100 /Height 100 /ColorSpace /DeviceGray /BitsPerComponent 8"
    by_hand(folder, b"q 99 0 0 99 0 0 cm /I Do Q", head, bytes(1000))
    results.see(call.painted(DPI, SIZE, None) is None, "a picture with too few samples is used")
    try:
        call.separate(DPI, SIZE, None, True)
        said = "nothing"
    except Refused as error:
        said = str(error)
    results.see(said == "damaged: recoverable image error", f"a picture with too few samples: {said}")
