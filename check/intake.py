#!/usr/bin/env python3
"""Tests `pressroom intake`: generated pages become plates, and faults are reported by page.

python3 check/intake.py PROGRAM

The pages are PDFs made with Ghostscript's pdfwrite, with the other PDF writers that are installed, and by
hand. The check counts the pixels on their plates, or compares the plates with poppler's rendering. It needs
Ghostscript, qpdf, mupdf-tools, poppler-utils, libtiff-tools, numpy, Pillow and pikepdf, and is skipped without
them. The last line is `N passed, M failed`, and the status is 1 if a test failed.
"""
import json
import os
import re
import shutil
import subprocess
import sys
import tempfile
import threading
import time

sys.dont_write_bytecode = True
from intake_corpus import see_corpus
from intake_ink import see_ink
from intake_inks import see_bands, see_inks
from intake_nested import see_nested
from intake_notes import see_notes
from intake_pages import HOUSE, Pages, events, fields, intake, missing_program, plates_of
from intake_refused import see_words
from intake_second import see_second
from intake_strips import see_strips
from newspaper import NEWSPAPER, TOP, missing
from trial import Count

sys.path.insert(0, NEWSPAPER)
from pdf import Pdf

DPI = 300


def box(x, y, width, height):
    """Converts a box in points from the page's lower left corner to pixels on the plate of the first page."""
    left = HOUSE.right + round(x * DPI / 72)
    top = HOUSE.top + HOUSE.height - round((y + height) * DPI / 72)
    return left, top, round(width * DPI / 72), round(height * DPI / 72)


def see_pixels(results, program, folder):
    """Counts the pixels of solids, bare paper, white text, knockouts and overprints on the plates of one page.

    The letters are placed at whole pixels, so they have the same pixels everywhere: white letters clear the
    same pixels that black letters print on bare paper.
    """
    pages = Pages(folder, "pixels")
    pages.write("A1", PIXELS)
    pages.write("A2", "0.2 setgray 24 24 48 48 rectfill")
    found, status = intake(pages, pages.house(spot="HOUSE"))
    results.see(status == 0 and not events(found, "fault"), f"the page of pixels: {found}")
    if status:
        return
    plates = plates_of(results, program, pages)

    def ones(ink, place):
        x, y, width, height = box(*place)
        return round(plates(ink).share(x, y, width, height) * width * height)

    each = 48 * 24 * DPI * DPI // (72 * 72)
    letters = ones("K", CELLS["black"])
    results.see(0.1 * each < letters < 0.6 * each, f"black letters have {letters} pixels")
    for name, wanted in (
        ("solid", {"K": each}),
        ("bare", {}),
        ("black", {"K": letters}),
        ("rgb black", {"K": letters}),
        ("magenta", {"M": letters}),
        ("white on picture", {"C": each - letters, "M": each - letters}),
        ("white on spot", {"S": each - letters}),
        ("black overprints spot", {"S": each, "K": letters}),
        ("black knocks out spot", {"S": each - letters, "K": letters}),
        ("spot overprints cyan", {"C": each, "S": letters}),
        ("spot knocks out cyan", {"C": each - letters, "S": letters}),
        ("cyan overprints magenta in mode 0", {"M": each - letters, "C": letters}),
        ("rgb white on cyan", {"C": each - letters}),
    ):
        got = {ink: ones(ink, CELLS[name]) for ink in "CMYKS"}
        wanted = {ink: wanted.get(ink, 0) for ink in "CMYKS"}
        results.see(got == wanted, f"{name}: {got}, and not {wanted}")
    # A tint of 40 percent under bayer8: 26 of 64 thresholds are below 102.
    got = ones("S", CELLS["tint of spot"])
    results.see(abs(got / each - 26 / 64) < 0.004, f"a tint of 40 percent of the spot has {got / each:.4f}")


NAMES = (
    "solid", "bare", "black", "rgb black", "magenta", "white on picture", "white on spot", "black overprints spot",
    "black knocks out spot", "spot overprints cyan", "spot knocks out cyan", "cyan overprints magenta in mode 0",
    "rgb white on cyan", "tint of spot",
)  # fmt: skip
# Two columns of cells of 48 by 24 points; the pixel is 0.24 points.
CELLS = {name: (12 + 72 * (number % 2), 12 + 28.8 * (number // 2), 48, 24) for number, name in enumerate(NAMES)}
PAINTED = {
    "solid": "0 0 0 1 setcmykcolor FILL",
    "bare": "0 0 0 0 setcmykcolor FILL",
    "black": "0 0 0 1 setcmykcolor TEXT",
    "rgb black": "0 0 0 setrgbcolor TEXT",
    "magenta": "0 1 0 0 setcmykcolor TEXT",
    "white on picture": "PICTURE 0 0 0 0 setcmykcolor TEXT",
    "white on spot": "1 HOUSE FILL 0 0 0 0 setcmykcolor TEXT",
    "black overprints spot": "1 HOUSE FILL true setoverprint 0 0 0 1 setcmykcolor TEXT false setoverprint",
    "black knocks out spot": "1 HOUSE FILL 0 0 0 1 setcmykcolor TEXT",
    "spot overprints cyan": "1 0 0 0 setcmykcolor FILL true setoverprint 1 HOUSE TEXT false setoverprint",
    "spot knocks out cyan": "1 0 0 0 setcmykcolor FILL 1 HOUSE TEXT",
    "cyan overprints magenta in mode 0": "0 1 0 0 setcmykcolor FILL true setoverprint 1 0 0 0 setcmykcolor TEXT "
    "false setoverprint",
    "rgb white on cyan": "1 0 0 0 setcmykcolor FILL 1 1 1 setrgbcolor TEXT",
    "tint of spot": "0.4 HOUSE FILL",
}
PIXELS = """
/HOUSE { [/Separation /HOUSE /DeviceCMYK { 0 exch dup 0.6 mul exch 0 }] setcolorspace setcolor } def
/FILL { 0 0 48 24 rectfill } def
/TEXT { /Helvetica-Bold findfont 24 scalefont setfont 2.4 2.4 moveto (Hi) show } def
/PICTURE { gsave 48 24 scale /DeviceCMYK setcolorspace << /ImageType 1 /Width 2 /Height 2 /BitsPerComponent 8
/Decode [0 1 0 1 0 1 0 1] /ImageMatrix [2 0 0 2 0 0] /DataSource <FFFF0000FFFF0000FFFF0000FFFF0000> >> image
grestore } def
""" + "\n".join(f"gsave {CELLS[name][0]} {CELLS[name][1]} translate {PAINTED[name]} grestore" for name in NAMES)

BLACK = "0 0 0 1 setcmykcolor /Helvetica findfont 12 scalefont setfont 20 100 moveto (Harbour) show\n"
FOUR = "0.4 0.4 0.4 0.4 setcmykcolor 10 20 150 60 rectfill 0 0 0 0 setcmykcolor\n"
TEXT = "/Helvetica findfont {} scalefont setfont 20 40 moveto (small and white) show\n"
OTHER = "[/Separation (OTHER) cvn /DeviceCMYK {{ dup 0 exch 0 }}] setcolorspace {} setcolor 40 20 30 30 rectfill\n"

RAMP = "[/Separation /HOUSE /DeviceCMYK {{ 0 exch dup 0 exch }}] setcolorspace "
RAMP += "0 1 {} {{ dup {} div setcolor {} mul 50 {} 20 rectfill }} for"

# Pages that have a note or a fault, and pages that nearly have one: the body, how the page is made, and the
# expected event for a house that converts and mixes, and for one that refuses. An empty text is no event.
TRIED = {
    1: (BLACK, {}, "", ""),
    2: (BLACK + "1 0 0 setrgbcolor 30 20 40 40 rectfill", {}, "note rgb", "fault rgb"),
    3: (BLACK + "0 setgray 0 0 0 setrgbcolor 30 20 40 40 rectfill 1 1 1 setrgbcolor 40 40 9 9 rectfill", {}, "", ""),
    4: (BLACK + "showpage", {}, "note pages", "note pages"),
    5: (BLACK, {"turn": 180}, "note rotated", "note rotated"),
    6: (BLACK + OTHER.format(1), {}, "note spot", "fault spot"),
    7: (BLACK + OTHER.format(0), {}, "", ""),
    8: (BLACK + OTHER.replace("OTHER", "HOUSE").format(1), {}, "", ""),
    9: (BLACK, {"trim": False}, "note trim", "note trim"),
    10: (BLACK + "0.9 0.9 0.9 0.9 setcmykcolor 10 10 100 80 rectfill", {}, "note limit", "note limit"),
    11: (BLACK + "0.9 0.9 0.9 0.9 setcmykcolor 10 10 20 20 rectfill", {}, "", ""),
    12: (BLACK + "0.6 0.6 0.6 0.4 setcmykcolor 10 10 100 80 rectfill", {}, "", ""),
    13: (BLACK + FOUR + TEXT.format(6), {}, "note white", "note white"),
    14: (BLACK + FOUR + TEXT.format(20), {}, "", ""),
    15: (BLACK + FOUR.replace("0.4 0.4 0.4 0.4", "0 0 0 1") + TEXT.format(6), {}, "", ""),
    16: (BLACK, {"size": (64, 81.28)}, "fault size", "fault size"),
    17: (BLACK, {"size": (61.3, 81.28)}, "", ""),
    18: (BLACK, {"embed": False}, "fault font", "fault font"),
    19: (BLACK, {"password": "sesame"}, "fault locked", "fault locked"),
    20: (BLACK, {"owner": "sesame"}, "", ""),
    21: (BLACK, {"cut": 0.5}, "fault damaged", "fault damaged"),
    22: (BLACK, {"cut": 0.97}, "fault damaged", "fault damaged"),
    23: (BLACK, {"broken": True}, "fault damaged", "fault damaged"),
    26: (None, {}, "fault damaged", "fault damaged"),
    24: (RAMP.format(99, 100, 1, 1), {}, "note tints", "note tints"),
    25: (RAMP.format(19, 20, 5, 5), {}, "", ""),
    # Page 26 has a picture with too few samples, 27 has two files, 28 is listed as blank and has a file, 29 has
    # no file, and 30 is listed as blank.
    27: (BLACK, {}, "fault second", "fault second"),
    28: (BLACK, {}, "fault blank", "fault blank"),
}  # fmt: skip
PLACED = {"rgb": (10.6, 60.1, 14.1, 14.1), "spot": (14.1, 63.6, 10.6, 10.6), "white": (7.1, 65.7, None, None)}


def see_told(results, folder):
    """Tests that each page reports the faults and notes that it has, and no other page does."""
    pages = Pages(folder, "told", count=30, blank=["A28", "A30"])
    for number, (body, how, _, _) in TRIED.items():
        if body is not None:
            pages.write(f"A{number:02}", body, **how)
    image = "/Type /XObject /Subtype /Image /Width 100 /Height 100 /ColorSpace /DeviceGray /BitsPerComponent 8"
    by_hand(
        pages.path("A26"), b"q 99 0 0 99 0 0 cm /I Do Q", "/XObject << /I {} 0 R >>", add=[(image, bytes(1000))]
    )  # fmt: skip
    shutil.copy(pages.path("A27"), pages.path("A0027"))
    shutil.copy(pages.path("A25"), pages.path("A31"))
    with open(os.path.join(pages.folder, "notes.txt"), "w") as file:
        file.write("not a page")
    for column, colour in ((2, "convert"), (3, "refuse")):
        found, status = intake(pages, pages.house(spot="HOUSE", colour=colour, limit=240))
        wanted = {"fault": [("A29", "missing")], "note": [("A31.pdf", "stray"), ("notes.txt", "stray")]}
        for number, how in TRIED.items():
            if how[column]:
                event, kind = how[column].split()
                name = "A0027.pdf" if kind == "second" else f"A{number:02}.pdf"
                wanted[event].append((name, kind))
        for event in wanted:
            got, right = set(events(found, event)), set(wanted[event])
            results.see(got == right, f"{colour}: unexpected {event}s {got - right}, missing {right - got}")
        results.see(status == 1, f"{colour}: the status is {status}")
        results.see(not os.path.exists(os.path.join(pages.work, "plan.json")), f"{colour}: a plan is written")
        for item in found:
            see_place(results, colour, item)
        see_texts(results, found)
    found, status = intake(pages, pages.house(spot="HOUSE", colour="convert", limit=240), "--partial")
    plan = fields(os.path.join(pages.work, "plan.json"))
    names = plan["sections"][0]["pages"] if plan else []
    blank = [number for number, name in enumerate(names, 1) if name == "blank"]
    results.see(status == 1 and blank == [16, 18, 19, 21, 22, 23, 26, 27, 28, 29, 30], f"--partial: {blank}")


def see_place(results, colour, item):
    """Tests the place of an event in millimetres, on pages with one object of the kind."""
    if item.get("kind") not in PLACED or item["event"] not in ("fault", "note"):
        return
    right = PLACED[item["kind"]]
    off = [abs(got - want) for got, want in zip(item["at"], right) if want is not None]
    results.see(max(off) <= 0.8, f"{colour}: {item['text']}: its place isn't {right}")


def see_texts(results, found):
    """Tests the texts of faults."""
    texts = {item["file"]: item["text"] for item in found if item["event"] == "fault"}
    for name, pattern in (
        ("A16.pdf", r"trim 64\.0 x 81\.3 mm, not 60\.96 x 81\.28: 3\.0 mm too wide$"),
        ("A18.pdf", r"not embedded: font Helvetica$"),
        ("A22.pdf", r"incomplete: no %%EOF at its end$"),
        ("A19.pdf", r"it needs a password$"),
        ("A0027.pdf", r"a second file for A27: A27\.pdf$"),
        ("A29", r"no file for this page$"),
        ("A26.pdf", r"damaged: recoverable image error$"),
    ):
        results.see(re.search(pattern, texts.get(name, "")), f"the line of {name} is {texts.get(name)!r}")


def by_hand(path, content, resources="", **more):
    """Writes a PDF of one page by hand. Objects of `add` come first; format puts their numbers into the texts."""
    pdf = Pdf()
    numbers = [pdf.add(*item) for item in more.get("add", ())]
    stream, size = pdf.add("", content), "[0 0 172.8 230.4]"
    number = len(pdf.objects) + 1
    keys = f"/Resources << {resources.format(*numbers)} >> {more.get('keys', '').format(*numbers)}"
    head = f"/Type /Page /Parent {number + 1} 0 R /MediaBox {size} /TrimBox {size}"
    pdf.add(f"<< {head} /Contents {stream} 0 R {keys} >>")
    pdf.add(f"<< /Type /Pages /Kids [{number} 0 R] /Count 1 >>")
    pdf.write(path, pdf.add(f"<< /Type /Catalog /Pages {number + 1} 0 R >>"))


def see_colours(results, program, folder):
    """Tests that CMYK keeps its numbers when it's tagged with a profile, and when its page blends in RGB."""
    pages = Pages(folder, "colours")
    with open("/usr/share/color/icc/ghostscript/ps_cmyk.icc", "rb") as file:
        profile = file.read()
    by_hand(
        pages.path("A1"),
        b"/T cs 0 0 0 1 sc 12 12 48 24 re f 1 0 0 0 sc 84 12 48 24 re f "
        b"0 1 0 0 k 12 48 48 24 re f /O gs 1 0 0 0 k 12 48 48 24 re f",
        "/ColorSpace << /T [/ICCBased {} 0 R] >> /ExtGState << /O << /OP true /op true /OPM 1 >> >>",
        add=[("/N 4", profile)],
    )  # fmt: skip
    by_hand(
        pages.path("A2"),
        b"0 0 0 1 k 12 12 48 24 re f 0 0 0 rg 12 48 48 24 re f /H gs 0 1 0 0 k 84 12 48 24 re f",
        "/ExtGState << /H << /ca 0.5 >> >>",
        keys="/Group << /S /Transparency /CS /DeviceRGB /I true >>",
    )
    found, status = intake(pages, pages.house())
    results.see(status == 0 and events(found, "note") == [("A2.pdf", "blending")], f"tagged CMYK, blending: {found}")
    if status:
        return
    plates = plates_of(results, program, pages)

    def shares(place, shift=0):
        x, y, width, height = box(*place)
        return {ink: round(plates(ink).share(x - shift, y, width, height), 3) for ink in "CMYK"}

    left = HOUSE.right - HOUSE.left
    for name, got, wanted in (
        ("tagged black", shares((12, 12, 48, 24)), {"K": 1}),
        ("tagged cyan", shares((84, 12, 48, 24)), {"C": 1}),
        ("cyan overprints magenta in mode 1", shares((12, 48, 48, 24)), {"C": 1, "M": 1}),
        ("black that blends in RGB", shares((12, 12, 48, 24), left), {"K": 1}),
        ("RGB black that blends in RGB", shares((12, 48, 48, 24), left), {"K": 1}),
        ("half magenta that blends in RGB", shares((84, 12, 48, 24), left), {"M": 33 / 64}),
    ):
        wanted = {ink: wanted.get(ink, 0) for ink in "CMYK"}
        results.see(all(abs(got[ink] - wanted[ink]) < 0.01 for ink in "CMYK"), f"{name}: {got}")


def see_hostile(results, folder):
    """Tests pages that exceed a limit, and names that look like paths or commands: each page is named, and the
    others are made.
    """
    pages = Pages(folder, "hostile", count=6)
    forms = [("/Type /XObject /Subtype /Form /BBox [0 0 200 300]", b"0 0 200 300 re f\n" * 10)]
    for number in range(1, 10):
        head = f"/Type /XObject /Subtype /Form /BBox [0 0 200 300] /Resources << /XObject << /F {number} 0 R >> >>"
        forms.append((head, b"/F Do\n" * 20))
    by_hand(pages.path("A1"), b"/F Do", "/XObject << /F {9} 0 R >>", add=forms)
    # A small painting and 128 MB of blanks, which compress to a thousandth of that.
    by_hand(pages.path("A2"), b"0 0 9 9 re f" + b" " * (128 << 20))
    by_hand(pages.path("A3"), b"", "/X " + "[" * 3000 + "]" * 3000)
    bad = os.path.join(folder, "touched")
    name = f"../../../{bad};touch {bad};$(touch {bad})`touch {bad}`%s'\"(x)"
    escaped = "".join(letter if letter.isalnum() else f"#{ord(letter):02X}" for letter in name)
    by_hand(
        pages.path("A4"), b"/O cs 1 scn 12 12 48 24 re f",
        f"/ColorSpace << /O [/Separation /{escaped} /DeviceCMYK {{}} 0 R] >>",
        add=[("<< /FunctionType 2 /Domain [0 1] /C0 [0 0 0 0] /C1 [0 1 0 0] /N 1 >>",)],
    )  # fmt: skip
    pages.write("A5", BLACK)
    pages.write("A6", BLACK)
    before = snapshot(folder, pages)
    found, status = intake(pages, pages.house(colour="convert"), "--seconds", "12", "--memory", "150")
    texts = {item["file"]: item["text"] for item in found if item["event"] in ("fault", "note")}
    for file, pattern in (
        ("A1.pdf", "gs took more than 12 s"),
        ("A2.pdf", "needed more than 150 MB of memory"),
        ("A3.pdf", "damaged"),
        ("A4.pdf", "mixed into CMYK"),
    ):
        results.see(re.search(pattern, texts.get(file, "")), f"the line of {file} is {texts.get(file)!r}")
    made = sorted(item["file"] for item in found if item["event"] == "page")
    results.see(status == 1 and made == ["A4.pdf", "A5.pdf", "A6.pdf"], f"pages made among hostile ones: {made}")
    results.see(snapshot(folder, pages) == before, "a file was made outside of WORK")
    left = [name for name in os.listdir(pages.work) if name.startswith(".page")]
    results.see(not left, f"folders of pages remain: {left}")
    for number in (1, 2, 3):
        os.remove(pages.path(f"A{number}"))
    found, status = intake(pages, pages.house(colour="refuse"), "--output", "1")
    texts = {item["file"]: item["text"] for item in found if item["event"] == "fault"}
    results.see("wrote a file of more than 1 MB" in texts.get("A5.pdf", ""), f"--output 1: {texts.get('A5.pdf')}")


def snapshot(folder, pages):
    """Returns all files below the folder, except those of WORK and house files."""
    return sorted(
        os.path.join(where, name)
        for where, _, names in os.walk(folder)
        if not where.startswith(pages.work)
        for name in names
        if name != "house.toml"
    )


def see_changes(results, program, folder):
    """Tests that a second call makes only what changed, and keeps the old files for `replate`."""
    pages = Pages(folder, "changes", count=4)
    for number in range(1, 5):
        pages.write(f"A{number}", BLACK.replace("Harbour", f"Page {number}"))
    house = pages.house(sites={"OSLO": None, "BERGEN": "west"})
    os.makedirs(os.path.join(pages.folder, "west"))
    pages.write("west/A3", BLACK.replace("Harbour", "West"))
    found, status = intake(pages, house)
    first = sum(item["event"] == "page" and not item["kept"] for item in found)
    results.see(status == 0 and first == 5, f"the first call: {found}")
    plates_of(results, program, pages)
    plan, old = (os.path.join(pages.work, name) for name in ("plan.json", "made.json"))
    shutil.copy(plan, old)
    found, status = intake(pages, house)
    again = [item["file"] for item in found if item["event"] == "page" and not item["kept"]]
    results.see(status == 0 and not again, f"a second call makes {again}")
    pages.write("A2", BLACK.replace("Harbour", "Late"))
    found, status = intake(pages, house)
    again = [item["file"] for item in found if item["event"] == "page" and not item["kept"]]
    results.see(status == 0 and again == ["A2.pdf"], f"after a change of A2 a call makes {again}")
    files = os.path.join(pages.work, "files")
    words = [program, "replate", old, files, plan, files, pages.plates]
    answer = subprocess.run(words, capture_output=True, text=True)
    wanted = "site OSLO made 1 kept 1\nsite BERGEN made 1 kept 1\ntotal made 2\n"
    results.see(answer.stdout == wanted, f"replate says {answer.stdout!r} {answer.stderr!r}")
    answer = subprocess.run([program, "verify", plan, files, pages.plates], capture_output=True, text=True)
    results.see(answer.stdout == "same plates 4 sites 2\n", f"verify says {answer.stdout!r} {answer.stderr!r}")
    names = set(os.listdir(files))
    os.remove(old)
    intake(pages, house)
    results.see(len(names - set(os.listdir(files))) == 1, "the file of the old page remains without its plan")
    os.truncate(os.path.join(files, sorted(os.listdir(files))[0]), 100)
    found, _ = intake(pages, house)
    again = [item["file"] for item in found if item["event"] == "page" and not item["kept"]]
    results.see(len(again) == 1, f"after a file was truncated a call makes {again}")
    see_writing(results, pages, house)


def see_writing(results, pages, house):
    """Tests a page that is still being written: intake waits for it, or refuses it by name."""
    with open(pages.path("A4"), "rb") as file:
        data = file.read()

    def write(stop, most):
        """Rewrites the file part by part until `stop` is set or `most` seconds have passed."""
        end, part = time.monotonic() + most, 0
        while time.monotonic() < end and not stop.wait(0.2):
            part = part % 19 + 1
            with open(pages.path("A4"), "wb") as file:
                file.write(data[: len(data) * part // 20])
        with open(pages.path("A4"), "wb") as file:
            file.write(data)

    for most, wait, wanted in ((600, "1", [("A4.pdf", "written")]), (3, "60", [])):
        stop = threading.Event()
        writer = threading.Thread(target=write, args=(stop, most))
        writer.start()
        time.sleep(0.5)
        found, _ = intake(pages, house, "--wait", wait)
        stop.set()
        writer.join()
        results.see(events(found, "fault") == wanted, f"while it's written for {most} s: {found}")


def see_tiffs(results, program, folder):
    """Tests TIFF files in place of PDFs: those that a copy repairs print like the valid file, and the others are
    refused by name.
    """
    from PIL import Image

    pages = Pages(folder, "tiffs", count=14)
    width, height = HOUSE.width, HOUSE.height
    picture = Image.new("CMYK", (width, height))
    picture.paste((200, 0, 40, 10), (100, 100, 400, 500))
    picture.paste((0, 0, 0, 255), (300, 600, 420, 640))
    half = picture.resize((width // 3, height // 3), Image.NEAREST)
    line = Image.new("1", (width, height), 1)
    line.paste(0, (50, 60, 200, 300))
    lawful = pages.path("A1", "tif")
    picture.save(lawful, compression="packbits")
    line.save(pages.path("A5", "tif"), compression="group4")
    copies = {"A2": ["-c", "lzw", "-t", "-w", "64", "-l", "64"], "A3": ["-8", "-c", "zip", "-p", "separate"]}
    for name, words in copies.items():
        subprocess.run(["tiffcp", *words, lawful, pages.path(name, "tif")], check=True, capture_output=True)
    subprocess.run(["tiffcp", "-f", "lsb2msb", lawful, pages.path("A4", "TIFF")], check=True)
    words = ["tiffcp", "-f", "lsb2msb", "-c", "none", pages.path("A5", "tif"), pages.path("A6", "tif")]
    subprocess.run(words, check=True)
    half.save(pages.path("A7", "tif"), compression="raw")
    picture.convert("RGB").save(pages.path("A8", "tif"))
    picture.crop((0, 0, width - 9, height)).save(pages.path("A9", "tif"))
    with open(lawful, "rb") as file:
        data = file.read()
    with open(pages.path("A10", "tif"), "wb") as file:
        file.write(data[: len(data) // 2])
    shutil.copy(lawful, pages.path("A11", "tif"))
    subprocess.run(["tiffset", "-s", "274", "6", pages.path("A11", "tif")], check=True, capture_output=True)
    picture.save(pages.path("A12", "tif"), save_all=True, append_images=[picture])
    Image.new("I;16", (width, height)).save(pages.path("A13", "tif"))
    line.save(pages.path("A14", "tif"))
    found, status = intake(pages, pages.house(), "--partial")
    faults = [("A10.tif", "damaged"), ("A11.tif", "tiff"), ("A13.tif", "tiff"), ("A8.tif", "tiff"), ("A9.tif", "size")]
    results.see(events(found, "fault") == faults, f"faults of TIFF files: {events(found, 'fault')}")
    results.see(events(found, "note") == [("A12.tif", "pages")], f"notes of TIFF files: {events(found, 'note')}")
    inks = {item["file"]: item["inks"] for item in found if item["event"] == "page"}
    results.see(inks.get("A5.tif") == "K" and inks.get("A2.tif") == "CMYK", f"inks of TIFF files: {inks}")
    # The same pixels in another form make the same plates, so a plan that uses only the valid files verifies
    # these plates.
    plan = fields(os.path.join(pages.work, "plan.json"))
    if not plan:
        return
    plates_of(results, program, pages)
    layers = {page["name"]: page["layers"] for page in plan["pages"]}
    results.see(layers["A07"][0].get("scale") == 3, f"an image at a third of the size: {layers['A07']}")
    for page in plan["pages"]:
        if page["name"] in ("A02", "A03", "A04", "A12"):
            page["layers"] = layers["A01"]
        elif page["name"] in ("A06", "A14"):
            page["layers"] = layers["A05"]
    other = os.path.join(folder, "lawful.json")
    with open(other, "w") as file:
        json.dump(plan, file)
    words = [program, "verify", other, os.path.join(pages.work, "files"), pages.plates]
    answer = subprocess.run(words, capture_output=True, text=True)
    results.see(answer.stdout.startswith("same plates"), f"repaired TIFF files: {answer.stdout!r} {answer.stderr!r}")


def see_houses(results, folder):
    """Tests that a fault of a house file is reported with its line, and that two presses get two plans."""
    pages = Pages(folder, "houses")
    pages.write("A1", BLACK)
    pages.write("A2", BLACK)
    right = pages.house()
    _, status = intake(pages, right.replace("dpi = 300", ""), quiet=True)
    results.see(status == 2 and "line 1: dpi: is missing" in pages.said, f"no dpi: {pages.said!r}")
    presses = """
[press.GOSS]
limit = 220
curves.K = [[0, 0], [50, 40], [100, 100]]
[press.KBA]
screens.K = { angle = 45, ruling = 60 }
[night]
approve = true
"""
    text = right.replace("[sites.OSLO]\n", '[sites.OSLO]\npress = "KBA"\n[sites.HAMAR]\npress = "GOSS"\n') + presses
    _, status = intake(pages, text + "anything = true\n", quiet=True)
    results.see(status == 2 and "night.anything: isn't a key" in pages.said, f"a key of no table: {pages.said!r}")
    found, status = intake(pages, text)
    goss, kba = (fields(os.path.join(pages.work, f"{name}.json")) for name in ("GOSS", "KBA"))
    results.see(status == 0 and goss and kba, f"two presses: {found} {pages.said}")
    if status == 0:
        results.see((goss["limit"], kba["limit"]) == (561, 1020), "the limits of two presses")
        results.see(goss["curves"] == {"K": [[0, 0], [128, 102], [255, 255]]}, f"curves are {goss['curves']}")
        results.see([site["name"] for site in goss["sites"] + kba["sites"]] == ["HAMAR", "OSLO"], "sites of presses")
        results.see(kba["screens"] == {"K": "tile:tileK"} and goss["tiles"] == [], "screens of presses")
        at = kba["tiles"][0]["at"]
        results.see(len(at) == kba["tiles"][0]["width"] ** 2 and max(at) == 254, "the tile of a press")
    found, status = intake(pages, right.replace('edition = "E1"', 'edition = "E1"\nnames = "*_{section}-p{page}*"'))
    results.see(events(found, "fault") == [("A01", "missing"), ("A02", "missing")], f"a pattern of names: {found}")
    for number in (1, 2):
        os.rename(pages.path(f"A{number}"), pages.path(f"night_A-p00{number}-v{number}"))
    found, status = intake(pages, right.replace('edition = "E1"', 'edition = "E1"\nnames = "*_{section}-p{page}*"'))
    results.see(status == 0, f"a pattern of names: {found}")


def see_newspaper(results, program, folder):
    """Tests the newspaper's PDFs: their plates verify, and match those of its TIFF files byte for byte."""
    folder = os.path.join(folder, "newspaper")
    names = "art", "plan.json", "pages", "work", "plates"
    art, plan, given, work, plates = (os.path.join(folder, name) for name in names)
    os.makedirs(folder)
    words = [sys.executable, "-B", os.path.join(NEWSPAPER, "make.py")]
    subprocess.run([*words, "--art", art, "--plan", plan, "--pages", given], check=True)
    words = [sys.executable, "-B", os.path.join(TOP, "tools", "pressroom.py"), "intake"]
    words += [os.path.join(NEWSPAPER, "house.toml"), given, work]
    answer = subprocess.run(words, capture_output=True, text=True)
    wanted = "11 pages made, 0 kept, 0 faults, 0 notes; plans plan.json"
    results.see(answer.stdout.splitlines()[-1:] == [wanted], f"the newspaper: {answer.stdout}{answer.stderr}")
    if answer.returncode:
        return
    made, files = os.path.join(work, "plan.json"), os.path.join(work, "files")
    for command in ("run", "verify"):
        answer = subprocess.run([program, command, made, files, plates], capture_output=True, text=True)
        results.see(answer.returncode == 0, f"{command} of the newspaper: {answer.stdout}{answer.stderr}")
    results.see(answer.stdout == "same plates 45 sites 3\n", f"verify says {answer.stdout}")
    pages = {page["name"]: page for page in fields(made)["pages"]}
    own = fields(plan)
    for page in own["pages"]:
        name = f"{page['name'][0]}0{page['name'][1]}" + (f"_{page['name'][2:]}" if page["name"][2:] else "")
        results.see(pages[name]["inks"] == page["inks"], f"{name} has the inks {pages[name]['inks']}")
        page["layers"] = pages[name]["layers"]
    with open(os.path.join(folder, "both.json"), "w") as file:
        json.dump(own, file)
    drawn = os.path.join(folder, "drawn")
    subprocess.run([program, "run", plan, art, drawn], check=True, capture_output=True)
    answer = subprocess.run([program, "verify", file.name, files, drawn], capture_output=True, text=True)
    results.see(answer.stdout == "same plates 45 sites 3\n", f"PDFs and TIFF files differ: {answer.stdout}")


def main():
    if len(sys.argv) != 2:
        sys.exit(__doc__.splitlines()[2].strip())
    lacking = missing("PIL", "numpy", "pikepdf") or missing_program(
        "gs", "qpdf", "pdftoppm", "tiffcp", "prlimit", "mutool"
    )
    if lacking:
        print(f"skipped: {lacking} isn't installed")
        sys.exit(Count().end())
    program, results = os.path.abspath(sys.argv[1]), Count()
    with tempfile.TemporaryDirectory(prefix="plateroom-intake-") as folder:
        for part, words in (
            (see_houses, (results, folder)),
            (see_pixels, (results, program, folder)),
            (see_strips, (results, folder)),
            (see_colours, (results, program, folder)),
            (see_ink, (results, folder)),
            (see_nested, (results, folder)),
            (see_words, (results, folder)),
            (see_inks, (results, folder)),
            (see_bands, (results, program, folder)),
            (see_told, (results, folder)),
            (see_tiffs, (results, program, folder)),
            (see_changes, (results, program, folder)),
            (see_hostile, (results, folder)),
            (see_corpus, (results, program, folder)),
            (see_second, (results, folder)),
            (see_notes, (results, program, folder)),
            (see_newspaper, (results, program, folder)),
        ):
            begun, before = time.monotonic(), results.passed
            part(*words)
            passed, seconds = results.passed - before, time.monotonic() - begun
            print(f"{part.__name__[4:]}: {passed} passed, {seconds:.0f} s", flush=True)
    sys.exit(results.end())


if __name__ == "__main__":
    main()
