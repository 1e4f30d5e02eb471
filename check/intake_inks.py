"""Tests the inks of separations: tint transforms, the separation All, the names of spots, transfer functions.

The pages are those of intake_ink_pages.py, made by hand, 100 by 100 mm, at three resolutions: below and above the
size from which pages are painted in strips.
"""
import hashlib
import json
import os
import re
import subprocess
import sys
from typing import Any

from intake_ink_pages import BARE, CUBED, EVERYWHERE, KINDS, TRANSFORMS, Ink, Page, jpeg, power, spot
from intake_pages import HOUSE, PROFILE, Pages, fields, intake, plates_of
from newspaper import NEWSPAPER, TOP
from trial import Count

sys.path[:0] = [NEWSPAPER, os.path.join(TOP, "tools")]
from pdf import Pdf
from pressroom.tiff.tiff import Tiff

RESOLUTIONS = 127, 254, 800
# The side of a page and of a cell, and how far cells are apart, in mm.
SIDE, CELL, STEP, ROW = 100, 10, 15, 6
ONE = 72 / 25.4
# How much an ink may differ, in percent: two 255ths, and how Ghostscript rounds a tint.
NEAR = 1.2
NOTHING = Page((("/P cs 0 scn FILL", BARE),), f"/P {CUBED}")
UNUSED = "/UNUSED << /OP true /op true /OPM 1 >>"


def corner(cell: int) -> tuple[int, int]:
    """Returns a cell's lower left corner in mm."""
    return 5 + STEP * (cell % ROW), 80 - STEP * (cell // ROW)


def body_of(head: str, data: Any) -> tuple[str, bytes | None]:
    """Returns the head and the data of an object: as they are, or of a value, a profile, or a JPEG."""
    if head == "VALUE":
        return data.decode(), None
    if head == "PROFILE":
        with open(PROFILE, "rb") as file:
            return "/N 4", file.read()
    if head != "JPEG":
        return head, data
    space, value = data
    size = "/Width 16 /Height 16 /BitsPerComponent 8 /Filter [/FlateDecode /DCTDecode]"
    return f"/Type /XObject /Subtype /Image /ColorSpace {space} {size}", jpeg(value)


def written(path: str, page: Page, overprints: bool) -> None:
    """Writes a page as a PDF file, with a state that overprints and isn't used if `overprints`."""
    pdf, first = Pdf(), len(page.objects)

    def filled(text: str) -> str:
        return re.sub(r"\{(\d+)\}", lambda found: str(int(found[1]) + 1), text)

    for head, data in page.objects:
        if head == "FONT":
            pdf.add(
                "<< /Type /Font /Subtype /Type3 /FontBBox [0 0 1000 1000] /FontMatrix [.001 0 0 .001 0 0] /FirstChar 97 "
                f"/LastChar 97 /Widths [1000] /Encoding << /Differences [97 /a] >> /CharProcs << /a {first} 0 R >> "
                "/Resources << >> >>"
            )
            continue
        head, data = body_of(head, data)
        number = pdf.add(filled(head), data)
        if "DCTDecode" in head:
            text, packed = pdf.objects[number - 1]
            pdf.objects[number - 1] = text.replace("/Filter /FlateDecode", ""), packed
    content = f"{ONE} 0 0 {ONE} 0 0 cm\n"
    for cell, (text, _) in enumerate(page.cells):
        x, y = corner(cell)
        content += f"q 1 0 0 1 {x} {y} cm {text.replace('FILL', f'0 0 {CELL} {CELL} re f')} Q\n"
    stream = pdf.add("", content.encode("latin-1"))
    box, number = f"[0 0 {SIDE * ONE:.4f} {SIDE * ONE:.4f}]", len(pdf.objects) + 1
    states = page.states + (UNUSED if overprints else "")
    resources = filled(f"/ColorSpace << {page.spaces} >> /ExtGState << {states} >> {page.more}")
    head = f"<< /Type /Page /Parent {number + 1} 0 R /MediaBox {box} /TrimBox {box} /Contents {stream} 0 R"
    pdf.add(f"{head} /Resources << {resources} >> >>")
    pdf.add(f"<< /Type /Pages /Kids [{number} 0 R] /Count 1 >>")
    pdf.write(path, pdf.add(f"<< /Type /Catalog /Pages {number + 1} 0 R >>"))


def house(dpi: int, count: int, spots: str = "mix") -> str:
    """Returns the text of a house file for this many pages."""
    lines = [
        'edition = "E1"',
        f"dpi = {dpi}",
        f"trim = [{SIDE}, {SIDE}]",
        "[sections]",
        f"A = {count + count % 2}",
    ]
    lines += ["[colour]", 'rgb = "convert"', f'profile = "{PROFILE}"', f'spots = "{spots}"']
    lines += ["[spot]", 'names = ["NORDLYS", "PANTONE 185 C"]', 'colour = "#ff8800"']
    lines += ['aliases = { "PMS 185" = "PANTONE 185 C", "Schwarz" = "Black" }', "[sites.OSLO]"]
    return "\n".join(lines) + "\n"


def ink_at(files: str, layers: list[dict[str, Any]], cell: int, dpi: int) -> list[float]:
    """Returns the inks of a page in the middle of a cell, in percent."""
    found = [0.0] * 5
    left, bottom = (place + CELL / 2 for place in corner(cell))
    x, y = int(left * dpi / 25.4), round(SIDE * dpi / 25.4) - 1 - int(bottom * dpi / 25.4)
    for layer in layers:
        image, top = Tiff(os.path.join(files, layer["file"])), layer.get("y", 0)
        if top <= y < top + image.length:
            for plane in range(image.samples):
                row = next(image.rows(y - top, y - top + 1, plane))
                if image.samples == 4:
                    found[plane] = row[x] / 2.55
                elif row[x // 8] >> 7 - x % 8 & 1:
                    found[4] = layer["ink"][4] / 2.55
        image.close()
    return [round(value, 1) for value in found]


def is_near(got: list[float], wanted: Ink) -> bool:
    return all(abs(one - other) <= NEAR for one, other in zip(got, wanted))


def see_kind(results: Count, folder: str, kind: str, dpi: int) -> None:
    """Tests the pages of a kind at a resolution."""
    made = [
        (name + (" beside overprint" if overprints else ""), page, overprints)
        for name, page in KINDS[kind].items()
        for overprints in ([False, True] if page.overprints else [False])
    ]
    pages = Pages(folder, f"inks-{kind}-{dpi}", count=len(made))
    for number, (_, page, overprints) in enumerate(made, 1):
        written(pages.path(f"A{number}"), page, overprints)
    found, _ = intake(pages, house(dpi, len(made)), "--partial")
    plan = {
        page["name"]: page["layers"]
        for page in (fields(os.path.join(pages.work, "plan.json")) or {"pages": []})["pages"]
    }
    for number, (name, page, _) in enumerate(made, 1):
        said = [
            item
            for item in found
            if item.get("file") == f"A{number}.pdf" and item["event"] in ("fault", "note")
        ]
        faults = [f"{item['kind']} {item['text']}" for item in said if item["event"] == "fault"]
        title = f"{kind}, {name}, {dpi} dpi"
        if page.fault:
            results.see(len(faults) == 1 and re.match(page.fault, faults[0]), f"{title}: {said}")
            continue
        notes = sorted({item["kind"] for item in said if item["event"] == "note"})
        results.see(not faults and notes == sorted(page.notes), f"{title}: {said}")
        for cell, (text, wanted) in enumerate(page.cells):
            if not faults and f"A{number:02}" in plan:
                got = ink_at(os.path.join(pages.work, "files"), plan[f"A{number:02}"], cell, dpi)
                results.see(is_near(got, wanted), f"{title}: {text}: {got}, and not {wanted}")


# Runs intake with a lower limit of a band's bytes, and of a plan's.
LOWERED = """import sys
sys.path.insert(0, sys.argv.pop(1))
from pressroom.intake import bands, intake
from pressroom.plans import plans
bands.MOST_BAND, plans.MOST_BYTES = int(sys.argv.pop(1)), int(sys.argv.pop(1))
sys.exit(intake.main())
"""
BAND, PLAN = 400_000, 600_000


def with_bands(pages: Pages, band: int, plan: int) -> list[dict[str, Any]]:
    """Makes pages with these limits. Returns the events."""
    path = os.path.join(os.path.dirname(pages.folder), "house.toml")
    with open(path, "w", encoding="utf-8") as file:
        file.write(pages.house(spot="HOUSE"))
    words = [sys.executable, "-B", "-c", LOWERED, os.path.join(TOP, "tools"), str(band), str(plan)]
    answer = subprocess.run(
        [*words, path, pages.folder, pages.work, "--json"], capture_output=True, text=True
    )
    return [json.loads(line) for line in answer.stdout.splitlines()]


def noise(pages: Pages, name: str, width: int, height: int, tints: int = 1) -> None:
    """Writes a page whose picture packs badly, below this many tints of the spot. Without tints it's a TIFF."""
    import numpy as np
    from PIL import Image

    samples = np.random.default_rng(1).integers(0, 256, (height, width, 4), np.uint8)
    if not tints:
        Image.fromarray(samples, "CMYK").save(pages.path(name, "tif"))
        return
    pdf, points = Pdf(), (width * 0.24, height * 0.24)
    head = f"/Type /XObject /Subtype /Image /Width {width} /Height {height} /BitsPerComponent 8"
    picture = pdf.add(f"{head} /ColorSpace /DeviceCMYK", samples.tobytes())
    content = f"q {points[0]} 0 0 {points[1]} 0 0 cm /I Do Q /H cs "
    content += " ".join(
        f"{(tint + 1) / (tints + 1):.4f} scn 20 {20 + 5 * tint} 60 5 re f" for tint in range(tints)
    )
    stream, box = pdf.add("", content.encode()), f"[0 0 {points[0]} {points[1]}]"
    number = len(pdf.objects) + 1
    keys = f"/Resources << /XObject << /I {picture} 0 R >> /ColorSpace << /H {spot('HOUSE', power('1 0 0 0'))} >> >>"
    head = f"<< /Type /Page /Parent {number + 1} 0 R /MediaBox {box} /TrimBox {box} /Contents {stream} 0 R"
    pdf.add(f"{head} {keys} >>")
    pdf.add(f"<< /Type /Pages /Kids [{number} 0 R] /Count 1 >>")
    pdf.write(pages.path(name), pdf.add(f"<< /Type /Catalog /Pages {number + 1} 0 R >>"))


def see_bands(results: Count, program: str, folder: str) -> None:
    """Tests that a page whose file is too large is cut into bands, and that its plates are the same."""
    plates, plans = [], []
    for name, band in (("whole", 256_000_000), ("bands", BAND)):
        pages = Pages(folder, f"bands-{name}")
        noise(pages, "A1", HOUSE.width, HOUSE.height)
        noise(pages, "A2", HOUSE.width // 2, HOUSE.height // 2, 0)
        found = with_bands(pages, band, PLAN)
        notes = [item["text"] for item in found if item["event"] == "note" and item["kind"] == "bytes"]
        wanted = "section A for OSLO alone has"
        results.see(len(notes) == 1 and wanted in notes[0], f"{name}: the note of bytes is {notes}")
        plan = fields(os.path.join(pages.work, "plan.json"))
        results.see(bool(plan), f"{name}: {found}")
        if not plan:
            return
        plates_of(results, program, pages)
        plans.append({page["name"]: page["layers"] for page in plan["pages"]})
        plates.append(sums(pages.plates))
        sizes = [
            os.path.getsize(os.path.join(pages.work, "files", file))
            for file in os.listdir(pages.work + "/files")
        ]
        results.see(max(sizes) <= band, f"{name}: a file has {max(sizes)} bytes")
    results.see(plates[0] == plates[1] and len(plates[0]) > 0, "the plates of pages in bands differ")
    whole, cut = plans
    results.see([len(whole["A01"]), len(whole["A02"])] == [2, 1], f"layers of whole pages: {whole}")
    tops = [layer.get("y", 0) for layer in cut["A01"][:-1]]
    results.see(
        len(tops) == 8 and tops == sorted(set(tops)) and not any(top % 64 for top in tops), f"bands at {tops}"
    )
    results.see(
        [layer.get("y", 0) for layer in cut["A02"]] == [0, 512], f"bands of an image of scale 2: {cut['A02']}"
    )
    see_layers(results, folder)


def see_layers(results: Count, folder: str) -> None:
    """Tests that a page that needs more than 32 layers is refused: 15 bands, and 17 or 18 tints."""
    pages = Pages(folder, "layers")
    for number, tints in ((1, 17), (2, 18)):
        noise(pages, f"A{number}", HOUSE.width, HOUSE.height, tints)
    found = with_bands(pages, 100_000, PLAN)
    faults = [(item["file"], item["kind"], item["text"]) for item in found if item["event"] == "fault"]
    text = "A2.pdf: it needs 33 layers: 15 of its picture and 18 of the spot; a page has at most 32"
    results.see(faults == [("A2.pdf", "layers", text)], f"a page of 33 layers: {faults}")


def sums(folder: str) -> dict[str, str]:
    """Returns the SHA-256 of all files below a folder."""
    found = {}
    for where, _, names in os.walk(folder):
        for name in names:
            with open(os.path.join(where, name), "rb") as file:
                found[os.path.relpath(os.path.join(where, name), folder)] = hashlib.sha256(
                    file.read()
                ).hexdigest()
    return found


def see_refusing(results: Count, folder: str) -> None:
    """Tests a house that refuses spots: those that show, and not those that only All paints, or nothing."""
    dpi, made = 127, [EVERYWHERE["All beside an unused spot"], NOTHING, TRANSFORMS["type 2"], EVERYWHERE["All in a form"]]
    pages = Pages(folder, "inks-refusing", count=len(made))
    for number, page in enumerate(made, 1):
        written(pages.path(f"A{number}"), page, False)
    found, _ = intake(pages, house(dpi, len(made), "refuse"), "--partial")
    faults = [(item["file"], item["kind"]) for item in found if item["event"] == "fault"]
    results.see(sorted(faults) == [("A3.pdf", "spot"), ("A4.pdf", "spot")], f"a house that refuses spots: {faults}")
    plan = fields(os.path.join(pages.work, "plan.json")) or {"pages": []}
    layers = {page["name"]: page["layers"] for page in plan["pages"]}
    for number, page in enumerate(made[:2], 1):
        got = ink_at(os.path.join(pages.work, "files"), layers.get(f"A{number:02}", []), 0, dpi)
        results.see(is_near(got, page.cells[0][1]), f"a house that refuses spots: {got}, and not {page.cells[0][1]}")


def see_files(results: Count, folder: str) -> None:
    """Tests pages whose file is written otherwise: locked for changes, resources that the page inherits, and an
    annotation.
    """
    dpi, page = 127, TRANSFORMS["type 2"]
    pages = Pages(folder, "inks-files", count=4)
    for number in range(1, 5):
        written(pages.path(f"A{number}"), page, number > 2)
    words = ["qpdf", "--replace-input", "--encrypt", "", "sesame", "256", "--"]
    subprocess.run([words[0], pages.path("A1"), *words[1:]], check=True)
    for number in (2, 3):
        inherited(pages.path(f"A{number}"))
    annotated(pages.path("A4"))
    found, status = intake(pages, house(dpi, 4))
    results.see(status == 0, f"pages written otherwise: {found}")
    plan = fields(os.path.join(pages.work, "plan.json")) or {"pages": []}
    for made in plan["pages"]:
        for cell, (_, wanted) in enumerate(page.cells):
            got = ink_at(os.path.join(pages.work, "files"), made["layers"], cell, dpi)
            results.see(is_near(got, wanted), f"written otherwise, {made['name']}: {got}, and not {wanted}")


def inherited(path: str) -> None:
    """Moves a page's resources to the tree of pages."""
    import pikepdf

    with pikepdf.open(path, allow_overwriting_input=True) as pdf:
        page = pdf.Root.Pages.Kids[0]
        pdf.Root.Pages.Resources = page.Resources
        del page["/Resources"]
        pdf.save(path)


def annotated(path: str) -> None:
    """Moves a page's content to the appearance of an annotation."""
    import pikepdf

    with pikepdf.open(path, allow_overwriting_input=True) as pdf:
        page, box = pdf.Root.Pages.Kids[0], [0, 0, SIDE * ONE, SIDE * ONE]
        head = {"/Type": pikepdf.Name.XObject, "/Subtype": pikepdf.Name.Form, "/BBox": box, "/Resources": page.Resources}
        form = pikepdf.Stream(pdf, page.Contents.read_bytes(), head)
        look = pikepdf.Dictionary(Type=pikepdf.Name.Annot, Subtype=pikepdf.Name.Stamp, Rect=box, F=4)
        look.AP = pikepdf.Dictionary(N=pdf.make_indirect(form))
        page.Annots = pikepdf.Array([pdf.make_indirect(look)])
        page.Contents, page.Resources = pikepdf.Stream(pdf, b"q Q\n"), pikepdf.Dictionary()
        pdf.save(path)


def see_inks(results: Count, folder: str) -> None:
    """Tests all kinds at all resolutions."""
    see_refusing(results, folder)
    see_files(results, folder)
    for dpi in RESOLUTIONS:
        for kind in KINDS:
            see_kind(results, folder, kind, dpi)


if __name__ == "__main__":
    import tempfile

    results = Count()
    with tempfile.TemporaryDirectory(prefix="plateroom-inks-") as place:
        for kind in sys.argv[2:] or KINDS:
            see_kind(results, place, kind, int(sys.argv[1]))
        if not sys.argv[2:]:
            see_refusing(results, place)
            see_files(results, place)
    sys.exit(results.end())
