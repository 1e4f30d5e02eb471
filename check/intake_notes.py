"""Tests what intake notes of a page's contents and of file names, black that overprints, and that later steps pass
notes on. Each note has a page that has it, and one that nearly has it.
"""
from __future__ import annotations

import json
import os
import subprocess
import sys
from collections.abc import Callable
from typing import Any

from intake_pages import PROFILE, Pages, events, intake
from newspaper import TOP
from trial import Count as Results
from second_pages import OVER, Sheet

sys.path.insert(0, os.path.join(TOP, "tools"))
from pressroom.base.limits import Limits
from pressroom.intake import observed, profiles
from pressroom.intake.ghostscript import Ghostscript
from pressroom.intake.pdf import inspect

DPI, SIZE = 300, (720, 960)
Maker = Callable[[Sheet], Any]
CYAN = "0.9 0 0 0 k 0 0 172.8 230.4 re f"
BLACK_SPACE = (
    "[/Separation /Black /DeviceCMYK << /FunctionType 2 /Domain [0 1] /C0 [0 0 0 0] /C1 [0 0 0 1] /N 1 >>]"
)


def paint(text: str) -> Maker:
    """Returns a maker of a page with these operators."""
    return lambda sheet: sheet.paint(text)


def over_cyan(colour: str, state: str = "") -> Maker:
    """Returns a maker of a page with two lines of text over cyan."""

    def make(sheet: Sheet) -> None:
        sheet.paint(CYAN)
        if state:
            sheet.state(state)
        sheet.text(20, 20, 100, 2, colour)

    return make


def flat(wide: int, high: int) -> Maker:
    """Returns a maker of a page with a grey image of so many pixels, one inch wide and high."""
    head = "/ColorSpace /DeviceGray /BitsPerComponent 8"
    return lambda sheet: sheet.image(bytes(wide * high), wide, high, head, (36, 72, 72, 72))


def in_form(sheet: Sheet) -> None:
    sheet.paint(CYAN).form("0 0 0 0.5 K 0.1 w 20 20 m 150 20 l S")


# Pages, and the kind of the note that each has, if any, with a part of its text and its place.
TRIED: dict[str, tuple[Maker, str, str, tuple[float, ...] | None]] = {
    "ppi": (flat(149, 200), "ppi", "149 x 200 pixels has 149 an inch, fewer than 150", (12.7, 30.5, 25.4, 25.4)),
    "no ppi": (flat(150, 150), "", "", None),
    "inline": (
        paint("q 72 0 0 36 36 72 cm BI /W 2 /H 2 /CS /G /BPC 8 ID abcd EI Q"), "ppi", "has 2 an inch", (12.7, 43.2, 25.4, 12.7)
    ),
    "a row of pixels": (flat(200, 1), "", "", None),
    "no width": (paint("0 w 20 30 m 150 30 l S"), "thin", "a line is thinner than 0.1 mm, down to 0.00", (7.1, 70.7, 45.9, 0)),
    "scaled": (paint("q 0.1 0 0 0.1 0 0 cm 2 w 200 300 m 1500 300 l S Q"), "thin", "down to 0.07 mm", (7.1, 70.7, 45.9, 0)),
    "rule": (paint("20 30 130 0.2 re f"), "thin", "down to 0.07 mm", (7.1, 70.6, 45.9, 0.1)),
    "in a form": (in_form, "thin", "down to 0.04 mm", (7.1, 74.2, 45.9, 0)),
    "a tenth": (paint("0.284 w 20 30 m 150 30 l S 20 60 130 0.284 re f"), "", "", None),
    "white": (paint(CYAN + " 0 w 0 0 0 0 K 20 30 m 150 30 l S"), "", "", None),
    "outside": (paint("0 w 20 330 m 150 330 l S"), "", "", None),
    "clipped": (paint("0 0 20 20 re W n 0 w 20.5 30 m 150 30 l S"), "", "", None),
    "dots": (paint("20 30 0.2 0.2 re f"), "", "", None),
    "knocks out": (over_cyan("0 0 0 1 k"), "knockout", "black text in 2 places knocks out", (7.1, 40.4, 51.0, 15.5)),
    "grey": (over_cyan("0 g", OVER), "knockout", "", None),
    "mode 0": (over_cyan("0 0 0 1 k", "/OP true /op true /OPM 0"), "knockout", "", None),
    "overprints": (over_cyan("0 0 0 1 k", OVER), "", "", None),
    "red": (over_cyan("0 1 1 0 k"), "", "", None),
    "on paper": (lambda sheet: sheet.text(20, 20, 100, 2, "0 g"), "", "", None),
}  # fmt: skip


def see_contents(results: Results, folder: str) -> None:
    """Tests the notes on contents."""
    pages = Pages(folder, "contents", count=len(TRIED) + len(TRIED) % 2)
    for number, (maker, *_) in enumerate(TRIED.values(), 1):
        sheet = Sheet()
        maker(sheet)
        sheet.write(pages.path(f"A{number}"))
    found, _ = intake(pages, pages.house() + "[check]\nppi = 150\n", "--partial")
    for number, (name, (_, kind, text, place)) in enumerate(TRIED.items(), 1):
        told = [item for item in found if item.get("file") == f"A{number}.pdf" and item["event"] == "note"]
        results.see([item["kind"] for item in told] == [kind] * bool(kind), f"{name}: {told}")
        if kind and told:
            results.see(text in told[0]["text"], f"{name}: {told[0]['text']}")
            off = [abs(one - other) for one, other in zip(told[0]["at"], place or told[0]["at"])]
            results.see(max(off) <= 0.5, f"{name}: its place is {told[0]['at']}, and not {place}")
    found, _ = intake(pages, pages.house(), "--partial")
    results.see(not [item for item in found if item.get("kind") == "ppi"], f"without ppi: {found}")


LETTERS = "BT {} /F 40 Tf 1 0 0 1 10 {} Tm (HHHH) Tj ET"
# Objects over cyan and half magenta, whether they overprint, and the ink of each where it prints.
OBJECTS = (
    ("0 0 0 1 k", True), ("0 g", True), ("0 0 0 rg", True), ("0 0 0 0.9 k", False), ("0.5 0 0 1 k", False),
)  # fmt: skip


def see_black(results: Results, folder: str) -> None:
    """Tests that black text and strokes overprint if the house says so, and nothing else does."""
    import numpy as np

    folder = os.path.join(folder, "black")
    os.makedirs(folder)
    profiles.write_profiles(folder, PROFILE)
    sheet = Sheet().paint("1 0.5 0 0 k 0 0 172.8 230.4 re f")
    for number, (colour, _) in enumerate(OBJECTS):
        sheet.paint(LETTERS.format(colour, 190 - 30 * number))
    name = sheet.space(BLACK_SPACE)
    sheet.paint(LETTERS.format(f"/{name} cs 1 scn", 40))
    sheet.paint("0 0 0 1 K 8 w 10 20 m 60 20 l S 0 G 65 20 m 110 20 l S 0 0 0 1 k 120 10 20 20 re f")
    sheet.paint("0 g").form(
        "145 10 20 10 re f 0 0 0 1 K 8 w 145 30 m 165 30 l S 0.2 0 0 1 k 120 40 20 20 re f"
    )
    sheet.write(os.path.join(folder, "page.pdf"))
    limits = Limits()
    pdf, inspected = inspect(limits, "page.pdf", folder)
    version = subprocess.run(["gs", "--version"], capture_output=True, text=True, check=True).stdout.strip()
    ground = [255, 127, 0]
    for black in (False, True):
        contents = observed.observe(limits, folder, pdf, inspected.trim, black)
        results.see(bool(contents.edited) == black and not contents.why, f"black overprints: {contents}")
        gs = Ghostscript(version, limits, contents.edited or pdf, inspected.box, folder)
        inks = gs.render(DPI, SIZE, "inks.psd").mixed(None)

        def printed(x: float, y: float, wide: float, high: float) -> list[int]:
            """Returns the mean of the inks where black prints in a box in points."""
            left, top = round(x * DPI / 72), round(SIZE[1] - (y + high) * DPI / 72)
            part = inks[top : top + round(high * DPI / 72), left : left + round(wide * DPI / 72)].reshape(
                -1, 4
            )
            dark = part[part[:, 3] > 0]
            return [int(value) for value in np.rint(dark.mean(axis=0))] if len(dark) else []

        objects = [
            (colour, over, printed(10, 190 - 30 * n, 96, 25)) for n, (colour, over) in enumerate(OBJECTS)
        ]
        objects += [("separation", True, printed(10, 40, 96, 25)), ("stroke", True, printed(12, 17, 46, 6))]
        objects += [("grey stroke", True, printed(67, 17, 40, 6)), ("fill", False, printed(122, 12, 16, 16))]
        objects += [
            ("fill in a form", False, printed(147, 12, 16, 6)),
            ("stroke in a form", True, printed(147, 27, 16, 6)),
        ]
        objects += [("rich fill", False, printed(122, 42, 16, 16))]
        knocked = {
            "0 0 0 0.9 k": [0, 0, 0, 230],
            "0.5 0 0 1 k": [127, 0, 0, 255],
            "rich fill": [51, 0, 0, 255],
        }
        for colour, over, got in objects:
            wanted = [*ground, 255] if black and over else knocked.get(colour, [0, 0, 0, 255])
            close = len(got) == 4 and all(abs(one - other) <= 1 for one, other in zip(got, wanted))
            results.see(close, f"overprint_black = {black}: {colour} prints {got}, and not {wanted}")


def see_names(results: Results, folder: str) -> None:
    """Tests versions in names, endings in any case, and the size of a page without a trim box."""
    pages = Pages(folder, "names", count=4)
    for name in ("A1_v9.PDF", "A1_v10.Pdf", "A2_v1.pdf", "A02_v1.PDF", "A3_v2.pdf", "A4_v0.pdf", "A4.pdf"):
        sheet = Sheet().text(20, 20, 100, 2)
        sheet.write(os.path.join(pages.folder, name))
    pages.write("A3_v7", "", size=(64, 81.28), trim=False)
    house = 'names = "{section}{page}_v{version}"\n' + pages.house()
    found, status = intake(pages, house)
    faults = [("A02_v1.PDF", "second"), ("A3_v7.pdf", "size")]
    results.see(status == 1 and events(found, "fault") == faults, f"versions: {events(found, 'fault')}")
    notes = [("A1_v9.PDF", "version"), ("A3_v2.pdf", "version"), ("A4.pdf", "stray")]
    results.see(events(found, "note") == notes, f"versions: {events(found, 'note')}")
    made = sorted(item["file"] for item in found if item["event"] == "page")
    results.see(made == ["A1_v10.Pdf", "A4_v0.pdf"], f"versions: {made}")
    texts = {item["file"]: item["text"] for item in found if item["event"] in ("fault", "note")}
    for name, text in (
        ("A1_v9.PDF", "A1_v9.PDF: not used: A1_v10.Pdf has a higher version"),
        ("A02_v1.PDF", "A02_v1.PDF: a second file for A02: A2_v1.pdf"),
        (
            "A3_v7.pdf",
            "A3_v7.pdf: no trim box, and the whole page is 64.0 x 81.3 mm, not 60.96 x 81.28: 3.0 mm too wide",
        ),
    ):
        results.see(texts.get(name) == text, f"the line of {name} is {texts.get(name)!r}")
    for names in ("{section}{page}{version}{version}", "{page}{version}", "{section}{page}{versions}"):
        _, status = intake(pages, f'names = "{names}"\n' + pages.house(), quiet=True)
        results.see(status == 2 and "isn't a pattern" in pages.said, f"{names}: {status} {pages.said}")


def see_passed_on(results: Results, program: str, folder: str) -> None:
    """Tests that make and late pass on what intake said, also of pages that are kept and of strays."""
    pages = Pages(folder, "passed")
    for number, words in ((1, "0 w 20 30 m 150 30 l S"), (2, "0 0 0 1 k 20 30 50 50 re f")):
        Sheet().paint(words).write(pages.path(f"A{number}"))
    with open(os.path.join(pages.folder, "notes.txt"), "w", encoding="utf-8") as file:
        file.write("not a page")
    found, status = intake(pages, pages.house())
    notes = [item["text"] for item in found if item["event"] == "note"]
    results.see(status == 0 and len(notes) == 2, f"notes to pass on: {found}")
    found, _ = intake(pages, pages.house())
    kept = [item["text"] for item in found if item["event"] == "note"]
    results.see(kept == notes, f"the notes of kept pages: {kept}")
    out, house = f"{pages.work}-out", os.path.join(folder, "passed", "house.toml")
    late = os.path.join(folder, "A2.pdf")
    Sheet().paint("0 0 0 1 k 20 30 90 50 re f").write(late)
    for words in (
        ["make", pages.work, out],
        ["late", pages.work, late, out, "--house", house, "--in", pages.folder],
    ):
        call = [sys.executable, "-B", os.path.join(TOP, "tools", "pressroom.py"), *words, "--json"]
        answer = subprocess.run([*call, "--program", program], capture_output=True, text=True)
        told = [json.loads(line) for line in answer.stdout.splitlines()]
        got = [item["text"] for item in told if item["event"] == "note"]
        results.see(
            answer.returncode == 0 and sorted(got) == sorted(notes), f"{words[0]} passes on {got}: {answer}"
        )
        kinds = sorted(item.get("kind", "") for item in told if item["event"] == "note")
        results.see(kinds == ["stray", "thin"], f"{words[0]} passes on {kinds}")
        with open(os.path.join(out, "current", "report.json"), encoding="utf-8") as file:
            report = json.load(file)
        results.see(
            [note["text"] for note in report["notes"]] == got, f"the report of {words[0]}: {report['notes']}"
        )


def see_notes(results: Results, program: str, folder: str) -> None:
    """Tests all of this."""
    folder = os.path.join(folder, "notes")
    os.makedirs(folder)
    see_contents(results, folder)
    see_black(results, folder)
    see_names(results, folder)
    see_passed_on(results, program, folder)


def main() -> None:
    """Runs these tests alone."""
    import tempfile

    results = Results()
    with tempfile.TemporaryDirectory(prefix="plateroom-notes-") as folder:
        see_notes(results, os.path.abspath(sys.argv[1]), folder)
    results.end()


if __name__ == "__main__":
    main()
