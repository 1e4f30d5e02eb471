"""Tests the second opinion of `pressroom intake`: pages on which two renderers agree get no note, and pages that are
printed otherwise than they came get one with the place and both values.
"""
from __future__ import annotations

import json
import os
import re
import shutil
import subprocess
import sys
from collections.abc import Callable
from dataclasses import dataclass
from typing import TYPE_CHECKING, Any

from intake_pages import PROFILE, Pages
from newspaper import TOP
from trial import Count as Results
from second_rows import see_rows
from second_pages import MAKERS, OVER, Sheet, write_pages

sys.path.insert(0, os.path.join(TOP, "tools"))
from pressroom.base.limits import Limits
from pressroom.intake import profiles
from pressroom.intake.ghostscript import Ghostscript
from pressroom.intake.opinion import Opinion, Page
from pressroom.intake.pdf import inspect

if TYPE_CHECKING:
    Note = tuple[str, str, Any]

DPI, SIZE = 300, (720, 960)
Maker = Callable[[Sheet], Any]
# Programs of intake but for mutool.
PROGRAMS = "gs qpdf pdfinfo pdffonts pdftohtml tiffcp tiffinfo prlimit unshare true python3 sh".split()


def paint(text: str) -> Maker:
    """Returns a maker of a page with these operators."""
    return lambda sheet: sheet.paint(text)


def spot(name: str, exponent: float, tint: float) -> Maker:
    """Returns a maker of a page with a square in a tint of a spot."""
    return lambda sheet: sheet.paint(
        f"/{sheet.spot(name, '0 1 0.5 0', exponent)} cs {tint} scn 20 20 80 80 re f"
    )


def lines(size: float, count: int, colour: str) -> Maker:
    """Returns a maker of a page with lines of text."""
    return lambda sheet: sheet.text(size, 20, 180, count, colour)


def over(text: str, state: str) -> Maker:
    return lambda sheet: sheet.paint("0.8 0 0.3 0 k 0 0 172 230 re f").state(state).paint(text)


@dataclass(frozen=True)
class Case:
    """A page as it came, the page as it is printed, and the pattern of the first note; nothing if there is none."""

    came: Maker
    printed: Maker
    note: str
    place: tuple[float, float, float, float] | None = None
    rgb: bool = False


SQUARE = "20 20 80 80 re f"
# The square in millimetres from the upper left corner.
PLACE = 7.1, 46.0, 28.2, 28.2
CASES = {
    "vanished": Case(paint(f"0.8 0 0 0 k {SQUARE}"), paint(""), r"^prints C 0 percent, and mutool shows C 80$", PLACE),
    "added": Case(paint(""), paint(f"0 0 0.6 0 k {SQUARE}"), r"^prints Y 60 percent, and mutool shows Y 0$", PLACE),
    "half of a mask": Case(
        paint(f"0.4 0 0 0 k {SQUARE}"), paint(f"0.17 0 0 0 k {SQUARE}"), r"^prints C 17 .* shows C 40$", PLACE
    ),
    "black twice": Case(paint(f"0 0 0 0.5 k {SQUARE}"), paint(f"0 0 0 1 k {SQUARE}"), r"K 100 .* K 50$", PLACE),
    "black in four inks": Case(
        lines(12, 6, "0 g"), lines(12, 6, "0.73 0.68 0.67 0.89 k"), r"^prints C \d+, M \d+, Y \d+ percent, and .* C 0"
    ),
    "lost text": Case(lines(9, 5, "0 g"), paint(""), r"^prints K 0 percent, and mutool shows K \d\d$"),
    "lost white text": Case(
        lambda sheet: sheet.paint("0 0 0 1 k 10 60 150 150 re f").text(12, 20, 180, 5, "0 0 0 0 k"),
        paint("0 0 0 1 k 10 60 150 150 re f"), r"^prints K 100 percent, and mutool shows K \d\d$",
    ),
    "a tint of the house's spot": Case(spot("HOUSE", 1, 0.6), spot("HOUSE", 1, 0.3), r"spot 30 .* spot 60$", PLACE),
    "a spot's transform": Case(
        spot("WINE", 3, 0.5), spot("WINE", 1, 0.5), r"^prints M 50, Y 25 percent, and mutool shows M 12, Y 6$", PLACE
    ),
    "lost overprint": Case(
        over(f"0 0 0 1 k {SQUARE}", OVER), over(f"0 0 0 1 k {SQUARE}", "/OPM 0"), r"C 0, Y 0 .* C 80, Y 30$", PLACE
    ),
    "vanished RGB": Case(
        paint(f"0.1 0.2 0.6 rg 20 120 80 80 re f 0.7 0.1 0.2 rg {SQUARE}"),
        paint("0.1 0.2 0.6 rg 20 120 80 80 re f"), r"^prints C\+K 0, M\+K 0, Y\+K 0 percent", None, True,
    ),
    "grey for colour": Case(
        lambda sheet: sheet.paint("0.9 0.4 0.1 rg 30 30 60 60 re f"), paint("0.5 0.5 0.5 rg 30 30 60 60 re f"),
        r"^prints C\+K", None, True,
    ),
    "moved by 5 mm": Case(paint(f"0 1 0 0 k {SQUARE}"), paint("0 1 0 0 k 34 20 80 80 re f"), r"M"),
    "nothing": Case(paint(f"0.8 0 0 0 k {SQUARE}"), paint(f"0.8 0 0 0 k {SQUARE}"), ""),
    "moved by 0.1 mm": Case(paint(f"0 0 0 1 k {SQUARE}"), paint("0 0 0 1 k 20.3 20 80 80 re f"), ""),
    "lighter by a twentieth": Case(paint(f"0.8 0 0 0 k {SQUARE}"), paint(f"0.75 0 0 0 k {SQUARE}"), ""),
    "a lost dot": Case(paint("0 0 0 1 k 50 50 2 2 re f"), paint(""), ""),
}  # fmt: skip


def write(maker: Maker, path: str) -> None:
    sheet = Sheet()
    maker(sheet)
    sheet.write(path)


def opinion_of(case: Case, folder: str, name: str) -> list[Note]:
    """Returns the notes on a page that is rendered from one PDF and compared with another."""
    place = os.path.join(folder, name.replace(" ", "-"))
    os.makedirs(place)
    profiles.write_profiles(place, PROFILE)
    write(case.came, os.path.join(place, "page.pdf"))
    write(case.printed, os.path.join(place, "printed.pdf"))
    limits = Limits()
    pdf, inspected = inspect(limits, "printed.pdf", place)
    rgb = (0.0, 0.0, 60.0, 80.0) if case.rgb else None
    version = subprocess.run(["gs", "--version"], capture_output=True, text=True, check=True).stdout.strip()
    opinion = Opinion("note", os.path.join(place, "press.icc"), lambda spot: spot == b"HOUSE", limits)
    page = Page(place, "page.pdf", inspected, rgb, False, DPI)
    asked = opinion.asked(page, SIZE[1])
    Ghostscript(version, limits, pdf, inspected.box, place).separate(DPI, SIZE, "HOUSE", False, means=asked)
    return opinion.notes(page, asked)


def see_cases(results: Results, folder: str) -> None:
    """Tests pages that are printed otherwise than they came."""
    for name, case in CASES.items():
        notes = opinion_of(case, folder, name)
        said = [text for _, text, _ in notes]
        if not case.note:
            results.see(not notes, f"{name}: {said}")
            continue
        results.see(said and re.search(case.note, said[0]), f"{name}: {said}")
        if case.place and notes:
            off = max(abs(one - other) for one, other in zip(notes[0][2], case.place))
            results.see(off <= 4.5, f"{name}: its place is {notes[0][2]}, and not {case.place}")


def call(
    pages: Pages, rule: str, path: str | None = None, colour: str = "convert"
) -> tuple[list[Any], int, str]:
    """Runs intake with a rule, and with other programs on its path. Returns its events, status and standard error."""
    house = os.path.join(os.path.dirname(pages.folder), "house.toml")
    with open(house, "w", encoding="utf-8") as file:
        file.write(pages.house(spot="HOUSE", colour=colour) + f'[check]\nsecond = "{rule}"\n')
    words = [sys.executable, "-B", os.path.join(TOP, "tools", "pressroom.py"), "intake", house]
    words += [pages.folder, pages.work, "--json", "--seconds", "20"]
    environment = os.environ | ({"PATH": path} if path else {})
    answer = subprocess.run(words, capture_output=True, text=True, env=environment)
    return [json.loads(line) for line in answer.stdout.splitlines()], answer.returncode, answer.stderr


def see_agreement(results: Results, folder: str) -> None:
    """Tests that pages of text and pictures get no note."""
    pages = Pages(folder, "agreement", count=len(MAKERS))
    for number, name in enumerate(write_pages(pages.folder), 1):
        os.rename(pages.path(name), pages.path(f"A{number}"))
    found, status, said = call(pages, "note")
    differ = [item["text"] for item in found if item.get("kind") == "differs"]
    made = sum(item["event"] == "page" for item in found)
    results.see(status == 0 and made == len(MAKERS), f"pages on which two renderers agree: {found} {said}")
    results.see(not differ, f"pages on which two renderers agree: {differ}")


def programs(folder: str, name: str, mutool: str = "") -> str:
    """Returns a path of programs with a script in the place of mutool, or without it."""
    place = os.path.join(folder, name)
    os.makedirs(place)
    for program in PROGRAMS:
        found = shutil.which(program)
        if found:
            os.symlink(found, os.path.join(place, program))
    if mutool:
        path = os.path.join(place, "mutool")
        with open(path, "w", encoding="utf-8") as file:
            file.write(f"#!/bin/sh\ncase $1 in -v) echo mutool version 1; exit;; esac\n{mutool}\n")
        os.chmod(path, 0o755)
    return place


def see_rules(results: Results, folder: str) -> None:
    """Tests what becomes of a difference by the house's rule, and programs that fail, hang or are missing."""
    pages = Pages(folder, "rules")
    write(CASES["nothing"].came, pages.path("A1"))
    write(paint(""), pages.path("A2"))
    other = os.path.join(folder, "other.pdf")
    write(paint(""), other)
    real = f"set -- $(echo $* | sed s,page.pdf,{other},); exec {shutil.which('mutool')} $*"
    paths = {
        "other": programs(folder, "other", real.replace("sed", shutil.which("sed") or "sed")),
        "fails": programs(folder, "fails", "echo 'error: cannot find it' >&2; exit 1"),
        "hangs": programs(
            folder, "hangs", "exec sleep 100".replace("sleep", shutil.which("sleep") or "sleep")
        ),
        "writes": programs(
            folder, "writes", "for word; do case $word in *.psd) echo 8BPS > $word;; esac; done"
        ),
        "missing": programs(folder, "missing"),
    }
    for name, rule, event, pattern in (
        ("other", "note", "note", r"prints C 80 percent, and mutool shows C 0"),
        ("other", "fault", "fault", r"prints C 80 percent, and mutool shows C 0"),
        ("other", "off", "", ""),
        ("fails", "note", "note", r"mutool can't draw it: cannot find it$"),
        ("fails", "fault", "fault", r"mutool can't draw it: cannot find it$"),
        ("writes", "note", "note", r"mutool can't draw it: "),
        ("hangs", "note", "note", r"mutool can't draw it: mutool took more than 20 s$"),
    ):
        shutil.rmtree(pages.work, ignore_errors=True)
        found, status, said = call(pages, rule, paths[name])
        told = [item for item in found if item.get("kind") == "differs"]
        right = [item for item in told if item["event"] == event and re.search(pattern, item["text"])]
        results.see(status == (event == "fault") and not said, f"{name}, {rule}: status {status}, {said}")
        first = [item for item in right if item["file"] == "A1.pdf"]
        results.see(bool(first) == bool(event) and len(right) == len(told), f"{name}, {rule}: {found}")
    shutil.rmtree(pages.work, ignore_errors=True)
    found, status, _ = call(pages, "note", paths["missing"])
    told = [item["text"] for item in found if item["event"] == "note"]
    missing = (
        "mutool is not installed, so no page is compared with what it shows: apt-get install mupdf-tools"
    )
    results.see(status == 0 and told == [missing], f"without mutool: {found}")
    found, status, said = call(pages, "fault", paths["missing"])
    wanted = "pressroom intake: mutool is not installed: apt-get install mupdf-tools\n"
    results.see(
        status == 2 and said == wanted, f"without mutool, where the house wants a fault: {status} {said}"
    )


def see_second(results: Results, folder: str) -> None:
    """Tests the second opinion."""
    folder = os.path.join(folder, "second")
    os.makedirs(folder)
    see_cases(results, folder)
    see_agreement(results, folder)
    see_rules(results, folder)
    see_rows(results, folder)


def main() -> None:
    """Runs these tests alone."""
    import tempfile

    results = Results()
    with tempfile.TemporaryDirectory(prefix="plateroom-second-") as folder:
        see_second(results, folder)
    results.end()


if __name__ == "__main__":
    main()
