#!/usr/bin/env python3
"""Tests `pressroom ppf`: Ghostscript draws the previews of its files, which must be what the plates print.

    python3 check/ppf.py PROGRAM

Plates are read by check/tiff.py, which shares no code with the tools, and the tables are compared with the
program's own `keys`. It names what is missing of numpy, Pillow and Ghostscript, and skips the tests that need
it. The last line is `N passed, M failed`, and the status is 1 if one failed.
"""
import csv
import json
import os
import re
import shutil
import subprocess
import sys
import tempfile

sys.dont_write_bytecode = True
from newspaper import missing
from trial import Count
from two_sites import EXAMPLES, TOP, edition, plates_of, run

try:
    import numpy
    from PIL import Image
except ImportError:
    numpy = None

NAMES = {"C": "Cyan", "M": "Magenta", "Y": "Yellow", "K": "Black", "S": "Spot"}
# What reads a PPF file as PostScript: each preview becomes a page of its extent.
PROLOG = """
/CIP3BeginSheet {} def /CIP3EndSheet {} def /CIP3BeginFront {} def /CIP3EndFront {} def
/CIP3BeginPreviewImage {} def /CIP3EndPreviewImage {} def
/CIP3BeginSeparation {} def /CIP3EndSeparation {} def
/CIP3PreviewImage {
  gsave CIP3AdmPSExtent aload pop scale
  /text currentfile CIP3PreviewImageEncoding filter def
  CIP3PreviewImageWidth CIP3PreviewImageHeight CIP3PreviewImageBitsPerComp CIP3PreviewImageMatrix
  text CIP3PreviewImageCompression filter image
  text flushfile grestore showpage
} def
"""


def tool(*words):
    """Runs `pressroom ppf` and returns its status, its output and its messages."""
    line = [sys.executable, "-B", os.path.join(TOP, "tools", "pressroom.py"), "ppf", *map(str, words)]
    answer = subprocess.run(line, capture_output=True, text=True)
    return answer.returncode, answer.stdout, answer.stderr


def blocks(plate, side):
    """The dots of each block of so many pixels across and down."""
    rows, columns = plate.shape
    filled = numpy.pad(plate, ((0, -rows % side), (0, -columns % side))).astype(numpy.int64)
    return filled.reshape(-(-rows // side), side, -(-columns // side), side).sum(axis=(1, 3))


def drawn(path, folder, size, resolution):
    """The pages that Ghostscript draws of a PPF file."""
    prolog = os.path.join(folder, "prolog.ps")
    with open(prolog, "w", encoding="ascii") as file:
        file.write(PROLOG)
    words = [
        "gs",
        "-q",
        "-dSAFER",
        "-dNOPAUSE",
        "-dBATCH",
        "-sDEVICE=pnggray",
        f"-g{size[0]}x{size[1]}",
        f"-r{resolution}",
        "-sOutputFile=" + os.path.join(folder, "page-%d.png"),
        prolog,
        path,
    ]
    answer = subprocess.run(words, capture_output=True, text=True)
    if answer.returncode or answer.stdout or answer.stderr:
        return answer.stdout + answer.stderr or f"status {answer.returncode}"
    pages = []
    while os.path.exists(page := os.path.join(folder, f"page-{len(pages) + 1}.png")):
        with Image.open(page) as picture:
            pages.append(numpy.asarray(picture.convert("L")).astype(numpy.int64))
    for number in range(len(pages)):
        os.remove(os.path.join(folder, f"page-{number + 1}.png"))
    return pages


def see_text(results, name, text, sites, inks, names):
    """The file is 7-bit text of short lines, and has each separation once."""
    results.see(all(byte < 128 for byte in text), f"{name}: a byte has 8 bits")
    lines = text.decode("latin-1").split("\n")
    results.see(
        max(map(len, lines)) < 255 and b"\r" not in text,
        f"{name}: a line has {max(map(len, lines))} characters",
    )
    results.see(
        lines[:2] == ["%!PS-Adobe-3.0", "%%CIP3-File Version 3.0"] and lines[-2:] == ["%%CIP3EndOfFile", ""],
        f"{name}: {lines[:2]}, {lines[-2:]}",
    )
    results.see(
        [line[7:] for line in lines if line.startswith("% site ")] == sites,
        f"{name}: its sites aren't {sites}",
    )
    said = [line for line in lines if line.startswith("/CIP3AdmSeparationNames ")]
    wanted = f"/CIP3AdmSeparationNames [{' '.join(names[ink] for ink in inks)}] def"
    results.see(said == [wanted], f"{name}: {said}, not {wanted}")
    for word, count in (
        ("CIP3BeginSeparation", len(inks)),
        ("CIP3PreviewImage", len(inks)),
        ("CIP3EndSeparation", len(inks)),
        ("CIP3BeginSheet", 1),
        ("CIP3EndSheet", 1),
        ("/CIP3AdmJobName (E1) def", 1),
        ("CIP3EndPreviewImage", 1),
    ):
        results.see(lines.count(word) == count, f"{name}: {word} is there {lines.count(word)} times")
    software = [line for line in lines if re.fullmatch(r"/CIP3AdmSoftware \(pressroom [0-9.]+\) def", line)]
    results.see(len(software) == 1, f"{name}: its software is {software}")


def see_files(results, folder, plates, dpi):
    """Each file draws the previews of its plates."""
    out, side = os.path.join(folder, f"ppf-{dpi}"), max(1, round(dpi / 50.8))
    status, said, error = tool(plates, out, "--jobs", 2)
    results.see((status, error) == (0, ""), f"ppf ends with {status}: {said}{error}")
    sheets = {
        ("A-001", "BERGEN"): ["BERGEN", "OSLO"],
        ("A-002", "BERGEN"): ["BERGEN"],
        ("A-002", "OSLO"): ["OSLO"],
        ("C-001", "BERGEN"): ["BERGEN", "OSLO"],
    }
    names = sorted(f"E1-{pair}-{site}.ppf" for pair, site in sheets)
    results.see(sorted(os.listdir(out)) == names, f"there are {sorted(os.listdir(out))}")
    for (pair, site), sites in sheets.items():
        name = f"E1-{pair}-{site}.ppf"
        path, read = os.path.join(out, name), plates_of(os.path.join(plates, site), pair)
        with open(path, "rb") as file:
            text = file.read()
        see_text(results, name, text, sites, list(read), {ink: f"({NAMES[ink]})" for ink in NAMES})
        wanted = [blocks(plate, side) for plate in read.values()]
        height, width = wanted[0].shape
        extent = [float(value) for value in re.search(rb"/CIP3AdmPSExtent \[(.*)\] def", text)[1].split()]
        off = max(abs(given - pixels * side * 72 / dpi) for given, pixels in zip(extent, (width, height)))
        results.see(off < 0.001, f"{name}: its extent is {extent}")
        for key, value in (
            ("Width", width),
            ("Height", height),
            ("Matrix", f"[{width} 0 0 -{height} 0 {height}]"),
        ):
            line = f"/CIP3PreviewImage{key} {value} def\n".encode()
            results.see(text.count(line) == len(read), f"{name}: {line} is there {text.count(line)} times")
        given = re.findall(rb"/CIP3PreviewImageResolution \[([0-9.]+) ([0-9.]+)\] def", text)
        results.see(
            len(given) == len(read)
            and all(abs(float(value) - dpi / side) < 0.001 for two in given for value in two),
            f"{name}: {given}",
        )
        if shutil.which("gs"):
            see_drawn(results, name, drawn(path, folder, (width, height), dpi / side), wanted, side)


def see_drawn(results, name, pages, wanted, side):
    """The pages are the shares of the plates' dots, rounded to the nearest of 256 greys, where 0 is full
    ink."""
    if isinstance(pages, str):
        results.see(False, f"{name}: Ghostscript says {pages}")
        return
    results.see(len(pages) == len(wanted), f"{name}: Ghostscript draws {len(pages)} pages")
    for number, (page, dots) in enumerate(zip(pages, wanted)):
        area, wrong = side * side, -1
        if page.shape == dots.shape:
            wrong = int((numpy.abs(page * area - 255 * (area - dots)) * 2 > area).sum())
        results.see(
            wrong == 0 and len(numpy.unique(dots)) > 1,
            f"{name}: separation {number} has {page.shape}, {wrong} wrong pixels",
        )


def see_tables(results, program, folder, plan, plates):
    """The tables have the counts of `plateroom keys`, and a press's keys their printed area."""
    house, out = os.path.join(folder, "house.toml"), os.path.join(folder, "tables")
    with open(house, "w", encoding="utf-8") as file:
        file.write(
            '[spot]\nseparation = "HUS (1) å"\ncolour = "#123456"\n\n[keys]\nwidth = 6.3\noffset = -2.5\n'
        )
    status, said, error = tool(plates, out, "--keys", 5, "--keys", 64, "--house", house)
    results.see((status, error) == (0, ""), f"ppf with --keys ends with {status}: {said}{error}")
    names = {ink: f"({NAMES[ink]})" for ink in NAMES} | {"S": r"(HUS \0501\051 \345)"}
    with open(os.path.join(out, "E1-A-001-BERGEN.ppf"), "rb") as file:
        see_text(results, "a spot's name", file.read(), ["BERGEN", "OSLO"], list(NAMES), names)
    for count in (5, 64):
        words = [program, "keys", plan, EXAMPLES, os.path.join(folder, "keys"), str(count)]
        answer = subprocess.run(words, capture_output=True, text=True)
        lines = [line.split() for line in answer.stdout.splitlines() if line.startswith("keys ")]
        wanted = sorted((name, list(map(int, dots))) for _, _, name, *dots in lines)
        with open(os.path.join(out, f"keys-{count}.json"), encoding="utf-8") as file:
            table = json.load(file)
        found = sorted((f"{plate['pair']}-{plate['ink']}", plate["dots"]) for plate in table["plates"])
        results.see(
            found == wanted and len(wanted) == 11, f"keys-{count}.json isn't what `plateroom keys` says"
        )
        results.see(
            (table["keys"], table["press"]) == (count, {"width": 6.3, "offset": -2.5}),
            f"keys-{count}.json: {table['press']}",
        )
        see_same(results, os.path.join(out, f"keys-{count}.csv"), table)
        for plate in table["plates"]:
            read = plates_of(os.path.join(plates, plate["sites"][0]), plate["pair"])[plate["ink"]]
            see_shares(results, plate, read, count)


def see_same(results, path, table):
    """The CSV has the rows of the JSON."""
    with open(path, encoding="utf-8", newline="") as file:
        lines = list(csv.DictReader(file))
    flat = [
        {
            "pair": plate["pair"],
            "sites": " ".join(plate["sites"]),
            "ink": plate["ink"],
            "name": plate["name"],
            "key": str(key + 1),
            "dots": str(plate["dots"][key]),
            "pixels": str(plate["pixels"][key]),
            "percent": f"{plate['percent'][key]:.3f}",
            "press_percent": f"{plate['press_percent'][key]:.3f}",
        }
        for plate in table["plates"]
        for key in range(table["keys"])
    ]
    results.see(lines == flat, f"{os.path.basename(path)} differs from the JSON")


def see_shares(results, plate, read, count):
    """The printed area of each key of a plate, column by column."""
    length, width = read.shape
    sums, pixels, press = read.sum(axis=0), [0] * count, [0] * count
    for x in range(width):
        pixels[x * count // width] += length
        # Keys of 6.3 mm from -2.5 mm on, and the middle of the column, in whole numbers.
        key = ((2 * x + 1) * 254 + 25 * 2400) // (63 * 2400)
        if 0 <= key < count:
            press[key] += int(sums[x])
    what = f"{plate['pair']}-{plate['ink']} of {count} keys"
    results.see(
        plate["pixels"] == pixels and sum(plate["dots"]) == int(read.sum()), f"{what}: pixels or total"
    )
    percent = [100 * dots / all_ for dots, all_ in zip(plate["dots"], pixels)]
    results.see(
        max(abs(a - b) for a, b in zip(plate["percent"], percent)) <= 0.00051, f"{what}: {plate['percent']}"
    )
    area = 6.3 / 25.4 * 1200 * length
    off = max(abs(given - 100 * dots / area) for given, dots in zip(plate["press_percent"], press))
    results.see(off <= 0.00051, f"{what}: a press's keys are off by {off}")


def see_damage(results, folder, plates):
    """A damaged plate is named, its pair has no file at that site, and all others are written."""
    hurt, out = os.path.join(folder, "hurt"), os.path.join(folder, "ppf-hurt")
    shutil.copytree(plates, hurt)
    path = os.path.join(hurt, "OSLO", "E1-A-001-Y.tif")
    with open(path, "r+b") as file:
        file.truncate(4000)
    shutil.copyfile(
        os.path.join(hurt, "OSLO", "E1-A-001-K.tif"), os.path.join(hurt, "OSLO", "E1-A-002-K.tif.part")
    )
    status, _, said = tool(hurt, out, "--keys", 4)
    results.see(status == 1 and f"fault: {path}: cut off" in said, f"a damaged plate: {status}, {said}")
    names = [
        "E1-A-001-BERGEN.ppf",
        "E1-A-002-BERGEN.ppf",
        "E1-A-002-OSLO.ppf",
        "E1-C-001-BERGEN.ppf",
        "keys-4.csv",
        "keys-4.json",
    ]
    results.see(
        sorted(os.listdir(out)) == names, f"with a damaged plate there are {sorted(os.listdir(out))}"
    )


def see_refusals(results, folder, plates):
    """Wrong arguments are named, and nothing is written."""
    empty, out, house = (os.path.join(folder, name) for name in ("empty", "refused", "wrong.toml"))
    os.mkdir(empty)
    for words, text, said in (
        ((empty, out), "", "no plates"),
        ((os.path.join(folder, "away"), out), "", "No such file"),
        ((plates, out, "--keys", 0), "", "1 to 64"),
        ((plates, out, "--house", os.path.join(folder, "away.toml")), "", "No such file"),
        ((plates, out, "--house", house), "[keys]\nwidth = 0", "keys.width: 0 isn't a length"),
    ):
        with open(house, "w", encoding="utf-8") as file:
            file.write(text)
        status, _, error = tool(*words)
        results.see(
            status == 2 and said in error and not os.path.exists(out),
            f"ppf {words[1:]} {text!r}: {status}, {error}",
        )


def main():
    if len(sys.argv) != 2:
        sys.exit(__doc__.splitlines()[2].strip())
    results, lacks = Count(), missing("numpy", "PIL")
    if lacks:
        print(f"skipped: ink key files ({lacks} isn't installed)")
        sys.exit(results.end())
    if not shutil.which("gs"):
        print("skipped: the pictures of previews (Ghostscript isn't installed)")
    with tempfile.TemporaryDirectory(prefix="plateroom-ppf-") as folder:
        plans = {}
        for dpi in (1200, 1016, 60):
            plans[dpi] = run(sys.argv[1], folder, f"at-{dpi}", edition() | {"dpi": dpi})
            see_files(results, folder, plans[dpi][1], dpi)
        see_tables(results, sys.argv[1], folder, *plans[1200])
        see_damage(results, folder, plans[1200][1])
        see_refusals(results, folder, plans[1200][1])
    sys.exit(results.end())


if __name__ == "__main__":
    main()
