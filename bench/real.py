#!/usr/bin/env python3
"""Measures the program on pages as a pressroom has them: CMYK at the plate's resolution, planar and packed.

usage: bench/real.py PROGRAM FOLDER [--before PROGRAM] [--pages N] [--size WIDTH HEIGHT] [--processors LIST]
                     [--runs N] [--no-plain] [--one-strip] [--press]

The pages have text in K, pictures in four inks and bare paper in the proportions of a newspaper's, as
Ghostscript and `tiffcp -p separate -c packbits -r 64` write them: PackBits, one plane an ink, strips of 64
rows; with --one-strip all rows of a plane are one strip. Every fourth page prints K alone. Three sites print
all pages. With --press each ink has a curve and a pixel at most 240 percent of ink, as a press needs it, and
each row of a picture comes four times, as Ghostscript enlarges a picture of a quarter of the resolution.

For each number of processors of LIST (1,2,4) it prints the seconds of wall-clock and CPU time, the best of
the runs, of `run`, of the part of `run` before the first row (its plates can't be written), of `verify`, of
`keys`, and of `replate` after one page changed; with --before also those of another program, in turn. Plain C
on one thread (bench/pages.c) makes the same plates from the same pages unpacked, and the plates are compared
byte by byte. The files go to a new folder below FOLDER, which should be in memory, and are deleted at the
end: some 60 MB a page of 11,200 by 16,000, and with plain C another 700 MB each.
"""
import argparse
import json
import os
import random
import shutil
import struct
import subprocess
import sys
import tempfile
import time

sys.dont_write_bytecode = True
HERE = os.path.dirname(os.path.abspath(__file__))
sys.path.insert(0, HERE)

import images
import pages
import sites

EACH = 64
PICTURES, LINES = 16, 12
LIMIT = 612


class Rows:
    """The kinds of rows that pages are made of, each in four planes, packed and as pixels side by side."""

    def __init__(self, width, wants_pixels, enlarged=1):
        self.width, self.wants_pixels, self.enlarged = width, wants_pixels, enlarged
        self.paper = self.kept([bytes(width)] * 4)
        self.text = [self.kept(self.text_row(kind)) for kind in range(LINES)]
        noise = random.Random(5).randbytes(3 * width)
        self.picture = [self.kept(self.picture_row(kind, noise)) for kind in range(PICTURES)]

    def kept(self, planes):
        pixels = bytearray(4 * self.width if self.wants_pixels else 0)
        if self.wants_pixels:
            for ink in range(4):
                pixels[ink::4] = planes[ink]
        return [images.pack(plane) for plane in planes], bytes(pixels)

    def text_row(self, kind):
        """Stems of letters in K, in columns a fifth of the page wide."""
        black, at = bytearray(self.width), 7 * kind
        while at < self.width:
            stem = 5 + (at * 13 + kind) % 9
            if at % (self.width // 5) < self.width // 5 - 90:
                black[at : at + stem] = b"\xff" * len(black[at : at + stem])
            at += 14 + (at * 31 + kind * 17) % 25
        return [bytes(self.width)] * 3 + [bytes(black)]

    def picture_row(self, kind, noise):
        """A picture over the inner three fifths, with grain, and text on either side."""
        planes = [bytearray(plane) for plane in self.text_row(kind)]
        first, last = self.width // 5, 4 * self.width // 5
        for ink in range(4):
            at = (977 * kind + 131 * ink) % self.width
            columns = [x // self.enlarged * self.enlarged for x in range(first, last)]
            ramp = (x * 200 // self.width + 9 * ink + 3 * kind for x in columns)
            grain = (noise[at + x // self.enlarged] for x in range(last - first))
            planes[ink][first:last] = bytes((v + (g & 15)) & 255 for v, g in zip(ramp, grain))
        return [bytes(plane) for plane in planes]

    def at(self, y, pictured):
        """The row of a page: 1,200 of 4,000 rows cross a picture; text takes 40 of 70 rows; the rest is paper."""
        if pictured and y % 4000 < 1200:
            return self.picture[y // self.enlarged * 7 % PICTURES]
        return self.text[y // 5 % LINES] if y % 70 < 40 else self.paper


def write_packed(path, rows, size, pictured, each):
    """A page, planar and packed, in strips of so many rows."""
    width, height = size
    count = -(-height // each)
    strips = [
        b"".join(rows.at(y, pictured)[0][plane] for y in range(strip * each, min(height, strip * each + each)))
        for plane in range(4)
        for strip in range(count)
    ]
    tables = 146
    entries = [(256, 4, 1, width), (257, 4, 1, height), (258, 3, 4, 134), (259, 3, 1, 32773), (262, 3, 1, 5),
               (273, 4, len(strips), tables), (277, 3, 1, 4), (278, 4, 1, each),
               (279, 4, len(strips), tables + 4 * len(strips)), (284, 3, 1, 2)]
    offset = tables + 8 * len(strips)
    with open(path, "wb") as file:
        file.write(struct.pack("<2sHIH", b"II", 42, 8, len(entries)))
        for entry in entries:
            file.write(struct.pack("<HHII", *entry))
        file.write(struct.pack("<I4HI", 0, 8, 8, 8, 8, 0))
        for strip in strips:
            file.write(struct.pack("<I", offset))
            offset += len(strip)
        file.write(b"".join(struct.pack("<I", len(strip)) for strip in strips))
        file.write(b"".join(strips))


def write_pixels(path, rows, size, pictured):
    """The same page with four bytes a pixel, unpacked, in one strip, as plain C reads it."""
    width, height = size
    entries = [(256, 4, 1, width), (257, 4, 1, height), (258, 3, 4, 122), (259, 3, 1, 1), (262, 3, 1, 5),
               (273, 4, 1, 130), (277, 3, 1, 4), (278, 4, 1, height), (279, 4, 1, 4 * width * height)]
    with open(path, "wb") as file:
        file.write(struct.pack("<2sHIH", b"II", 42, 8, len(entries)))
        for entry in entries:
            file.write(struct.pack("<HHII", *entry))
        file.write(struct.pack("<I4H", 0, 8, 8, 8, 8))
        for y in range(height):
            file.write(rows.at(y, pictured)[1])


def plan_of(count, size, is_press):
    """The plan of so many pages, with curves and an ink limit if it is a press's."""
    names = [f"p{number}" for number in range(count)]
    shown = [
        {"name": name, "inks": "K" if number % 4 == 3 else "CMYK",
         "layers": [{"kind": "contone", "file": f"{name}.tif"}]}
        for number, name in enumerate(names)
    ]
    tone = {"curves": pages.CURVES, "limit": LIMIT} if is_press else {}
    return tone | {"plan": 1, "edition": "REAL", "dpi": 1200, "page": list(size), "pages": shown,
            "sections": [{"name": "A", "pages": names}], "sites": sites.sites(3)}


def took(command, processors, wanted=(0,)):
    """The seconds of wall-clock and CPU time of a command on so many processors."""
    start = time.monotonic()
    held = sorted(os.sched_getaffinity(0))[-processors:]
    process = subprocess.Popen(command, stdout=subprocess.DEVNULL, stderr=subprocess.DEVNULL,
                               preexec_fn=lambda: os.sched_setaffinity(0, held))
    _, status, usage = os.wait4(process.pid, 0)
    if os.waitstatus_to_exitcode(status) not in wanted:
        sys.exit(f"{command[0]} {command[1]} ended with status {os.waitstatus_to_exitcode(status)}")
    return time.monotonic() - start, usage.ru_utime + usage.ru_stime


def commands(folder):
    """The measured commands by name: their arguments, and the statuses with which they may end."""
    plan, files, out = (os.path.join(folder, name) for name in ("plan.json", "files", "out"))
    changed = os.path.join(folder, "changed.json")
    return {
        "`run`": (["run", plan, files, out], (0,)),
        "before the first row": (["run", plan, files, "/dev/null/out"], (1,)),
        "`verify`": (["verify", plan, files, out], (0,)),
        "`keys`, 32 keys": (["keys", plan, files, out, "32"], (0,)),
        "`replate`, one page": (["replate", plan, files, changed, files, os.path.join(folder, "late")], (0,)),
    }


def measure(options, folder):
    programs = [options.program] + ([options.before] if options.before else [])
    for processors in options.processors:
        for name, (words, wanted) in commands(folder).items():
            best = [(float("inf"), 0)] * len(programs)
            for _ in range(options.runs):
                for at, program in enumerate(programs):
                    if name in ("`run`", "`keys`, 32 keys"):
                        shutil.rmtree(os.path.join(folder, "out"), ignore_errors=True)
                    shutil.rmtree(os.path.join(folder, "late"), ignore_errors=True)
                    best[at] = min(best[at], took([program, *words], processors, wanted))
            cells = " | ".join(f"{clock:.2f} ({spent:.2f})" for clock, spent in best)
            print(f"| {name} | {processors} | {cells} |", flush=True)


def compare_plain(options, folder, plan, rows):
    """Plain C on one thread: its seconds, and whether its plates are those of the program."""
    pixels, out = os.path.join(folder, "pixels"), os.path.join(folder, "plain")
    os.mkdir(pixels)
    for number, page in enumerate(plan["pages"]):
        write_pixels(os.path.join(pixels, page["layers"][0]["file"]), rows, options.size, number % 4 != 3)
    for site in plan["sites"]:
        os.makedirs(os.path.join(out, site["name"]))
    for name, ways in (("plain C, one thread", ()), ("the same with the short ways", ("-DSHORT",))):
        command = pages.plain(plan, None, pixels, out, folder, *ways)
        spent = min(took(command, 1) for _ in range(options.runs))
        for site in plan["sites"]:
            compare_site(os.path.join(folder, "out", site["name"]), os.path.join(out, site["name"]))
        print(f"| {name} | 1 | {spent[0]:.2f} ({spent[1]:.2f}) |", flush=True)


def compare_site(own, plain):
    """Plain C makes four plates of each pair; those of inks that the program doesn't make are bare."""
    for name in sorted(os.listdir(own)):
        with open(os.path.join(own, name), "rb") as one, open(os.path.join(plain, name), "rb") as other:
            if one.read() != other.read():
                sys.exit(f"{name}: the plates differ")


def main():
    parser = argparse.ArgumentParser(description=__doc__, formatter_class=argparse.RawDescriptionHelpFormatter)
    parser.add_argument("program", type=os.path.abspath)
    parser.add_argument("folder")
    parser.add_argument("--before", metavar="PROGRAM", type=os.path.abspath)
    parser.add_argument("--pages", type=int, default=4, help="a multiple of 4")
    parser.add_argument("--size", nargs=2, type=int, default=(8000, 11000), metavar=("WIDTH", "HEIGHT"))
    parser.add_argument("--processors", default="1,2,4", help="numbers separated by commas")
    parser.add_argument("--runs", type=int, default=3)
    parser.add_argument("--no-plain", action="store_true")
    parser.add_argument("--one-strip", action="store_true")
    parser.add_argument("--press", action="store_true", help="curves, an ink limit and enlarged pictures")
    options = parser.parse_args()
    options.processors = [int(number) for number in options.processors.split(",")]
    with tempfile.TemporaryDirectory(dir=options.folder, prefix="real-") as folder:
        files, plan = os.path.join(folder, "files"), plan_of(options.pages, options.size, options.press)
        os.mkdir(files)
        rows = Rows(options.size[0], not options.no_plain, 4 if options.press else 1)
        each = options.size[1] if options.one_strip else EACH
        for number, page in enumerate(plan["pages"]):
            write_packed(os.path.join(files, f"p{number}.tif"), rows, options.size, number % 4 != 3, each)
        write_packed(os.path.join(files, "late.tif"), rows, options.size, False, each)
        changed = json.loads(json.dumps(plan))
        changed["pages"][1]["layers"][0]["file"] = "late.tif"
        for name, text in (("plan", plan), ("changed", changed)):
            with open(os.path.join(folder, f"{name}.json"), "w", encoding="utf-8") as file:
                json.dump(text, file)
        size = sum(entry.stat().st_size for entry in os.scandir(files)) / 1e6
        print(f"{options.pages} pages of {options.size[0]:,} by {options.size[1]:,}, {size:.0f} MB of files, 3 sites")
        heads = ["before"] if options.before else []
        print("| Work | processors | " + " | ".join(["seconds (CPU time)", *heads]) + " |")
        print("|---|---|---|" + "---|" * len(heads), flush=True)
        measure(options, folder)
        if not options.no_plain:
            compare_plain(options, folder, plan, rows)


if __name__ == "__main__":
    main()
