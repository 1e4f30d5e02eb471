#!/usr/bin/env python3
"""Measures `plateroom run` on a machine kept busy by loops that compute all the time, at a given niceness.

usage: bench/busy.py PROGRAM [--jobs NAMES] [--loops N] [--nice N] [--processors N] [--ring N] [--patience N]
                     [--runs N] [--limit SECONDS] [--folder FOLDER] [--no-plain]

For each job it prints the seconds of wall-clock and of CPU time, the best of three runs, and those of plain C
on one thread that makes the same plates: bench/run.c for the large pair, bench/small.c for small pages. The
jobs are rows, small, short, large1, large4, large16, ring1 and newspaper, and without plain C diffused1,
diffused4, black1 and black-news, whose four inks or whose black are diffused; NAMES are separated by commas. The
loops run at niceness 0, both programs at N. With --processors all of them share N processors. Images and
plates go to a new folder below FOLDER (/dev/shm), which is deleted at the end.
"""
import argparse
import json
import os
import shutil
import struct
import subprocess
import sys
import tempfile
import time

sys.dont_write_bytecode = True
HERE = os.path.dirname(os.path.abspath(__file__))
sys.path.insert(0, HERE)
sys.path.insert(0, os.path.join(HERE, "..", "check"))

import editions
import run
import sites
import trial

PAGE = [16550, 26500]
PHOTO = 4137, 6625
INSET = 2000, 2000


def make_line(path, width, length, photometric, row):
    """A file of one bit a pixel and one strip, whose rows are row(y)."""
    def entry(tag, kind, count, value):
        return struct.pack("<HHII", tag, kind, count, value)

    across = (width + 7) // 8
    head = struct.pack("<2sHIH", b"II", 42, 8, 8)
    head += entry(256, 4, 1, width) + entry(257, 4, 1, length) + entry(258, 3, 1, 1) + entry(259, 3, 1, 1)
    head += entry(262, 3, 1, photometric) + entry(273, 4, 1, 110) + entry(278, 4, 1, length)
    head += entry(279, 4, 1, across * length) + struct.pack("<I", 0)
    with open(path, "wb") as file:
        file.write(head)
        for y in range(length):
            file.write(row(y))


def text_rows(width, phase):
    """The rows of a page of text: lines of 100 rows, 60 of them with the stems of letters, in columns."""
    across = (width + 7) // 8
    bars = []
    for kind in range(12):
        bits, at = bytearray(across), kind * 7 + phase
        while at < width:
            for x in range(at, min(width, at + 8 + (at * 13 + kind) % 11)):
                bits[x // 8] |= 128 >> x % 8
            at += 24 + (at * 31 + kind * 17 + phase) % 40
            if at % 4000 > 3700:
                at += 400
        bars.append(bytes(bits))
    blank = bytes(across)
    return lambda y: bars[y // 5 % 12] if y % 100 < 60 else blank


def disc_rows(width, length):
    """The rows of a mask that is an ellipse."""
    across = (width + 7) // 8

    def row(y):
        half = int(width / 2 * max(0, 1 - (2 * y / length - 1) ** 2) ** 0.5)
        bits = (1 << 2 * half) - 1 << (8 * across - width // 2 - half) if half else 0
        return bits.to_bytes(across, "big")
    return row


def make_newspaper(files):
    """The images of four broadsheet pages: a photo, an inset with its mask, and a page of text for each."""
    for number in range(4):
        run.make(os.path.join(files, f"photo{number}.tif"), 3 + 2 * number, *PHOTO)
        make_line(os.path.join(files, f"text{number}.tif"), *PAGE, 0, text_rows(PAGE[0], number))
    run.make(os.path.join(files, "inset.tif"), 11, *INSET)
    make_line(os.path.join(files, "mask.tif"), *INSET, 0, disc_rows(*INSET))


def newspaper():
    pages = [
        {"name": f"p{number}", "inks": "CMYK", "layers": [
            {"kind": "contone", "file": f"photo{number}.tif", "scale": 4},
            {"kind": "contone", "file": "inset.tif", "mask": "mask.tif", "scale": 4, "x": 3000, "y": 9000},
            {"kind": "line", "file": f"text{number}.tif", "paint": "overprint"},
        ]}
        for number in range(4)
    ]
    return {
        "plan": 1, "edition": "NEWS", "dpi": 1200, "page": PAGE, "pages": pages,
        "sections": [{"name": "A", "pages": [page["name"] for page in pages]}], "sites": sites.sites(3),
    }


def short():
    """3,276,800 rows of a few bytes: 40 pairs of pages of 28 by 16,384 pixels without layers, in five inks."""
    pages = [{"name": f"p{number}", "inks": "CMYKS", "layers": []} for number in range(80)]
    return run.plan("bayer8") | {
        "plan": 2, "page": [28, 16384], "pages": pages, "sites": sites.sites(1),
        "sections": [{"name": "A", "pages": [page["name"] for page in pages]}],
    }


def diffused(plan, *inks):
    """A plan in which these inks are diffused."""
    return plan | {"screens": plan.get("screens", {}) | dict.fromkeys(inks, "diffuse")}


def make_none(files):
    """No image."""


def make_pair(files):
    for name, phase in (("left", 3), ("right", 5)):
        run.make(os.path.join(files, f"{name}.tif"), phase)


# name: what it is, what makes its images, its plan, the ring where it isn't the program's own
JOBS = {
    "rows": ("the 432 rows, 4 sites", editions.write_images, editions.rows, None),
    "small": ("8 pages of 400 by 600, 3 sites", make_pair, sites.small, None),
    "short": ("40 pairs of short rows, 1 site", make_none, short, None),
    "large1": ("large pair, 1 site", make_pair, lambda: sites.large("bayer8", 1), None),
    "large4": ("large pair, 4 sites", make_pair, lambda: sites.large("bayer8", 4), None),
    "large16": ("large pair, 16 sites", make_pair, lambda: sites.large("bayer8", 16), None),
    "ring1": ("large pair, 16 sites, ring 1", make_pair, lambda: sites.large("bayer8", 16), 1),
    "newspaper": ("newspaper, 4 broadsheet pages, 3 sites", make_newspaper, newspaper, None),
    "diffused1": ("large pair, four inks diffused, 1 site", make_pair, lambda: sites.large("diffuse", 1), None),
    "diffused4": ("large pair, four inks diffused, 4 sites", make_pair, lambda: sites.large("diffuse", 4), None),
    "black1": ("large pair, K diffused, 1 site", make_pair, lambda: diffused(sites.large("bayer8", 1), "K"), None),
    "black-news": ("newspaper, K diffused, 3 sites", make_newspaper, lambda: diffused(newspaper(), "K"), None),
}


def took(command, nice, limit):
    """Seconds of wall-clock and CPU time, or None if the command isn't done within the limit."""
    start = time.monotonic()
    process = subprocess.Popen(command, stdout=subprocess.DEVNULL, preexec_fn=lambda: os.nice(nice))
    while True:
        done, status, usage = os.wait4(process.pid, os.WNOHANG)
        now = time.monotonic() - start
        if done:
            break
        if now > limit:
            process.kill()
            os.wait4(process.pid, 0)
            return None
        time.sleep(0.001 if now < 0.2 else 0.02)
    if status != 0:
        sys.exit(f"{command[0]} ended with status {os.waitstatus_to_exitcode(status)}")
    return now, usage.ru_utime + usage.ru_stime


def best(command, out, options):
    """The best of some runs; a run that isn't done within the limit ends the series."""
    least = None
    for _ in range(options.runs):
        shutil.rmtree(out, ignore_errors=True)
        os.makedirs(out)
        one = took(command, options.nice, options.limit)
        if one is None:
            break
        least = min(least or one, one)
    shutil.rmtree(out, ignore_errors=True)
    return least


def said(seconds, options):
    return f"{seconds[0]:8.3f} s ({seconds[1]:.3f})" if seconds else f"not done in {options.limit} s"


def plain(name, plan, files, out, folder):
    """The command of plain C that makes the plates of a job, if there is one."""
    if name in ("newspaper", "short", "diffused1", "diffused4", "black1", "black-news"):
        return None
    source = "run" if name in ("large1", "large4", "large16", "ring1") else "small"
    program = os.path.join(folder, source)
    if not os.path.exists(program):
        code = os.path.join(HERE, f"{source}.c")
        subprocess.run(["cc", "-O3", "-march=x86-64-v2", "-o", program, code], check=True)
    places = [os.path.join(out, site["name"]) for site in plan["sites"]]
    if source == "run":
        return [program, *(os.path.join(files, f"{side}.tif") for side in ("left", "right")), "bayer8", *places]
    image = os.path.join(files, plan["pages"][0]["layers"][0]["file"])
    sides = [*plan["page"], len(plan["pages"]), *plan.get("margins", [0] * 4)]
    return [program, image, *map(str, sides), plan["edition"], *places]


def measure(options, folder):
    """Measures each job, and prints it."""
    files, out, text = (os.path.join(folder, name) for name in ("files", "out", "plan.json"))
    os.mkdir(files)
    print(f"{options.loops} busy loops, niceness {options.nice}, {len(os.sched_getaffinity(0))} processors; "
          "seconds of wall-clock time (CPU time)", flush=True)
    made = None
    for name in options.jobs:
        title, make, plan, ring = JOBS[name]
        if make is not made:
            shutil.rmtree(files)
            os.mkdir(files)
            make(files)
            made = make
        with open(text, "w") as file:
            json.dump(plan(), file)
        command = [options.program, "run", text, files, out, str(ring or options.ring), str(options.patience)]
        loops = trial.busy(options.loops)
        try:
            time.sleep(0.3 if loops else 0)
            ours = best(command, out, options)
            line = f"{title:40} plateroom {said(ours, options)}"
            other = None if options.no_plain else plain(name, plan(), files, out, folder)
            if other:
                theirs = best(other, out, options)
                line += f"   plain {said(theirs, options)}"
                if ours and theirs:
                    line += f"   {ours[0] / theirs[0]:.2f} times"
        finally:
            trial.stop(loops)
        print(line, flush=True)


def main():
    words = argparse.ArgumentParser(description=__doc__, formatter_class=argparse.RawDescriptionHelpFormatter)
    words.add_argument("program")
    words.add_argument("--jobs", default="rows,small,short,large1,large4,large16,ring1,newspaper")
    words.add_argument("--loops", type=int, default=0)
    words.add_argument("--nice", type=int, default=0)
    words.add_argument("--processors", type=int, default=0)
    words.add_argument("--ring", type=int, default=64)
    words.add_argument("--patience", type=int, default=1024)
    words.add_argument("--runs", type=int, default=3)
    words.add_argument("--limit", type=float, default=60)
    words.add_argument("--folder", default="/dev/shm")
    words.add_argument("--no-plain", action="store_true")
    options = words.parse_args()
    options.program = os.path.abspath(options.program)
    options.jobs = options.jobs.split(",")
    unknown = [name for name in options.jobs if name not in JOBS]
    if unknown:
        words.error(f"jobs are {', '.join(JOBS)}")
    if options.processors:
        os.sched_setaffinity(0, sorted(os.sched_getaffinity(0))[:options.processors])
    with tempfile.TemporaryDirectory(dir=options.folder, prefix="busy-") as folder:
        measure(options, folder)


if __name__ == "__main__":
    main()
