#!/usr/bin/env python3
"""Measures an edition of broadsheet pages in eight sections: one run, and its parts under GNU parallel.

usage: bench/parts.py PROGRAM FOLDER [--pages N] [--jobs 1,2,4] [--sites N] [--page WIDTH,HEIGHT]

FOLDER takes the images, 0.4 GB, and the plates of one run after the other, 0.22 GB a page and site: measure
once in memory (/dev/shm) and once on the disk. It prints the MB a second of one file of a GB that is synced,
twice, and a table: of one run and of each number of jobs the seconds of wall-clock time, the pages a minute,
the bytes of the plates, their MB a second, and the peak memory of a process, which is the largest part's. A
page has a photo of its own name, an eighth as wide and high, and a text that every fourth page shares. N is
64 pages, or another multiple of 16.
"""
import argparse
import json
import os
import shutil
import subprocess
import sys
import tempfile
import time

sys.dont_write_bytecode = True
HERE = os.path.dirname(os.path.abspath(__file__))
sys.path[:0] = [HERE, os.path.join(HERE, "..", "check")]

import busy
import run
import sites

SECTIONS, KINDS, SCALE = 8, 4, 8
SCRIPT = os.path.join(HERE, "..", "examples", "queue", "parallel.sh")


def make_images(files, pages, width, height):
    """A photo for each page, of which those of a kind are one file on the disk, and a text for each kind."""
    for kind in range(KINDS):
        run.make(os.path.join(files, f"photo-{kind}.tif"), 3 + 2 * kind, width // SCALE, height // SCALE)
        busy.make_line(os.path.join(files, f"text-{kind}.tif"), width, height, 0, busy.text_rows(width, kind))
    for number in range(pages):
        os.link(os.path.join(files, f"photo-{number % KINDS}.tif"), os.path.join(files, f"photo{number}.tif"))


def plan(pages, page, site_count):
    each = [
        {"name": f"p{number}", "inks": "CMYK", "layers": [
            {"kind": "contone", "file": f"photo{number}.tif", "scale": SCALE},
            {"kind": "line", "file": f"text-{number % KINDS}.tif", "paint": "overprint"},
        ]}
        for number in range(pages)
    ]
    names, size = [page["name"] for page in each], pages // SECTIONS
    sections = [{"name": f"S{number}", "pages": names[number * size:(number + 1) * size]} for number in range(SECTIONS)]
    return {
        "plan": 1, "edition": "NEWS", "dpi": 1200, "page": page, "pages": each, "sections": sections,
        "sites": sites.sites(site_count),
    }


def disk_speed(folder):
    """MB a second of one file of a GB, synced."""
    path, block = os.path.join(folder, "speed"), os.urandom(1 << 20)
    begun = time.monotonic()
    with open(path, "wb") as file:
        for _ in range(1000):
            file.write(block)
        os.fsync(file.fileno())
    took = time.monotonic() - begun
    os.remove(path)
    return 1000 * len(block) / 1e6 / took


def measure(name, pages, command, out, **environment):
    """Makes all plates, and prints how fast. The peak is that of the largest process below the command."""
    begun = time.monotonic()
    process = subprocess.Popen(command, stdout=subprocess.DEVNULL, env=os.environ | environment)
    _, status, usage = os.wait4(process.pid, 0)
    took = time.monotonic() - begun
    if status != 0:
        sys.exit(f"{command[0]} ended with status {os.waitstatus_to_exitcode(status)}")
    size = sum(os.path.getsize(os.path.join(at, plate)) for at, _, plates in os.walk(out) for plate in plates)
    print(f"| {name} | {took:.1f} s | {60 * pages / took:.1f} | {size / 1e6:,.0f} MB | {size / 1e6 / took:.0f} MB | "
          f"{usage.ru_maxrss / 1024:,.0f} MB |", flush=True)
    shutil.rmtree(out)
    shutil.rmtree(out + ".parts", ignore_errors=True)


def read_words():
    words = argparse.ArgumentParser(description=__doc__, formatter_class=argparse.RawDescriptionHelpFormatter)
    words.add_argument("program")
    words.add_argument("folder")
    words.add_argument("--pages", type=int, default=64)
    words.add_argument("--jobs", default="1,2,4")
    words.add_argument("--sites", type=int, default=1)
    words.add_argument("--page", default=",".join(map(str, busy.PAGE)))
    options = words.parse_args()
    if options.pages <= 0 or options.pages % (2 * SECTIONS):
        words.error(f"{options.pages} pages can't be in eight sections of as many pairs each")
    return options


def main():
    options = read_words()
    program, page = os.path.abspath(options.program), [int(side) for side in options.page.split(",")]
    os.makedirs(options.folder, exist_ok=True)
    with tempfile.TemporaryDirectory(prefix="parts-", dir=options.folder) as folder:
        files, out, text = (os.path.join(folder, name) for name in ("files", "out", "plan.json"))
        os.mkdir(files)
        make_images(files, options.pages, *page)
        with open(text, "w", encoding="utf-8") as file:
            json.dump(plan(options.pages, page, options.sites), file)
        print(f"{options.pages} pages; one file of a GB: {disk_speed(folder):.0f} and {disk_speed(folder):.0f} MB a second\n")
        print("| Work | clock | pages a minute | plates | plates a second | peak memory |\n|---|---|---|---|---|---|", flush=True)
        measure("one run", options.pages, [program, "run", text, files, out], out)
        for jobs in options.jobs.split(","):
            words = [SCRIPT, text, files, out]
            measure(f"parts, {jobs} at once", options.pages, words, out, PLATEROOM=program, JOBS=jobs)


if __name__ == "__main__":
    main()
