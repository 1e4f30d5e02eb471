#!/usr/bin/env python3
"""Measures the peak memory of a run over as many pages and layers as a plan may have.

usage: bench/memory.py PROGRAM FOLDER [--pages 128,2048] [--layers 32] [--width 16550] [--rows 8]

Each page has masked photographs and linework in turn, all of one width. All pages share three files, so that
the memory besides the files shows. At most 1,024 pages are in the eight sections, and a second site has the
others in their place, so every page is printed. FOLDER also takes the plates, each a few rows high. It prints
the number of pages and layers, the bytes of the plan and of the files, the seconds of wall-clock time, and
the peak memory in KB.
"""
import argparse
import json
import os
import shutil
import sys
import time

sys.dont_write_bytecode = True
sys.path[:0] = [os.path.dirname(os.path.abspath(__file__))]

import busy
import run

SECTION, PLACES = 128, 1024


def layers(count):
    photo = {"kind": "contone", "file": "photo.tif", "mask": "mask.tif"}
    text = {"kind": "line", "file": "text.tif", "paint": "overprint"}
    return [(photo, text)[index % 2] for index in range(count)]


def plan(page, pages, count):
    names = [f"P{number}" for number in range(pages)]
    placed, others = names[:PLACES], names[PLACES:]
    edition = {
        "plan": 2, "edition": "LARGE", "dpi": 1200, "page": page,
        "pages": [{"name": name, "inks": "K", "layers": layers(count)} for name in names],
        "sections": [
            {"name": f"S{first // SECTION}", "pages": placed[first:first + SECTION]}
            for first in range(0, len(placed), SECTION)
        ],
        "sites": [{"name": "OSLO"}],
    }
    if others:
        edition["zones"] = [{"name": "Z", "replace": [
            {"section": f"S{place // SECTION}", "page": place % SECTION + 1, "with": name}
            for place, name in enumerate(others)
        ]}]
        edition["sites"].append({"name": "BERGEN", "zone": "Z"})
    return edition


def measure(program, folder, page, pages, count):
    files, out, path = (os.path.join(folder, name) for name in ("files", "plates", "plan.json"))
    text = json.dumps(plan(page, pages, count), separators=(",", ":"))
    with open(path, "w") as file:
        file.write(text)
    shutil.rmtree(out, ignore_errors=True)
    os.mkdir(out)
    begun = time.monotonic()
    child = os.fork()
    if child == 0:
        os.dup2(os.open(os.devnull, os.O_WRONLY), 1)
        os.execv(program, [program, "run", path, files, out])
    _, status, usage = os.wait4(child, 0)
    took = time.monotonic() - begun
    held = sum(os.path.getsize(os.path.join(files, name)) for name in os.listdir(files))
    print(f"{pages} pages, {pages * count} layers: plan {len(text)}, files {held}, {took:.1f} s, {usage.ru_maxrss} KB, "
          f"status {os.waitstatus_to_exitcode(status)}", flush=True)
    shutil.rmtree(out)


def main():
    parser = argparse.ArgumentParser()
    parser.add_argument("program")
    parser.add_argument("folder")
    parser.add_argument("--pages", default="128,2048")
    parser.add_argument("--layers", type=int, default=32)
    parser.add_argument("--width", type=int, default=16550)
    parser.add_argument("--rows", type=int, default=8)
    args = parser.parse_args()
    files = os.path.join(args.folder, "files")
    shutil.rmtree(files, ignore_errors=True)
    os.makedirs(files)
    run.make(os.path.join(files, "photo.tif"), 3, args.width, args.rows)
    for name, kind in (("text", 0), ("mask", 1)):
        busy.make_line(os.path.join(files, f"{name}.tif"), args.width, args.rows, 0, busy.text_rows(args.width, kind))
    for pages in args.pages.split(","):
        measure(os.path.abspath(args.program), args.folder, [args.width, args.rows], int(pages), args.layers)


if __name__ == "__main__":
    main()
