#!/usr/bin/env python3
"""Tests the built program, started as a user starts it, and compares what it makes with the definitions.

usage: check/program.py PROGRAM

The last line is `N passed, M failed`; the status is 1 if something failed. It proves nothing: it shows that
the program passes on its arguments, the machine's files and the streams as it should, on this machine.
"""
import json
import os
import resource
import shutil
import subprocess
import sys
import tempfile
import time

sys.dont_write_bytecode = True

import answers
import drill
import editions
import held
import keyed
import late
import limits
import loads
import strips
import trial
import whole
from plates import Edition, black_plate, compared
from tiff import Image

EXAMPLES = os.path.join(os.path.dirname(os.path.abspath(__file__)), "..", "examples")
RINGS = ("1", "2", "64", "1024")


def images(tried):
    """The black plates of images in all their forms."""
    for name in ("ramp", "chunky", "strips", "packed", "planar"):
        path = os.path.join(EXAMPLES, f"{name}.tif")
        tried.answers(["one", path], 0, black_plate(path), b"")
    tried.part("plates of one image")


def runs(tried, folder, name, edition, rings):
    """The plates and the report of an edition, over each ring. A run replaces the plates of the one before."""
    plates, report = dict(edition.plates()), edition.report("OUT").encode()
    path, out = os.path.join(folder, "edition.json"), os.path.join(folder, "OUT")
    shutil.rmtree(out, ignore_errors=True)
    editions.write_plan(path, edition.plan)
    for ring in rings:
        # Over a ring of one place each row waits for another thread, which may wait long for a processor.
        words = ["run", path, edition.folder, "OUT", *ring]
        tried.answers(words, 0, report, b"", folder=folder, seconds=4 * trial.MOST_SECONDS)
        tried.holds(f"{len(plates)} plates of the edition {name} {' '.join(ring)}", compared(plates, out))
    tried.part(f"the edition {name}, {edition.spans()[1]} rows")


def bands(tried, folder, edition):
    """Rows that several threads make: over rings of any size, on one processor, two and all, and without threads."""
    runs(tried, folder, "of bands", edition, [[], ["1", "1"], ["2", "65536"], ["1024", "7"]])
    plates, report = dict(edition.plates()), edition.report("OUT").encode()
    path, out = os.path.join(folder, "edition.json"), os.path.join(folder, "OUT")
    here = sorted(os.sched_getaffinity(0))
    for count in sorted({1, min(2, len(here))}):
        shutil.rmtree(out, ignore_errors=True)
        tried.answers(["run", path, edition.folder, "OUT"], 0, report, b"", folder=folder, processors=here[:count])
        tried.holds(f"plates of bands on {count} processors", compared(plates, out))
    if resource.getrlimit(resource.RLIMIT_STACK)[1] == resource.RLIM_INFINITY:
        # No thread can be started, since none can have a stack of so many bytes.
        shutil.rmtree(out, ignore_errors=True)
        tried.answers(["run", path, edition.folder, "OUT"], 0, report, b"", folder=folder,
                      limits=[(resource.RLIMIT_STACK, 1 << 46)])
        tried.holds("plates of bands where no thread can be started", compared(plates, out))
    tried.part("bands on fewer processors, and without threads")


def runs_by_chance(tried, folder, files, seeds):
    """Random small editions, with random ring and patience."""
    path, out = os.path.join(folder, "edition.json"), os.path.join(folder, "OUT")
    shutil.rmtree(out, ignore_errors=True)
    for seed in seeds:
        edition = Edition(editions.by_chance(seed), files)
        editions.write_plan(path, edition.plan)
        words = ["run", path, files, "OUT", str(1 + seed * seed % 1024), str(1 + seed ** 5 % 65536)]
        tried.answers(words, 0, edition.report("OUT").encode(), b"", folder=folder)
        tried.holds(f"plates of the random edition {seed}", compared(dict(edition.plates()), out))
        shutil.rmtree(out, ignore_errors=True)
    tried.part(f"{len(seeds)} random editions")


def read_by_others(tried, edition, out):
    """libtiff reads the plates without a warning, and finds what the definitions say."""
    if not shutil.which("tiffinfo") or not shutil.which("tiffcp"):
        print("skipped: tiffinfo and tiffcp are not installed")
        return
    plain = os.path.join(out, "..", "plain.tif")
    for name, left, right, inks, sites in edition.groups():
        for ink in inks:
            path = os.path.join(out, sites[0], f"{name}-{ink}.tif")
            width, rows = edition.plate(left, right, ink)
            info = subprocess.run(["tiffinfo", path], capture_output=True, text=True)
            dots = edition.plan["dpi"]
            lines = [f"Image Width: {width} Image Length: {len(rows)}", "Bits/Sample: 1", "Scheme: PackBits",
                     f"Resolution: {dots}, {dots} pixels/inch", "min-is-white", "Samples/Pixel: 1"]
            lacking = [line for line in lines if line not in info.stdout]
            tried.holds(f"tiffinfo {name}-{ink}", info.stderr or ", ".join(lacking))
            copy = subprocess.run(["tiffcp", "-c", "none", path, plain], capture_output=True, text=True)
            fault = copy.stderr or ("" if Image(plain).samples == b"".join(rows) else "other pixels")
            tried.holds(f"tiffcp {name}-{ink}", fault)
    tried.part("plates read by libtiff")


def drills(tried):
    """Drills, over rings of any size."""
    for number, rings in ((7, RINGS), (0, ("1", "64")), (4, ("3",))):
        text = drill.Job(number).text().encode()
        for ring in rings:
            tried.answers(["drill", str(number), ring], 0, text, b"")
        tried.answers(["drill", str(number)], 0, text, b"")
    tried.part("drills")


def beside_others(tried, folder, files):
    """432 rows for four sites take less than two seconds with eight busy loops, at least one time of three."""
    path, took = os.path.join(folder, "rows.json"), []
    editions.write_plan(path, editions.rows())
    loops = trial.busy(8)
    try:
        time.sleep(0.2)
        while len(took) < 3 and not any(seconds < 2 for seconds in took):
            begun = time.monotonic()
            status, _, _ = tried.run(["run", path, files, "BUSY", "64", "1024"], folder=folder, seconds=4)
            took.append(time.monotonic() - begun if status == 0 else 4)
    finally:
        trial.stop(loops)
    said = ", ".join(f"{seconds:.2f}" for seconds in took)
    tried.holds("432 rows with eight busy loops", "" if min(took) < 2 else f"{said} s")
    tried.part(f"beside other work, {said} s")


def plates_of_examples(tried, folder):
    """The plates of the small edition that a run left: all right, one changed, and then removed."""
    words = ["verify", "edition.json", EXAMPLES, "OUT"]
    tried.answers(words, 0, b"same plates 12 sites 2\n", b"", folder=folder)
    path = os.path.join(folder, "OUT", "BERGEN", "MORNING-A-001-K.tif")
    with open(path, "r+b") as plate:
        plate.seek(8)
        byte = plate.read(1)
        plate.seek(8)
        plate.write(bytes([byte[0] ^ 255]))
    line = b"differs OUT/BERGEN/MORNING-A-001-K.tif byte 8 row 0\n"
    tried.answers(words, 8, line, b"", folder=folder)
    os.remove(path)
    line = b"plateroom: shelf: OUT/BERGEN/MORNING-A-001-K.tif\n"
    tried.answers(words, 5, b"", line, folder=folder)
    tried.part("the plates of examples/ verified")


def trials(tried, folder):
    files = os.path.join(folder, "images")
    editions.write_images(files)
    five = Edition(editions.five(), files)
    answers.write_files(folder, EXAMPLES)
    limits.trials(tried, folder)
    answers.refusals(tried, folder)
    answers.wants_of_memory(tried, folder)
    answers.streams_that_fail(tried, folder)
    answers.racks_that_fail(tried, folder, five)
    images(tried)
    drills(tried)
    with open(os.path.join(EXAMPLES, "edition.json"), encoding="utf-8") as file:
        small = Edition(json.load(file), EXAMPLES)
    runs(tried, folder, "of examples/", small, [[]])
    plates_of_examples(tried, folder)
    runs(tried, folder, "of sixteen sites", Edition(editions.wide(), files), [[], ["1", "1"]])
    runs_by_chance(tried, folder, files, range(1, 31))
    runs(tried, folder, "of six pairs", Edition(editions.rows(), files), [["1"], ["2", "65536"]])
    bands(tried, folder, Edition(editions.banded(), files))
    edition = strips.trials(tried, os.path.join(folder, "strips"))
    loads.trials(tried, os.path.join(folder, "strips"), *edition)
    runs(tried, folder, "of five inks", five, [[], ["16", "7"], ["1024", "7"]])
    read_by_others(tried, five, os.path.join(folder, "OUT"))
    held.trials(tried, folder, five)
    keyed.trials(tried, folder, EXAMPLES, small, five)
    late.trials(tried, folder, files, small)
    whole.trials(tried, folder, files)
    beside_others(tried, folder, files)


def main():
    if len(sys.argv) != 2:
        sys.exit(__doc__)
    tried = trial.Trial(sys.argv[1])
    room = "/dev/shm" if os.access("/dev/shm", os.W_OK) else None
    with tempfile.TemporaryDirectory(prefix="check-", dir=room) as folder:
        try:
            trials(tried, folder)
        except trial.Hangs:
            tried.holds("the trials end", "too many runs weren't done in time")
    return tried.end()


if __name__ == "__main__":
    sys.exit(main())
