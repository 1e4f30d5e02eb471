#!/usr/bin/env python3
"""Measures `plateroom run` of sixteen pages beside other work: alone, beside busy loops, and on one processor.

usage: bench/beside.py PROGRAM FOLDER [--before PROGRAM] [--size WIDTH HEIGHT] [--rings LIST] [--loops LIST]
                       [--runs N] [--own-group]

The pages are mostly paper, with text in K and a picture on every second one, planar and packed as those of
bench/real.py: eight print CMYK and eight K, for two sites, 20 plates each. K has a curve and all inks a limit.
At the default height a run has 327,560 rows. For each number of loops, each ring, and all processors or one,
the programs run in turn, each N times. A line has the wall-clock times in seconds, the CPU time of the
fastest in brackets, and the machine's load average. With --own-group the runs and loops are a scheduling group
of the highest weight (as root), so that other work on the machine counts little. The files and plates go to a
new folder below FOLDER, which should be in memory, and are deleted at the end.
"""
import argparse
import json
import os
import shutil
import subprocess
import sys
import tempfile
import time

sys.dont_write_bytecode = True
HERE = os.path.dirname(os.path.abspath(__file__))
sys.path.insert(0, HERE)
sys.path.insert(0, os.path.join(HERE, "..", "check"))

import real
import sites
import trial

PAGES = 16


class Rows(real.Rows):
    """Rows of pages with wide stems of letters: three sevenths of the rows have text, an eighth a picture."""

    def text_row(self, kind):
        black, at = bytearray(self.width), 97 * kind
        while at < self.width:
            stem = 40 + (at * 13 + kind) % 29
            if at % (self.width // 5) < self.width // 5 - 290:
                black[at : at + stem] = b"\xff" * len(black[at : at + stem])
            at += 120 + (at * 31 + kind * 17) % 150
        return [bytes(self.width)] * 3 + [bytes(black)]

    def at(self, y, pictured):
        if pictured and y % 4000 < 500:
            return self.picture[y * 7 % real.PICTURES]
        return self.text[y // 10 % real.LINES] if y % 140 < 60 else self.paper


def plan_of(size):
    """Sections of four pages: the outer two print CMYK, the inner two K."""
    names = [f"p{number}" for number in range(PAGES)]
    pages = [
        {"name": name, "inks": "CMYK" if number % 4 in (0, 3) else "K",
         "layers": [{"kind": "contone", "file": f"{name}.tif"}]}
        for number, name in enumerate(names)
    ]
    sections = [{"name": f"A{at}", "pages": names[4 * at : 4 * at + 4]} for at in range(PAGES // 4)]
    return {"plan": 1, "edition": "REAL", "dpi": 1000, "page": list(size), "pages": pages, "sections": sections,
            "sites": sites.sites(2), "curves": {"K": [[0, 0], [128, 150], [255, 255]]}, "limit": 612}


def took(words, processors):
    """The seconds of wall-clock and of CPU time of a run on these processors."""
    began = time.monotonic()
    process = subprocess.Popen(words, stdout=subprocess.DEVNULL,
                               preexec_fn=lambda: os.sched_setaffinity(0, processors))
    _, status, usage = os.wait4(process.pid, 0)
    if status:
        sys.exit(f"{words[0]} ended with status {os.waitstatus_to_exitcode(status)}")
    return time.monotonic() - began, usage.ru_utime + usage.ru_stime


def measure(options, folder, loops, ring, processors):
    programs = [options.program] + ([options.before] if options.before else [])
    times = {program: [] for program in programs}
    out = os.path.join(folder, "out")
    beside = trial.busy(loops)
    try:
        for _ in range(options.runs):
            for program in programs:
                shutil.rmtree(out, ignore_errors=True)
                os.mkdir(out)
                words = [program, "run", os.path.join(folder, "plan.json"), os.path.join(folder, "files"), out, ring]
                times[program].append(took(words, processors))
    finally:
        trial.stop(beside)
    cells = [f"{', '.join(f'{one[0]:.1f}' for one in sorted(some))} ({min(some)[1]:.1f})" for some in times.values()]
    load = os.getloadavg()[0]
    print(f"| {loops} | {ring} | {len(processors)} | " + " | ".join(cells) + f" | {load:.0f} |", flush=True)


def main():
    parser = argparse.ArgumentParser(description=__doc__, formatter_class=argparse.RawDescriptionHelpFormatter)
    parser.add_argument("program", type=os.path.abspath)
    parser.add_argument("folder")
    parser.add_argument("--before", metavar="PROGRAM", type=os.path.abspath)
    parser.add_argument("--size", nargs=2, type=int, default=(5512, 16378), metavar=("WIDTH", "HEIGHT"))
    parser.add_argument("--rings", default="64,1024")
    parser.add_argument("--loops", default="0,4")
    parser.add_argument("--runs", type=int, default=3)
    parser.add_argument("--own-group", action="store_true")
    options = parser.parse_args()
    if options.own_group:
        if os.fork():
            sys.exit(os.waitstatus_to_exitcode(os.wait()[1]))
        os.setsid()
        with open("/proc/self/autogroup", "w", encoding="ascii") as file:
            file.write("-20")
    here = sorted(os.sched_getaffinity(0))
    with tempfile.TemporaryDirectory(dir=options.folder, prefix="beside-") as folder:
        os.mkdir(os.path.join(folder, "files"))
        rows = Rows(options.size[0], False)
        for number in range(PAGES):
            path = os.path.join(folder, "files", f"p{number}.tif")
            real.write_packed(path, rows, options.size, number % 2 == 0, real.EACH)
        with open(os.path.join(folder, "plan.json"), "w", encoding="utf-8") as file:
            json.dump(plan_of(options.size), file)
        heads = ["before"] if options.before else []
        print("| Loops | ring | processors | " + " | ".join(["seconds (CPU time)", *heads]) + " | load |")
        print("|---|---|---|---|---|" + "---|" * len(heads), flush=True)
        for loops in map(int, options.loops.split(",")):
            for ring in options.rings.split(","):
                measure(options, folder, loops, ring, here)
            measure(options, folder, loops, options.rings.split(",")[0], here[-1:])


if __name__ == "__main__":
    main()
