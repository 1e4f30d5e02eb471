"""Measures `plateroom replate`: of a pair where one page changed, where one ink has another screen, and where
nothing changed.

usage: bench/replate.py [--processors N] FOLDER PROGRAM [PART]

It runs on one processor, or on N.

FOLDER takes the images and the plates, some 4 GB; use a folder in memory. The pairs are the large one for
four sites, and one for one site whose two images have half a GB each, the longest that a file may be. It
makes the following in turn, prints the best of three (of the second pair one), and compares the plates of
`replate` with those of the run:

- a run of the new job; - `replate` where the left image has another last byte, so that each plate must be
made; - `replate` where the old plan screens black by another tile, so that the black plates must be made; -
`replate` where nothing changed; - the loading of both jobs: `replate` where the new plan names one
more image after all others, which is missing.

With PART widths and lengths are divided by it, for a quick test.
"""
import argparse
import json
import os
import shutil
import sys

import run
import sites
import verify

RUNS = 3


class Pair:
    """Folders with the images of an old and a new pair, which differ in the last byte of one, and their plans."""

    def __init__(self, folder, width, length, scale, count):
        self.folder, self.count = folder, count
        shutil.rmtree(folder, ignore_errors=True)
        for name in ("old", "new"):
            os.makedirs(self.path(name))
        for name, phase in (("left", 3), ("right", 5)):
            run.make(self.path("old", f"{name}.tif"), phase, width, length)
        os.link(self.path("old", "right.tif"), self.path("new", "right.tif"))
        shutil.copy(self.path("old", "left.tif"), self.path("new", "left.tif"))
        with open(self.path("new", "left.tif"), "r+b") as file:
            file.seek(-1, os.SEEK_END)
            byte, = file.read(1)
            file.seek(-1, os.SEEK_END)
            file.write(bytes([byte ^ 255]))
        plan, more, screen = (self.job([scale * width, scale * length], scale) for _ in range(3))
        more["pages"][-1]["layers"].append({"kind": "contone", "file": "none.tif"})
        screen["screens"]["K"] = "bayer4"
        for name, job in (("plan", plan), ("more", more), ("screen", screen)):
            with open(self.path(f"{name}.json"), "w") as file:
                json.dump(job, file)

    def path(self, *names):
        return os.path.join(self.folder, *names)

    def job(self, size, scale):
        plan = sites.large("bayer8", self.count) | {"page": size}
        for page in plan["pages"]:
            page["layers"][0]["scale"] = scale
        return plan

    def measure(self, command, words, out, wanted=0):
        """Runs a command with these arguments, which name files of the folder, and writes its plates to a new folder."""
        shutil.rmtree(self.path(out), ignore_errors=True)
        return verify.measure([*command, *map(self.path, words), self.path(out)], wanted)

    def compare(self, program, runs):
        run_it, replate = [program, "run"], [program, "replate"]
        jobs = {
            "run of the new job": lambda: self.measure(run_it, ["plan.json", "new"], "out"),
            "replate, one page changed": lambda: self.measure(
                replate, ["plan.json", "old", "plan.json", "new"], "made"),
            "replate, another screen for black": lambda: self.measure(
                replate, ["screen.json", "new", "plan.json", "new"], "black"),
            "replate, nothing changed": lambda: self.measure(
                replate, ["plan.json", "old", "plan.json", "old"], "same"),
            "loading of both jobs": lambda: self.measure(
                replate, ["plan.json", "old", "more.json", "new"], "same", wanted=5),
        }
        best = {}
        for _ in range(runs):
            for name, job in jobs.items():
                took = job()
                best[name] = min(best.get(name, took), took)
        for name, (clock, own, system, memory) in best.items():
            print(f"{name}: {clock:.2f} s wall-clock, {own:.2f} s user, {system:.2f} s system, "
                  f"{memory} KiB", flush=True)
        for site in range(self.count):
            sites.same_plates(self.path("out", f"S{site}"), self.path("made", f"S{site}"))
            sites.same_plates(self.path("black", f"S{site}"), self.path("out", f"S{site}"))
            if any(name[-5] != "K" for name in os.listdir(self.path("black", f"S{site}"))):
                sys.exit("more than the black plates are made")
        if os.path.lexists(self.path("same")):
            sys.exit("plates are made where nothing changed")
        files = sum(os.path.getsize(self.path("new", name)) for name in os.listdir(self.path("new"))) // 1024
        plates = sum(map(os.path.getsize, verify.plates(self.path("out", "S0")))) // 1024
        print(f"the files of a job have {files} KiB together, the plates of a site {plates} KiB")


def main():
    words = argparse.ArgumentParser(description=__doc__, formatter_class=argparse.RawDescriptionHelpFormatter)
    words.add_argument("--processors", type=int, default=1)
    words.add_argument("folder")
    words.add_argument("program")
    words.add_argument("part", type=int, nargs="?", default=1)
    words = words.parse_args()
    folder, program, part = words.folder, words.program, words.part
    os.sched_setaffinity(0, sorted(os.sched_getaffinity(0))[:words.processors])
    for title, width, length, scale, count, runs in (
        ("the large pair, four sites", run.WIDTH, run.LENGTH, run.SCALE, 4, RUNS),
        ("two images of half a GB each, one site", 11500, 11500, 1, 1, 1),
    ):
        print(title)
        pair = Pair(os.path.join(folder, "pair"), width // part, length // part, scale, count)
        pair.compare(program, runs)
        shutil.rmtree(pair.folder)


if __name__ == "__main__":
    main()
