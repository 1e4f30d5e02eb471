"""Measures `plateroom verify` of the large pair for four sites, compared with runs of it and `cmp` of plates
and copies.

usage: bench/verify.py FOLDER PROGRAM

FOLDER takes the images, the plates and their copies, some 6 GB; use a folder in memory. Each is made three
times in turn, and the best is printed: a run with one site, a run with four, `cmp` of each plate of four
sites with a copy of it, and `verify` of these plates. Then `verify` finds that the last byte of the last
plate changed.
"""
import json
import os
import shutil
import subprocess
import sys
import time

import run
import sites

RUNS = 3


def measure(command, wanted=0):
    """Seconds of wall-clock, user and system time, and peak memory in KiB."""
    start = time.monotonic()
    process = subprocess.Popen(command, stdout=subprocess.DEVNULL, stderr=subprocess.DEVNULL if wanted else None)
    _, status, usage = os.wait4(process.pid, 0)
    if os.waitstatus_to_exitcode(status) != wanted:
        sys.exit(f"{command[0]} ended with status {os.waitstatus_to_exitcode(status)}")
    return time.monotonic() - start, usage.ru_utime, usage.ru_stime, usage.ru_maxrss


def plates(out):
    """The paths of all plates below a folder, in the order in which they are verified."""
    found = [os.path.join(at, name) for at, _, names in os.walk(out) for name in names]
    return sorted(found, key=lambda path: ("CMYK".index(path[-5]), path))


def compare(out, copy):
    """`cmp` of each plate with its copy, one after the other."""
    took = [measure(["cmp", path, path.replace(out, copy, 1)]) for path in plates(out)]
    return tuple(map(sum, list(zip(*took))[:3])) + (max(peak for _, _, _, peak in took),)


def make(program, text, files, out):
    shutil.rmtree(out, ignore_errors=True)
    return measure([program, "run", text, files, out])


def main():
    folder, program = sys.argv[1:]
    files, out, copy = (os.path.join(folder, name) for name in ("files", "out", "copy"))
    os.makedirs(files, exist_ok=True)
    for name, phase in (("left", 3), ("right", 5)):
        run.make(os.path.join(files, f"{name}.tif"), phase)
    texts = {}
    for count in (1, 4):
        texts[count] = os.path.join(folder, f"plan{count}.json")
        with open(texts[count], "w") as file:
            json.dump(sites.large("bayer8", count), file)
    make(program, texts[4], files, out)
    shutil.rmtree(copy, ignore_errors=True)
    shutil.copytree(out, copy)
    jobs = {
        "run, one site": lambda: make(program, texts[1], files, os.path.join(folder, "one")),
        "run, four sites": lambda: make(program, texts[4], files, os.path.join(folder, "four")),
        "cmp of each plate": lambda: compare(out, copy),
        "verify, four sites": lambda: measure([program, "verify", texts[4], files, out]),
    }
    best = {}
    for _ in range(RUNS):
        for name, job in jobs.items():
            took = job()
            best[name] = min(best.get(name, took), took)
    for name, (clock, own, system, memory) in best.items():
        print(f"{name}: {clock:.2f} s wall-clock, {own:.2f} s user, {system:.2f} s system, "
              f"{memory} KiB")
    last = plates(out)[-1]
    with open(last, "r+b") as file:
        file.seek(-1, os.SEEK_END)
        file.write(b"\1")
    clock, *_ = measure([program, "verify", texts[4], files, out], wanted=8)
    print(f"the last byte of {os.path.relpath(last, out)} changed: found in {clock:.2f} s")
    held = sum(map(os.path.getsize, (os.path.join(files, name) for name in os.listdir(files)))) // 1024
    group = sum(os.path.getsize(path) for path in plates(os.path.join(out, "S0"))) // 1024
    print(f"the files have {held} KiB together, the plates of a site {group} KiB")


if __name__ == "__main__":
    main()
