"""Measures `plateroom keys` with 32 keys compared with `plateroom run`.

usage: bench/keys.py FOLDER PROGRAM [RING]

The jobs are the large pair for one, four and sixteen sites, and a small edition of eight pages and three
sites, best of three of each in turn. The counts of the large pair are compared with those of bench/run.c,
which counts pixel by pixel what it screens itself. FOLDER takes the images and the plates, some 8 GB; use a
folder in memory.
"""
import json
import os
import shutil
import subprocess
import sys
import tempfile
import time

import run
import sites

KEYS = 32


def measure(words):
    """Seconds of wall-clock and CPU time, peak memory in KiB, and the output."""
    with tempfile.TemporaryFile() as text:
        start = time.monotonic()
        process = subprocess.Popen(words, stdout=text)
        _, status, usage = os.wait4(process.pid, 0)
        if status != 0:
            sys.exit(f"{words} ended with status {status}")
        took = time.monotonic() - start
        text.seek(0)
        return (took, usage.ru_utime + usage.ru_stime, usage.ru_maxrss), text.read().decode()


def counted(folder, files):
    """The lines that the plain program prints for the large pair."""
    here = os.path.dirname(os.path.abspath(__file__))
    plain = os.path.join(folder, "plain")
    subprocess.run(["cc", "-O3", "-march=x86-64-v2", "-o", plain, os.path.join(here, "run.c")], check=True)
    images = [os.path.join(files, f"{name}.tif") for name in ("left", "right")]
    words = [plain, *images, "bayer8", os.path.join(folder, "plain")]
    return subprocess.run(words, env=dict(os.environ, KEYS="1"), check=True, stdout=subprocess.PIPE, text=True).stdout


def main():
    folder, program, *ring = sys.argv[1:]
    files = os.path.join(folder, "files")
    os.makedirs(files, exist_ok=True)
    for name, phase in (("left", 3), ("right", 5)):
        run.make(os.path.join(files, f"{name}.tif"), phase)
    lines = counted(folder, files)
    jobs = [(f"{count} sites", sites.large("bayer8", count)) for count in (1, 4, 16)] + [("small edition", sites.small())]
    for name, plan in jobs:
        text, out = os.path.join(folder, "plan.json"), os.path.join(folder, "out")
        with open(text, "w") as file:
            json.dump(plan, file)
        best = {}
        for _ in range(sites.RUNS):
            for command, more in (("run", ring), ("keys", [str(KEYS), *ring])):
                shutil.rmtree(out, ignore_errors=True)
                took, told = measure([program, command, text, files, out, *more])
                best[command] = min(best.get(command, took), took)
        if name != "small edition" and not told.endswith(lines):
            sys.exit(f"{name}: other counts than the plain program's")
        for command, (clock, processors, memory) in best.items():
            print(f"{name}, {command}: {clock:.2f} s wall-clock, {processors:.2f} s CPU, {memory} KiB", flush=True)
    shutil.rmtree(out)


if __name__ == "__main__":
    main()
