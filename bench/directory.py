#!/usr/bin/env python3
"""Measures `plateroom run` on images with a short and a long directory.

usage: bench/directory.py PROGRAM [ENTRIES ..]

The job has 20,000 rows of a masked line layer over a contone one, whose files have ENTRIES entries of other
tags before their own (0, 65500). It prints the seconds of the best of three runs for each number of entries.
The plates of all are compared. Images and plates go to a new folder below the machine's temporary folder,
which is deleted at the end.
"""
import json
import os
import struct
import subprocess
import sys
import tempfile
import time

WIDTH, LENGTH, RUNS = 64, 20_000, 3


def entry(tag, kind, count, value):
    return struct.pack("<HHII", tag, kind, count, value)


def write_image(path, before, samples, photometric, data):
    """Writes a file of one strip whose own entries follow so many others of tag 254."""
    fields = [(256, 4, 1, WIDTH), (257, 4, 1, LENGTH), (259, 3, 1, 1), (262, 3, 1, photometric), (277, 3, 1, samples),
              (278, 4, 1, LENGTH), (279, 4, 1, len(data))]
    count = before + len(fields) + 2
    bits = 8 + 2 + 12 * count + 4
    fields += [(258, 3, 4, bits) if samples == 4 else (258, 3, 1, 1), (273, 4, 1, bits + 8)]
    with open(path, "wb") as file:
        file.write(struct.pack("<2sHIH", b"II", 42, 8, count))
        file.write(entry(254, 4, 1, 0) * before)
        file.write(b"".join(entry(*field) for field in sorted(fields)))
        file.write(struct.pack("<I4H", 0, 8, 8, 8, 8) + data)


def write_job(folder, before):
    files = os.path.join(folder, "files")
    os.makedirs(files, exist_ok=True)
    contone = bytes((7 * x + 3 * ink) % 256 for x in range(WIDTH) for ink in range(4)) * LENGTH
    line, mask = (bytes(pattern) * (WIDTH // 16) * LENGTH for pattern in ([0xCC, 0x33], [0xF0, 0xFF]))
    write_image(os.path.join(files, "contone.tif"), before, 4, 5, contone)
    write_image(os.path.join(files, "line.tif"), before, 1, 0, line)
    write_image(os.path.join(files, "mask.tif"), before, 1, 4, mask)
    layers = [{"kind": "contone", "file": "contone.tif"}, {"kind": "line", "file": "line.tif", "mask": "mask.tif"}]
    plan = {
        "plan": 1, "edition": "LONG", "dpi": 1200, "page": [WIDTH, LENGTH],
        "pages": [{"name": "p", "inks": "CMYK", "layers": layers}, {"name": "q", "inks": "K", "layers": []}],
        "sections": [{"name": "A", "pages": ["p", "q"]}], "sites": [{"name": "OSLO"}],
    }
    text = os.path.join(folder, "plan.json")
    with open(text, "w") as file:
        json.dump(plan, file)
    return text, files


def plates(out):
    return {name: open(os.path.join(out, "OSLO", name), "rb").read() for name in os.listdir(os.path.join(out, "OSLO"))}


def main():
    if len(sys.argv) < 2:
        sys.exit(__doc__)
    program, first = os.path.abspath(sys.argv[1]), None
    for before in [int(word) for word in sys.argv[2:]] or [0, 65_500]:
        with tempfile.TemporaryDirectory() as folder:
            text, files = write_job(folder, before)
            out, least = os.path.join(folder, "out"), None
            for _ in range(RUNS):
                start = time.monotonic()
                subprocess.run([program, "run", text, files, out], stdout=subprocess.DEVNULL, check=True)
                least = min(least or 1e9, time.monotonic() - start)
            made = plates(out)
            if first is not None and made != first:
                sys.exit("plates differ")
            first = made
            print(f"{before:6} entries before the image's own: {least:.3f} s", flush=True)


if __name__ == "__main__":
    main()
