"""Makes a photograph-like CMYK image in four forms, runs both programs on each in turn, and prints pixels a
second.
"""
import os
import random
import struct
import subprocess
import sys
import time

WIDTH, LENGTH, EACH, RUNS = 12000, 9000, 16, 3
FORMS = [("chunky", 1, False), ("chunky PackBits", 1, True), ("planar", 2, False), ("planar PackBits", 2, True)]


def ramp(ink, y, noise):
    """A row of one ink: a ramp along x and y with grain."""
    base = bytes(((x * 255) // WIDTH + 3 * ink + y // 40) & 255 for x in range(WIDTH))
    at = (977 * y + 131 * ink) % WIDTH
    grain = noise[at : at + WIDTH]
    return bytes((b + (g & 7)) & 255 for b, g in zip(base, grain))


def pack(row):
    """Packs bytes as literals of 128 bytes, and as a run where three bytes are equal."""
    out, at, literal = bytearray(), 0, bytearray()

    def flush():
        for i in range(0, len(literal), 128):
            out.append(len(literal[i : i + 128]) - 1)
            out.extend(literal[i : i + 128])
        literal.clear()

    while at < len(row):
        n = 1
        while n < 128 and at + n < len(row) and row[at + n] == row[at]:
            n += 1
        if n >= 3:
            flush()
            out += bytes((257 - n, row[at]))
        else:
            literal += row[at : at + n]
        at += n
    flush()
    return bytes(out)


def make(folder):
    noise = random.Random(7).randbytes(3 * WIDTH)
    kinds = [[ramp(ink, 40 * k, noise) for ink in range(4)] for k in range(16)]
    chunky = []
    for planes in kinds:
        row = bytearray(4 * WIDTH)
        for ink in range(4):
            row[ink::4] = planes[ink]
        chunky.append(bytes(row))
    data = {1: [[c] for c in chunky], 2: [planes for planes in kinds]}
    for name, planar, packed in FORMS:
        path = os.path.join(folder, name.replace(" ", "-") + ".tif")
        if os.path.exists(path):
            continue
        rows = [[pack(r) if packed else r for r in planes] for planes in data[planar]]
        count = (LENGTH + EACH - 1) // EACH
        strips = [
            b"".join(rows[y % 16][p] for y in range(i * EACH, min(LENGTH, (i + 1) * EACH)))
            for p in range(len(rows[0]))
            for i in range(count)
        ]
        entries = [(256, 4, 1, WIDTH), (257, 4, 1, LENGTH), (258, 3, 4, 134), (259, 3, 1, 32773 if packed else 1)]
        entries += [(262, 3, 1, 5), (273, 4, len(strips), 142), (277, 3, 1, 4), (278, 4, 1, EACH)]
        entries += [(279, 4, len(strips), 142 + 4 * len(strips)), (284, 3, 1, planar)]
        place = 142 + 8 * len(strips)
        with open(path, "wb") as file:
            file.write(struct.pack("<2sHIH", b"II", 42, 8, len(entries)))
            for entry in entries:
                file.write(struct.pack("<HHII", *entry))
            file.write(struct.pack("<I4H", 0, 8, 8, 8, 8))
            for strip in strips:
                file.write(struct.pack("<I", place))
                place += len(strip)
            for strip in strips:
                file.write(struct.pack("<I", len(strip)))
            for strip in strips:
                file.write(strip)


def run(command, plate):
    with open(plate, "wb") as out:
        start = time.perf_counter()
        subprocess.run(command, stdout=out, check=True)
        return time.perf_counter() - start


def main():
    plateroom, plain, folder = sys.argv[1:4]
    make(folder)
    best = {}
    for _ in range(RUNS):
        for name, _, _ in FORMS:
            image = os.path.join(folder, name.replace(" ", "-") + ".tif")
            for i, command in enumerate(([plateroom, "one", image], [plain, image])):
                seconds = run(command, os.path.join(folder, "plate"))
                best[name, i] = min(best.get((name, i), seconds), seconds)
    whole = best["chunky", 0]
    for name, _, _ in FORMS:
        ours, theirs = (WIDTH * LENGTH / best[name, i] / 1e6 for i in (0, 1))
        print(f"{name}: plateroom {ours:.0f}, plain C {theirs:.0f} million pixels a second; {whole / best[name, 0]:.2f} of chunky")


if __name__ == "__main__":
    main()
