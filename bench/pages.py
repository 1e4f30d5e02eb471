#!/usr/bin/env python3
"""Measures `plateroom run` on one processor compared with plain C: screens, layers, curves, the ink limit.

usage: bench/pages.py PROGRAM FOLDER [--jobs NAMES] [--runs N]

For each job it prints a line of a table: the seconds of CPU time, the system's included, of the program and
of plain C on one thread that makes the same plates (bench/run.c, bench/one.c, otherwise bench/pages.c), the
best of three runs in turn, and their ratio. It stops if a plate of one differs from that of the other in any
byte. The jobs are ordered4, diffused4, diffused1, black4, pages4, apart4, contone, line, mask, curves, limit,
both, small32, mixed32, contone32, newspaper and one; NAMES are separated by commas. Images and plates, some 3
GB, go to a new folder below FOLDER, which is deleted at the end: use a FOLDER in memory, such as /dev/shm.
"""
import argparse
import filecmp
import json
import os
import shutil
import struct
import subprocess
import sys
import tempfile

sys.dont_write_bytecode = True
HERE = os.path.dirname(os.path.abspath(__file__))
sys.path.insert(0, HERE)

import busy
import one
import run
import sites

WIDTH, LENGTH = run.SIZES[1]
LIMIT = 612
CURVES = {
    "C": [[0, 0], [64, 50], [128, 104], [192, 170], [255, 248]], "M": [[0, 0], [128, 108], [255, 250]],
    "Y": [[0, 0], [128, 112], [255, 252]], "K": [[0, 0], [100, 84], [200, 180], [255, 255]],
}
PHOTO = {"kind": "contone", "file": "SIDE.tif"}
TEXT = {"kind": "line", "file": "text.tif"}
MASK = {"mask": "disc.tif"}


def make_pages(files):
    """Two images of a page's size, a page of text, an ellipse on a page, and images for scale 4."""
    for name, phase in (("left", 3), ("right", 5)):
        run.make(os.path.join(files, f"{name}.tif"), phase, WIDTH, LENGTH)
    run.make(os.path.join(files, "quarter.tif"), 7, WIDTH // 4, LENGTH // 4)
    busy.make_line(os.path.join(files, "text.tif"), WIDTH, LENGTH, 0, busy.text_rows(WIDTH, 0))
    busy.make_line(os.path.join(files, "disc.tif"), WIDTH, LENGTH, 0, busy.disc_rows(WIDTH, LENGTH))
    rows = busy.disc_rows(WIDTH // 4, LENGTH // 4)
    busy.make_line(os.path.join(files, "small.tif"), WIDTH // 4, LENGTH // 4, 0, rows)


def pair(*layers, length=LENGTH, **keys):
    """A pair of pages of these layers; SIDE in a file's name becomes the page's side."""
    pages = [
        {"name": name, "inks": "CMYK",
         "layers": [layer | {"file": layer["file"].replace("SIDE", name)} for layer in layers]}
        for name in ("right", "left")
    ]
    return run.plan("bayer8", 1) | {"page": [WIDTH, length], "pages": pages} | keys


def lone(inks, diffused="K"):
    """The pair at scale 4 whose pages print these inks, in a plan that diffuses one ink alone."""
    plan = run.plan("bayer8")
    plan["screens"][diffused] = "diffuse"
    return plan | {"pages": [page | {"inks": inks} for page in plan["pages"]]}


def mixed(count):
    """Four kinds of layers in turn: a picture, overprinted text, a masked picture at scale 4, masked text."""
    kinds = [
        PHOTO, TEXT | {"paint": "overprint"},
        {"kind": "contone", "file": "quarter.tif", "mask": "small.tif", "scale": 4},
        TEXT | MASK | {"ink": [0, 255, 0, 128]},
    ]
    return [kinds[number % 4] for number in range(count)]


def small_layers():
    """Thirty-two layers of 1,800 by 1,300 pixels side by side, four in a row, each of another kind."""
    layers = []
    for number, layer in enumerate(mixed(32)):
        line, scale = number // 4, layer.get("scale", 1)
        x, y = 100 + (number + line) % 4 * 2000, 100 + line * 1500
        layers.append(layer | {"x": x, "y": y, "crop": [side // scale for side in (x, y, 1800, 1300)]})
    return layers


def newspaper(count):
    return busy.newspaper() | {"sites": sites.sites(count)}


# name: what it is, what makes its images, its plan, and its scale where bench/run.c makes it
JOBS = {
    "ordered4": ("ordered, scale 4", busy.make_pair, lambda: run.plan("bayer8"), 4),
    "diffused4": ("diffused, scale 4", busy.make_pair, lambda: run.plan("diffuse"), 4),
    "diffused1": ("diffused, scale 1", make_pages, lambda: run.plan("diffuse", 1), 1),
    "black4": ("black diffused alone, scale 4", busy.make_pair, lambda: lone("CMYK"), 4),
    "pages4": ("black pages diffused, scale 4", busy.make_pair, lambda: lone("K"), 4),
    "apart4": ("black pages, cyan diffused, scale 4", busy.make_pair, lambda: lone("K", "C"), 4),
    "contone": ("contone at scale 1", make_pages, lambda: pair(PHOTO), None),
    "line": ("linework over contone", make_pages, lambda: pair(PHOTO, TEXT), None),
    "mask": ("masked linework over contone", make_pages, lambda: pair(PHOTO, TEXT | MASK), None),
    "curves": ("contone, curves", make_pages, lambda: pair(PHOTO, curves=CURVES), None),
    "limit": ("contone, ink limit", make_pages, lambda: pair(PHOTO, limit=LIMIT), None),
    "both": ("contone, both", make_pages, lambda: pair(PHOTO, curves=CURVES, limit=LIMIT), None),
    "small32": ("32 small layers, mixed", make_pages, lambda: pair(*small_layers()), None),
    "mixed32": ("32 full layers, mixed", make_pages, lambda: pair(*mixed(32), length=3000), None),
    "contone32": ("32 full contone layers", make_pages, lambda: pair(*[PHOTO] * 32, length=3000), None),
    "newspaper": ("newspaper, 4 broadsheet pages", busy.make_newspaper, lambda: newspaper(1), None),
}


def shown(plan):
    """The pages of a plan of one section and no zone in the order of its plates, the left one first."""
    pages = {page["name"]: page for page in plan["pages"]}
    names = plan["sections"][0]["pages"]
    for number in range(1, len(names) // 2 + 1):
        for place in sorted((number, len(names) + 1 - number), key=lambda place: place % 2):
            yield pages[names[place - 1]]


def image_size(path):
    """The width and length of an image that run.make or busy.make_line made."""
    with open(path, "rb") as file:
        head = file.read(34)
    return struct.unpack_from("<I", head, 18)[0], struct.unpack_from("<I", head, 30)[0]


def words(plan, files, fronts):
    """The arguments that state the plan to bench/pages.c."""
    said = [*plan["page"], plan.get("limit", 1020)]
    for ink, points in plan.get("curves", {}).items():
        said += ["curve", "CMYK".index(ink), len(points), *(number for point in points for number in point)]
    for front in fronts:
        said += ["plates", front]
    for page in shown(plan):
        said.append("page")
        for layer in page["layers"]:
            path, mask = os.path.join(files, layer["file"]), layer.get("mask")
            said += ["layer", layer["kind"], path, os.path.join(files, mask) if mask else "-"]
            said += [layer.get("paint", "knockout"), layer.get("x", 0), layer.get("y", 0)]
            said += [layer.get("scale", 1), *layer.get("crop", [0, 0, *image_size(path)])]
            said += layer.get("ink", [0, 0, 0, 255])
    return [str(word) for word in said]


def built(folder, source, *options):
    """A plain program of this folder."""
    program = os.path.join(folder, "-".join((source, *options)))
    if not os.path.exists(program):
        code = os.path.join(HERE, f"{source}.c")
        subprocess.run(["cc", "-O3", "-march=x86-64-v2", *options, "-o", program, code], check=True)
    return program


def plain(plan, scale, files, out, folder, *options):
    """The command of plain C, built with these options, that makes the plates of a plan."""
    fronts = [os.path.join(out, site["name"], plan["edition"] + "-A") for site in plan["sites"]]
    if scale is None:
        return [built(folder, "pages", *options), *words(plan, files, fronts)]
    images = [os.path.join(files, f"{page['name']}.tif") for page in shown(plan)]
    screen, alone = plan["screens"]["K"], plan["pages"][0]["inks"] == "K"
    if screen != plan["screens"]["M"]:
        screen = "black"
    screen += "-alone" if alone else ""
    return [built(folder, "run", f"-DSCALE={scale}"), *images, screen, f"{fronts[0]}-001"]


def took(command, out, names):
    """The seconds of processor time of a command on one processor, which makes plates below a new folder."""
    shutil.rmtree(out, ignore_errors=True)
    os.makedirs(out)
    for name in names:
        os.mkdir(os.path.join(out, name))
    with open(os.path.join(out, "said"), "wb") as said:
        process = subprocess.Popen(command, stdout=said, preexec_fn=pin)
        _, status, usage = os.wait4(process.pid, 0)
    if status != 0:
        sys.exit(f"{command[0]} ended with status {os.waitstatus_to_exitcode(status)}")
    return usage.ru_utime + usage.ru_stime


def pin():
    os.sched_setaffinity(0, {max(os.sched_getaffinity(0))})


def compare(title, outs, name):
    """Stops if the files of the two folders differ."""
    folders = [os.path.join(out, name) for out in outs]
    names = [sorted(os.listdir(folder)) for folder in folders]
    if names[0] != names[1] or filecmp.cmpfiles(*folders, names[0], shallow=False)[0] != names[0]:
        sys.exit(f"{title}: the plates differ")


def measure(title, commands, outs, names, runs):
    """Measures both programs in turn, compares the files that they made, and prints the line."""
    best = [float("inf")] * 2
    for _ in range(runs):
        for number, command in enumerate(commands):
            best[number] = min(best[number], took(command, outs[number], names))
    for name in names or [""]:
        compare(title, outs, name)
    for out in outs:
        shutil.rmtree(out)
    print(f"| {title} | {best[0]:.2f} | {best[1]:.2f} | {best[0] / best[1]:.2f} |", flush=True)


def measure_one(options, folder, outs):
    image = os.path.join(folder, "large.tif")
    one.make(image)
    commands = [[options.program, "one", image], [built(folder, "one"), image]]
    measure(f"`one` of {one.WIDTH:,} by {one.LENGTH:,}", commands, outs, [], options.runs)
    os.remove(image)


def measure_runs(options, folder, outs):
    files, text, made = os.path.join(folder, "files"), os.path.join(folder, "plan.json"), None
    for title, make, plan, scale in (JOBS[name] for name in options.jobs if name in JOBS):
        if make is not made:
            shutil.rmtree(files, ignore_errors=True)
            os.mkdir(files)
            make(files)
            made = make
        plan = plan()
        with open(text, "w", encoding="utf-8") as file:
            json.dump(plan, file)
        commands = [
            [options.program, "run", text, files, outs[0]],
            plain(plan, scale, files, outs[1], folder),
        ]
        measure(title, commands, outs, [site["name"] for site in plan["sites"]], options.runs)


def main():
    shape = argparse.RawDescriptionHelpFormatter
    parser = argparse.ArgumentParser(description=__doc__, formatter_class=shape)
    parser.add_argument("program")
    parser.add_argument("folder")
    parser.add_argument("--jobs", default=",".join([*JOBS, "one"]))
    parser.add_argument("--runs", type=int, default=3)
    options = parser.parse_args()
    options.program = os.path.abspath(options.program)
    options.jobs = options.jobs.split(",")
    unknown = [name for name in options.jobs if name not in JOBS and name != "one"]
    if unknown:
        parser.error(f"jobs are {', '.join(JOBS)} and one")
    print("| Work | plateroom | plain C | ratio |\n|---|---|---|---|", flush=True)
    with tempfile.TemporaryDirectory(dir=options.folder, prefix="pages-") as folder:
        outs = [os.path.join(folder, name) for name in ("out", "plain")]
        measure_runs(options, folder, outs)
        if "one" in options.jobs:
            measure_one(options, folder, outs)


if __name__ == "__main__":
    main()
