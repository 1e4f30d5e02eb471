"""Plans for one, four and sixteen sites, and of a small edition; used by the other programs here."""
import filecmp
import os
import sys

import run

RUNS = 3


def sites(count):
    return [{"name": f"S{number}"} for number in range(count)]


def large(screen, count):
    return run.plan(screen) | {"sites": sites(count)}


def small():
    pages = [
        {"name": f"p{number}", "inks": "CMYK",
         "layers": [{"kind": "contone", "file": "left.tif", "crop": [number % 6, number, 400, 600]}]}
        for number in range(8)
    ]
    return run.plan("bayer8") | {
        "page": [400, 600], "pages": pages, "sites": sites(3),
        "sections": [{"name": "A", "pages": [page["name"] for page in pages]}],
    }


def same_plates(first, second):
    """The plates of two sites are the same bytes."""
    for plate in os.listdir(first):
        if not filecmp.cmp(os.path.join(first, plate), os.path.join(second, plate), shallow=False):
            sys.exit(f"{plate} differs between {first} and {second}")
