"""A small edition for two sites, and an earlier one; its plates are read by the reader of these checks."""
import copy
import functools
import json
import os
import subprocess

from tiff import Image

try:
    import numpy
except ImportError:
    numpy = None

TOP = os.path.join(os.path.dirname(os.path.abspath(__file__)), "..")
EXAMPLES = os.path.join(TOP, "examples")
INKS = "CMYKS"
WIDTH, LENGTH = 1500, 1100


def edition():
    """Pages of 700 by 1040 pixels in five inks and in black, on plates of 1500 by 1100."""
    picture, line = {"kind": "contone", "file": "packed.tif"}, {"kind": "line", "file": "line.tif"}
    spot = line | {"ink": [0, 0, 0, 0, 255], "paint": "overprint", "scale": 4, "x": 60, "y": 330}
    return {
        "plan": 2,
        "edition": "E1",
        "dpi": 1200,
        "page": [700, 1040],
        "margins": [30, 20, 30, 40],
        "gutter": 40,
        "limit": 765,
        "screens": {"K": "diffuse", "S": "bayer4"},
        "marks": [
            {"inks": "CMYKS", "x": 0, "y": 0, "w": 9, "h": 5},
            {"inks": "CK", "x": 1499, "y": 1099, "w": 1, "h": 1},
        ],
        "pages": [
            {
                "name": "front",
                "inks": "CMYKS",
                "layers": [picture | {"scale": 7}, picture | {"scale": 5, "y": 600}, spot],
            },
            {"name": "inside", "inks": "K", "layers": [line | {"x": 300, "y": 700}]},
            {"name": "third", "inks": "K", "layers": [line | {"scale": 5, "ink": [0, 0, 0, 99]}]},
            {
                "name": "back",
                "inks": "CMYK",
                "layers": [line | {"scale": 2, "x": 400, "ink": [0, 255, 90, 0]}],
            },
            {"name": "local", "inks": "K", "layers": [line | {"scale": 3}]},
        ],
        "sections": [
            {"name": "A", "pages": ["front", "inside", "third", "back"]},
            {"name": "C", "pages": ["third", "back"]},
        ],
        "zones": [{"name": "west", "replace": [{"section": "A", "page": 2, "with": "local"}]}],
        "sites": [{"name": "OSLO"}, {"name": "BERGEN", "zone": "west"}],
    }


def earlier():
    """An earlier edition: the spot and the zone's page are elsewhere, page 4 has no magenta, and C was
    called B."""
    plan = copy.deepcopy(edition())
    plan["edition"], plan["sections"][1]["name"] = "E0", "B"
    plan["pages"][0]["layers"][2]["x"] = 71
    plan["pages"][3]["layers"][0]["ink"] = [40, 0, 90, 0]
    plan["pages"][4]["layers"][0]["y"] = 5
    return plan


def run(program, folder, name, plan):
    """Makes an edition's plates and returns its plan's path and its folder of plates."""
    path, out = os.path.join(folder, f"{name}.json"), os.path.join(folder, name)
    with open(path, "w", encoding="utf-8") as file:
        json.dump(plan, file)
    subprocess.run([program, "run", path, EXAMPLES, out], check=True, capture_output=True)
    return path, out


@functools.lru_cache(None)
def bits(path):
    """A plate's pixels as an array of 0 and 1, by the reader of these checks."""
    image = Image(path)
    rows = numpy.frombuffer(bytes(image.samples), numpy.uint8).reshape(image.length, -1)
    return numpy.unpackbits(rows, axis=1, count=image.width)


def plates_of(folder, pair):
    """The bits of each ink of a pair at a site."""
    found = {}
    for ink in INKS:
        for name in os.listdir(folder):
            if name.endswith(f"-{pair}-{ink}.tif"):
                found[ink] = bits(os.path.join(folder, name))
    return found
