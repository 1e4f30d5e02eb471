"""Packed images in strips of 1, 3, 64, 200 and all rows, chunky and planar: their plates, and the first of their
faults, on one processor, two and, where the machine has them, four, and where no thread can be started.

All files of a picture hold the same pixels, so their pages have the same plates. The definitions make these
from the picture as it is stored without packing.
"""
import os
import random
import resource
import shutil
import struct

import editions
from answers import layer
from plates import Edition, black_plate, compared
from tiff import Image
from trial import told

# How the samples are stored, and the rows of a strip. 0 is all rows.
FORMS = [(planar, rows) for planar in (False, True) for rows in (1, 3, 64, 200, 0)]

# Pictures by name: width, length and seed. A packed file of `large` has more than a megabyte, so that several
# threads test its strips.
PICTURES = {"small": (57, 150, 21), "large": (331, 850, 22)}

MEGABYTE = 1 << 20


def samples(width, length, seed):
    """The four planes of a picture: grain, with a flat run in every row."""
    rng = random.Random(seed)
    for ink in range(4):
        plane = bytearray(rng.randbytes(width * length))
        for y in range(length):
            at = y * width + (3 * y + 11 * ink) % (width // 2)
            plane[at:at + width // 6] = bytes([(5 * y + 60 * ink) % 256]) * (width // 6)
        yield bytes(plane)


def file_of(planes, width, length, planar, **form):
    if not planar:
        whole = bytearray(4 * width * length)
        for ink, plane in enumerate(planes):
            whole[ink::4] = plane
        planes = [bytes(whole)]
    return editions.tiff(width, length, planes, **form)


def named(picture, planar, rows):
    return f"{picture}-{'planar' if planar else 'chunky'}-{rows}.tif"


def write_images(tried, files):
    """Each picture unpacked, and packed in all forms, which hold the same samples."""
    for name, (width, length, seed) in PICTURES.items():
        planes = list(samples(width, length, seed))
        editions.write(files, f"{name}.tif", file_of(planes, width, length, False))
        wanted = Image(os.path.join(files, f"{name}.tif")).samples
        for planar, rows in FORMS:
            path, order = named(name, planar, rows), "<>"[rows == 3]
            form = dict(packed=True, rows=rows or None, order=order, seed=rows)
            data = file_of(planes, width, length, planar, **form)
            editions.write(files, path, data)
            is_same = Image(os.path.join(files, path)).samples == wanted
            is_long = len(data) > MEGABYTE
            fault = "" if is_same and is_long == (name == "large") else f"{len(data)} bytes, same {is_same}"
            tried.holds(f"the image {path}", fault)
    width, length, _ = PICTURES["small"]
    editions.write(files, "mask.tif", editions.line(width, length, 23, 4, packed=True, rows=64))


def left_page(image):
    """The large picture, cropped in the middle of a strip of 3, of 64 and of 200 rows; a part at scale 2."""
    large = {"kind": "contone", "file": image("large")}
    return [dict(large, crop=[1, 331, 330, 400]),
            dict(large, crop=[90, 70, 21, 66], x=13, y=250, scale=2)]


def right_page(image):
    """The large picture, wider and longer than the page; the small one; parts of it at scale 3 and masked."""
    small = {"kind": "contone", "file": image("small")}
    return [{"kind": "contone", "file": image("large"), "y": 3}, dict(small, x=120, y=200),
            dict(small, crop=[5, 70, 40, 37], x=20, y=40, scale=3),
            dict(small, crop=[9, 29, 41, 111], x=200, y=260, mask="mask.tif", paint="overprint")]


def plan(name, images, page, screens):
    """A pair of pages for each way in which images are named."""
    pages = [{"name": f"{side}{number}", "inks": "CMYK", "layers": layers(image)}
             for number, image in enumerate(images) for side, layers in (("l", left_page), ("r", right_page))]
    return {"plan": 1, "edition": name, "dpi": 1200, "page": page, "margins": [3, 2, 1, 4], "gutter": 5,
            "screens": screens, "pages": pages, "sites": [{"name": "OSLO"}, {"name": "BERGEN"}],
            "sections": [{"name": f"F{first}", "pages": [f"{side}{number}" for number in range(first, len(images))[:2]
                                                         for side in "rl"]} for first in range(0, len(images), 2)]}


def both(name, page, screens):
    """The plan whose pages show the packed forms in turn, and the plan of the same plates from the pictures
    that aren't packed."""
    forms = [lambda picture, form=form: named(picture, *form) for form in FORMS]
    packed = plan(name, forms, page, screens)
    plain = plan(name, [lambda picture: f"{picture}.tif"], page, screens)
    plain["sections"] = [dict(section, pages=["r0", "l0"] * (len(section["pages"]) // 2))
                         for section in packed["sections"]]
    return packed, plain


def ways():
    """How the program runs: on one processor, two and four, and on all without threads where possible."""
    here = sorted(os.sched_getaffinity(0))
    every = [dict(processors=here[:count]) for count in sorted({1, min(2, len(here)), min(4, len(here))})]
    if resource.getrlimit(resource.RLIMIT_STACK)[1] == resource.RLIM_INFINITY:
        # No thread can be started, since none can have a stack of so many bytes.
        every.append(dict(limits=[(resource.RLIMIT_STACK, 1 << 46)]))
    return every


def plates(tried, folder, files, name, page, screens):
    """The plates and the result of `verify`, in all ways. Returns the file of the plan, the plates and the
    report."""
    packed, plain = both(name, page, screens)
    edition, out = Edition(plain, files), os.path.join(folder, "OUT")
    wanted, report = dict(edition.plates()), edition.report("OUT").encode()
    same = f"same plates {len(wanted)} sites 2\n".encode()
    path = f"{name}.json"
    editions.write_plan(os.path.join(folder, path), packed)
    for how in ways():
        shutil.rmtree(out, ignore_errors=True)
        run = ["run", path, files, "OUT"]
        tried.answers(run, 0, report, b"", folder=folder, **how)
        tried.holds(f"plates of {told(run, how)}", compared(wanted, out))
        tried.answers(["verify", path, files, "OUT"], 0, same, b"", folder=folder, **how)
    shutil.rmtree(out)
    rows, row = edition.spans()[1], (2 * page[0] + 9) // 8
    is_long = rows * row > MEGABYTE
    fault = "" if is_long or "diffuse" in screens.values() else f"they have {rows * row} bytes"
    tried.holds(f"the rows of {name}", fault)
    tried.part(f"packed images in strips, {name}, {rows} rows")
    return path, wanted, report


def spoiled(data, faults):
    """The file where these strips have these faults. It has more than one strip, so that the tables of their
    offsets and counts are outside the directory."""
    order, out, places = "<" if data[:2] == b"II" else ">", bytearray(data), {}
    directory = struct.unpack_from(order + "I", data, 4)[0]
    for entry in range(struct.unpack_from(order + "H", data, directory)[0]):
        tag, _, _, place = struct.unpack_from(order + "HHII", data, directory + 2 + 12 * entry)
        places[tag] = place
    for strip, fault in faults.items():
        if fault == "short":
            at = places[279] + 4 * strip
            struct.pack_into(order + "I", out, at, struct.unpack_from(order + "I", data, at)[0] - 1)
        else:
            struct.pack_into(order + "I", out, places[273] + 4 * strip, len(data))
    return bytes(out)


def faults(tried, folder, files):
    """Two strips are wrong, each in another way: the fault of the earlier one is reported."""
    short, place = "short", "strip place"
    editions.write_plan(os.path.join(folder, "wrong.json"), layer(file="wrong.tif"))
    words = ["run", "wrong.json", files, "OUT"]
    for planar, rows in ((False, 1), (True, 3), (True, 64), (True, 0)):
        path = os.path.join(files, named("large", planar, rows))
        with open(path, "rb") as file:
            data = file.read()
        count = -(-PICTURES["large"][1] // (rows or PICTURES["large"][1])) * (4 if planar else 1)
        pairs = {(0, count - 1), (count // 2 - 1, count // 2), (count - 2, count - 1)}
        for first, last in sorted(pairs):
            for fault, other in ((short, place), (place, short)):
                editions.write(files, "wrong.tif", spoiled(data, {first: fault, last: other}))
                where, line = f"strips {first} and {last} of {count}", f"tag 273: {fault}\n"
                for how in ways():
                    note = f"plateroom: file wrong.tif: {line}".encode()
                    tried.answers(words, 4, b"", note, where, folder=folder, **how)
                note = f"plateroom: file images/wrong.tif: {line}".encode()
                tried.answers(["one", "images/wrong.tif"], 4, b"", note, where, folder=folder)
    tried.part("two strips that are wrong")


def faults_of_files(tried, folder, files):
    """Two files are wrong, the first in its last strip, the second in its first: the first is reported."""
    forms = {"late.tif": (True, 3, {-1: "short"}), "early.tif": (False, 1, {0: "strip place"})}
    for name, (planar, rows, wrong) in forms.items():
        with open(os.path.join(files, named("large", planar, rows)), "rb") as file:
            data = file.read()
        count = -(-PICTURES["large"][1] // rows) * (4 if planar else 1)
        editions.write(files, name, spoiled(data, {strip % count: fault for strip, fault in wrong.items()}))
    right = plan("E1", [lambda picture: f"{picture}.tif"], [30, 20], {})
    wrong = plan("E1", [lambda picture: "small.tif"], [30, 20], {})
    wrong["pages"] = [dict(page, layers=[{"kind": "contone", "file": name}])
                      for page, name in zip(wrong["pages"], forms)]
    editions.write_plan(os.path.join(folder, "right.json"), right)
    editions.write_plan(os.path.join(folder, "wrong.json"), wrong)
    last = ["wrong.json", files, "OUT"]
    for words, old in ((["run", *last], ""), (["keys", *last, "4"], ""), (["verify", *last], ""),
                       (["replate", "right.json", files, *last], ""),
                       (["replate", "wrong.json", files, "right.json", files, "OUT"], "old ")):
        line = f"plateroom: {old}file late.tif: tag 273: short\n".encode()
        for how in ways():
            tried.answers(words, 4, b"", line, folder=folder, **how)
    made = os.path.exists(os.path.join(folder, "OUT"))
    tried.holds("files with wrong strips", "the folder of plates was made" if made else "")
    tried.part("two files with wrong strips")


def single(tried, files):
    """The black plates of the files, which are those of the pictures, in all ways."""
    for name in PICTURES:
        plate = black_plate(os.path.join(files, f"{name}.tif"))
        for planar, rows in FORMS:
            for how in ways():
                tried.answers(["one", os.path.join(files, named(name, planar, rows))], 0, plate, b"", **how)
    tried.part("plates of one packed image")


def trials(tried, folder):
    """Writes the images to `images` below the folder, where they stay, and returns an edition of them."""
    files = os.path.join(folder, "images")
    write_images(tried, files)
    if not any("limits" in how for how in ways()):
        print("skipped: strips without threads, since stacks have a limit here")
    single(tried, files)
    # Under tiles several threads make the rows of an edition of a megabyte and more. Where an ink is
    # diffused, one thread makes them.
    tiles = {"C": "bayer16", "M": "bayer4", "Y": "bayer8", "K": "bayer8"}
    edition = plates(tried, folder, files, "TILES", [330, 400], tiles)
    plates(tried, folder, files, "DIFFUSED", [301, 96], dict(tiles, K="diffuse"))
    faults(tried, folder, files)
    faults_of_files(tried, folder, files)
    return edition
