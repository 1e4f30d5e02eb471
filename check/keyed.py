"""What `keys` reports for an edition: the plates and the report of `run`, and the counts of each plate's ink
keys.
"""
import os
import shutil

import editions
from plates import compared


def counts(width, rows, keys):
    """How many 1 bits of rows of this width each key has: column x is of the key x * keys / width, rounded down."""
    found = [0] * keys
    for row in rows:
        for x in range(width):
            found[x * keys // width] += row[x // 8] >> 7 - x % 8 & 1
    return found


def lines(edition, keys):
    """The line of each plate, by the rows of the definitions."""
    for index, (name, left, right, inks, _) in enumerate(edition.groups()):
        plate = name.removeprefix(edition.plan["edition"] + "-")
        for ink in inks:
            found = counts(*edition.plate(left, right, ink), keys)
            yield " ".join(["keys", str(index), f"{plate}-{ink}", *map(str, found)]) + "\n"


def text(edition, keys, broken=()):
    return (edition.report("OUT", broken) + "".join(lines(edition, keys))).encode()


def told(tried, folder, name, edition, files):
    """Plates, report and counts of an edition, at one key, at some and at the most, over several rings."""
    plates, out = dict(edition.plates()), os.path.join(folder, "OUT")
    editions.write_plan(os.path.join(folder, "keyed.json"), edition.plan)
    for keys, ring in ((1, ["16", "7"]), (4, []), (64, ["1024", "7"])):
        shutil.rmtree(out, ignore_errors=True)
        words = ["keys", "keyed.json", files, "OUT", str(keys), *ring]
        tried.answers(words, 0, text(edition, keys), b"", folder=folder)
        tried.holds(f"plates of {' '.join(words)}", compared(plates, out))
    shutil.rmtree(out)
    tried.part(f"ink keys of the edition {name}")


def left(tried, folder, edition, files):
    """The counts are complete if a site left, and if all did."""
    spans, out = edition.spans()[0], os.path.join(folder, "OUT")
    words = ["keys", "keyed.json", files, "OUT", "4"]
    sites = list(spans)
    for leaving in (sites[:1], sites):
        for site in leaving:
            os.makedirs(os.path.join(out, spans[site][0][0]))
        broken = [spans[site][0][0] for site in leaving]
        tried.answers(words, 1, text(edition, 4, broken), b"", folder=folder)
        shutil.rmtree(out)
    for stream in ("/dev/full", "closed"):
        tried.answers(words, 7, b"", b"", folder=folder, streams=(stream, ""))
        tried.holds("plates where the output fails", compared(dict(edition.plates()), out))
        shutil.rmtree(out)
    tried.part("ink keys where sites leave")


def by_hand(tried, folder):
    """16 columns of which 3, 7 and 15 print in one row, and 8 in the other."""
    plan = {"plan": 1, "edition": "E1", "dpi": 1200, "page": [8, 2],
            "marks": [{"inks": "K", "x": x, "y": y, "w": 1, "h": 1} for x, y in ((3, 0), (7, 0), (15, 0), (8, 1))],
            "pages": [{"name": "w", "inks": "K", "layers": []}],
            "sections": [{"name": "A", "pages": ["w", "w"]}, {"name": "B", "pages": ["w", "w"]}],
            "sites": [{"name": "OSLO"}]}
    editions.write_plan(os.path.join(folder, "keyed.json"), plan)
    report = "site OSLO finished plates 2 rows 4\ntotal rows 4 sites 1\n"
    for keys, told_of in (("1", "4"), ("2", "2 2"), ("3", "1 2 1"), ("4", "1 1 1 1"),
                          ("16", "0 0 0 1 0 0 0 1 1 0 0 0 0 0 0 1")):
        wanted = report + f"keys 0 A-001-K {told_of}\nkeys 1 B-001-K {told_of}\n"
        for ring in ([], ["1", "1"], ["2"]):
            words = ["keys", "keyed.json", "none", "OUT", keys, *ring]
            tried.answers(words, 0, wanted.encode(), b"", folder=folder)
    shutil.rmtree(os.path.join(folder, "OUT"))
    tried.part("ink keys by hand")


def trials(tried, folder, examples, small, five):
    """The small edition of examples/, and one in five inks for five sites whose images are in `images`."""
    by_hand(tried, folder)
    told(tried, folder, "of examples/", small, examples)
    told(tried, folder, "of five inks", five, "images")
    left(tried, folder, five, "images")
