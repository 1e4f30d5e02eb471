"""What `verify` reports for plates that a run left, and for plates that were changed, cut, replaced or
removed.
"""
import os
import shutil

import editions
from answers import MEMORY, sparse
from plates import Edition
from tiff import packed, plate_file

MOST = 600_000_000


def paths(edition):
    """Each plate in the order in which they are verified: path below the folder of plates, bytes and rows."""
    for name, left, right, inks, sites in edition.groups():
        for ink in inks:
            width, rows = edition.plate(left, right, ink)
            file = plate_file(width, rows, edition.plan["dpi"])
            for site in sites:
                yield f"{site}/{name}-{ink}.tif", file, rows


def same(edition):
    """The line if all plates are right."""
    return f"same plates {len(list(paths(edition)))} sites {len(edition.plan['sites'])}\n"


def row_at(rows, place):
    """The row whose packed bytes hold a place of the plate, if one does."""
    end = 8
    for number, row in enumerate(rows):
        begin, end = end, end + len(packed(row))
        if begin <= place < end:
            return number
    return None


def differing(file, held):
    """The first place at which one has a byte that the other lacks or has otherwise."""
    for place, (byte, other) in enumerate(zip(file, held)):
        if byte != other:
            return place
    return None if len(file) == len(held) else min(len(file), len(held))


def found(edition, folder):
    """The status, the output and the line that `verify` ends with, over what is below OUT of a folder."""
    for path, file, rows in paths(edition):
        full = os.path.join(folder, "OUT", path)
        if not os.path.isfile(full):
            return 5, "", f"plateroom: shelf: OUT/{path}\n"
        if os.path.getsize(full) > MOST:
            return 8, f"differs OUT/{path} long\n", ""
        with open(full, "rb") as held:
            place = differing(file, held.read())
        if place is not None:
            row = row_at(rows, place)
            return 8, f"differs OUT/{path} byte {place}" + ("" if row is None else f" row {row}") + "\n", ""
    return 0, same(edition), ""


class Plates:
    """A folder with the plates of an edition, as a run left them."""

    def __init__(self, tried, folder, edition, files):
        self.tried, self.folder, self.edition = tried, folder, edition
        self.plates = list(paths(edition))
        self.words = ["verify", "held.json", files, "OUT"]
        shutil.rmtree(os.path.join(folder, "OUT"), ignore_errors=True)
        editions.write_plan(os.path.join(folder, "held.json"), edition.plan)
        report = edition.report("OUT").encode()
        tried.answers(["run", *self.words[1:]], 0, report, b"", folder=folder)

    def full(self, number):
        return os.path.join(self.folder, "OUT", self.plates[number][0])

    def answers(self, status, out, line="", **how):
        self.tried.answers(self.words, status, out.encode(), line.encode(), folder=self.folder, **how)

    def looked(self):
        """The program finds what the definitions say."""
        self.answers(*found(self.edition, self.folder))

    def put(self, number, data):
        editions.write(os.path.join(self.folder, "OUT"), self.plates[number][0], data)

    def mend(self, number):
        if os.path.isdir(self.full(number)):
            os.rmdir(self.full(number))
        self.put(number, self.plates[number][1])

    def changes(self, number):
        """One plate in all the ways in which it may be wrong."""
        _, file, rows = self.plates[number]
        end = 8 + sum(len(packed(row)) for row in rows)
        last = end - len(packed(rows[-1]))
        for place in sorted({0, 4, 7, 8, last - 1, last, end - 1, end, end + end % 2, len(file) - 1}):
            turned = bytearray(file)
            turned[place] ^= 1
            self.put(number, turned)
            self.looked()
        for data in (file[:-1], file[:last + 1], file[:9], b"", file + b"\0", b"no plate\n", file + file):
            self.put(number, data)
            self.looked()
        begun = file[:4] + bytes(4) + file[8:last]
        self.put(number, begun)
        self.looked()
        os.remove(self.full(number))
        self.looked()
        os.mkdir(self.full(number))
        self.looked()
        self.mend(number)


def by_hand(tried, folder):
    """A plate of 16 by 1 pixels whose row 11 00 is packed to 01 11 00 at 8, 9 and 10, and its pad byte."""
    plan = {"plan": 1, "edition": "E1", "dpi": 1200, "page": [8, 1], "screens": {"K": "bayer2"},
            "marks": [{"inks": "K", "x": number, "y": 0, "w": 1, "h": 1} for number in (3, 7)],
            "pages": [{"name": "w", "inks": "K", "layers": []}],
            "sections": [{"name": "A", "pages": ["w", "w"]}], "sites": [{"name": "OSLO"}, {"name": "BERGEN"}]}
    held = Plates(tried, folder, Edition(plan, folder), "none")
    held.answers(0, "same plates 2 sites 2\n")
    for number, site in enumerate(("OSLO", "BERGEN")):
        file = held.plates[number][1]
        is_so = file[8:14] == bytes((1, 0x11, 0, 0, 12, 0))
        tried.holds("the plate by hand", "" if is_so else repr(file[8:14]))
        for place, told in ((0, "byte 0"), (7, "byte 7"), (8, "byte 8 row 0"), (10, "byte 10 row 0"),
                            (11, "byte 11"), (12, "byte 12"), (177, "byte 177")):
            turned = bytearray(file)
            turned[place] ^= 255
            held.put(number, turned)
            held.answers(8, f"differs OUT/{site}/E1-A-001-K.tif {told}\n")
        for data, told in ((file[:10], "byte 10 row 0"), (file[:-1], "byte 177"), (file + b"\0", "byte 178")):
            held.put(number, data)
            held.answers(8, f"differs OUT/{site}/E1-A-001-K.tif {told}\n")
        held.mend(number)
    tried.part("plates verified, by hand")


def large(held):
    """Files that are longer than the limit, as long as it, and longer than the memory that there is."""
    path, _, _ = held.plates[0]
    sparse(held.full(0), MOST + 1)
    held.answers(8, f"differs OUT/{path} long\n")
    sparse(held.full(0), MOST)
    held.answers(8, f"differs OUT/{path} byte 0\n")
    held.answers(6, "", "plateroom: memory\n", limits=[(MEMORY, 1 << 28)])
    held.mend(0)


def streams(held):
    """Output and note that fail."""
    for stream in ("/dev/full", "closed", "unread"):
        held.answers(7, "", streams=(stream, ""))
        held.put(0, b"")
        held.answers(7, "", streams=(stream, ""))
        os.remove(held.full(0))
        held.answers(7, "", streams=("", stream))
        held.mend(0)


def behind_another(held):
    """Two plates that aren't right: the first is reported, and a missing one after it isn't loaded."""
    last = len(held.plates) - 1
    for first, second in ((0, last), (1, 2), (last - 1, last)):
        held.put(first, held.plates[first][1][:-1])
        os.remove(held.full(second))
        held.looked()
        held.mend(first)
        held.looked()
        held.put(second, b"")
        os.remove(held.full(first))
        held.looked()
        held.mend(first)
        held.mend(second)
    held.looked()


def many():
    """1,024 plates of 16 by 2 pixels: sixteen pairs in four inks for sixteen sites."""
    return {"plan": 1, "edition": "MANY", "dpi": 1200, "page": [8, 2],
            "pages": [{"name": "w", "inks": "CMYK", "layers": []}],
            "sections": [{"name": "A", "pages": ["w"] * 32}],
            "sites": [{"name": f"S{number}"} for number in range(16)]}


def trials(tried, folder, edition):
    """`verify` over plates of small editions, and of one in five inks whose images are in `images`."""
    by_hand(tried, folder)
    held = Plates(tried, folder, edition, "images")
    held.answers(0, same(edition))
    editions.write(os.path.join(folder, "OUT"), "OSLO/other.tif", b"of another run")
    held.answers(0, same(edition))
    for number in (0, len(held.plates) // 2, len(held.plates) - 1):
        held.changes(number)
    behind_another(held)
    streams(held)
    large(held)
    tried.part("plates verified, in five inks")
    held = Plates(tried, folder, Edition(many(), folder), "none")
    held.looked()
    path, file, _ = held.plates[-1]
    held.put(-1, file[:-1] + b"\1")
    held.answers(8, f"differs OUT/{path} byte {len(file) - 1}\n")
    shutil.rmtree(os.path.join(folder, "OUT"))
    tried.part("1,024 plates verified")
