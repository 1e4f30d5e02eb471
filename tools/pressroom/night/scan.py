"""Finds the files of uploaders in `in/`: `in/NAME/` is the folder of an edition; it holds pages, and folders
of zones that hold pages.

Nothing is opened but folders, each below the handle of the one that holds it, and nothing is followed. Only
regular files on the device of `in/` itself are found. What can't be taken is an `Unfit`, and stops nothing.
Names that begin with a dot are passed over, since uploads have such names until they are complete, and so is
the file READY.
"""
import os
import re
import stat
from collections.abc import Iterator

from pressroom.night.below import FOLDER, opened, stamp_of, what
from pressroom.night.records import Found, Unfit

EDITION = re.compile(rb"[A-Za-z0-9][A-Za-z0-9_.-]{0,63}")
# The most entries of a folder that are read, and the most faults that one edition tells.
MOST_FILES, MOST_UNFIT = 10_000, 100
# The largest file that is taken: twice what plateroom loads of one file.
MOST_BYTES = 1 << 30


Entry = tuple[bytes, os.stat_result]


def scan(in_folder: str) -> Iterator[Found | Unfit]:
    """Yields the files of all editions, and what can't be taken, in the order of their names.

    Raises OSError if `in_folder` itself can't be read. Each step does little, so a caller may stop between
    two and continue later.
    """
    top = os.open(in_folder, FOLDER)
    try:
        status = os.fstat(top)
        device, unfit = status.st_dev, 0
        for name, inner in entries(top, None)[0]:
            if EDITION.fullmatch(name):
                yield from few_faults(name, inner, edition_files(top, name, inner, device))
                continue
            unfit += 1
            if unfit <= MOST_UNFIT:
                yield Unfit(None, name, stamp_of(inner), "not a name of an edition")
        if unfit > MOST_UNFIT:
            yield Unfit(None, b".", stamp_of(status), f"more than {MOST_UNFIT} names that no edition has")
    finally:
        os.close(top)


def few_faults(
    name: bytes, status: os.stat_result, found: Iterator[Found | Unfit]
) -> Iterator[Found | Unfit]:
    """Passes on what an edition holds, but no more faults than MOST_UNFIT and one that says there are
    more."""
    unfit = 0
    for item in found:
        unfit += isinstance(item, Unfit)
        if isinstance(item, Found) or unfit <= MOST_UNFIT:
            yield item
    if unfit > MOST_UNFIT:
        yield unfit_of(name, status, f"more than {MOST_UNFIT} entries that can't be taken")


def edition_files(top: int, name: bytes, status: os.stat_result, device: int) -> Iterator[Found | Unfit]:
    """Yields the files of one edition, and those in the folders of its zones."""
    for inner in inside(top, name, status, device):
        if isinstance(inner, Unfit):
            yield inner
        elif stat.S_ISDIR(inner[1].st_mode):
            for file in inside(top, *inner, device):
                yield file if isinstance(file, Unfit) else file_of(*file, device)
        else:
            yield file_of(*inner, device)


def inside(top: int, path: bytes, status: os.stat_result, device: int) -> Iterator[Entry | Unfit]:
    """Yields the entries of a folder below `top` with their paths, or why they can't be read."""
    if not stat.S_ISDIR(status.st_mode):
        yield unfit_of(path, status, f"{what(status)}, not a folder")
        return
    try:
        with opened(top, path, FOLDER) as handle:
            if {status.st_dev, os.fstat(handle).st_dev} != {device}:
                yield unfit_of(path, status, "on another file system")
                return
            found, more = entries(handle, MOST_FILES)
    except OSError as error:
        yield unfit_of(path, status, f"can't be opened: {error.strerror}")
        return
    if more:
        yield unfit_of(path, status, f"more than {MOST_FILES} files")
    for name, inner in found:
        yield path + b"/" + name, inner


def entries(handle: int, most: int | None) -> tuple[list[Entry], bool]:
    """Returns the entries of a folder, sorted, without those that are passed over, and whether it has more
    than `most`."""
    names = []
    with os.scandir(handle) as items:
        for item in items:
            if not item.name.startswith(".") and item.name != "READY":
                names.append(os.fsencode(item.name))
            if most and len(names) > most:
                break
    found = []
    for name in sorted(names[:most]):
        try:
            found.append((name, os.stat(name, dir_fd=handle, follow_symlinks=False)))
        except OSError:  # It was removed in between, or its folder may be listed and not searched.
            continue
    return found, most is not None and len(names) > most


def file_of(path: bytes, status: os.stat_result, device: int) -> Found | Unfit:
    """Returns a file that may be taken as a page, or why it can't be one."""
    if not stat.S_ISREG(status.st_mode):
        return unfit_of(path, status, f"{what(status)}, not a regular file")
    if status.st_dev != device:
        return unfit_of(path, status, "on another file system")
    if status.st_size > MOST_BYTES:
        return unfit_of(path, status, f"more than {MOST_BYTES} bytes")
    return Found(edition_of(path), path, stamp_of(status), status.st_size)


def unfit_of(path: bytes, status: os.stat_result, why: str) -> Unfit:
    """Returns that an entry of an edition's folder can't be taken."""
    return Unfit(edition_of(path), path, stamp_of(status), why)


def edition_of(path: bytes) -> str:
    """Returns the edition of a path below `in/`."""
    return path.partition(b"/")[0].decode("ascii")
