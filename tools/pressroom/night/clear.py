"""Clears `in/` of what is in the store: a file is moved out, compared, and only then removed.

It is moved into a numbered folder below `grab/`, by the path that it had below `in/`. So a page that was put
into its place a moment before isn't lost: it stays below `grab/`, which `scan` reads as it reads `in/`.
"""
import errno
import os
import shutil

from pressroom.night.below import FOLDER, content_of, opened, stamp_of
from pressroom.night.records import Found

GONE = (errno.ENOENT, errno.ENOTDIR, errno.ELOOP)


def clear(in_folder: str, found: Found, grab: str) -> str:
    """Removes a file that was taken from the folder in which it was found.

    `grab` is a folder that doesn't exist yet, on the file system of `in_folder`. Returns `removed`; `left`,
    if the file isn't there, or another is, which the next scan finds; `grabbed`, if another one came in the
    last moment and is now below `grab`; or `kept: WHY`, if it can't be moved.
    """
    target = os.path.join(os.fsencode(grab), found.name)
    try:
        os.makedirs(os.path.dirname(target), mode=0o700)
        answer = moved(in_folder, target, found)
    except OSError as error:
        answer = "left" if error.errno in GONE else f"kept: {error.strerror}"
    if answer != "grabbed":
        remove_empty(os.path.dirname(target), os.fsencode(grab))
    return answer


def moved(in_folder: str, target: bytes, found: Found) -> str:
    """Moves a file, and removes it if it is the one that was found."""
    folder, _, name = found.name.rpartition(b"/")
    with opened(in_folder, folder, FOLDER) as handle:
        if stamp_of(os.stat(name, dir_fd=handle, follow_symlinks=False)) != found.stamp:
            return "left"
        os.rename(name, target, src_dir_fd=handle)
    # A move changes the time of the inode, and nothing else of a stamp.
    if content_of(os.lstat(target)) != found.stamp.rpartition(":")[0]:
        return "grabbed"
    os.unlink(target)
    return "removed"


def remove_empty(folder: bytes, last: bytes) -> None:
    """Removes folders from `folder` up to `last`, as far as they are empty."""
    while True:
        try:
            os.rmdir(folder)
        except OSError:
            return
        if folder == last:
            return
        folder = os.path.dirname(folder)


def grabbed(grab: str) -> list[str]:
    """Returns the folders below `grab/` that still hold something, oldest first; `scan` reads each."""
    names = sorted((name for name in os.listdir(grab) if name.isdecimal()), key=int)
    return [os.path.join(grab, name) for name in names]


def drop(folder: str) -> str:
    """Removes a folder of `grab/` with what is left in it. Returns why that failed, or nothing."""
    try:
        shutil.rmtree(folder)  # It follows no link.
    except OSError as error:
        return error.strerror or "can't be removed"
    return ""


def clear_folder(in_folder: str, edition: str) -> bool:
    """Removes an edition's folder and those of its zones where they are empty. Returns whether it is gone."""
    name = os.fsencode(edition)
    try:
        with opened(in_folder, name, FOLDER) as handle:
            with os.scandir(handle) as items:
                zones = [item.name for item in items if item.is_dir(follow_symlinks=False)]
            for zone in zones:
                remove_folder(zone, handle)
        with opened(in_folder, b".", FOLDER) as handle:
            return remove_folder(edition, handle)
    except OSError as error:
        return error.errno == errno.ENOENT


def remove_folder(name: str, handle: int) -> bool:
    """Removes a folder if it is empty and may be removed. Returns whether it was."""
    try:
        os.rmdir(name, dir_fd=handle)
    except OSError:
        return False
    return True
