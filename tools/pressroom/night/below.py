"""Opens what strangers put below a folder: by handles, never through a link, never waiting, and names what
it found there by stamps."""
import os
import stat
from collections.abc import Iterator
from contextlib import contextmanager

FOLDER = os.O_RDONLY | os.O_DIRECTORY | os.O_NOFOLLOW | os.O_NONBLOCK | os.O_CLOEXEC
FILE = os.O_RDONLY | os.O_NOFOLLOW | os.O_NONBLOCK | os.O_NOCTTY | os.O_CLOEXEC
WORDS = (
    (stat.S_ISLNK, "a link"),
    (stat.S_ISFIFO, "a pipe"),
    (stat.S_ISSOCK, "a socket"),
    (stat.S_ISBLK, "a device"),
    (stat.S_ISCHR, "a device"),
    (stat.S_ISDIR, "a folder"),
)


def stamp_of(status: os.stat_result) -> str:
    """Returns what a file is known by: device, inode, size, and the times of its content and its inode."""
    return f"{content_of(status)}:{status.st_ctime_ns}"


def content_of(status: os.stat_result) -> str:
    """Returns the part of a stamp that stays when the file is renamed."""
    return f"{status.st_dev}:{status.st_ino}:{status.st_size}:{status.st_mtime_ns}"


def what(status: os.stat_result) -> str:
    """Returns the word for what an entry of a folder is."""
    return next((word for test, word in WORDS if test(status.st_mode)), "a regular file")


@contextmanager
def opened(top: str | int, path: bytes, flags: int) -> Iterator[int]:
    """Opens a path below a folder, given by its path or its handle, folder by folder. Closes it at the
    end."""
    held = os.dup(top) if isinstance(top, int) else os.open(top, FOLDER)
    try:
        *folders, last = path.split(b"/")
        for name, how in [*((folder, FOLDER) for folder in folders), (last, flags)]:
            inner = os.open(name, how, dir_fd=held)
            os.close(held)
            held = inner
        yield held
    finally:
        os.close(held)


def write_all(handle: int, data: bytes) -> None:
    """Writes all of the data; one write may take only a part."""
    view = memoryview(data)
    while view:
        view = view[os.write(handle, view) :]


def sync_folder(path: str) -> None:
    """Syncs a folder, so that the names in it survive a loss of power."""
    handle = os.open(path, os.O_RDONLY | os.O_DIRECTORY | os.O_CLOEXEC)
    try:
        os.fsync(handle)
    finally:
        os.close(handle)


def settle(folder: str, target: str) -> None:
    """Moves a folder whose files are synced to its final name, so that both survive a loss of power."""
    sync_folder(folder)
    os.rename(folder, target)
    sync_folder(os.path.dirname(target))
