"""Reads whole files that a user names: plans, house files, tables. Only regular files up to a size are read, so
that neither a FIFO nor a device stops a command, nor a large file takes its memory."""
import os
import stat
from typing import BinaryIO

from pressroom.base.faults import Fault


class Unreadable(Fault):
    """A file can't be read. The text names the file and the reason."""

    def __init__(self, path: str, why: str) -> None:
        super().__init__(f"{path}: {why}")
        self.path, self.why = path, why


def open_regular(path: str) -> BinaryIO:
    """Opens a regular file. Raises Unreadable; a FIFO without a writer doesn't block it."""
    try:
        handle = os.open(path, os.O_RDONLY | os.O_NONBLOCK | os.O_CLOEXEC)
    except OSError as error:
        raise Unreadable(path, error.strerror or str(error)) from None
    except ValueError:
        raise Unreadable(repr(path), "not a path") from None
    mode = os.fstat(handle).st_mode
    if not stat.S_ISREG(mode):
        os.close(handle)
        raise Unreadable(path, "Is a directory" if stat.S_ISDIR(mode) else "not a regular file")
    return open(handle, "rb")


def read_file(path: str, most: int) -> bytes:
    """Returns the bytes of a regular file of at most `most` bytes. Raises Unreadable."""
    with open_regular(path) as file:
        try:
            data = file.read(most + 1)
        except OSError as error:
            raise Unreadable(path, error.strerror or str(error)) from None
    if len(data) > most:
        raise Unreadable(path, f"more than {most} bytes")
    return data
