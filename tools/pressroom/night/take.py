"""Copies what `scan` found below `in/` into the private store.

A file counts as taken only if its stamp (device, inode, size, times) is the same before and after it was
copied, and is that which was found. What a copy is worth is said by the hash of the bytes that were copied:
whatever a writer does in the meantime, the store has what its name says.
"""
import errno
import hashlib
import os
import stat
from collections.abc import Generator
from typing import Literal

from pressroom.night.below import FILE, opened, stamp_of, sync_folder, what, write_all
from pressroom.night.records import Found, Taken

PageKind = Literal["pdf", "tiff"]
KINDS: dict[bytes, PageKind] = {b".pdf": "pdf", b".tif": "tiff", b".tiff": "tiff"}
CHUNK = 4 << 20


class Changed(Exception):
    """The file is no longer the one that was found: the next scan finds what is there."""


class NotTaken(Exception):
    """The file can't be taken as it is; the text says why."""


def kind_of(name: bytes) -> PageKind | None:
    """Returns `pdf` or `tiff` by the ending of a file's name, or None: such a file is no page."""
    return KINDS.get(os.path.splitext(name)[1].lower())


class Copy:
    """A file that is copied into the store, a chunk a step, and hashed on the way.

    `in_folder` is the folder in which it was found, `part` a name of the service's own on the file system of
    `store`, which no file has. Raises Changed or NotTaken; an OSError is the fault of the store.
    """

    def __init__(self, in_folder: str, found: Found, part: str, store: str):
        kind = kind_of(found.name)
        if kind is None:
            raise NotTaken("its name doesn't end in .pdf, .tif or .tiff")
        self.found, self.kind, self.part, self.store = found, kind, part, store
        self.digest, self.copied = hashlib.sha256(), 0
        self.source, self.target = open_found(in_folder, found), -1
        try:
            self.target = os.open(part, os.O_WRONLY | os.O_CREAT | os.O_EXCL | os.O_CLOEXEC, 0o600)
        except OSError:
            self.part = ""
            self.close()
            raise

    def step(self) -> Taken | None:
        """Copies a chunk. Returns the file's identity when it is in the store, and file and store synced."""
        try:
            data = os.read(self.source, CHUNK)
        except OSError as error:
            raise NotTaken(f"can't be read: {error.strerror}") from None
        if not data:
            return self.stored()
        self.copied += len(data)
        if self.copied > self.found.size:
            raise Changed("longer than it was found")
        self.digest.update(data)
        write_all(self.target, data)
        return None

    def stored(self) -> Taken:
        """Ends a copy: compares the stamp again, syncs the file, names it by its content, syncs the store."""
        see_found(self.source, self.found)
        if self.copied != self.found.size:
            raise Changed("shorter than it was found")
        if not self.copied:
            raise NotTaken("empty")
        os.fsync(self.target)
        sha = self.digest.hexdigest()
        os.rename(self.part, os.path.join(self.store, sha))
        self.part = ""
        sync_folder(self.store)
        self.close()
        return Taken(sha, self.copied, self.kind)

    def close(self) -> None:
        """Ends the copy where it is, and removes what was copied."""
        for handle in (self.source, self.target):
            if handle >= 0:
                os.close(handle)
        self.source = self.target = -1
        if self.part:
            part, self.part = self.part, ""
            try:
                os.unlink(part)
            except FileNotFoundError:
                pass


def copy(in_folder: str, found: Found, part: str, store: str) -> Generator[None, None, Taken]:
    """Copies a file into the store: yields after each chunk, and returns the file's identity there."""
    job = Copy(in_folder, found, part, store)
    try:
        while (taken := job.step()) is None:
            yield
        return taken
    finally:
        job.close()


def read_small(in_folder: str, found: Found, most: int) -> bytes:
    """Returns the bytes of a short file, such as edition.toml; one of more than `most` bytes is refused."""
    source = open_found(in_folder, found)
    try:
        data = b""
        while len(data) <= most and (piece := os.read(source, most + 1 - len(data))):
            data += piece
        if len(data) > most:
            raise NotTaken(f"more than {most} bytes")
        see_found(source, found)
        return data
    except OSError as error:
        raise NotTaken(f"can't be read: {error.strerror}") from None
    finally:
        os.close(source)


def open_found(in_folder: str, found: Found) -> int:
    """Opens a file that was found, without following or waiting for anything. Returns its handle."""
    try:
        with opened(in_folder, found.name, FILE) as handle:
            see_found(handle, found)
            return os.dup(handle)
    except OSError as error:
        # A link or a socket that took its place can't be opened; a pipe can, and isn't a regular file.
        if error.errno in (errno.ENOENT, errno.ENOTDIR, errno.ELOOP, errno.ENXIO):
            raise Changed("removed or replaced since it was found") from None
        raise NotTaken(f"can't be opened: {error.strerror}") from None


def see_found(handle: int, found: Found) -> None:
    """Raises Changed or NotTaken unless an open file is the regular file that was found."""
    status = os.fstat(handle)
    if not stat.S_ISREG(status.st_mode):
        raise NotTaken(f"{what(status)}, not a regular file")
    if stamp_of(status) != found.stamp:
        raise Changed("replaced or written since it was found")
