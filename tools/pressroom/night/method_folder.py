"""Delivery into a folder: of a mounted disk, or one from which sites fetch.

Plates are linked where the folder is on the same file system, and copied otherwise. The folder itself must be
there, or nothing is mounted on it. Everything below it is reached by handles and through no link, since
others may write there too.
"""
import errno
import os
import stat
from collections.abc import Iterator, Mapping, Sequence
from contextlib import contextmanager
from typing import Any

from pressroom.night.below import FILE, FOLDER, sync_folder, write_all
from pressroom.night.method import ACK, READY, SUMS, Fault, Seen, is_complete

NO_LINK = (errno.EXDEV, errno.EPERM, errno.EMLINK, errno.EOPNOTSUPP, errno.ENOSYS)
# The longest READY that is read; the service makes none that is longer.
LONGEST = 1 << 20
CHUNK = 1 << 20


class Folder:
    """A site's folder on this machine: its description has `target`, the folder's absolute path. With `make` it
    is made where it is missing, below a folder that must be there."""

    keeps = True

    def __init__(self, keys: Mapping[str, Any]) -> None:
        self.target: str = keys["target"]
        self.make = bool(keys.get("make"))

    @staticmethod
    def takes(target: str) -> bool:
        """Returns whether a target is an absolute path."""
        return target.startswith("/")

    def plates(self, source: str, names: Sequence[str], sums: bytes, folder: str) -> None:
        """Links or copies plates, and writes SHA256SUMS; each file and each folder is synced."""
        with faults(), self.opened(folder, True) as handle:
            for name in names:
                put_file(os.path.join(source, name), name, handle)
            put_text(sums, SUMS, handle)

    def ready(self, folder: str, text: bytes) -> None:
        """Writes READY under another name, syncs and renames it, syncs the folder, and reads it again."""
        with faults(), self.opened(folder, is_complete(folder)) as handle:
            put_text(text, READY, handle)
            if read(READY, handle) != text:
                raise Fault("READY reads as something else")

    def look(self, expected: Mapping[str, str]) -> Seen:
        """Reads the READY of each folder."""
        seen = Seen()
        with faults():
            os.close(self.top())
            for folder, text in expected.items():
                try:
                    with self.opened(folder, False) as handle:
                        if (found := read(READY, handle)) is not None:
                            seen.texts[folder] = text if found == text.encode() else ""
                        if read(ACK, handle) is not None:
                            seen.acked.append(folder)
                except FileNotFoundError:
                    continue
        return seen

    def top(self) -> int:
        """Opens the site's folder, which the house chose: it may be a link."""
        try:
            if self.make and not os.path.isdir(self.target):
                os.mkdir(self.target, 0o755)
                sync_folder(os.path.dirname(self.target))
            return os.open(self.target, os.O_RDONLY | os.O_DIRECTORY | os.O_CLOEXEC)
        except OSError as error:
            raise Fault(f"{self.target}: {error.strerror}; is it mounted?", begun=False) from None

    @contextmanager
    def opened(self, folder: str, create: bool) -> Iterator[int]:
        """Opens a folder below the site's, which is made where it is missing, if that is asked for."""
        held = self.top()
        try:
            for name in folder.split("/"):
                if create:
                    make_folder(name, held)
                inner = os.open(name, FOLDER, dir_fd=held)
                os.close(held)
                held = inner
            yield held
        finally:
            os.close(held)


@contextmanager
def faults() -> Iterator[None]:
    """Makes a Fault of what the file system refuses."""
    try:
        yield
    except OSError as error:
        place = f"{error.filename}: " if isinstance(error.filename, str) else ""
        raise Fault(f"{place}{error.strerror}") from None


def make_folder(name: str, handle: int) -> None:
    """Makes a folder if it is missing, and syncs the one that it is in."""
    try:
        os.mkdir(name, 0o755, dir_fd=handle)
    except FileExistsError:
        return
    os.fsync(handle)


def put_file(source: str, name: str, handle: int) -> None:
    """Links or copies a file into a folder, under a name that it gets when it is whole, and syncs both."""
    part = f".{name}.part"
    remove(part, handle)
    try:
        os.link(source, part, dst_dir_fd=handle, follow_symlinks=False)
    except OSError as error:
        if error.errno not in NO_LINK:
            raise
        copy(source, part, handle)
    os.rename(part, name, src_dir_fd=handle, dst_dir_fd=handle)
    # A name that was there already for the same file is left by a rename, and so is the new one.
    remove(part, handle)
    os.fsync(handle)


def copy(source: str, part: str, handle: int) -> None:
    """Copies a file, and syncs the copy."""
    target = os.open(part, os.O_WRONLY | os.O_CREAT | os.O_EXCL | os.O_CLOEXEC, 0o644, dir_fd=handle)
    try:
        with open(source, "rb") as file:
            while piece := file.read(CHUNK):
                write_all(target, piece)
        os.fsync(target)
    finally:
        os.close(target)


def put_text(text: bytes, name: str, handle: int) -> None:
    """Writes a short file, synced, under a name that it gets when it is whole, and syncs the folder."""
    part = f".{name}.part"
    remove(part, handle)
    target = os.open(part, os.O_WRONLY | os.O_CREAT | os.O_EXCL | os.O_CLOEXEC, 0o644, dir_fd=handle)
    try:
        write_all(target, text)
        os.fsync(target)
    finally:
        os.close(target)
    os.rename(part, name, src_dir_fd=handle, dst_dir_fd=handle)
    os.fsync(handle)


def remove(name: str, handle: int) -> None:
    """Removes a file; a missing one is no fault."""
    try:
        os.unlink(name, dir_fd=handle)
    except FileNotFoundError:
        pass


def read(name: str, handle: int) -> bytes | None:
    """Returns the bytes of a regular file, None if there is none; of a longer one than READY may be, a
    part."""
    try:
        file = os.open(name, FILE, dir_fd=handle)
    except OSError as error:
        if error.errno in (errno.ENOENT, errno.ELOOP, errno.ENXIO):
            return None
        raise
    try:
        return os.read(file, LONGEST) if stat.S_ISREG(os.fstat(file).st_mode) else None
    finally:
        os.close(file)
