"""Files written atomically, hard links, checksums, and locks: what the commands that run at night do on
disks."""
import errno
import fcntl
import hashlib
import os
import shutil
from typing import ClassVar

PART = ".part"
# Errors of a file system without hard links or with no room for one more, or of a link between two.
NO_LINK = (errno.EXDEV, errno.EPERM, errno.EMLINK, errno.EOPNOTSUPP, errno.ENOSYS)


class Busy(Exception):
    """Another process holds the lock; the text names its file."""


def sync_folder(path: str) -> None:
    """Syncs a folder, so that the names in it survive a loss of power."""
    handle = os.open(path or ".", os.O_RDONLY | os.O_DIRECTORY)
    try:
        os.fsync(handle)
    finally:
        os.close(handle)


def part_of(path: str) -> str:
    """The name under which a file is written until it is complete: hidden, and this process's own."""
    folder, name = os.path.split(path)
    return os.path.join(folder, f".{name}.{os.getpid()}{PART}")


def write_whole(path: str, data: bytes) -> None:
    """Writes a file: it has its old bytes or the new ones at any moment."""
    part = part_of(path)
    try:
        with open(part, "wb") as file:
            file.write(data)
            file.flush()
            os.fsync(file.fileno())
        os.rename(part, path)
    except OSError:
        remove(part)
        raise
    sync_folder(os.path.dirname(path))


def write_changed(path: str, data: bytes) -> bool:
    """Writes a file, unless it has these bytes: what is made of it stays newer. Returns whether it wrote."""
    try:
        with open(path, "rb") as file:
            if file.read() == data:
                return False
    except FileNotFoundError:
        pass
    write_whole(path, data)
    return True


def copy_whole(source: str, target: str) -> None:
    """Copies a file with its times: the name has its old bytes or all of the new ones at any moment."""
    part = part_of(target)
    os.makedirs(os.path.dirname(target), exist_ok=True)
    try:
        shutil.copyfile(source, part)
        shutil.copystat(source, part)
        with open(part, "rb+") as file:
            os.fsync(file.fileno())
        os.rename(part, target)
    except OSError:
        remove(part)
        raise
    sync_folder(os.path.dirname(target))


def link_or_copy(source: str, target: str) -> None:
    """Gives a file a second, new name: a hard link, or a copy where hard links are impossible."""
    try:
        os.link(source, target)
    except OSError as error:
        if error.errno not in NO_LINK:
            raise
        copy_whole(source, target)


def remove(path: str) -> None:
    """Removes a file, a link or a folder with its contents; a missing one is no fault."""
    try:
        os.remove(path)
    except IsADirectoryError:
        shutil.rmtree(path)
    except FileNotFoundError:
        pass


def move_link(path: str, target: str) -> None:
    """Points a symbolic link at a new target: at any moment it leads to the old or the new one."""
    part = part_of(path)
    remove(part)
    os.symlink(target, part)
    os.rename(part, path)
    sync_folder(os.path.dirname(path))


def sha256(path: str) -> str:
    """The SHA-256 of a file, in hexadecimal digits."""
    with open(path, "rb") as file:
        return hashlib.file_digest(file, "sha256").hexdigest()


class Lock:
    """An exclusive `flock` on a file, which is created if missing; raises Busy if another process has it.

    The kernel releases it when this process and all programs that it started have ended, however they ended:
    `held` has the handles that they inherit. `remove` removes the file while it is held.
    """

    held: ClassVar[set[int]] = set()

    def __init__(self, path: str) -> None:
        self.path = path

    def __enter__(self) -> "Lock":
        while True:
            self.file = open(self.path, "a", encoding="ascii")
            try:
                fcntl.flock(self.file, fcntl.LOCK_EX | fcntl.LOCK_NB)
            except BlockingIOError:
                self.file.close()
                raise Busy(self.path) from None
            if self.is_named():
                Lock.held.add(self.file.fileno())
                return self
            self.file.close()

    def is_named(self) -> bool:
        """Whether the locked file still has its name: the previous holder may have removed it."""
        try:
            return os.path.samestat(os.fstat(self.file.fileno()), os.stat(self.path))
        except FileNotFoundError:
            return False

    def remove(self) -> None:
        """Removes the file while it is held."""
        os.remove(self.path)

    def __exit__(self, *error: object) -> None:
        Lock.held.discard(self.file.fileno())
        self.file.close()
