"""The folders of a spool, and the start: what no row names is removed, what a row names and isn't there is told.

in/       what uploaders put, a folder an edition     grab/     what was moved out of in/ to be removed
making/   what jobs write, a folder a job             store/    pages as they came, by SHA-256
renders/, plates/   layers and plates, by the job     out/      what sites fetch that have no delivery
journal/  the journal and its lock                    run/      the sockets, where /run/pressroom isn't there
"""
import os
import shutil

from pressroom.night.below import sync_folder
from pressroom.night.book import Book

NAMES = ("in", "grab", "making", "store", "renders", "plates", "out", "journal", "run")
PRIVATE = 0o700


class Folders:
    """The paths of a spool's folders. `name` of a job counts within the service's epoch, and is never used twice."""

    def __init__(self, spool: str) -> None:
        self.spool, self.number = os.path.abspath(spool), 0

    def path(self, *names: str) -> str:
        return os.path.join(self.spool, *names)

    def make(self) -> None:
        """Makes the folders that are missing."""
        os.makedirs(self.spool, exist_ok=True)
        for name in NAMES:
            if not os.path.isdir(self.path(name)):
                os.mkdir(
                    self.path(name), 0o775 if name == "in" else 0o750 if name in ("out", "run") else PRIVATE
                )

    def next_job(self, epoch: int) -> str:
        """Returns a name for a job that no other job of any service has."""
        self.number += 1
        return f"J{epoch}-{self.number}"

    def settle(self, job: str, kind: str) -> None:
        """Makes what a job left in making/ durable below renders/ or plates/. Its files are synced already."""
        source = self.path("making", job)
        sync_folder(source)
        os.rename(source, self.path(kind, job))
        sync_folder(self.path(kind))

    def discard(self, job: str) -> None:
        """Removes what a job left in making/."""
        shutil.rmtree(self.path("making", job), ignore_errors=True)


def sweep(folders: Folders, book: Book) -> list[str]:
    """At the start, when no job is left: empties making/, and removes from the private folders what no row names.

    Returns what a row names and isn't there: somebody else removed it.
    """
    for name in os.listdir(folders.path("making")):
        remove(folders.path("making", name))
    tables = {
        "store": "SELECT sha FROM blob",
        "renders": "SELECT folder FROM render WHERE folder IS NOT NULL",
        "plates": "SELECT folder FROM plates",
    }
    missing = []
    for folder, sql in tables.items():
        known = {row[0] for row in book.journal.rows(sql)}
        there = set(os.listdir(folders.path(folder)))
        for name in there - known:
            remove(folders.path(folder, name))
        missing += [f"{folder}/{name}" for name in sorted(known - there)]
    return missing


def remove(path: str) -> None:
    """Removes a file or a folder; what can't be removed stays, and is swept at the next start."""
    try:
        os.unlink(path)
    except IsADirectoryError:
        shutil.rmtree(path, ignore_errors=True)
    except OSError:
        pass
