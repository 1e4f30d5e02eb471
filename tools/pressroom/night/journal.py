"""The journal of a spool: one SQLite file that one process alone may open.

`Journal.open(folder)` takes the lock, tests the file, brings it to the present schema and begins an epoch. Each write
is a transaction (`with journal.transaction()`); what leaves it by an exception is undone. The folder has:

night.db     the journal, in WAL with full synchronisation, opened exclusively: no other process can read or stop it
night.db.1   a copy of the last hour
lock         held by `flock` for the service's life, and by its jobs for theirs
reserve      room that is given back when the disk is full, so that the journal can still speak
"""
import contextlib
import errno
import fcntl
import os
import secrets
import sqlite3
import time
from collections.abc import Iterator
from typing import Any

NAME, COPY, LOCK, RESERVE = "night.db", "night.db.1", "lock", "reserve"
RESERVE_BYTES = 64 * 1024 * 1024
PRAGMAS = """
PRAGMA locking_mode = EXCLUSIVE; PRAGMA journal_mode = WAL; PRAGMA synchronous = FULL; PRAGMA foreign_keys = ON;
PRAGMA trusted_schema = OFF; PRAGMA cell_size_check = ON; PRAGMA busy_timeout = 5000;
PRAGMA journal_size_limit = 16777216;
"""
SCHEMA = os.path.join(os.path.dirname(os.path.abspath(__file__)), "schema.sql")
# The scripts that bring a journal of version N, counted from 1, to N + 1.
STEPS: tuple[str, ...] = ()
VERSION = len(STEPS) + 1


class Unusable(Exception):
    """The journal can't be used; the text says why."""


class Busy(Exception):
    """Another service has the lock."""


def schema() -> str:
    """Returns the text of the present schema."""
    with open(SCHEMA, encoding="utf-8") as file:
        return file.read()


class Journal:
    """An open journal. `epoch` counts the services that began on this spool: it is part of each job's name."""

    def __init__(self, folder: str, db: sqlite3.Connection, lock: int):
        self.folder, self.db, self.lock, self.epoch = folder, db, lock, 0

    @classmethod
    def open(cls, folder: str, begins: bool = True) -> "Journal":
        """Opens the journal of a folder, which is made if it is missing. `begins`: for a service, so an epoch begins.

        Raises Busy while another service has it, Unusable where it is damaged or of a newer program, OSError where
        the folder can't be written.
        """
        os.makedirs(folder, mode=0o700, exist_ok=True)
        os.chmod(folder, 0o700)
        lock = os.open(os.path.join(folder, LOCK), os.O_RDWR | os.O_CREAT | os.O_CLOEXEC, 0o600)
        try:
            fcntl.flock(lock, fcntl.LOCK_EX | fcntl.LOCK_NB)
        except BlockingIOError:
            os.close(lock)
            raise Busy(folder) from None
        path, db = os.path.join(folder, NAME), None
        try:
            db = connect(path)
            journal = cls(folder, db, lock)
            journal.prepare()
            if begins:
                journal.begin()
        except BaseException as error:
            if db is not None:
                db.close()
            os.close(lock)
            if isinstance(error, sqlite3.DatabaseError):
                raise Unusable(f"{path}: {error}") from None
            raise
        return journal

    def prepare(self) -> None:
        """Tests the file, and migrates it."""
        os.chmod(os.path.join(self.folder, NAME), 0o600)
        said = self.value("PRAGMA quick_check(1)")
        if said != "ok":
            raise Unusable(f"{os.path.join(self.folder, NAME)}: {said}")
        self.migrate()
        if self.value("SELECT count(*) FROM spool") == 0:
            with self.transaction():
                self.db.execute("INSERT INTO spool (one, id) VALUES (1, ?)", [secrets.token_hex(8)])

    def begin(self) -> None:
        """Begins an epoch."""
        with self.transaction():
            self.db.execute("UPDATE spool SET epoch = epoch + 1")
        self.epoch = int(self.value("SELECT epoch FROM spool"))

    def migrate(self) -> None:
        """Brings the schema to the present version: each step in a transaction of its own, after a copy."""
        found = int(self.value("PRAGMA user_version"))
        if found > VERSION:
            raise Unusable(f"{os.path.join(self.folder, NAME)}: of a newer pressroom (schema {found})")
        if found == 0:
            self.script(schema())
            return
        if found < VERSION:
            self.backup()
        for number in range(found, VERSION):
            self.script(f"{STEPS[number - 1]};\nPRAGMA user_version = {number + 1};")

    def script(self, text: str) -> None:
        """Runs a script as one transaction."""
        try:
            self.db.executescript(f"BEGIN IMMEDIATE;\n{text}\nCOMMIT;")
        except sqlite3.Error:
            if self.db.in_transaction:
                self.db.execute("ROLLBACK")
            raise

    @contextlib.contextmanager
    def transaction(self) -> Iterator[sqlite3.Connection]:
        """A transaction: committed, and synced, at the end; undone where an exception leaves it."""
        self.db.execute("BEGIN IMMEDIATE")
        try:
            yield self.db
            self.db.execute("COMMIT")
        except BaseException:
            if self.db.in_transaction:
                self.db.execute("ROLLBACK")
            raise

    def rows(self, sql: str, *values: Any) -> list[sqlite3.Row]:
        """Returns all rows of a query."""
        return self.db.execute(sql, values).fetchall()

    def row(self, sql: str, *values: Any) -> sqlite3.Row | None:
        """Returns the first row of a query, or None."""
        found: sqlite3.Row | None = self.db.execute(sql, values).fetchone()
        return found

    def value(self, sql: str, *values: Any) -> Any:
        """Returns the first value of a query, or None where it has no row."""
        found = self.row(sql, *values)
        return None if found is None else found[0]

    def backup(self) -> None:
        """Copies the journal to night.db.1, by SQLite's own call: synced, then renamed."""
        path = os.path.join(self.folder, COPY)
        copy = sqlite3.connect(path + ".new")
        try:
            self.db.backup(copy)
        finally:
            copy.close()
        os.chmod(path + ".new", 0o600)
        for name in (path + ".new", self.folder):
            handle = os.open(name, os.O_RDONLY)
            try:
                os.fsync(handle)
            finally:
                os.close(handle)
            if name != self.folder:
                os.rename(name, path)

    def keep_reserve(self) -> bool:
        """Makes the reserve if it is missing and the disk has ten times its room. Returns whether it is there."""
        path = os.path.join(self.folder, RESERVE)
        if os.path.exists(path):
            return True
        space = os.statvfs(self.folder)
        if space.f_bavail * space.f_frsize < 10 * RESERVE_BYTES:
            return False
        handle = os.open(path, os.O_RDWR | os.O_CREAT | os.O_CLOEXEC, 0o600)
        try:
            os.posix_fallocate(handle, 0, RESERVE_BYTES)
        except OSError as error:
            os.unlink(path)
            if error.errno not in (errno.ENOSPC, errno.EDQUOT):
                raise
            return False
        finally:
            os.close(handle)
        return True

    def free_reserve(self) -> bool:
        """Gives the reserve back. Returns whether there was one."""
        try:
            os.unlink(os.path.join(self.folder, RESERVE))
        except FileNotFoundError:
            return False
        return True

    def close(self) -> None:
        """Closes the file and gives the lock back. Jobs that hold it keep it until they end."""
        self.db.close()
        os.close(self.lock)


def connect(path: str) -> sqlite3.Connection:
    """Opens the file with the journal's pragmas."""
    db = sqlite3.connect(path, isolation_level=None)
    db.row_factory = sqlite3.Row
    try:
        db.executescript(PRAGMAS)
    except sqlite3.Error:
        db.close()
        raise
    return db


def boot_id() -> str:
    """Returns the name of this boot of the machine: a pause of another boot is over."""
    with open("/proc/sys/kernel/random/boot_id", encoding="ascii") as file:
        return file.read().strip()


def since_boot() -> float:
    """Returns the seconds since the boot, which no one sets."""
    return time.clock_gettime(time.CLOCK_BOOTTIME)
