"""The journal's file: its lock, its rights, its pragmas, its migration, and what it refuses."""
import os
import sqlite3
import stat
import subprocess
import sys

import pytest
from evening import evening
from pressroom.night import journal
from pressroom.night.journal import Busy, Journal, Unusable


def test_only_one_service_opens_it(tmp_path):
    first = Journal.open(str(tmp_path / "journal"))
    with pytest.raises(Busy):
        Journal.open(str(tmp_path / "journal"))
    first.close()
    Journal.open(str(tmp_path / "journal")).close()


def test_epochs_count_the_services(tmp_path):
    for epoch in (1, 2, 3):
        book = Journal.open(str(tmp_path / "journal"))
        assert book.epoch == epoch
        book.close()


def test_nobody_else_reads_or_writes_it(tmp_path):
    book = Journal.open(str(tmp_path / "journal"))
    assert stat.S_IMODE(os.stat(tmp_path / "journal").st_mode) == 0o700
    assert stat.S_IMODE(os.stat(tmp_path / "journal" / "night.db").st_mode) == 0o600
    # Exclusive: another process can't even read it while it is open, and so can't hold a lock on it.
    code = "import sqlite3, sys; sqlite3.connect(sys.argv[1], timeout=0.1).execute('SELECT * FROM spool').fetchall()"
    path = str(tmp_path / "journal" / "night.db")
    other = subprocess.run([sys.executable, "-c", code, path], capture_output=True, text=True)
    assert "locked" in other.stderr
    assert not os.path.exists(path + "-shm")
    book.close()


def test_pragmas(tmp_path):
    book = Journal.open(str(tmp_path / "journal"))
    wanted = {
        "journal_mode": "wal",
        "synchronous": 2,
        "foreign_keys": 1,
        "trusted_schema": 0,
        "cell_size_check": 1,
    }
    assert {name: book.value(f"PRAGMA {name}") for name in wanted} == wanted
    book.close()


def test_a_transaction_is_whole_or_nothing(tmp_path):
    book = Journal.open(str(tmp_path / "journal"))
    with pytest.raises(ZeroDivisionError):
        with book.transaction() as db:
            db.execute("INSERT INTO blob VALUES (?, 'pdf', 1)", ["a" * 64])
            1 / 0
    assert book.value("SELECT count(*) FROM blob") == 0
    book.close()


def test_a_damaged_file_is_refused(tmp_path):
    folder = tmp_path / "journal"
    Journal.open(str(folder)).close()
    with open(folder / "night.db", "r+b") as file:
        file.seek(4096)
        file.write(b"\xff" * 3000)
    with pytest.raises(Unusable):
        Journal.open(str(folder))


def test_a_newer_schema_is_refused(tmp_path):
    folder = tmp_path / "journal"
    Journal.open(str(folder)).close()
    db = sqlite3.connect(folder / "night.db")
    db.execute(f"PRAGMA user_version = {journal.VERSION + 1}")
    db.commit()
    db.close()
    with pytest.raises(Unusable, match="newer"):
        Journal.open(str(folder))


def test_a_step_of_migration_is_whole_or_nothing(tmp_path, monkeypatch):
    folder = tmp_path / "journal"
    Journal.open(str(folder)).close()
    monkeypatch.setattr(journal, "STEPS", ("CREATE TABLE more (one INTEGER) STRICT; CREATE TABLE house (x)",))
    monkeypatch.setattr(journal, "VERSION", 2)
    with pytest.raises(Unusable):
        Journal.open(str(folder))
    monkeypatch.setattr(journal, "STEPS", ("CREATE TABLE more (one INTEGER) STRICT",))
    book = Journal.open(str(folder))
    assert book.value("PRAGMA user_version") == 2 and book.value("SELECT count(*) FROM more") == 0
    assert os.path.exists(folder / "night.db.1")
    book.close()


def test_a_copy_is_a_journal(tmp_path):
    some = evening(str(tmp_path / "journal"))
    some.all_pages()
    some.book.journal.backup()
    copy = sqlite3.connect(tmp_path / "journal" / "night.db.1")
    assert copy.execute("SELECT count(*) FROM arrival").fetchone() == (5,)
    assert copy.execute("PRAGMA integrity_check").fetchone() == ("ok",)


def test_the_reserve_is_given_back_once(tmp_path):
    book = Journal.open(str(tmp_path / "journal"))
    assert book.keep_reserve()
    assert os.stat(tmp_path / "journal" / "reserve").st_blocks * 512 >= journal.RESERVE_BYTES
    assert book.free_reserve() and not book.free_reserve()
    book.close()


@pytest.mark.parametrize(
    "sql",
    [
        "UPDATE event SET name = 'x'",
        "DELETE FROM event WHERE edition = 'MON'",
        "UPDATE arrival SET sha = sha",
        "UPDATE render SET state = 'refused', folder = NULL, fault = '{}'",
        "UPDATE version SET ready = 'x'",
        "UPDATE version SET state = 'kept'",
        "UPDATE version SET state = 'leaving', went = 1",
        "UPDATE plates SET sums = 'x'",
        "INSERT INTO version (site, kind, pair, plates, sums, folder, ready, state) SELECT site, kind, pair, plates, sums,"
        " folder, ready, 'kept' FROM version LIMIT 1",
        "INSERT INTO edition (name, house, settings, ask, at) VALUES ('../x', 1, 'S', 0, 0)",
        "INSERT INTO edition (name, house, settings, ask, at) VALUES ('MON', 1, 'S', 0, 0)",
        "INSERT INTO verdict SELECT max(id), 1, 'approved', '', 'eva', 0 FROM arrival WHERE place = 1",
    ],
)
def test_the_database_refuses_wrong_moves(tmp_path, sql):
    some = evening(str(tmp_path / "journal"))
    some.all_pages()
    some.page("A01", "A01 second")
    assert some.make() > 0 and some.queued()
    with pytest.raises(sqlite3.IntegrityError):
        some.book.journal.db.execute(sql)
