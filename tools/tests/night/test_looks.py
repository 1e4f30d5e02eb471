"""Looks for what may be at a site: an outage between two looks makes the first one count for nothing."""
import pytest
from evening import evening
from pressroom.night import scheduler, versions


@pytest.fixture
def unknown(tmp_path):
    """An evening, and a version that nobody knows of, at OSLO."""
    night = evening(str(tmp_path / "journal"))
    night.all_pages()
    night.make()
    number = next(n for n in night.queued() if versions.get(night.book, n)["site_name"] == "OSLO")
    versions.sending(night.book, number)
    assert versions.leaving(night.book, number)
    versions.failed(night.book, number, "no answer")
    night.clock.pass_by(20)
    return night, number


def look(night, number):
    versions.looked(night.book, "OSLO", [number], {}, [], night.clock.up, 60.0)


def test_an_outage_between_two_looks_begins_them_anew(unknown):
    night, number = unknown
    look(night, number)
    night.clock.pass_by(50)
    with night.book.journal.transaction():
        from pressroom.night import pauses

        pauses.enter(night.book, "site", "OSLO", "network", "no answer", site="OSLO")
    night.clock.pass_by(100)
    look(night, number)
    assert versions.get(night.book, number)["state"] == "unknown"
    night.clock.pass_by(121)
    look(night, number)
    assert versions.get(night.book, number)["state"] == "queued"


def test_what_is_unknown_is_looked_for_in_between(unknown):
    night, number = unknown
    looks = scheduler.Looks()
    look(night, number)
    looks.saw("OSLO", [number], night.clock.up)
    assert scheduler.between(night.book, "OSLO", looks) is None
    night.clock.pass_by(scheduler.BETWEEN + 1)
    assert scheduler.between(night.book, "OSLO", looks) == scheduler.LookWork("OSLO", 1, (number,))
