"""Versions: what begins, leaves, is seen, is lost, and when a site is complete."""
import pytest
from evening import digest, evening
from pressroom.night import desk, late, pages, scheduler, versions

EVA = desk.Asker("eva")


@pytest.fixture
def night(tmp_path):
    return evening(str(tmp_path / "journal"))


def test_a_pair_leaves_as_soon_as_its_two_pages_are_there(night):
    night.page("A01", "one")
    assert night.make() == 0
    night.page("A04", "four")
    assert night.make() == 1  # One making for all three sites.
    assert len(night.queued()) == 3
    assert "MON A-001: 2 plates made in 2.0 s, for OSLO, BERGEN, TROMSO" in night.lines()


def test_a_zones_own_page_is_never_replaced_by_the_common_one(night):
    night.page("A02", "two")
    night.page("A03", "three")
    night.make()
    night.deliver()
    sites = night.book.journal.rows("SELECT s.name FROM there t JOIN site s ON s.id = t.site ORDER BY s.name")
    assert [row[0] for row in sites] == ["OSLO", "TROMSO"]
    assert night.state("west/A02") == "absent"


def test_the_later_arrival_wins_not_the_later_verdict(night):
    night.come("A01", "one")
    night.come("A01", "two")
    night.accept("two")
    assert night.now("A01")["sha"] == digest("two")
    night.accept("one")  # A heavy page whose verdict comes late.
    assert night.now("A01")["sha"] == digest("two") and night.state("A01") == "ready"


def test_a_refused_page_leaves_the_older_one_in_force(night):
    night.page("A01", "one")
    night.come("A01", "two")
    assert night.state("A01") == "arrived"
    night.refuse("two")
    assert night.state("A01") == "ready" and night.now("A01")["sha"] == digest("one")
    assert any("the page of" in line and "stays in force" in line for line in night.lines())


def test_an_older_page_is_judged_when_the_newer_one_is_refused(night):
    night.come("A01", "one")
    night.come("A01", "two")
    assert [row["sha"] for row in night.book.journal.rows("SELECT * FROM due_render")] == [digest("two")]
    night.refuse("two")
    assert [row["sha"] for row in night.book.journal.rows("SELECT * FROM due_render")] == [digest("one")]


def test_since_names_what_the_site_surely_has(night):
    night.all_pages()
    night.make()
    night.deliver()
    first = night.one(
        "SELECT t.id FROM there t JOIN pair p ON p.id = t.pair JOIN site s ON s.id = t.site"
        " WHERE s.name = 'OSLO' AND p.number = 1"
    )
    night.page("A01", "A01 second")
    night.make()
    rows = [versions.get(night.book, number) for number in night.queued()]
    oslo = next(row for row in rows if row["site_name"] == "OSLO")
    assert oslo["since"] == first and f"since {first:06}" in oslo["ready"]
    # It left, and nobody knows whether it is there: the next one assumes nothing.
    versions.sending(night.book, oslo["id"])
    versions.leaving(night.book, oslo["id"])
    versions.failed(night.book, oslo["id"], "no answer")
    for _ in range(2):
        versions.looked(night.book, "OSLO", [oslo["id"]], {}, [], night.clock.up, 60.0)
        night.clock.pass_by(200)
    assert versions.get(night.book, oslo["id"])["state"] == "queued"
    night.page("A01", "A01 third")
    night.make()
    last = versions.get(
        night.book, max(n for n in night.queued() if versions.get(night.book, n)["site_name"] == "OSLO")
    )
    assert last["since"] is None and "since none" in last["ready"] and last["ready"].count("expose ") == 2


def test_one_look_isnt_enough_to_send_again(night):
    night.all_pages()
    night.make()
    number = night.queued()[0]
    site = versions.get(night.book, number)["site_name"]
    versions.sending(night.book, number)
    versions.leaving(night.book, number)
    versions.failed(night.book, number, "rsync ended with status 30")
    assert versions.get(night.book, number)["state"] == "unknown"
    versions.looked(night.book, site, [number], {}, [], night.clock.up, 60.0)
    night.clock.pass_by(119)
    versions.looked(night.book, site, [number], {}, [], night.clock.up, 60.0)
    assert versions.get(night.book, number)["state"] == "unknown"
    night.clock.pass_by(2)
    versions.looked(night.book, site, [number], {}, [], night.clock.up, 60.0)
    assert versions.get(night.book, number)["state"] == "queued"


def test_sent_is_not_kept_before_a_second_look(night):
    night.all_pages()
    night.make()
    night.deliver()
    row = versions.get(night.book, 1)
    seen = {row["folder"]: row["ready"]}
    versions.looked(night.book, row["site_name"], [1], seen, [], night.clock.up + 39, 60.0)
    assert versions.get(night.book, 1)["state"] == "sent"
    versions.looked(night.book, row["site_name"], [1], seen, [row["folder"]], night.clock.up + 40, 60.0)
    assert versions.get(night.book, 1)["state"] == "kept"
    assert night.lines()[-2:] == [
        "MON OSLO A-001: version 000001 is kept",
        "MON OSLO A-001: version 000001 is acknowledged",
    ]


def test_what_a_site_lost_is_sent_again(night):
    night.all_pages()
    night.make()
    night.deliver()
    night.look_all()
    site = versions.get(night.book, 1)["site_name"]
    versions.looked(night.book, site, [1], {}, [], night.clock.up, 60.0)
    assert versions.get(night.book, 1)["state"] == "queued"
    assert night.lines()[-1] == "MON OSLO A-001: version 000001 isn't there as it was sent; it is sent again"


def test_complete_comes_last_and_only_after_all_was_verified_together(night):
    night.all_pages()
    night.make()
    night.deliver()
    assert night.book.journal.rows("SELECT * FROM due_whole") == []
    night.look_all()
    due = night.book.journal.rows("SELECT * FROM due_whole")
    assert len(due) == 3 and night.queued() == []
    for row in due:
        versions.whole(night.book, row["site"], row["list"])
    rows = [versions.get(night.book, number) for number in night.queued()]
    assert [row["kind"] for row in rows] == ["complete"] * 3
    # A late page takes the queued COMPLETE back.
    night.page("A01", "A01 second")
    assert night.queued() == []
    night.make()
    night.deliver()
    night.look_all()
    for row in night.book.journal.rows("SELECT * FROM due_whole"):
        versions.whole(night.book, row["site"], row["list"])
    night.deliver()
    assert sorted(line for line in night.lines() if ": complete, " in line) == [
        f"MON {site}: complete, 2 pairs" for site in ("BERGEN", "OSLO", "TROMSO")
    ]


def test_an_edition_in_one_piece_begins_when_it_is_whole(tmp_path):
    some = evening(str(tmp_path / "journal"), deliver="edition")
    for page in ("A01", "A02", "A03", "A04"):
        some.page(page, page)
    some.make()
    sites = {versions.get(some.book, number)["site_name"] for number in some.queued()}
    assert sites == {"OSLO", "TROMSO"}  # BERGEN's own page 2 is missing.
    some.page("west/A02", "west")
    some.make()
    assert "BERGEN" in {versions.get(some.book, number)["site_name"] for number in some.queued()}


def test_queues_go_by_the_time_to_leave(tmp_path):
    some = evening(str(tmp_path / "journal"), start="23:30")
    some.all_pages()
    some.make()
    looks = scheduler.Looks()
    work = scheduler.site_work(some.book, set(), looks, 60.0)
    assert [item.site for item in work] == ["BERGEN", "OSLO", "TROMSO"]
    for item in work:
        # Pair 1 leaves before pair 2: four plates of a minute each come after it.
        number = some.one(
            "SELECT p.number FROM version v JOIN pair p ON p.id = v.pair WHERE v.id = ?", item.version
        )
        assert number == 1
    by = [
        row[0] for row in some.book.journal.rows("SELECT leave_by FROM pair WHERE site = 1 ORDER BY number")
    ]
    assert by[1] - by[0] == 240


def test_a_site_that_waits_holds_up_no_other(night):
    night.all_pages()
    night.make()
    work = scheduler.site_work(night.book, set(), scheduler.Looks(), 60.0)
    oslo = next(item for item in work if item.site == "OSLO")
    versions.sending(night.book, oslo.version)
    versions.failed(night.book, oslo.version, "no answer")
    after = scheduler.site_work(night.book, set(), scheduler.Looks(), 60.0)
    assert {item.site for item in after} == {"BERGEN", "TROMSO"}
    night.clock.pass_by(11)
    assert len(scheduler.site_work(night.book, set(), scheduler.Looks(), 60.0)) == 3


def test_a_page_that_exceeds_its_limits_is_tried_alone(night):
    for page in ("A01", "A02", "A03"):
        night.come(page, page)
    for _ in range(3):
        pages.failed(night.book, digest("A01"), "S", "limit", "it takes more than 600 s")
        night.clock.pass_by(700)
    assert night.lines()[-1].endswith("; it needs a person")
    work = scheduler.page_work(night.book, set(), 3)
    assert [item.sha for item in work] == [digest("A01")]
    assert scheduler.page_work(night.book, {work[0].key}, 3) == []
    night.book.journal.db.execute("UPDATE pause SET until = 1e12")
    assert len(scheduler.page_work(night.book, set(), 3)) == 2
    assert night.state("A01") == "arrived"  # It is never refused for that.


def test_a_late_pair_is_told_once_before_it_is_late(tmp_path):
    some = evening(str(tmp_path / "journal"), start="23:30")
    some.page("A01", "one")
    some.lines()
    late.tell_late(some.book)
    assert some.lines() == []
    some.clock.wall = some.one("SELECT min(leave_by) FROM pair") - late.WARNING + 1
    late.tell_late(some.book)
    lines = some.lines()
    assert len(lines) == 3 and all("and waits for A04 (absent)" in line for line in lines)
    late.tell_late(some.book)
    assert some.lines() == []


def test_a_new_boot_begins_all_looks_anew(night):
    night.all_pages()
    night.make()
    night.deliver()
    night.book.boot = "another"
    night.clock.up = 5.0
    versions.stale(night.book)
    assert night.one("SELECT max(seen) FROM version") == 5.0
