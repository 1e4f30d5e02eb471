"""What editors, operators, uploaders and accidents try at a service that runs, or begins again."""
import re

import pytest
from loop import SITES
from test_service import desk, look


def events(world, name):
    return [dict(row) for row in world.service.book.journal.rows("SELECT * FROM event WHERE name = ?", name)]


def begin_again(world):
    world.kill()
    world.open()


def told(world, text):
    return sum(text in line for line in world.lines())


# ---- uploaders


def test_pages_for_another_date_stay_refused_when_the_service_begins_again(world):
    """What edition.toml says isn't forgotten with the process that read it."""
    world.put("A01.pdf", "%PDF-A01 first")
    world.rounds(10)
    world.put("edition.toml", "2026-12-14")
    world.rounds(3)
    begin_again(world)
    world.put("A02.pdf", "%PDF-A02 of next week")
    world.rounds(10)
    assert world.value("SELECT count(*) FROM arrival") == 1
    assert told(world, "A02.pdf: for 2026-12-14, and MON of 2026-12-07 is under way") == 1
    assert len(events(world, "changed")) == 1


def test_pages_of_a_cancelled_edition_are_told_and_not_taken(world):
    world.put("A01.pdf", "%PDF-A01 first")
    world.rounds(10)
    assert desk(world, command="cancel", edition="MON")["status"] == 0
    world.put("A02.pdf", "%PDF-A02 first")
    world.rounds(10)
    assert told(world, "A02.pdf: MON is cancelled") == 1
    assert world.value("SELECT count(*) FROM arrival") == 1


def test_an_edition_that_cant_begin_is_a_fault_of_the_status(world):
    world.put("edition.toml", "bad")
    world.put("A01.pdf", "%PDF-A01 first")
    world.rounds(5)
    faults = look(world, ask="status")["faults"]
    assert [fault["kind"] for fault in faults] == ["edition-refused"] and "bad" in faults[0]["text"]
    world.put("edition.toml", "2026-12-08")
    world.rounds(10)
    assert look(world, ask="status")["faults"] == [] and world.value("SELECT count(*) FROM arrival") == 1


# ---- the house file


@pytest.mark.parametrize("text, why", [("", "it is empty"), ("site OSLO\n", "sites.BERGEN is missing")])
def test_a_house_file_that_was_spoilt_while_no_service_ran(world, text, why):
    world.put("A01.pdf", "%PDF-A01 first")
    world.rounds(5)
    world.kill()
    world.write_house(text)
    world.open()
    world.rounds(5)
    assert told(world, why) == 1
    faults = look(world, ask="status")["faults"]
    assert [fault["kind"] for fault in faults] == ["house-refused"] and why in faults[0]["text"]
    world.put_all()
    world.rounds(60)
    assert world.right() == []
    world.write_house(world.house)
    world.rounds(5)
    assert look(world, ask="status")["faults"] == []
    world.write_house(text)
    world.rounds(5)
    assert told(world, why) == 2


# ---- operators


def test_a_hold_says_who_had_this_page_and_not_an_older_one(world):
    world.put_all()
    world.rounds(12)
    world.sites.clear()
    world.down.update(SITES)
    world.put("A03.pdf", "%PDF-A03 second")
    world.rounds(4)
    said = desk(world, command="hold", edition="MON", page="A03")
    assert said["had_it"] == [] and sorted(said["in_time"] + said["may_be_out"]) == sorted(SITES)


def test_a_resend_of_a_pair_that_may_not_leave_says_that_it_waits(world):
    world.put_all()
    world.rounds(30)
    assert desk(world, command="hold", edition="MON", page="A01")["status"] == 0
    said = desk(world, command="resend", edition="MON", site="OSLO", pair="A-001", reason="torn")
    assert said["status"] == 0 and "A01 (held)" in said["text"]


# ---- what lasts too long


def test_a_pair_whose_site_is_down_is_told_before_it_is_late(world):
    world.put_all()
    world.down.add("OSLO")
    world.rounds(12)
    clock = world.clock.wall
    with world.service.book.journal.transaction() as db:
        db.execute("UPDATE pair SET leave_by = ?", [clock + 600])
    world.rounds(40)
    late = {(row["site"], row["pair"]) for row in events(world, "late")}
    assert late == {("OSLO", "A-001"), ("OSLO", "A-002")}
    assert told(world, "waits for OSLO (no answer)") == 2


def test_a_wait_ends_with_what_waited(world):
    """A page that can't be converted is replaced: its wait is over, and is no alert later."""
    world.faults["page"] = [{"verdict": "none", "why": "killed"}] * 50
    world.put("A01.pdf", "%PDF-A01 first")
    world.rounds(10)
    assert world.value("SELECT count(*) FROM pause WHERE kind = 'page'") == 1
    world.faults["page"] = []
    world.put("A01.pdf", "%PDF-A01 second")
    world.rounds(60)
    assert world.value("SELECT count(*) FROM pause") == 0
    assert not events(world, "alert")


def test_an_alert_says_what_waits(world):
    world.faults["page"] = [{"verdict": "none", "why": "killed"}] * 50
    world.put("A01.pdf", "%PDF-A01 first")
    world.rounds(200)
    assert told(world, "MON A01: waits since") == 1


# ---- the status


def test_a_page_whose_plates_a_site_lacks_is_made(world):
    """Also a page of a zone, which not every site prints."""
    world.put_all()
    world.down.add("OSLO")
    world.rounds(12)
    (edition,) = look(world, ask="status")["editions"]
    assert {page["state"] for page in edition["pages"]} == {"made"}
    sites = {page["page"]: page["sites"] for page in edition["pages"]}
    assert (
        sites["west/A02"] == ["BERGEN"]
        and sites["A02"] == ["OSLO"]
        and sites["A01"] == sorted(SITES, reverse=True)
    )


def test_every_fault_that_a_pair_names_is_told(world):
    """Also where a version may be at its site, because the service ended before it knew."""
    world.faults["ready"] = ["hang"] * 4
    world.put_all()
    world.rounds(8)
    begin_again(world)
    world.down.update(SITES)
    world.rounds(1)
    (edition,) = look(world, ask="status")["editions"]
    named = {site["fault"] for pair in edition["pairs"] for site in pair["sites"] if site["fault"]}
    assert named <= {fault["id"] for fault in edition["faults"]}
    failed = [site for pair in edition["pairs"] for site in pair["sites"] if site["state"] == "failed"]
    assert failed and all(site["fault"] for site in failed)


def test_the_next_pair_has_its_own_seconds(world):
    world.put("A01.pdf", "%PDF-A01 first")
    world.put("A01.pdf", "%PDF-A01 first", "TUE")
    world.rounds(10)
    clock = world.clock.wall
    with world.service.book.journal.transaction() as db:
        for name, seconds in (("MON", 5000), ("TUE", 9000)):
            sql = "UPDATE pair SET leave_by = ? WHERE site IN (SELECT s.id FROM site s JOIN edition e ON e.id = s.edition"
            db.execute(sql + " WHERE e.name = ?)", [clock + seconds, name])
    for name, seconds in (("MON", 5000), ("TUE", 9000)):
        (edition,) = look(world, ask="status", edition=name)["editions"]
        assert abs(edition["next"]["seconds"] - seconds) < 60


def test_a_ready_that_was_changed_isnt_called_gone(world):
    world.put_all()
    world.rounds(12)
    for name in [name for name in world.sites["OSLO"] if name.endswith("/READY")]:
        world.sites["OSLO"][name] = "torn"
    world.rounds(40)
    lines = [
        line
        for line in world.lines()
        if re.search("OSLO A-00[12]: version .* isn't there as it was sent", line)
    ]
    assert len(lines) == 2 and not told(world, "is gone")
