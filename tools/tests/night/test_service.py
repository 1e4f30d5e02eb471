"""The service's loop, with jobs that answer, die and hang: what it does on its own, and what stops nothing else."""
import json
import os
import socket

import pytest
from loop import SITES, Crash, World
from pressroom.night.journal import Busy, Journal


def desk(world, **message):
    return talk(world, "desk.sock", message)


def look(world, **message):
    return talk(world, "look.sock", message)


def talk(world, name, message):
    with socket.socket(socket.AF_UNIX) as sock:
        sock.connect(os.path.join(world.folder, "run", name))
        sock.sendall(json.dumps(message).encode() + b"\n")
        sock.setblocking(False)
        said = b""
        for _ in range(20):
            world.rounds(1, 0.0)
            try:
                said += sock.recv(1_000_000)
            except BlockingIOError:
                continue
            if said.endswith(b"\n"):
                break
        lines = [json.loads(line) for line in said.splitlines()]
        return lines[-1] if name == "desk.sock" or message.get("ask") != "events" else lines


def test_an_evening_goes_from_pages_to_complete(world):
    world.put_all()
    world.rounds(12)
    assert world.value("SELECT count(*) FROM version WHERE state = 'sent' AND kind = 'plates'") == 4
    assert not any("COMPLETE" in name for name in world.sites["OSLO"])
    world.rounds(60)
    assert world.right() == []
    assert os.listdir(os.path.join(world.folder, "in", "MON")) == ["west"]
    assert os.listdir(os.path.join(world.folder, "making")) == []
    assert [line for line in world.lines() if "complete, 2 pairs" in line] == [
        "MON OSLO: complete, 2 pairs",
        "MON BERGEN: complete, 2 pairs",
    ]


def test_no_pair_leaves_with_a_page_that_is_missing(world):
    for name in ("A01", "A02", "A03", "A04"):
        world.put(f"{name}.pdf", f"%PDF-{name} first")
    world.rounds(60)
    assert {name.split("/")[1] for name in world.sites["BERGEN"]} == {"A-001"}


@pytest.mark.parametrize("kind", ["page", "plates", "whole", "ready", "look"])
@pytest.mark.parametrize(
    "end",
    [None, {"why": "out of memory", "verdict": "none", "failed": "exit 12"}, {}, {"made": {"../x": "y"}}],
)
def test_a_job_that_dies_or_lies_is_tried_again_and_condemns_nothing(world, kind, end):
    world.faults[kind] = [end, end]
    world.put_all()
    world.rounds(120)
    assert world.right() == []
    assert world.value("SELECT count(*) FROM render WHERE state = 'refused'") == 0
    assert world.value("SELECT count(*) FROM event WHERE name = 'waits'") >= 1


def test_a_page_job_cant_name_what_it_wasnt_given(world):
    layers = [
        [{"file": 32}],
        [{"file": "../../journal/night.db"}],
        [{"file": 0, "Bad key": 1}],
        [{"file": True}],
        "x",
    ]
    world.faults["page"] = [{"verdict": "accepted", "inks": "CMYK", "layers": layer} for layer in layers]
    world.put("A01.pdf", "%PDF-A01 first")
    world.rounds(160)
    assert world.value("SELECT count(*) FROM event WHERE name = 'waits'") == len(layers)
    assert world.value("SELECT count(*) FROM render WHERE state = 'accepted'") == 1


def test_a_hanging_page_job_holds_up_no_other(world):
    world.faults["page"] = ["hang"]
    world.put("A01.pdf", "%PDF-A01 first")
    world.rounds(2)
    for name in ("A02", "A03"):
        world.put(f"{name}.pdf", f"%PDF-{name} first")
    world.rounds(40)
    assert world.value("SELECT count(*) FROM render") == 2
    world.hanging[0].is_late = True
    world.rounds(1)
    assert any("A01: waits 60 s: no answer in time" in line for line in world.lines())
    world.rounds(60)
    assert world.value("SELECT count(*) FROM render WHERE state = 'accepted'") == 3


def test_a_site_that_is_down_holds_up_no_other_and_catches_up(world):
    world.down.add("OSLO")
    world.put_all()
    world.rounds(40)
    assert any("READY" in name for name in world.sites["BERGEN"]) and "OSLO" not in world.sites
    assert any(line.startswith("OSLO: waits 10 s: no answer (try 1)") for line in world.lines())
    world.down.clear()
    world.rounds(120)
    assert world.right() == []
    assert any(line.startswith("OSLO: goes on after") for line in world.lines())


def test_a_refused_page_is_told_and_a_new_file_mends_it(world):
    world.put("A01.pdf", "%PDF-bad")
    world.rounds(10)
    assert any("A01: refused: trim 210 x 297 mm, not 280 x 400" in line for line in world.lines())
    world.put_all()
    world.rounds(60)
    assert world.right() == []


def test_what_isnt_a_page_is_told_once_and_stops_nothing(world):
    folder = os.path.join(world.folder, "in")
    os.makedirs(os.path.join(folder, "MON"))
    os.mkdir(os.path.join(folder, "Köln plates"))
    os.symlink("/etc/passwd", os.path.join(folder, "MON", "A03.pdf"))
    os.mkfifo(os.path.join(folder, "MON", "A04.pdf"))
    with open(os.path.join(os.fsencode(folder), b"MON", b"a\xe9\n.pdf"), "wb") as file:
        file.write(b"x")
    world.put("A01.pdf", "%PDF-A01 first")
    world.put("a02.pdf", "%PDF-x")
    world.rounds(30)
    lines = world.lines()
    for text in (
        "Köln plates: not a name",
        "A03.pdf: a link",
        "A04.pdf: a pipe",
        "a\\xe9\\x0a.pdf isn't a page",
        "a02.pdf isn't",
    ):
        assert sum(text in line for line in lines) == 1, text
    assert any("A01: accepted" in line for line in lines)


def in_force(world):
    return bytes(world.value("SELECT a.name FROM place_now n JOIN arrival a ON a.id = n.arrival")).decode()


def test_the_highest_version_in_names_prints_whenever_it_came(world):
    for name, text in (("A01_v9", "nine"), ("A01_v10", "ten"), ("A01_v2", "two"), ("A01", "none")):
        world.put(f"{name}.pdf", f"%PDF-{text}")
        world.rounds(10)
    told = [line for line in world.lines() if "not used" in line]
    assert in_force(world) == "MON/A01_v10.pdf" and len(told) == 2
    assert "A01_v2.pdf: not used: MON/A01_v10.pdf has a higher version" in told[0]
    world.put("A01_v10.pdf", "%PDF-ten again")
    world.rounds(10)
    assert world.value("SELECT count(*) FROM arrival") == 3 and in_force(world) == "MON/A01_v10.pdf"
    world.put("A01_v11.pdf", "%PDF-eleven")
    world.rounds(10)
    assert in_force(world) == "MON/A01_v11.pdf"


def test_a_version_that_is_refused_stops_no_lower_one(world):
    for name, text in (("A01_v1", "one"), ("A01_v3", "bad"), ("A01_v2", "two")):
        world.put(f"{name}.pdf", f"%PDF-{text}")
        world.rounds(10)
    assert in_force(world) == "MON/A01_v2.pdf"
    assert not any("not used" in line for line in world.lines())


def test_pages_for_another_date_are_refused_by_name(world):
    world.put("A01.pdf", "%PDF-A01 first")
    world.rounds(10)
    world.put("edition.toml", "2026-12-14")
    world.rounds(3)
    world.put("A02.pdf", "%PDF-A02 of next week")
    world.rounds(10)
    assert any(
        "A02.pdf: for 2026-12-14, and MON of 2026-12-07 is under way" in line for line in world.lines()
    )
    assert world.value("SELECT count(*) FROM arrival") == 1


@pytest.mark.parametrize(
    "text, why",
    [("", "it is empty"), ("broken", "sites: broken"), ("site OSLO\n", "sites.BERGEN is missing")],
)
def test_a_house_file_that_cant_be_used_changes_nothing(world, text, why):
    world.put("A01.pdf", "%PDF-A01 first")
    world.rounds(5)
    world.write_house(text)
    world.rounds(5)
    assert sum(why in line and "stays" in line for line in world.lines()) == 1
    world.put_all()
    world.rounds(60)
    assert world.right() == []


def test_commands_have_the_name_of_their_user(world):
    import getpass

    world.put("A01.pdf", "%PDF-A01 first")
    world.rounds(10)
    said = desk(world, command="hold", edition="MON", page="A01", user="somebody else", word="wait")
    assert said["status"] == 0
    assert world.value("SELECT who FROM event WHERE name = 'held'") == getpass.getuser()
    state = look(world, ask="status")
    page = next(page for page in state["editions"][0]["pages"] if page["page"] == "A01")
    assert page["state"] == "held" and page["held"]["reason"] == "wait"
    said = desk(world, command="release", edition="MON", page="A01", arrival=page["newest"] + 1)
    assert said["status"] == 1 and "isn't what you saw" in said["text"]
    assert desk(world, command="release", edition="MON", page="A01", arrival=page["newest"])["status"] == 0


@pytest.mark.parametrize(
    "message",
    [
        {},
        {"command": "rm"},
        {"command": "hold"},
        {"command": "hold", "edition": "MON", "page": 3},
        {"command": "release", "edition": "MON", "page": "A01", "arrival": True},
        {"command": "hold", "edition": "Z\udcfcrich", "page": "A01"},
        {"command": "hold", "edition": "MON", "page": "A01", "word": "\ud800"},
    ],
)
def test_a_malformed_command_is_answered(world, message):
    world.put("A01.pdf", "%PDF-A01 first")
    world.rounds(5)
    assert desk(world, **message)["status"] == 2


def test_the_look_socket_takes_no_commands(world):
    assert look(world, command="cancel", edition="MON")["status"] == 2


def test_half_a_character_stops_nothing(world):
    """The journal can't look for it; anybody may ask."""
    assert look(world, ask="status", edition="Z\udcfcrich")["status"] == 2
    assert look(world, ask="status")["schema"]


def test_garbage_on_a_socket_stops_nothing(world):
    for data in (b"\xff\xfe\n", b"[" * 60_000 + b"\n", b"x" * 200_000, b"null\n"):
        with socket.socket(socket.AF_UNIX) as sock:
            sock.connect(os.path.join(world.folder, "run", "look.sock"))
            sock.setblocking(False)
            for at in range(0, len(data), 50_000):
                world.rounds(1)
                try:
                    sock.sendall(data[at : at + 50_000])
                except (BrokenPipeError, BlockingIOError, ConnectionResetError):
                    break
            world.rounds(2)
    assert look(world, ask="status")["schema"] == "pressroom.status/1"


def test_events_come_from_a_number_on_and_as_they_come(world):
    world.put("A01.pdf", "%PDF-A01 first")
    world.rounds(10)
    lines = look(world, ask="events", since=0)
    assert [line["seq"] for line in lines[:-1]] == list(range(1, len(lines)))
    with socket.socket(socket.AF_UNIX) as sock:
        sock.connect(os.path.join(world.folder, "run", "look.sock"))
        sock.sendall(
            json.dumps({"ask": "events", "since": lines[-1]["seq"], "follow": True}).encode() + b"\n"
        )
        world.rounds(3)
        world.put("A02.pdf", "%PDF-A02 first")
        world.rounds(10)
        said = [json.loads(line) for line in sock.recv(100_000).splitlines()]
    assert [line["event"] for line in said] == ["arrived", "accepted"]


def test_a_second_service_is_told_that_the_spool_is_taken(world):
    with pytest.raises(Busy):
        Journal.open(os.path.join(world.folder, "journal"))


def test_a_house_is_applied_to_an_edition_under_way(world):
    world.put_all()
    world.rounds(60)
    assert world.right() == []
    world.write_house("site OSLO\nsite BERGEN\nsite TROMSO\npress\n")
    world.rounds(5)
    said = desk(world, command="house", edition="MON", dry=True)
    assert said["text"] == "OSLO: 2 of 2 pairs change; BERGEN: 2 of 2 pairs change; TROMSO: 2 pairs"
    assert world.value("SELECT count(*) FROM site") == 2
    assert desk(world, command="house", edition="MON")["status"] == 0
    world.rounds(60)
    assert any(name.startswith("MON/COMPLETE/") for name in world.sites["TROMSO"])
    assert world.value("SELECT count(*) FROM version WHERE kind = 'plates' AND state = 'kept'") == 6


def test_ended_editions_beyond_the_houses_number_are_removed(world):
    world.put_all()
    world.rounds(60)
    from pressroom.night import retire

    assert retire.retire(world.service.book, world.service.folders, 1) == []
    assert retire.retire(world.service.book, world.service.folders, 0) == ["MON"]
    for folder in ("store", "renders", "plates"):
        assert os.listdir(os.path.join(world.folder, folder)) == []
    assert world.value("SELECT count(*) FROM event WHERE edition = 'MON'") > 20
    world.put_all()  # The name is free for another edition.
    world.rounds(60)
    assert world.right() == []


@pytest.mark.parametrize("at", range(0, 34))
def test_a_service_that_ends_at_any_question_is_continued_by_the_next(folder, at):
    world = World(folder, crash_at=at)
    world.open()
    world.put_all()
    try:
        world.rounds(50)
    except Crash:
        world.kill()
        world.open()
    world.rounds(80)
    assert world.right() == []
    ready = [name for site in SITES for name in world.sites[site] if name.endswith("READY")]
    assert len(ready) == 6  # No version was sent twice under two names.
    world.kill()
