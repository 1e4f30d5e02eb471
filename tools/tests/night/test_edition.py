"""What is planned from a house file and an edition's own file; the texts of READY and COMPLETE."""
import hashlib
import os
from dataclasses import replace
from typing import Any

import pytest

from pressroom.night import edition
from pressroom.night.house_reader import NightHouse
from pressroom.night.ready import version_name
from pressroom.night.records import Complete, Page, PageKey, Planned, Ready, Render

HOUSE = """
edition = "MORNING"
dpi = 200
trim = [100, 140]
margins = [2, 4, 2, 4]
gutter = 3
blank = ["B03", "west/A06"]

[sections]
A = 8
B = 4

[sites.OSLO]
press_start = "23:30"
lead = 10
plate_seconds = 20
[sites.BERGEN]
zone = "west"
[sites.TROMSO]
press = "KBA"
[sites.BODO]
press = "KBA"

[press.GOSS]
[press.KBA]
limit = 240

[zones]
west = ["A02", "A07"]

[night]
approve = true
date = "2026-12-03"

[delivery]
port = 2222
[delivery.sites]
OSLO = "oslo.example:plates"
TROMSO = "/mnt/tromso"
""".replace(
    "[sites.OSLO]", '[sites.OSLO]\npress = "GOSS"'
).replace(
    'zone = "west"', 'zone = "west"\npress = "GOSS"'
)


@pytest.fixture(autouse=True)
def program(tmp_path: Any, monkeypatch: pytest.MonkeyPatch) -> None:
    """A program whose bytes are its version; none of these tests makes a plate."""
    path = tmp_path / "plateroom"
    path.write_text("#!/bin/sh\n")
    path.chmod(0o755)
    monkeypatch.setenv("PLATEROOM", str(path))
    monkeypatch.setattr(edition, "versions", lambda: "gs 10.00")


def house(text: str = HOUSE) -> NightHouse:
    return edition.house_of(text, "/etc/pressroom/house.toml")


def planned(text: str | None = None, name: str = "MON", of: str = HOUSE) -> Planned:
    return edition.planned(house(of), text, name)


def pair(plan: Planned, site: str, name: str) -> Any:
    return next(one for one in plan.pairs if (one.site, one.name) == (site, name))


def test_pages_sites_and_pairs_of_the_house() -> None:
    plan = planned()
    assert [str(page.key) for page in plan.pages] == [
        *("A01", "A02", "A03", "A04", "A05", "A06", "A07", "A08", "B01", "B02", "B03", "B04"),
        *("west/A02", "west/A07", "west/A06"),
    ]
    assert [str(page.key) for page in plan.pages if page.blank] == ["B03", "west/A06"]
    assert [(site.name, site.press, site.zone) for site in plan.sites] == [
        ("OSLO", "GOSS", ""),
        ("BERGEN", "GOSS", "west"),
        ("TROMSO", "KBA", ""),
        ("BODO", "KBA", ""),
    ]
    assert (plan.sites[0].press_start, plan.sites[0].lead, plan.sites[0].plate_seconds) == ("23:30", 10, 20)
    assert plan.sites[1].press_start is None
    assert plan.ask and plan.deliver == "pair" and plan.date == "2026-12-03"
    assert len(plan.pairs) == 4 * (4 + 2)


def test_pairs_have_the_even_page_on_the_left() -> None:
    """By the manual: of 8 pages, pair 1 has 8 and 1, pair 2 has 2 and 7, pair 3 has 6 and 3, pair 4 has 4 and 5."""
    plan = planned()
    pages = [(str(one.left), str(one.right)) for one in plan.pairs if one.site == "OSLO"]
    assert pages[:4] == [("A08", "A01"), ("A02", "A07"), ("A06", "A03"), ("A04", "A05")]
    own = [(str(one.left), str(one.right)) for one in plan.pairs if one.site == "BERGEN"]
    assert own[:4] == [("A08", "A01"), ("west/A02", "west/A07"), ("west/A06", "A03"), ("A04", "A05")]


def test_a_common_page_that_no_site_prints_isn_t_planned() -> None:
    every = HOUSE.replace("[sites.OSLO]", '[sites.OSLO]\nzone = "west"')
    every = every.replace("[sites.TROMSO]", '[sites.TROMSO]\nzone = "west"')
    every = every.replace("[sites.BODO]", '[sites.BODO]\nzone = "west"')
    keys = {str(page.key) for page in planned(of=every).pages}
    assert "west/A02" in keys and "A02" not in keys and "A01" in keys


def test_plates_are_shared_by_sites_of_one_press() -> None:
    plan = planned()
    makings = {one.site: one.making for one in plan.pairs if one.name == "A-001"}
    assert makings["OSLO"] == makings["BERGEN"]
    assert makings["TROMSO"] == makings["BODO"]
    assert makings["OSLO"] != makings["TROMSO"]
    assert len({one.making for one in plan.pairs if one.site == "OSLO"}) == 6


@pytest.mark.parametrize(
    "old, new",
    [
        ("gutter = 3", "gutter = 4"),
        ('edition = "MORNING"', 'edition = "EVENING"'),
        ("A = 8", "A = 10"),
        ("dpi = 200", "dpi = 201"),
        ("[press.GOSS]", "[press.GOSS]\ncurves = { K = [[0, 0], [50, 40], [100, 100]] }"),
        ("[press.GOSS]", "[press.GOSS]\nlimit = 300"),
        ("[press.GOSS]", '[press.GOSS]\nscreens = { K = "diffuse" }'),
    ],
)
def test_making_has_all_that_plates_depend_on(old: str, new: str) -> None:
    before, after = planned(), planned(of=HOUSE.replace(old, new))
    assert pair(before, "OSLO", "A-001").making != pair(after, "OSLO", "A-001").making


def test_making_doesn_t_change_for_another_press_or_section() -> None:
    before = planned()
    for old, new in (("limit = 240", "limit = 250"), ("B = 4", "B = 6"), ("lead = 10", "lead = 20")):
        after = planned(of=HOUSE.replace(old, new))
        assert pair(before, "OSLO", "A-001").making == pair(after, "OSLO", "A-001").making


def test_making_depends_on_the_program(tmp_path: Any, monkeypatch: pytest.MonkeyPatch) -> None:
    before = planned()
    (tmp_path / "plateroom").write_text("#!/bin/sh\ntrue\n")
    assert pair(before, "OSLO", "A-001").making != pair(planned(), "OSLO", "A-001").making
    monkeypatch.setenv("PLATEROOM", str(tmp_path / "none"))
    with pytest.raises(OSError):
        planned()


def test_settings_have_what_a_render_depends_on() -> None:
    before = planned().settings
    assert planned(of=HOUSE.replace("gutter = 3", "gutter = 4")).settings == before
    assert planned(of=HOUSE.replace("dpi = 200", "dpi = 201")).settings != before


def test_an_edition_s_own_file_comes_first() -> None:
    plan = planned(
        'date = 2026-12-05\nblank = ["C02"]\n[sections]\nA = 4\nC = 2\n[zones]\nwest = ["A03"]\n', "SAT"
    )
    assert plan.date == "2026-12-05" and dict(plan.sections) == {"A": 4, "C": 2}
    assert [str(page.key) for page in plan.pages] == ["A01", "A02", "A03", "A04", "C01", "C02", "west/A03"]
    assert [str(page.key) for page in plan.pages if page.blank] == ["C02"]


def test_pages_of_the_house_that_a_short_edition_lacks_are_left_out() -> None:
    plan = planned("[sections]\nA = 4\n")
    assert [str(page.key) for page in plan.pages] == ["A01", "A02", "A03", "A04", "west/A02"]


@pytest.mark.parametrize(
    "text, name, date",
    [
        (None, "MON", "2026-12-03"),
        (None, "MON-2026-12-04", "2026-12-04"),
        (None, "2026-02-30", "2026-12-03"),
        (None, "12026-12-041", "2026-12-03"),
        ('date = "2026-12-05"', "MON", "2026-12-05"),
        ('date = "2026-12-05"', "MON.2026-12-05", "2026-12-05"),
    ],
)
def test_the_date(text: str | None, name: str, date: str) -> None:
    assert planned(text, name).date == date


@pytest.mark.parametrize(
    "text, words",
    [
        (
            "date = 2026-12-05",
            "edition.toml line 1: date: 2026-12-05, but the folder's name is MON-2026-12-04",
        ),
        ('\ndate = "2026-02-30"', "edition.toml line 2: date: '2026-02-30' isn't a date, such as 2026-12-03"),
        (
            "pages = 3",
            "edition.toml line 1: pages: isn't a key of an edition's own file; the keys here are date, blank, sections, zones",
        ),
        ("[sections]\nA = 5", "edition.toml line 2: sections.A: 5 isn't an even number of pages, 2 to 128"),
        (
            "[sections]\nA = true",
            "edition.toml line 2: sections.A: True isn't an even number of pages, 2 to 128",
        ),
        ('[sections]\n"A-B" = 4', "edition.toml line 2: sections.A-B: 'A-B' isn't a name of 1 to 16 letters"),
        ("[sections]", "edition.toml line 1: sections: an edition has 1 to 8 sections"),
        ('[zones]\nwset = ["A02"]', "edition.toml line 2: zones.wset: no site has this zone; they are west"),
        ('[zones]\nwest = ["A09"]', "edition.toml line 2: zones.west: 'A09' isn't a page of this edition"),
        (
            '[zones]\nwest = ["west/A02"]',
            "edition.toml line 2: zones.west: 'west/A02' isn't a page of this edition",
        ),
        ("[zones]\nwest = 2", "edition.toml line 2: zones.west: 2 isn't a list of pages"),
        ('blank = ["north/A02"]', "edition.toml line 1: blank: 'north/A02' isn't a page of this edition"),
        ("[sections", "edition.toml: not TOML:"),
        ("a = " + "[" * 50000, "edition.toml: not TOML: too many levels"),
        ("a = " + "9" * 10000, "edition.toml: not TOML: a number of too many digits"),
        ("#" * 65537, "edition.toml: more than 65536 bytes"),
    ],
    ids=lambda text: str(text)[:40],
)
def test_faults_of_an_edition_s_own_file(text: str, words: str) -> None:
    with pytest.raises(edition.Fault) as found:
        planned(text, "MON-2026-12-04")
    assert str(found.value).startswith(words)


@pytest.mark.parametrize(
    "old, new, words",
    [
        ("approve = true", "approve = 1", "night.approve: 1 isn't true or false"),
        (
            "approve = true",
            "tries = 3",
            "night.tries: isn't a key of a house file; the keys here are approve,",
        ),
        ("lead = 10", 'lead = "ten"', "sites.OSLO.lead: 'ten' isn't a number of minutes"),
        ('"23:30"', '"24:00"', "sites.OSLO.press_start: '24:00' isn't a time, such as"),
        (
            'OSLO = "oslo',
            'OLSO = "oslo',
            "delivery.sites.OLSO: isn't a site of this house; they are OSLO,",
        ),
        ('"oslo.example:plates"', '"-e sh"', "delivery.sites.OSLO: '-e sh' isn't a target"),
        (
            "port = 2222",
            'rsync = ["-e", "sh"]',
            "delivery.rsync: isn't a key of a house file; the keys here are port,",
        ),
        (
            "port = 2222",
            "key = 'id_oslo'",
            "delivery.key: 'id_oslo' isn't the absolute path of",
        ),
        ('west = ["A02"', 'wset = ["A02"', "zones.wset: no site has this zone; they are west"),
        ("MORNING", "MORNING{date}XY", "edition: 'MORNING{date}XY' isn't a name"),
    ],
)
def test_faults_of_the_house_file(old: str, new: str, words: str) -> None:
    line = HOUSE[: HOUSE.index(old)].count("\n") + 1
    with pytest.raises(edition.Fault) as found:
        house(HOUSE.replace(old, new, 1))
    assert str(found.value).startswith(f"/etc/pressroom/house.toml line {line}: {words}")


@pytest.mark.parametrize("cut", range(0, len(HOUSE), 23))
def test_a_house_file_that_is_cut_off_is_refused_or_lacks_what_comes_later(cut: int) -> None:
    """Nothing but Fault comes of a part of a file; what is read has the sites up to there and no others."""
    try:
        found = house(HOUSE[:cut])
    except edition.Fault:
        return
    assert cut > HOUSE.index("[sites.BODO]")
    assert set(found.targets) <= {"OSLO", "TROMSO"}


def test_a_date_in_the_plans_edition() -> None:
    dated = HOUSE.replace('"MORNING"', '"MON{date}"')
    plan = planned(of=dated)
    blank, _ = edition.pair_plan(house(dated), plan, pair(plan, "OSLO", "A-001"), None, None)
    assert blank["edition"] == "MON20261203"
    with pytest.raises(edition.Fault, match="the edition has no date"):
        planned(of=dated.replace('date = "2026-12-03"', ""))


# ---- files


@pytest.mark.parametrize(
    "name, key",
    [
        (b"A07.pdf", "A07"),
        (b"A7.TIF", "A07"),
        (b"west/A02.tiff", "west/A02"),
        (b"west/A03.pdf", None),  # not a page of this zone
        (b"north/A02.pdf", None),
        (b"wset/A02.pdf", None),
        (b"B03.pdf", None),  # planned blank
        (b"A09.pdf", None),
        (b"a02.pdf", None),
        (b"A04 v2.pdf", None),
        (b"A04.txt", None),
        (b"edition.toml", None),
        (b"A0\xe4.pdf", None),
        (b"west/west/A02.pdf", None),
        (b"A07.pdf\n", None),
    ],
)
def test_the_place_of_a_file(name: bytes, key: str | None) -> None:
    found = edition.place_of(house(), planned(), name)
    assert (None if found is None else str(found)) == key


def test_the_place_of_a_file_by_the_house_s_pattern() -> None:
    other = HOUSE.replace("gutter = 3", 'gutter = 3\nnames = "*_{section}-{page}_*"')
    plan = planned(of=other)
    assert edition.place_of(house(other), plan, b"2026_A-07_final.pdf") == PageKey("", "A", 7)
    assert edition.place_of(house(other), plan, b"A07.pdf") is None


def test_the_version_of_a_file_by_the_house_s_pattern() -> None:
    other = HOUSE.replace("gutter = 3", 'gutter = 3\nnames = "{section}{page}_v{version}"')
    plan = planned(of=other)
    for name, version in ((b"A07_v12.pdf", 12), (b"A07.pdf", 0), (b"x_v3.pdf", 0), (b"A07_v\xff.pdf", 0)):
        assert edition.version_of(house(other), plan, name) == version
    assert edition.version_of(house(), planned(), b"A07.pdf") == 0


def test_the_second_program_counts_where_a_house_asks_for_it(
    tmp_path: Any, monkeypatch: pytest.MonkeyPatch
) -> None:
    program = tmp_path / "mutool"
    monkeypatch.setenv("PATH", f"{tmp_path}:{os.environ['PATH']}")
    sums = {}
    for version in ("1.21.1", "1.22.0"):
        program.write_text(f"#!/bin/sh\necho mutool version {version} >&2\n")
        program.chmod(0o755)
        for rule in ("off", "note"):
            edition.version.cache_clear()
            text = HOUSE.replace("[sections]", f'[check]\nsecond = "{rule}"\n[sections]', 1)
            sums[rule, version] = edition.settings(house(text).house)
    edition.version.cache_clear()
    assert sums["off", "1.21.1"] == sums["off", "1.22.0"]
    assert sums["note", "1.21.1"] != sums["note", "1.22.0"]


# ---- the way to a site


def test_how_sites_are_reached() -> None:
    common = {"port": 2222, "key": None, "bandwidth": None, "timeout": 900.0}
    oslo, tromso = edition.method(house(), "OSLO"), edition.method(house(), "TROMSO")
    assert oslo == common | {"name": "rsync", "target": "oslo.example:plates"}
    assert tromso == common | {"name": "folder", "target": "/mnt/tromso"}
    assert edition.method(house(), "BERGEN") is None


@pytest.mark.parametrize(
    "target, method, rest",
    [
        ("user@oslo:/plates", "rsync", "user@oslo:/plates"),
        ("rsync://oslo/plates", "rsync", "rsync://oslo/plates"),
        ("rsync:/mnt/oslo", "rsync", "/mnt/oslo"),
        ("folder:/mnt/oslo", "folder", "/mnt/oslo"),
        ("/mnt/a:b", "folder", "/mnt/a:b"),
    ],
)
def test_targets(target: str, method: str, rest: str) -> None:
    found = edition.method(house(HOUSE.replace("oslo.example:plates", target)), "OSLO")
    assert found and (found["name"], found["target"]) == (method, rest)


@pytest.mark.parametrize(
    "target", ["", "plates", "-oProxyCommand=sh:x", "folder:plates", "a\\u0000b:c", "a\\nb:c"]
)
def test_what_is_no_target(target: str) -> None:
    with pytest.raises(edition.Fault, match="delivery.sites.OSLO"):
        house(HOUSE.replace("oslo.example:plates", target))


# ---- plans


def render(key: int, inks: str = "CMYK") -> Render:
    layers = ({"kind": "contone", "file": f"J1-{key}/00.tif"},)
    return Render(key, "0" * 64, f"J1-{key}", inks, layers)


def test_the_plans_of_a_pair() -> None:
    plan = planned()
    left, right = render(1), render(2, "K")
    blank, one = edition.pair_plan(house(), plan, pair(plan, "OSLO", "A-002"), left, right)
    assert blank["sections"] == [{"name": "A", "pages": ["blank"] * 8}]
    assert one["sections"] == [{"name": "A", "pages": ["blank", "left", *["blank"] * 4, "right", "blank"]}]
    assert one["pages"] == [
        {"name": "left", "inks": "CMYK", "layers": [{"kind": "contone", "file": "J1-1/00.tif"}]},
        {"name": "right", "inks": "K", "layers": [{"kind": "contone", "file": "J1-2/00.tif"}]},
        {"name": "blank", "inks": "K", "layers": []},
    ]
    same = {key for key in blank if blank[key] == one[key]}
    assert same == set(blank) - {"pages", "sections"}
    assert one["page"] == [787, 1102] and one["gutter"] == 24 and one["limit"] == 1020
    assert one["sites"] == [{"name": "OSLO"}] and one["zones"] == []
    _, other = edition.pair_plan(house(), plan, pair(plan, "TROMSO", "A-002"), left, right)
    assert other["limit"] == 612


def test_the_plan_of_a_blank_page_and_of_a_section_of_one_pair() -> None:
    plan = planned("[sections]\nC = 2\n")
    _, one = edition.pair_plan(house(), plan, pair(plan, "OSLO", "C-001"), None, render(1))
    assert one["sections"] == [{"name": "C", "pages": ["right", "left"]}]
    assert [page["name"] for page in one["pages"]] == ["left", "right"]
    assert one["pages"][0] == {"name": "left", "inks": "K", "layers": []}


def test_the_plan_of_a_site_s_whole_edition() -> None:
    plan = planned()
    renders = {page.key: render(number) for number, page in enumerate(plan.pages) if not page.blank}
    whole = edition.whole_plan(house(), plan, "BERGEN", renders)
    files = {page["name"]: page["layers"][0]["file"] for page in whole["pages"] if page["layers"]}
    by_place = {
        f"{section['name']}{number:02}": files.get(name, name)
        for section in whole["sections"]
        for number, name in enumerate(section["pages"], 1)
    }

    def file(text: str) -> str:
        key = next(page.key for page in plan.pages if str(page.key) == text)
        return str(renders[key].layers[0]["file"])

    assert by_place == {
        **{f"A0{number}": file(f"A0{number}") for number in (1, 3, 4, 5, 8)},
        **{"A02": file("west/A02"), "A07": file("west/A07"), "A06": "blank"},
        **{f"B0{number}": file(f"B0{number}") for number in (1, 2, 4)},
        "B03": "blank",
    }
    assert whole["sites"] == [{"name": "BERGEN"}]
    with pytest.raises(KeyError):
        edition.whole_plan(house(), plan, "BERGEN", {})


# ---- texts


READY = Ready(
    edition="MON",
    date="2026-12-03",
    pair="A-002",
    pages=("west/A02", "A07"),
    version=412,
    since=398,
    sums="ab" * 32,
    plates=4,
    expose=("MORNING-A-002-K.tif",),
    empty=("MORNING-A-002-M.tif", "MORNING-A-002-Y.tif"),
)


def test_the_text_of_ready() -> None:
    assert edition.ready_text(READY) == (
        "edition MON\ndate 2026-12-03\npair A-002\npages west/A02 A07\nversion 412\nsince 398\n"
        f"sums {'ab' * 32}\nplates 4\nexpose MORNING-A-002-K.tif\nempty MORNING-A-002-M.tif\n"
        "empty MORNING-A-002-Y.tif\nend\n"
    )
    first = edition.ready_text(replace(READY, since=None, date=None, expose=(), empty=()))
    assert first == (
        "edition MON\ndate none\npair A-002\npages west/A02 A07\nversion 412\nsince none\n"
        f"sums {'ab' * 32}\nplates 4\nend\n"
    )


def test_a_reason_can_t_forge_a_line() -> None:
    text = edition.ready_text(replace(READY, resend="scratched\nexpose ALL\nend"))
    assert text.splitlines()[-2:] == ["resend scratched\\x0aexpose ALL\\x0aend", "end"]
    assert len(text.splitlines()) == 13


def test_the_text_of_complete() -> None:
    complete = Complete("MON", None, "OSLO", 500, (("A-001", 410, "aa"), ("A-002", 412, "bb")))
    assert edition.complete_text(complete) == (
        "edition MON\ndate none\nsite OSLO\nversion 500\npairs 2\npair A-001 410 aa\npair A-002 412 bb\nend\n"
    )


def test_a_version_is_named_by_its_number_and_the_sum_of_its_ready() -> None:
    text = edition.ready_text(READY)
    assert version_name(412, text) == "000412-" + hashlib.sha256(text.encode()).hexdigest()[:8]


def test_pages_know_their_keys() -> None:
    assert str(Page("west", "A", 2).key) == "west/A02" and str(Page("", "B", 112).key) == "B112"
