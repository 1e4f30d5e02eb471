"""The house file: each fault with its line, what is read of a right one, and texts that are no house file."""
import os
import re
import tomllib
from pathlib import Path

import pytest
from hypothesis import given, settings
from hypothesis import strategies as st

from pressroom.house.house import HouseFault, Place, read_house, read_keys, read_proof
from pressroom.house.records import Deadline, Delivery, Mark, Night, Screen, rows
from pressroom.house.toml_lines import KeyLines

HOUSE = """edition = "E1"
dpi = 300
trim = [60.96, 81.28]
margins = [2, 2, 2, 2]
gutter = 2
limit = 400
[sections]
A = 2
[colour]
rgb = "refuse"
spots = "refuse"
[sites.OSLO]
"""
OSLO = "[sites.OSLO]"
EDITS = [
    ("dpi = 300", 'dpi = "300"', r"line 2: dpi: '300' isn't a whole number"),
    ("dpi = 300", "", r"line 1: dpi: is missing"),
    ("trim = [60.96, 81.28]", "trim = [60]", r"line 3: trim: \[60\] isn't a width and a height"),
    ("gutter = 2", "gutter = 2\nguter = 3", r"line 6: guter: isn't a key of a house file"),
    ("gutter = 2", "gutter = -1", r"line 5: gutter: -1 isn't a length"),
    ("limit = 400", "limit = 401", r"line 6: limit: 401 isn't a limit of 0 to 400"),
    ("A = 2", "A = 3", r"line 8: sections\.A: 3 isn't an even number"),
    ('rgb = "refuse"', 'rgb = "convert"', r"line 9: colour\.profile: is missing"),
    (
        'rgb = "refuse"',
        'rgb = "convert"\nprofile = "house.toml"',
        r"line 11: colour\.profile: .* isn't an ICC profile",
    ),
    ("[sites.OSLO]", "[sites.OSLO]\npres = 1", r"line \d+: sites\.OSLO\.pres: isn't a key"),
    ("[sites.OSLO]", '[sites."Os lo"]', r"line \d+: sites\.Os lo: 'Os lo' isn't a name"),
    (
        "[sites.OSLO]",
        '[screens]\nK = "bayer3"\n[sites.OSLO]',
        r"line 13: screens\.K: 'bayer3' isn't one of bayer2",
    ),
    (
        "[sites.OSLO]",
        "[screens]\nK = { angle = 15, ruling = 290 }\n[sites.OSLO]",
        r"line 13: screens\.K: no tile is near",
    ),
    (
        "[sites.OSLO]",
        "[curves]\nK = [[0, 0], [0.1, 5], [100, 100]]\n[sites.OSLO]",
        r"line 13: curves\.K: .* isn't a list",
    ),
    (
        "[sites.OSLO]",
        '[[marks]]\ninks = "K"\nat = [1, 90]\nsize = [1, 1]\n[sites.OSLO]',
        r"line 12: marks\.0: leaves",
    ),
    (
        "[sites.OSLO]",
        '[press.GOSS]\n[sites.OSLO]\npress = "KBA"',
        r"line 14: sites\.OSLO\.press: 'KBA' isn't 'GOSS'",
    ),
    (OSLO, "[spot]\nnames = []\n" + OSLO, r"line 13: spot\.names: \[\] isn't a list of 1 to 32 names"),
    (OSLO, '[spot]\naliases = "A"\n' + OSLO, r"line 13: spot\.aliases: 'A' isn't a table"),
    (OSLO, '[spot]\ncolour = "#123456"\n' + OSLO, r"line 12: spot\.separation: is missing"),
    ("[sites.OSLO]", "[sites.OSLO", r"not TOML: .*line 12"),
    ('edition = "E1"', 'edition = "E1"\nblank = ["A9"]', r"line 2: blank: 'A9' isn't a page of this house"),
    ('edition = "E1"', 'edition = "E1"\nnames = "{page}"', r"line 2: names: '\{page\}' isn't a pattern"),
    ('edition = "E1"', "edition = 1", r"line 1: edition: 1 isn't a name of 1 to 16 letters"),
    ("gutter = 2", "gutter = true", r"line 5: gutter: True isn't a length"),
    ("dpi = 300", "dpi = true", r"line 2: dpi: True isn't a whole number"),
    ("A = 2", "A = 130", r"line 8: sections\.A: 130 isn't an even number of pages, 2 to 128"),
    ("A = 2", '"A b" = 2', r"line 8: sections\.A b: 'A b' isn't a name"),
    ("A = 2", "", r"line 7: sections: a house has 1 to 8 sections"),
    (OSLO, "", r"line 1: sites: a house has 1 to 16 sites"),
    (OSLO, '[press.GOSS]\n[press.KBA]\n[sites.OSLO]\npress = "KBA"', r"line 12: press\.GOSS: no site uses"),
    (OSLO, '[[marks]]\ninks = "KC"\nat = [1, 1]\nsize = [1, 1]\n' + OSLO, r"line 13: marks\.0\.inks: 'KC'"),
    (OSLO, '[[marks]]\ninks = "K"\nat = [1, 1]\n' + OSLO, r"line 12: marks\.0\.size: is missing"),
    (
        OSLO,
        '[spot]\nseparation = "HOUSE"\ncolour = "red"\n' + OSLO,
        r"line 14: spot\.colour: 'red' isn't a col",
    ),
    ("trim = [60.96, 81.28]", "trim = [5000, 5000]", r"line 3: trim: a plate would be \d+ by \d+ pixels"),
    ("limit = 400", "limit = nan", r"line 6: limit: nan isn't a limit"),
]
PROOF = [
    ("keys = 3", "line 1: keys: 3 isn't a table"),
    ("[keys\n", "not TOML"),
    ("[keys]\noffset = 3", "line 1: keys.width: is missing"),
    ("[keys]\nwidth = 0", "line 2: keys.width: 0 isn't a length of 0.1 to 5000 mm"),
    ('[keys]\nwidth = 30\noffset = "1"', "line 3: keys.offset: '1' isn't a length of -5000 to 5000 mm"),
    ('[spot]\nseparation = ""', "line 2: spot.separation: '' isn't the name of a separation"),
    ('[spot]\ncolour = "red"', "line 2: spot.colour: 'red' isn't a colour"),
]
HOSTILE = {
    "deep lists": "a = " + "[" * 90000 + "]" * 90000,
    "deep tables": "a = " + "{b = " * 40000 + "1" + "}" * 40000,
    "a key of many parts": "a." * 100000 + "b = 1",
    "quoted parts": '"a".' * 50000 + "b = 1",
    "a header of many parts": "[" + "a." * 100000 + "b]",
    "a whole number of many digits": "a = " + "9" * 100000,
    "many bytes": "#" * (1 << 19),
    "a key twice": "dpi = 1\ndpi = 2",
    "a table twice": "[night]\n[night]\n",
    "half a string": 'a = "b',
}


def written(folder: Path, text: str | bytes) -> str:
    """Writes a house file and returns its path."""
    path = folder / "house.toml"
    path.write_bytes(text.encode() if isinstance(text, str) else text)
    return str(path)


def faults(path: str) -> list[str]:
    """The faults of a house file."""
    with pytest.raises(HouseFault) as caught:
        read_house(path)
    return caught.value.lines


@pytest.mark.parametrize(("old", "new", "pattern"), EDITS)
def test_fault_has_its_line(tmp_path: Path, old: str, new: str, pattern: str) -> None:
    assert HOUSE.count(old) == 1
    path = written(tmp_path, HOUSE.replace(old, new))
    lines = faults(path)
    assert any(line.startswith(path) and re.search(pattern, line) for line in lines), lines


def test_all_faults_by_line(tmp_path: Path) -> None:
    lines = faults(written(tmp_path, HOUSE.replace("dpi = 300", "dpi = 0").replace("A = 2", "A = 3")))
    assert [line.split(" line ")[1].split(":")[0] for line in lines] == ["2", "8"]


def test_right_house(tmp_path: Path) -> None:
    """Pixels of a plate: (2 + 60.96 + 2 + 60.96 + 2) mm and (2 + 81.28 + 2) mm at 300 dpi, each part rounded."""
    house = read_house(written(tmp_path, 'blank = ["A2"]\n' + HOUSE))
    assert house.page_pixels() == (720, 960)
    assert house.plate_pixels() == (24 + 720 + 24 + 720 + 24, 24 + 960 + 24)
    assert house.blank == {Place(None, "A", 2)}
    assert [(site.name, site.press, site.zone) for site in house.sites] == [("OSLO", "plan", None)]
    assert (house.tolerance, house.names, house.rgb, house.profile, house.spot) == (
        0.5, "{section}{page}", "refuse", None, None,
    )  # fmt: skip


def test_press_inherits(tmp_path: Path) -> None:
    text = 'screens.C = "bayer4"\ncurves.K = [[0, 0], [50, 40], [100, 100]]\n' + HOUSE
    text = text.replace(OSLO, '[sites.OSLO]\npress = "KBA"\n[sites.HAMAR]\npress = "GOSS"\nzone = "west"')
    text += "[press.GOSS]\nlimit = 220\nscreens.C = { angle = 45, ruling = 60 }\n[press.KBA]\n"
    text += '[[press.KBA.marks]]\ninks = "CK"\nat = [1, 2]\nsize = [3, 4.5]\n'
    presses = read_house(written(tmp_path, text)).presses
    assert (presses["GOSS"].limit, presses["KBA"].limit) == (220, 400)
    assert presses["GOSS"].screens == {"C": Screen(angle=45, ruling=60)}
    assert presses["KBA"].screens == {"C": Screen(name="bayer4", angle=0, ruling=0)}
    assert presses["GOSS"].curves == presses["KBA"].curves == {"K": ((0, 0), (50, 40), (100, 100))}
    assert presses["KBA"].marks == (Mark(inks="CK", at=(1, 2), size=(3, 4.5)),)


@pytest.mark.parametrize(
    ("text", "place"),
    [
        ("A1", Place(None, "A", 1)),
        ("west/A02", Place("west", "A", 2)),
        ("A3", None),
        ("B1", None),
        ("A0", None),
    ],
)
def test_place_of(tmp_path: Path, text: str, place: Place | None) -> None:
    assert read_house(written(tmp_path, HOUSE)).place_of(text) == place


def test_a_house_of_the_night(tmp_path: Path) -> None:
    """One file serves intake and the night, and {date} is the day."""
    house = read_house(written(tmp_path, of_the_night()))
    assert re.fullmatch(r"DAY\d{8}", house.edition)
    assert house.night == Night(approve=True, date="2026-12-03")
    assert house.sites[0].deadline == Deadline(press_start="23:30", lead=10)
    assert house.delivery == Delivery() and house.targets == {"OSLO": "oslo:plates"}
    assert house.zone_pages == {"west": ("A02",)}


def of_the_night() -> str:
    """A house file with the night's tables."""
    text = HOUSE.replace("[sites.OSLO]", '[sites.OSLO]\nzone = "west"\npress_start = "23:30"\nlead = 10', 1)
    text = re.sub(r'edition = "\w+"', 'edition = "DAY{date}"', text)
    text += "\n[night]\napprove = true\ndate = 2026-12-03\n"
    return text + '[delivery.sites]\nOSLO = "oslo:plates"\n[zones]\nwest = ["A02"]\n'


@pytest.mark.parametrize(
    ("old", "new", "pattern"),
    [
        ("approve = true", "aprove = true", r"night\.aprove: isn't a key of a house file; the keys here are"),
        ("2026-12-03", '"2026-02-30"', r"night\.date: '2026-02-30' isn't a date"),
        ('"23:30"', "23:30:00", r"sites\.OSLO\.press_start: .* isn't a time"),
        ('OSLO = "', 'HAMAR = "', r"delivery\.sites\.HAMAR: isn't a site of this house; they are OSLO"),
        ('"oslo:plates"', '"-e sh"', r"delivery\.sites\.OSLO: '-e sh' isn't a target"),
        ('west = ["A02"]', 'east = ["A02"]', r"zones\.east: no site has this zone; they are west"),
        ('west = ["A02"]', "west = 2", r"zones\.west: 2 isn't a list of pages"),
    ],
)
def test_fault_of_the_nights_tables(tmp_path: Path, old: str, new: str, pattern: str) -> None:
    """Every command that reads the house file tests the night's tables too."""
    text = of_the_night()
    line = text[: text.index(old)].count("\n") + 1
    lines = faults(written(tmp_path, text.replace(old, new)))
    assert len(lines) == 1 and re.search(rf"line {line}: {pattern}", lines[0]), lines


@pytest.mark.parametrize(("text", "line"), PROOF)
def test_fault_of_a_proof(tmp_path: Path, text: str, line: str) -> None:
    with pytest.raises(HouseFault, match=re.escape(line)):
        read_proof(written(tmp_path, text))


def test_proof_takes_what_is_there(tmp_path: Path) -> None:
    assert read_proof(written(tmp_path, "anything = 1")) == (None, None, None)
    name, colour, keys = read_proof(written(tmp_path, '[spot]\ncolour = "#D4002a"\n[keys]\nwidth = 30'))
    assert keys is not None
    assert (name, colour, keys.width, keys.offset) == (None, (0xD4, 0, 0x2A), 30, 0)


@pytest.mark.parametrize("name", HOSTILE)
def test_hostile_text_is_a_named_fault(tmp_path: Path, name: str) -> None:
    for read in (read_house, read_proof):
        with pytest.raises(HouseFault):
            read(written(tmp_path, HOSTILE[name]))


def test_no_file_of_its_own(tmp_path: Path) -> None:
    os.mkfifo(tmp_path / "pipe")
    assert faults(str(tmp_path / "pipe")) == [f"{tmp_path}/pipe: not a regular file"]
    assert faults(str(tmp_path)) == [f"{tmp_path}: Is a directory"]
    assert faults("/dev/zero") == ["/dev/zero: not a regular file"]
    assert faults(str(tmp_path / "away")) == [f"{tmp_path}/away: No such file or directory"]
    assert faults(written(tmp_path, b"a = 1\nb = '\xe6'\n")) == [f"{tmp_path}/house.toml line 2: not UTF-8"]


KEYS = st.sampled_from(["a", "b", '"c d"', "'e.f'"])
SCALARS = st.sampled_from(["1", "true", '"x # y"', "'''\nz\n'''", "[1,\n # c\n 2]", "{ a = [1, { b = 2 }] }"])


@settings(deadline=None)
@given(st.lists(st.tuples(st.lists(KEYS, min_size=1, max_size=3), SCALARS), max_size=6))
def test_lines_of_keys(pairs: list[tuple[list[str], str]]) -> None:
    """Each pair's line is the one on which it was written, whatever strings and lists came before it."""
    text, wanted = "", {}
    for number, (keys, value) in enumerate(pairs):
        wanted[f"k{number}"] = text.count("\n") + 1
        text += f"k{number}.{'.'.join(keys)} = {value}\n"
    tomllib.loads(text)
    lines = KeyLines(text)
    assert {name: lines.line((name,)) for name in wanted} == wanted


@settings(deadline=None)
@given(st.binary(max_size=300))
def test_any_bytes_are_read_or_refused(tmp_path_factory: pytest.TempPathFactory, data: bytes) -> None:
    path = written(tmp_path_factory.mktemp("bytes"), data)
    try:
        read_keys(path)
    except HouseFault as error:
        assert error.lines[0].startswith(path)


def test_documents_have_each_key() -> None:
    """tools/README.md has the keys of intake, with the defaults of the table."""
    top = Path(__file__).parents[2]
    readme, manual = ((top / name).read_text() for name in ("tools/README.md", "docs/MANUAL.md"))
    for name, _, default, _ in rows():
        table, _, last = name.rpartition(".")
        if not table:
            assert re.search(rf"^\| `{last}` \|.*\| `?{re.escape(default)}`? \|$", readme, re.MULTILINE) or (
                default.startswith("[")
            ), name
        else:
            assert last in readme + manual or last in ("NAME", "INK"), name
