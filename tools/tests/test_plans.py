"""Plans: which plates and pages they name, parts that are the whole, and texts that are no plan."""
import copy
import json
import os
from pathlib import Path
from typing import Any

import pytest
from hypothesis import given, settings
from hypothesis import strategies as st

from pressroom.base.files import Unreadable
from pressroom.plans.form import is_formed
from pressroom.plans.parts import Edition
from pressroom.plans.plan_reader import NotAPlan, Plan, json_of, plans_of, read_plan
from pressroom.plans.sheets import sheets_of

PLAN: dict[str, Any] = {
    "plan": 2,
    "edition": "E1",
    "dpi": 1200,
    "page": [80, 20],
    "margins": [1, 2, 3, 4],
    "gutter": 5,
    "limit": 765,
    "pages": [
        {"name": "a", "inks": "K", "layers": [{"kind": "line", "file": "a.tif", "mask": "b/m.tif"}]},
        {"name": "b", "inks": "CMYK", "layers": [{"kind": "contone", "file": "../x.tif"}]},
        {"name": "c", "inks": "CMYKS", "layers": []},
    ],
    "sections": [{"name": "A", "pages": ["a", "a", "a", "a"]}, {"name": "B", "pages": ["a", "b"]}],
    "zones": [{"name": "west", "replace": [{"section": "A", "page": 4, "with": "c"}]}],
    "sites": [{"name": "OSLO"}, {"name": "BERGEN", "zone": "west"}],
}
# Values in the place of a plan's own, at a path.
WRONG: list[tuple[str, Any]] = [
    ("page", [80]),
    ("page", [80, -1]),
    ("page", [80, 1 << 32]),
    ("pages", {}),
    ("pages/0", None),
    ("pages/0/name", 1),
    ("pages/0/layers", [1]),
    ("sections/0/pages/0", "z"),
    ("zones/0/replace/0/page", 5),
    ("zones/0/replace/0/page", 0),
    ("zones/0/replace/0/with", "z"),
    ("zones/0/replace/0/section", "Z"),
    ("sites", "OSLO"),
    ("margins", [0, 0, 0, True]),
]


def changed(path: str, value: Any) -> dict[str, Any]:
    """The plan with another value at a path."""
    plan = copy.deepcopy(PLAN)
    *way, last = [int(step) if step.isdigit() else step for step in path.split("/")]
    inside: Any = plan
    for step in way:
        inside = inside[step]
    inside[last] = value
    return plan


def plan_of(value: object) -> Plan:
    """A plan by its value."""
    return Plan("p", json.dumps(value).encode())


def test_plates_of_a_site() -> None:
    """A pair is the outer pages together: 1 and 4, 2 and 3. Black pages alone have one plate; a page in colour has
    four, and the spot a fifth."""
    plan = plan_of(PLAN)
    assert plan.plates("OSLO") == [
        "E1-A-001-K.tif",
        "E1-A-002-K.tif",
        *(f"E1-B-001-{ink}.tif" for ink in "CMYK"),
    ]
    assert plan.plates("BERGEN")[:6] == [*(f"E1-A-001-{ink}.tif" for ink in "CMYKS"), "E1-A-002-K.tif"]
    assert plan.files() == {"a.tif", "b/m.tif"}
    assert plan.sites() == ["OSLO", "BERGEN"]


def test_plan_of_some_sites() -> None:
    plan = plan_of(PLAN)
    alone = Plan("p", plan.alone(["BERGEN"]))
    assert alone.sites() == ["BERGEN"]
    assert alone.plates("BERGEN") == plan.plates("BERGEN")
    assert plan.alone(["BERGEN", "OSLO"]) == plan.text


@pytest.mark.parametrize(("path", "value"), WRONG)
def test_other_forms_are_refused(tmp_path: Path, path: str, value: Any) -> None:
    assert is_formed(PLAN)
    plan = changed(path, value)
    assert not is_formed(plan)
    (tmp_path / "p.json").write_text(json.dumps(plan))
    with pytest.raises(NotAPlan, match="p.json: not an edition plan"):
        read_plan(str(tmp_path / "p.json"))
    with pytest.raises(NotAPlan):
        plan_of(plan).sites()


def test_sheet_of_a_site(tmp_path: Path) -> None:
    """765 of 1020 is 300 percent; a plate is 1 + 2 * 80 + 5 + 3 wide and 2 + 20 + 4 long."""
    (tmp_path / "p.json").write_text(json.dumps(PLAN))
    sheet = sheets_of([str(tmp_path / "p.json")])["BERGEN"]
    assert (sheet.zone, sheet.limit, sheet.size()) == ("west", 300, (169, 26))
    assert sheet.pages("A", 1) == [
        {"number": 4, "name": "c", "box": [1, 2, 80, 20]},
        {"number": 1, "name": "a", "box": [86, 2, 80, 20]},
    ]
    assert sheet.pages("A", 3) == []


@pytest.mark.parametrize("by", ["section", "site", "both"])
def test_parts_are_the_whole(by: str) -> None:
    whole = plan_of(PLAN)
    edition = Edition(whole.form, "/nowhere")
    plates: dict[str, list[str]] = {site: [] for site in whole.sites()}
    for sections, sites in edition.parts(by, float("inf")):
        part = plan_of(edition.cut(sections, sites))
        for site in sites:
            plates[site] += part.plates(site)
    assert {site: sorted(names) for site, names in plates.items()} == {
        site: sorted(whole.plates(site)) for site in whole.sites()
    }


HOSTILE = {
    "deep lists": b"[" * 100000,
    "deep objects": b'{"a":' * 100000,
    "many digits": b'{"page": [' + b"9" * 100000 + b"]}",
    "Latin-1": '{"name": "Z\u00fcrich"}'.encode("latin-1"),
    "UTF-16": '{"plan": 2}'.encode("utf-16"),
    "half": b'{"plan": 2, "pages": [',
    "a number": b"1e999",
}


@pytest.mark.parametrize("name", HOSTILE)
def test_hostile_text(tmp_path: Path, name: str) -> None:
    (tmp_path / "p.json").write_bytes(HOSTILE[name])
    assert plans_of(str(tmp_path))[0].files() == set()
    with pytest.raises(NotAPlan):
        read_plan(str(tmp_path / "p.json"))


def test_no_file_of_its_own(tmp_path: Path) -> None:
    os.mkfifo(tmp_path / "p.json")
    with pytest.raises(OSError, match="not a regular file"):
        plans_of(str(tmp_path))
    assert plans_of(str(tmp_path), readable=True) == []
    with pytest.raises(Unreadable, match="p.json: not a regular file"):
        read_plan(str(tmp_path / "p.json"))


def test_keys_that_occur_twice() -> None:
    twice: list[str] = []
    assert json_of(b'{"a": 1, "b": {"a": 2, "a": 3}}', twice) == {"a": 1, "b": {"a": 3}}
    assert twice == ["a"]


VALUES = st.recursive(
    st.none() | st.booleans() | st.integers() | st.text(max_size=3),
    lambda inner: st.lists(inner, max_size=3)
    | st.dictionaries(st.sampled_from(sorted(PLAN) + ["name"]), inner),
    max_leaves=20,
)


@settings(deadline=None)
@given(st.sampled_from([path for path, _ in WRONG]), VALUES)
def test_any_value_is_read_or_refused(path: str, value: Any) -> None:
    """What has the form of a plan names plates without another test, and nothing else is taken for a plan."""
    plan = plan_of(changed(path, value))
    plan.files()
    if plan.formed is not None:
        for site in plan.sites():
            plan.plates(site)
