"""What the pages say of a night: each state by its word and its shape, in the order of urgency, and as text alone."""
import copy
import re
from typing import Any

import pytest
from board.shown import Site

from pressroom.board import view

PAIR = "/edition/MORNING/pair/A-006"
State = dict[str, Any]


def cell(text: str, name: str) -> str:
    """Returns the HTML of a cell by its id."""
    found = re.search(rf'<(a|td) [^>]*id="{name}".*?</\1>', text, re.S)
    assert found, name
    return found[0]


def words(html: str) -> str:
    return " ".join(re.sub(r"<[^>]*>", " ", html).split())


@pytest.mark.parametrize(
    "page, word",
    [
        ("A01", "absent"),
        ("A03", "made"),
        ("A04", "arrived"),
        ("A10", "refused"),
        ("A06", "held"),
        ("A11", "approve"),
        ("west-A12", "approve"),
        ("city-A09", "held"),
        ("west-A05", "absent"),
        ("B01", "made"),
    ],
)
def test_a_page_s_cell_has_its_word_and_shape(site: Site, page: str, word: str) -> None:
    html = cell(site.text("/"), f"MORNING-{page}")
    state = "approval" if word == "approve" else word
    assert f"is-{state}" in html and f'href="#i-{state}"' in html
    assert word in words(html).split()


@pytest.mark.parametrize(
    "pair, told",
    [
        ("A-001-OSLO", "waits is absent: A01"),
        ("A-002-OSLO", "ack v"),
        ("A-003-BERGEN", "failed v17"),
        ("A-003-OSLO", "sent v"),
        ("A-004-OSLO", "ready"),
        ("A-005-BERGEN", "waits waits for approval: A12 +1 more"),
        ("A-007-STAVANGER", "waits is refused: A10"),
        ("A-008-OSLO", "waits is held: A09"),
    ],
)
def test_a_pair_s_cell_says_what_it_waits_for(site: Site, pair: str, told: str) -> None:
    assert words(cell(site.text("/"), f"MORNING-{pair}")).startswith(told)


def test_what_a_site_has_until_then_is_said(site: Site) -> None:
    html = words(cell(site.text("/"), "MORNING-A-003-BERGEN"))
    assert re.search(r"failed v17 \d\d:\d\d v\d+ there", html)


def test_acknowledged_is_said_of_acknowledged_alone(site: Site, state: State) -> None:
    text = site.text("/")
    for pair in state["editions"][0]["pairs"]:
        for at in pair["sites"]:
            html = cell(text, f"MORNING-{pair['pair']}-{at['site']}")
            assert ("i-acknowledged" in html) == (at["state"] == "acknowledged")
    assert view.event_shape("kept") == view.event_shape("sent") == "sent"


def test_counts_are_in_the_bar_of_every_page(site: Site) -> None:
    for path in ("/", "/edition/MORNING", PAIR, "/wall"):
        tally = re.search(r'<(p|ul) class="tally".*?</\1>', site.text(path), re.S)
        assert tally and words(tally[0]).startswith("2 wrong 2 to approve 2 held"), path


def test_faults_are_in_the_order_of_what_must_leave(site: Site, state: State) -> None:
    later = copy.deepcopy(state)
    faults = later["editions"][0]["faults"]
    faults[0]["leave_by"], faults[1]["leave_by"] = "2026-12-02T23:20:00+01:00", "2026-12-02T22:58:00+01:00"
    faults[0]["text"], faults[1]["text"] = "the later one", "the sooner one"
    site.show(later)
    text = site.text("/")
    assert text.index("the sooner one") < text.index("the later one")


def test_a_time_that_is_past_is_late(site: Site, state: State) -> None:
    late = copy.deepcopy(state)
    late["time"] = late["editions"][0]["next"]["leave_by"][:17] + "59" + late["time"][19:]
    site.show(late)
    text = site.text("/")
    assert "0 min late" in text and 'class="when late"' in text
    assert view.until("2026-12-02T22:00:00+01:00", "2026-12-03T00:05:00+01:00") == "2 h 5 min late"
    assert view.until("2026-12-02T22:59:59+01:00", "2026-12-02T22:50:00+01:00") == "in 9 min"


HOSTILE = "<script>alert(1)</script>"


def test_names_of_people_and_files_are_text(site: Site, state: State) -> None:
    hostile = copy.deepcopy(state)
    edition = hostile["editions"][0]
    for fault in edition["faults"]:
        fault["text"] = fault["file"] = fault["next"] = HOSTILE
    for ask in edition["asks"]:
        ask["by"], ask["reason"] = HOSTILE, f'" onmouseover="x" {HOSTILE}\u202e\n'
    for page in edition["pages"]:
        if page["held"]:
            page["held"] |= {"by": HOSTILE, "reason": f'"><img src=x>\u202e{HOSTILE}'}
        if page["fault"]:
            page["fault"]["text"] = HOSTILE
    for event in hostile["events"]:
        event["text"] = event["user"] = event["site"] = HOSTILE
    edition["sites"][0]["zone"] = HOSTILE
    hostile["service"]["pass"]["fault"] = HOSTILE
    site.show(hostile)
    for path in ("/", "/edition/MORNING", PAIR, "/wall"):
        text = site.text(path, "eva")
        assert "<script>alert" not in text and "<img src=x" not in text and "\u202e" not in text, path
        assert not re.search(r"<[^>]* onmouseover", text)
        assert "&lt;script&gt;" in text


def test_an_edition_of_a_hostile_name_is_no_page(site: Site) -> None:
    for path in (
        "/edition/%3Cscript%3E",
        "/edition/..%2f..%2fetc",
        "/edition/MORNING/pair/..",
        "/plates/../x.png",
    ):
        answer = site.client.get(path)
        assert answer.status_code == 404 and "<script>" not in answer.text, path


def test_nothing_wrong_is_said_in_words(site: Site, state: State) -> None:
    quiet = copy.deepcopy(state)
    quiet["editions"], quiet["events"] = [], []
    quiet["counts"] = dict.fromkeys(quiet["counts"], 0)
    site.show(quiet)
    text = site.text("/")
    assert (
        "Nothing is wrong." in text
        and "Nothing waits for a person." in text
        and "No edition is here yet" in text
    )
    assert "No edition" in site.text("/wall")


def test_two_editions_are_named_where_their_things_are(site: Site, state: State) -> None:
    two = copy.deepcopy(state)
    other = copy.deepcopy(two["editions"][0])
    other["name"] = other["title"] = "EVENING"
    for item in (*other["faults"], *other["asks"]):
        item["edition"] = "EVENING"
    two["editions"].append(other)
    site.show(two)
    text = site.text("/")
    assert words(text).count("EVENING: stops A-007") == 1 and words(text).count("MORNING: stops A-007") == 1
    assert 'id="EVENING-A10"' in text and 'href="/edition/EVENING/pair/A-007"' in text
    assert "EVENING" not in words(site.text("/edition/MORNING"))


def test_more_editions_than_fit_have_a_line(site: Site, state: State) -> None:
    many = copy.deepcopy(state)
    for number in range(view.IN_FULL + 2):
        other = copy.deepcopy(many["editions"][0])
        other["name"] = other["title"] = f"E{number}"
        many["editions"].append(other)
    site.show(many)
    text = site.text("/")
    assert text.count('class="matrix-pages"') == 2 * view.IN_FULL
    assert text.count("Show all of ") == 3


def test_a_board_that_isn_t_live_says_so(site: Site, state: State) -> None:
    site.show(state, age=21)
    assert "<b>Not live.</b>" in site.text("/")
    site.show(state, fault="no service listens")
    text = site.text(PAIR)
    assert "<b>Not live.</b>" in text and "no service listens" in text
    assert "NOT LIVE" in site.text("/wall")
    site.show(state, age=19)
    assert "Not live" not in site.text("/")


def test_the_policy_allows_no_inline_code_and_nothing_from_elsewhere(site: Site) -> None:
    for path in ("/", PAIR, "/wall", "/nothing"):
        answer = site.client.get(path)
        policy = answer.headers["Content-Security-Policy"]
        assert (
            "default-src 'none'" in policy and "unsafe" not in policy and "frame-ancestors 'none'" in policy
        )
        assert answer.headers["Cache-Control"] == "no-store"
        assert not re.search(
            r"<script(?! src)|<style| style=| on\w+=|https?://(?!www\.w3\.org)", answer.text
        ), path


def test_nothing_new_is_said_by_304(site: Site, state: State) -> None:
    first = site.client.get("/")
    again = site.client.get("/", headers={"If-None-Match": first.headers["ETag"]})
    assert again.status_code == 304 and again.headers["X-As-Of"] == state["time"][11:19]
    other = copy.deepcopy(state)
    other["editions"][0]["pages"][0]["state"] = "arrived"
    site.show(other)
    assert site.client.get("/", headers={"If-None-Match": first.headers["ETag"]}).status_code == 200


def test_the_wall_leaves_out_what_all_sites_have_and_counts_it(site: Site, state: State) -> None:
    long = copy.deepcopy(state)
    edition = long["editions"][0]
    edition["pairs"] += [copy.deepcopy(edition["pairs"][0]) | {"pair": "C-001"}]
    site.show(long)
    text = site.text("/wall")
    assert "A-002" not in re.sub(r"<header.*?</header>", "", text, flags=re.S)
    assert re.search(r"\d pairs are acknowledged by all their sites", words(text))
    assert "<form" not in text and "<button" not in text


def test_a_status_of_another_shape_is_told(site: Site, state: State) -> None:
    other = copy.deepcopy(state)
    del other["editions"][0]["pairs"][0]["sites"][0]["waits_for"]
    site.board.link.seen = type(site.board.link.seen)(other, site.board.link.seen.at, "x", None)
    answer = site.client.get("/")
    assert answer.status_code == 500 and "can&#39;t be shown" in answer.text


def test_without_a_status_there_is_no_page(site: Site) -> None:
    site.board.link.seen = type(site.board.link.seen)(fault="no service listens")
    answer = site.client.get("/")
    assert answer.status_code == 503 and "no service listens" in answer.text
