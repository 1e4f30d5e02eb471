"""Commands: what they bind, what is stale, and what their answers say."""
import pytest
from evening import evening
from pressroom.night import desk, versions
from pressroom.night.book import Refused

EVA = desk.Asker("eva")


@pytest.fixture
def night(tmp_path):
    return evening(str(tmp_path / "journal"))


@pytest.fixture
def asking(tmp_path):
    return evening(str(tmp_path / "journal"), ask=True)


def test_an_approval_binds_the_arrival(asking):
    asking.page("A01", "one")
    assert asking.state("A01") == "asks"
    asking.approve("A01")
    assert asking.state("A01") == "ready"
    asking.page("A01", "two")
    assert asking.state("A01") == "asks"
    assert asking.come(
        "A01", "one"
    )  # The first bytes again, perhaps by a late script: an arrival of its own.
    assert asking.state("A01") == "asks"


def test_the_bytes_of_the_last_arrival_are_no_new_one(asking):
    asking.page("A01", "one")
    asking.approve("A01")
    assert not asking.come("A01", "one")
    assert asking.state("A01") == "ready"
    assert asking.lines()[-1] == "MON A01: MON/A01.pdf has the bytes of the last arrival"


def test_an_approval_of_what_is_gone_is_stale(asking):
    asking.page("A01", "one")
    seen = asking.now("A01")
    asking.page("A01", "two")
    with pytest.raises(Refused, match="isn't what you saw"):
        desk.judge(asking.book, "approved", "MON", "A01", seen["arrival"], seen["render"], EVA)
    assert asking.state("A01") == "asks"


def test_a_rejected_page_stays_rejected_when_its_bytes_come_again(night):
    night.page("A01", "one")
    now = night.now("A01")
    desk.judge(night.book, "rejected", "MON", "A01", now["arrival"], now["render"], EVA)
    assert night.state("A01") == "rejected"
    night.page("A01", "two")
    assert night.state("A01") == "ready"
    night.come("A01", "one")
    assert night.state("A01") == "rejected"
    night.approve("A01")
    assert night.state("A01") == "ready"


def test_a_hold_binds_the_place(night):
    desk.hold(night.book, "MON", "A01", desk.Asker("eva", "waits for the match"))
    night.page("A01", "one")
    assert night.state("A01") == "held"
    night.page("A01", "two")
    assert night.state("A01") == "held"
    assert "MON A01: held by eva: waits for the match; OSLO, BERGEN, TROMSO in time" in night.lines()


def test_a_release_names_what_was_seen(night):
    night.page("A01", "one")
    desk.hold(night.book, "MON", "A01", EVA)
    seen = night.now("A01")["newest"]
    night.page("A01", "two")
    with pytest.raises(Refused, match="isn't what you saw"):
        desk.release(night.book, "MON", "A01", seen, EVA)
    assert night.state("A01") == "held"
    desk.release(night.book, "MON", "A01", night.now("A01")["newest"], EVA)
    assert night.state("A01") == "ready"


def test_a_release_waits_for_intakes_verdict(night):
    night.page("A01", "one")
    desk.hold(night.book, "MON", "A01", EVA)
    night.come("A01", "two")
    with pytest.raises(Refused, match="in intake"):
        desk.release(night.book, "MON", "A01", night.now("A01")["newest"], EVA)


def test_a_hold_twice_is_no_second_event(night):
    desk.hold(night.book, "MON", "A01", EVA)
    night.lines()
    assert desk.hold(night.book, "MON", "A01", EVA).text == "A01 was held already"
    assert night.lines() == []


@pytest.mark.parametrize(
    "edition, page, why",
    [("TUE", "A01", "no edition TUE"), ("MON", "A09", "no page A09"), ("MON", "east/A02", "no page")],
)
def test_unknown_names_are_refused(night, edition, page, why):
    with pytest.raises(Refused, match=why):
        desk.hold(night.book, edition, page, EVA)


def test_a_hold_says_where_it_is_too_late(night):
    night.all_pages()
    night.make()
    first, second, *_ = night.queued()
    versions.sending(night.book, first)
    assert versions.leaving(night.book, first)
    answer = desk.hold(night.book, "MON", "A01", EVA)
    assert answer.more == {"had_it": [], "older": [], "may_be_out": ["OSLO"], "in_time": ["BERGEN", "TROMSO"]}
    versions.sent(night.book, first)
    versions.sending(night.book, second)
    # The pair of the held page doesn't leave any more, whatever was under way.
    held = night.one("SELECT p.number FROM version v JOIN pair p ON p.id = v.pair WHERE v.id = ?", second)
    assert versions.leaving(night.book, second) == (held != 1)


def test_plates_are_made_while_approval_is_asked_for_and_leave_after_it(asking):
    asking.all_pages()
    assert asking.make() > 0
    assert asking.queued() == []
    for page in ("A02", "A03"):
        asking.approve(page)
    # Pair 2 of OSLO and TROMSO has A02 and A03; BERGEN's has its own A02, which wasn't approved.
    assert len(asking.queued()) == 2


def test_cancel_stops_everything(night):
    night.all_pages()
    night.make()
    number = night.queued()[0]
    versions.sending(night.book, number)
    versions.leaving(night.book, number)
    answer = desk.cancel(night.book, "MON", EVA)
    assert answer.more["may_be_out"] == 1 and night.queued() == []
    assert night.book.journal.rows("SELECT * FROM due_plates") == []
    with pytest.raises(Refused, match="is cancelled"):
        desk.hold(night.book, "MON", "A01", EVA)


def test_a_resend_is_put_beside_its_version(night):
    night.all_pages()
    night.make()
    with pytest.raises(Refused, match="no such plate yet"):
        desk.resend(night.book, "MON", "OSLO", "A-001", "K", "scratched", EVA)
    night.deliver()
    desk.resend(night.book, "MON", "OSLO", "A-001", "K", "scratched", EVA)
    row = versions.get(night.book, night.queued()[0])
    first = night.one("SELECT folder FROM version WHERE id = ?", row["of"])
    assert (
        row["folder"] == first + ".r1"
        and "expose MON-K.tif" in row["ready"]
        and "expose MON-C" not in row["ready"]
    )
    assert "resend scratched" in row["ready"] and f"version {row['of']:06}" in row["ready"]
    night.deliver()
    assert night.one("SELECT state FROM version WHERE id = ?", row["of"]) == "sent"
    desk.resend(night.book, "MON", "OSLO", "A-001", "K", "bent", EVA)
    assert versions.get(night.book, night.queued()[0])["folder"] == first + ".r2"
    assert "MON OSLO A-001: MON-K.tif again (2), bent" in night.lines()


def test_what_was_asked_for_again_comes_with_the_next_version(night):
    night.all_pages()
    night.make()
    night.deliver()
    desk.resend(night.book, "MON", "OSLO", "A-001", "K", "scratched", EVA)
    night.page("A01", "A01 second")  # The resend is overtaken before it left.
    night.make()
    row = night.book.journal.row(
        "SELECT v.* FROM version v JOIN site s ON s.id = v.site WHERE v.state = 'queued' AND s.name = 'OSLO'"
    )
    assert (
        row["kind"] == "plates" and "expose MON-K.tif" in row["ready"] and "resend scratched" in row["ready"]
    )
