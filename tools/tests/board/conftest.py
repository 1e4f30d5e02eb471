"""A night in which each state is so, and the board's pages of it."""
import copy
from collections.abc import Iterator
from pathlib import Path
from typing import Any

import pytest

pytest.importorskip("flask")

from board.shown import Site
from board.stage import Service, Stage

from pressroom.board.actions import Guard
from pressroom.board.app import Board, make_app
from pressroom.board.link import Link
from pressroom.board.pictures import Pictures


@pytest.fixture(scope="session")
def state(tmp_path_factory: pytest.TempPathFactory) -> dict[str, Any]:
    """What the service says of a night in which each state is so."""
    night = Stage(str(tmp_path_factory.mktemp("spool")))
    night.night()
    said: dict[str, Any] = Service(night).status()
    night.book.journal.close()
    return said


@pytest.fixture
def site(tmp_path: Path, state: dict[str, Any], monkeypatch: pytest.MonkeyPatch) -> Iterator[Site]:
    """The board of that night, with actions, behind a proxy."""
    (tmp_path / "plates").mkdir()
    (tmp_path / "cache").mkdir()
    asked: list[dict[str, Any]] = []
    link = Link(str(tmp_path))
    board = Board(link, Pictures(str(tmp_path), str(tmp_path / "cache")), Guard(True, True))

    def command(message: dict[str, Any]) -> dict[str, Any]:
        asked.append(message)
        return {"status": 0, "text": f"{message.get('page')} {message['command']}; OSLO had it"}

    def pair(edition: str, name: str) -> dict[str, Any]:
        waits = {"previous": None, "next": "A-006", "position": None, "count": 1}
        return {"versions": [], "steps": [], "approvals": waits}

    monkeypatch.setattr(link, "command", command)
    monkeypatch.setattr(link, "pair", pair)
    found = Site(board, make_app(board).test_client(), asked)
    found.show(copy.deepcopy(state))
    yield found
