"""A board without a service: its pages, its forms, and the commands that it gives."""
import re
import time
from dataclasses import dataclass
from typing import Any

from pressroom.board.app import Board
from pressroom.board.link import Seen, stamp_of


@dataclass
class Site:
    """A board without a service: the tests say what it saw, and `asked` are the commands that it gave."""

    board: Board
    client: Any
    asked: list[dict[str, Any]]

    def show(self, state: dict[str, Any], fault: str | None = None, age: float = 0.0) -> None:
        self.board.link.seen = Seen(state, time.time() - age, stamp_of(state), fault)

    def text(self, path: str, user: str | None = None) -> str:
        answer = self.client.get(path, headers={"X-Forwarded-User": user} if user else {})
        assert answer.status_code == 200, answer.text
        return str(answer.text)

    def post(self, command: str, user: str | None, form: dict[str, str], **headers: str) -> Any:
        named = {"X-Forwarded-User": user} if user else {}
        return self.client.post(f"/act/{command}", data=form, headers=named | headers)

    def form(self, path: str, command: str, user: str, page: str | None = None) -> dict[str, str]:
        """Returns the fields of a form as the page of a user has it."""
        for form in re.findall(
            rf'<form method="post" action="/act/{command}".*?</form>', self.text(path, user), re.S
        ):
            fields = dict(re.findall(r'<input type="hidden" name="(\w+)" value="([^"]*)"', form))
            if page in (None, fields.get("page")):
                return fields
        raise AssertionError(f"no form {command} of {page}")
