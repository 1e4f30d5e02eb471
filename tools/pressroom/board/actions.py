"""What people do at the board: each form is the same command as in a terminal, given in the name of its user.

A form is taken by POST alone, from a page of this board (Origin, Sec-Fetch-Site), with a token that only that page has.
Approve, reject and release name what the page showed: this arrival, converted so. The service refuses anything else.
"""
import hashlib
import hmac
import os
import threading
import time
from collections.abc import Mapping
from dataclasses import dataclass
from typing import Any
from urllib.parse import urlsplit

from pressroom.base.console import one_line

State = dict[str, Any]
# The header in which a reverse proxy names the user, and the most letters of a name.
USER_HEADER, NAME = "X-Forwarded-User", 64
# The fields of each command's form that are passed on: texts, and whole numbers.
TEXTS: dict[str, tuple[str, ...]] = {
    "approve": ("edition", "page", "word"),
    "reject": ("edition", "page", "word"),
    "hold": ("edition", "page", "word"),
    "release": ("edition", "page"),
    "resend": ("edition", "site", "pair", "ink", "reason"),
    "cancel": ("edition",),
}
NUMBERS: dict[str, tuple[str, ...]] = {
    "approve": ("arrival", "render"),
    "reject": ("arrival", "render"),
    "release": ("arrival",),
}
# Fields that may be left out or empty, and are then not passed on.
MAYBE = {"ink", "word"}
TOLD = 1000


class Refused(Exception):
    """A form isn't taken; the text says why, and nothing was done."""


@dataclass(frozen=True)
class Told:
    """What came of an action: the service's own words, whether it was done, when, and of whom."""

    user: str
    command: str
    done: bool
    text: str
    at: str


class Answers:
    """The answers of the last actions, for the page after them."""

    def __init__(self) -> None:
        self.kept: dict[str, Told] = {}
        self.lock = threading.Lock()

    def keep(self, told: Told) -> str:
        """Keeps an answer. Returns its name."""
        name = os.urandom(8).hex()
        with self.lock:
            while len(self.kept) >= TOLD:
                self.kept.pop(next(iter(self.kept)))
            self.kept[name] = told
        return name

    def get(self, name: str | None, user: str | None) -> Told | None:
        """Returns an answer to the user who got it."""
        told = self.kept.get(name or "")
        return told if told is not None and told.user == user else None


class Guard:
    """Says who a user is, what he may do, and whether a form is one of ours."""

    def __init__(self, actions: bool, trusts: bool, actors: frozenset[str] = frozenset()):
        """`trusts` is whether only the proxy can speak to the board; `actors` are those who may act, or all."""
        self.actions, self.trusts, self.actors = actions, trusts, actors
        self.secret = os.urandom(32)

    def user(self, headers: Mapping[str, str]) -> str | None:
        """Returns the name that the proxy gives, or None where there is none or nobody to trust."""
        name = headers.get(USER_HEADER, "") if self.trusts else ""
        clean = "".join(sign for sign in name if sign.isprintable()).strip()[:NAME]
        return clean or None

    def may_act(self, user: str | None) -> bool:
        return self.actions and user is not None and (not self.actors or user in self.actors)

    def token(self, user: str) -> str:
        """Returns what the forms of a user carry."""
        return hmac.new(self.secret, user.encode(), hashlib.sha256).hexdigest()

    def check(self, user: str | None, headers: Mapping[str, str], token: str) -> str:
        """Returns the user of a form that may be taken; raises Refused."""
        if not self.actions:
            raise Refused("this board only shows: it runs without --actions")
        if user is None:
            raise Refused("the proxy named no user, so there is nobody in whose name to act")
        if not self.may_act(user):
            raise Refused(f"{user} may look, but not act")
        site = headers.get("Sec-Fetch-Site")
        if site is not None and site not in ("same-origin", "none"):
            raise Refused("the form comes from another site")
        origin = headers.get("Origin")
        if origin is not None and urlsplit(origin).netloc != headers.get("Host"):
            raise Refused("the form comes from another site")
        if not hmac.compare_digest(token.encode(), self.token(user).encode()):
            raise Refused("its page is of another user, or was opened before the board was started again")
        return user


def message(command: str, form: Mapping[str, str]) -> State:
    """Returns the service's message for a form; raises Refused where a field is missing."""
    found: State = {"command": command}
    for key in TEXTS[command]:
        value = form.get(key, "").strip()
        if value:
            found[key] = value
        elif key not in MAYBE or (command, key) == ("reject", "word"):
            raise Refused(f"{key} is missing")
    for key in NUMBERS.get(command, ()):
        value = form.get(key, "")
        if not (value.isascii() and value.isdigit() and len(value) < 16):
            raise Refused(f"{key} isn't a whole number")
        found[key] = int(value)
    if command == "cancel" and form.get("again", "").strip() != found["edition"]:
        raise Refused(f"to cancel {found['edition']}, type its name")
    return found


def told_of(user: str, command: str, form: Mapping[str, str], answer: State) -> Told:
    """Returns what the page after an action says. After a refusal it also says what the user had seen."""
    done = answer.get("status") == 0
    text = one_line(str(answer.get("text", "")))
    seen = form.get("seen", "").strip()
    if not done and seen:
        text += f". You saw {one_line(seen)[:80]}"
    return Told(user, command, done, text, time.strftime("%H:%M:%S"))
