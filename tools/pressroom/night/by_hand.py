"""Commands to the service from a terminal: by its socket, or, where no service runs, by the journal itself.

Only the user to whom the journal belongs can open it, so all others are told that the service is down.
"""
import argparse
import getpass
import json
import os
import sys
from typing import Any

from pressroom.base.command_line import Parser
from pressroom.night import apply, client, edition, houses
from pressroom.night.asked import Asked
from pressroom.night.book import Book
from pressroom.night.folders import Folders
from pressroom.night.journal import Busy, Journal, Unusable
from pressroom.night.status import Live

DONE, REFUSED, MALFORMED, DOWN = 0, 1, 2, 3
Message = dict[str, Any]


class Local:
    """Stands for the client of a socket where no service runs."""

    desk, follows, edition = True, None, None

    def __init__(self) -> None:
        self.user = getpass.getuser()
        self.told: list[Message] = []

    def tell(self, value: Message) -> None:
        self.told.append(value)


def parser_of(description: str | None, name: str, *arguments: str) -> Parser:
    """Returns the parser of a command on a spool, with its first arguments."""
    parser = Parser(name, description, json="print the answer as a JSON object")
    parser.add_argument("spool", metavar="SPOOL", help="the folder of the spool")
    helps = {"edition": "the edition's folder", "page": "a page, such as A07 or west/A02", "site": "a site"}
    for argument in arguments:
        parser.add_argument(argument, metavar=argument.upper(), help=helps[argument])
    return parser


def ask(spool: str, message: Message) -> Message:
    """Gives a command or a question to the service, or to the journal where no service runs; raises client.Down."""
    name = "desk.sock" if "command" in message else "look.sock"
    try:
        return client.ask(spool, name, message)
    except client.Down as down:
        answer = without_service(spool, message)
        if answer is None:
            raise down
        return answer


def without_service(spool: str, message: Message) -> Message | None:
    """Opens the journal and answers; None where it can't be opened by this user, or isn't there."""
    folders = Folders(spool)
    if not os.access(folders.path("journal", "night.db"), os.R_OK | os.W_OK):
        return None
    try:
        journal = Journal.open(folders.path("journal"), begins=False)
    except (Busy, OSError, Unusable):
        return None
    try:
        book = Book(journal, edition)
        asked = Asked(book, lambda: Live(folders.spool), apply_of(book))
        return asked.answer(Local(), message)  # type: ignore[arg-type]
    finally:
        journal.close()


def apply_of(book: Book) -> Any:
    """Returns what applies the house file that was last in force."""
    all_houses = houses.Houses(book, edition, "house.toml")
    return lambda name, dry, who: apply.apply(book, all_houses, name, dry, who)


def told(command: str, answer: Message, as_json: bool) -> int:
    """Prints an answer: what was done on standard output, why not on standard error. Returns the status."""
    status = int(answer.get("status", DONE))
    if as_json:
        print(json.dumps(answer, ensure_ascii=False))
    elif status == DONE:
        print(answer.get("text", ""))
    else:
        print(f"pressroom {command}: {answer.get('text')}", file=sys.stderr)
    return status


def give(command: str, words: argparse.Namespace, **message: Any) -> int:
    """Gives a command and prints its answer. Returns the status."""
    try:
        answer = ask(words.spool, {"command": command, "edition": words.edition, **message})
    except client.Down as down:
        answer = {"status": DOWN, "text": str(down)}
    return told(command, answer, words.json)


def seen(command: str, words: argparse.Namespace) -> Message | None:
    """Returns what is there now of a page, which a command names as what its user saw; None where it can't be said.

    With `--arrival N` the user names it himself; a command on anything else is refused as stale by the service.
    """
    try:
        state = ask(words.spool, {"ask": "status", "edition": words.edition})
    except client.Down as down:
        told(command, {"status": DOWN, "text": str(down)}, words.json)
        return None
    if "schema" not in state:
        told(command, state, words.json)
        return None
    pages = [page for one in state["editions"] for page in one["pages"] if page["page"] == words.page]
    if not pages:
        text = f"{words.edition} has no page {words.page}"
        told(command, {"status": REFUSED, "text": text}, words.json)
        return None
    page: Message = pages[0]
    return page
