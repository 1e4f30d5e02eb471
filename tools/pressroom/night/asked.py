"""Answers what comes over the sockets: commands from desk.sock, questions from look.sock."""
from collections.abc import Callable
from typing import Any

from pressroom.night import desk, events, status, status_pair
from pressroom.night.book import Book, Refused
from pressroom.night.sockets import Client, who_of

DONE, REFUSED, MALFORMED = 0, 1, 2
MOST_WORD, BATCH = 300, 500
Message = dict[str, Any]


class Malformed(Exception):
    """A message lacks something; the text names it."""


def text(message: Message, key: str, default: str | None = None) -> str:
    """Returns a text of a message. Half a character, such as a byte that isn't UTF-8 becomes in JSON, is refused:
    the journal can't look for it."""
    value = message.get(key, default)
    if not isinstance(value, str) or len(value) > MOST_WORD:
        raise Malformed(f"{key} isn't a text of at most {MOST_WORD} letters")
    if any("\ud800" <= sign <= "\udfff" for sign in value):
        raise Malformed(f"{key} isn't UTF-8")
    return value


def maybe(message: Message, key: str) -> str | None:
    """Returns a text of a message, or None where it has none."""
    return None if message.get(key) is None else text(message, key)


def number(message: Message, key: str) -> int:
    """Returns a whole number of a message."""
    value = message.get(key)
    if not isinstance(value, int) or isinstance(value, bool) or not 0 <= value < 2**62:
        raise Malformed(f"{key} isn't a whole number")
    return value


class Asked:
    """Answers messages. `live` says what the service knows besides its journal; `apply` changes an edition's house."""

    def __init__(
        self,
        book: Book,
        live: Callable[[], status.Live],
        apply: Callable[[str, bool, str], desk.Answer] | None = None,
    ):
        self.book, self.live, self.apply = book, live, apply

    def answer(self, client: Client, message: Message) -> Message | None:
        """Returns the answer to a message, or None where the events say it."""
        try:
            if client.desk and "command" in message:
                said = self.command(message, who_of(client, message))
                return {"status": DONE, "text": said.text, **said.more}
            if message.get("ask") == "status":
                return self.status(message)
            if message.get("ask") == "events":
                return self.events(client, message)
        except Refused as refused:
            return {"status": REFUSED, "text": str(refused)}
        except Malformed as malformed:
            return {"status": MALFORMED, "text": str(malformed)}
        return {"status": MALFORMED, "text": "unknown question" if not client.desk else "unknown command"}

    def command(self, message: Message, who: str) -> desk.Answer:
        """Does a command."""
        name, book = text(message, "command"), self.book
        edition = text(message, "edition", "")
        asker = desk.Asker(who, text(message, "word", ""))
        if name == "hold":
            return desk.hold(book, edition, text(message, "page"), asker)
        if name == "release":
            return desk.release(book, edition, text(message, "page"), number(message, "arrival"), asker)
        if name in ("approve", "reject"):
            verdict = "approved" if name == "approve" else "rejected"
            seen = number(message, "arrival"), number(message, "render")
            return desk.judge(book, verdict, edition, text(message, "page"), *seen, asker)
        if name == "resend":
            which = text(message, "site"), maybe(message, "pair"), maybe(message, "ink")
            return desk.resend(book, edition, *which, text(message, "reason"), asker)
        if name == "cancel":
            return desk.cancel(book, edition, asker)
        if name == "house" and self.apply is not None:
            return self.apply(edition, message.get("dry") is True, who)
        raise Malformed(f"{name} isn't a command")

    def status(self, message: Message) -> Message:
        edition, pair = maybe(message, "edition"), maybe(message, "pair")
        if edition is not None:
            self.book.edition(edition)
        if pair is not None:
            return status_pair.pair_status(self.book, edition or "", pair)
        return status.status(self.book, self.live(), edition)

    def events(self, client: Client, message: Message) -> Message | None:
        """Begins to tell the events after a number. Without `follow` the last line has status 0."""
        client.follows, client.edition = number(message, "since"), maybe(message, "edition")
        self.tell(client)
        if message.get("follow") is True:
            return None
        client.follows = None
        return {"status": DONE, "text": "", "seq": self.last()}

    def last(self) -> int:
        return int(self.book.journal.value("SELECT max(seq) FROM event") or 0)

    def tell(self, client: Client) -> None:
        """Tells a client the events that it wasn't told yet, at most BATCH at once."""
        if client.follows is None:
            return
        where, values = ("", ()) if client.edition is None else (" AND edition = ?", (client.edition,))
        sql = f"SELECT * FROM event WHERE seq > ?{where} ORDER BY seq LIMIT {BATCH}"
        for row in self.book.journal.rows(sql, client.follows, *values):
            client.tell(events.record(row))
            client.follows = row["seq"]
