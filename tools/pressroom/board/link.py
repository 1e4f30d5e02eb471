"""The board's connection to the service: the newest status, asked for when an event comes and every few seconds.

One thread asks for all browsers, so that a hundred of them cost the service no more than one. Where the service is down,
slow or says what isn't a status, the last status stays, with its time and what is wrong.
"""
import hashlib
import json
import select
import socket
import threading
import time
from collections.abc import Callable
from dataclasses import dataclass
from typing import Any

from pressroom.night import client
from pressroom.night.status import SCHEMA

State = dict[str, Any]
# Seconds: until an answer is given up, between two questions at least and at most, and until the board isn't live.
PATIENCE, LEAST, MOST, LIVE = 10.0, 0.5, 10.0, 20.0
# A question is asked again after this many times as long as it took, so that questions take a tenth of the service's
# time at most; where nothing happened, after twenty times that and at least TICK seconds.
REST, IDLE, TICK = 10.0, 20.0, 2.0
HISTORIES = 256


class NoAnswer(Exception):
    """The service gave no answer, or none that can be read; the text says why."""


@dataclass(frozen=True)
class Seen:
    """What the service said last. `at` is when it came, by time.time(); `fault` is why nothing newer is there."""

    state: State | None = None
    at: float = 0.0
    stamp: str = ""
    fault: str | None = None

    def is_live(self, now: float) -> bool:
        """Returns whether it is no older than LIVE seconds, and nothing is wrong."""
        return self.state is not None and self.fault is None and now - self.at <= LIVE


def ask(spool: str, name: str, message: State, seconds: float = PATIENCE) -> State:
    """Asks the service once. Raises NoAnswer."""
    try:
        with client.connect(spool, name, seconds) as sock:
            sock.sendall(json.dumps(message).encode() + b"\n")
            for value in client.lines(sock):
                return value
    except client.Down as down:
        raise NoAnswer(str(down)) from None
    except TimeoutError:
        raise NoAnswer(f"the service gave no answer within {seconds:.0f} s") from None
    except (OSError, ValueError, RecursionError) as error:
        raise NoAnswer(f"the service's answer can't be read: {error}") from None
    raise NoAnswer("the service ended without an answer")


def stamp_of(state: State) -> str:
    """Returns a sum of all of a status that the board shows, without its time and what changes all the time."""
    disk = state["service"]["disk"]
    service = state["service"] | {"disk": disk | {"free_bytes": disk["free_bytes"] // 10**9}, "pass": None}
    shown = {key: value for key, value in state.items() if key != "time"} | {"service": service}
    return hashlib.sha256(json.dumps(shown, sort_keys=True).encode()).hexdigest()[:16]


class Link:
    """Keeps the newest status of a spool's service, and passes on questions and commands."""

    def __init__(self, spool: str, fresh: Callable[[State], None] = lambda state: None):
        """`fresh` is called with each status that differs from the last one."""
        self.spool, self.fresh = spool, fresh
        self.seen = Seen()
        self.took = 0.0
        self.events: socket.socket | None = None
        self.histories: dict[tuple[str, str], tuple[str, State]] = {}
        self.lock = threading.Lock()

    def begin(self) -> None:
        """Asks for the first time, and then in a thread of its own."""
        self.look()
        threading.Thread(target=self.run, name="link", daemon=True).start()

    def run(self) -> None:
        """Looks whenever something happened, and every few seconds."""
        while True:
            begun = time.monotonic()
            self.wait(min(MOST, max(TICK, IDLE * self.took)))
            rest = min(MOST, max(LEAST, REST * self.took)) - (time.monotonic() - begun)
            time.sleep(max(0.0, rest))
            self.look()

    def look(self) -> None:
        """Asks for the status. What isn't one is a fault, and the last status stays."""
        begun = time.monotonic()
        try:
            state = ask(self.spool, "look.sock", {"ask": "status"})
            if state.get("schema") != SCHEMA:
                raise NoAnswer(f"the service says {str(state.get('text') or state)[:200]!r}, not {SCHEMA}")
            stamp = stamp_of(state)
            if stamp != self.seen.stamp:
                self.fresh(state)
        except NoAnswer as fault:
            self.fail(str(fault))
        except (KeyError, TypeError, AttributeError) as error:
            self.fail(f"the service's status can't be read: {type(error).__name__} {error}")
        else:
            self.took = time.monotonic() - begun
            self.seen = Seen(state, time.time(), stamp)

    def fail(self, fault: str) -> None:
        """Notes why there is no newer status."""
        last = self.seen
        self.seen = Seen(last.state, last.at, last.stamp, fault)
        self.close()

    def wait(self, seconds: float) -> None:
        """Waits until the service tells an event, or for some seconds."""
        if self.events is None and not self.follow():
            time.sleep(seconds)
            return
        assert self.events is not None
        try:
            ready, _, _ = select.select([self.events], [], [], seconds)
            if ready and not self.events.recv(1 << 20):
                self.close()
        except OSError:
            self.close()

    def follow(self) -> bool:
        """Begins to follow the events. Returns whether the service is there."""
        if self.seen.state is None or self.seen.fault is not None:
            return False
        since = self.seen.state["service"]["journal"]["entries"]
        try:
            self.events = client.connect(self.spool, "look.sock", PATIENCE)
            self.events.sendall(
                json.dumps({"ask": "events", "since": since, "follow": True}).encode() + b"\n"
            )
        except (client.Down, OSError):
            self.close()
        return self.events is not None

    def close(self) -> None:
        """Ends the following of events."""
        if self.events is not None:
            self.events.close()
            self.events = None

    def pair(self, edition: str, pair: str) -> State:
        """Returns the history of a pair, asked for once for each status. Raises NoAnswer."""
        key, stamp = (edition, pair), self.seen.stamp
        with self.lock:
            kept = self.histories.get(key)
        if kept is not None and kept[0] == stamp:
            return kept[1]
        history = ask(self.spool, "look.sock", {"ask": "status", "edition": edition, "pair": pair})
        if "versions" not in history:
            raise NoAnswer(str(history.get("text")))
        with self.lock:
            if len(self.histories) >= HISTORIES:
                self.histories.clear()
            self.histories[key] = (stamp, history)
        return history

    def command(self, message: State) -> State:
        """Gives a command, and looks at once. Raises NoAnswer: then it isn't known whether it was done."""
        try:
            return ask(self.spool, "desk.sock", message)
        finally:
            self.look()
