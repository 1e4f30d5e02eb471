"""The other end of the service's sockets: one question and its answer, or the events as they come."""
import json
import os
import socket
from collections.abc import Iterator
from typing import Any

from pressroom.night.sockets import run_folder

MOST = 64_000_000
DOWN = 3


class Down(Exception):
    """No service listens; the text names the socket."""


def connect(spool: str, name: str, seconds: float = 60.0) -> socket.socket:
    """Connects to a socket of the service; raises Down."""
    path = os.path.join(run_folder(spool), name)
    sock = socket.socket(socket.AF_UNIX, socket.SOCK_STREAM)
    sock.settimeout(seconds)
    try:
        sock.connect(path)
    except OSError as error:
        sock.close()
        raise Down(f"{path}: {error.strerror}; is pressroom night running?") from None
    return sock


def lines(sock: socket.socket) -> Iterator[dict[str, Any]]:
    """Yields the objects that the service says, until it closes."""
    held = b""
    while True:
        data = sock.recv(65_536)
        if not data:
            return
        held += data
        if len(held) > MOST:
            raise Down("the service says more than is read")
        while b"\n" in held:
            line, _, held = held.partition(b"\n")
            value = json.loads(line)
            if isinstance(value, dict):
                yield value


def ask(spool: str, name: str, message: dict[str, Any]) -> dict[str, Any]:
    """Asks once, and returns the answer; raises Down where there is none."""
    with connect(spool, name) as sock:
        sock.sendall(json.dumps(message).encode() + b"\n")
        try:
            for value in lines(sock):
                return value
        except OSError as error:
            raise Down(f"the service gives no answer: {error}") from None
    raise Down("the service ended without an answer")


def command(spool: str, **message: Any) -> dict[str, Any]:
    """Gives a command."""
    return ask(spool, "desk.sock", message)


def status(spool: str, edition: str | None = None, pair: str | None = None) -> dict[str, Any]:
    """Returns the status, or a pair's history."""
    return ask(spool, "look.sock", {"ask": "status", "edition": edition, "pair": pair})


def events(
    spool: str, since: int, edition: str | None = None, follow: bool = True
) -> Iterator[dict[str, Any]]:
    """Yields the events after a number, and those that come."""
    with connect(spool, "look.sock") as sock:
        sock.sendall(
            json.dumps({"ask": "events", "since": since, "edition": edition, "follow": follow}).encode()
            + b"\n"
        )
        sock.settimeout(None)
        yield from lines(sock)
