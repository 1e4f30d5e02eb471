"""Starts the board: its link to the service, its pictures, and waitress on a UNIX socket or on 127.0.0.1."""
import argparse
import os
import re
import signal
import socket
import tempfile
from typing import TYPE_CHECKING, Any

from pressroom.base.command_line import Parser
from pressroom.base.console import Console, need_libraries
from pressroom.base.faults import Fault

if TYPE_CHECKING:
    from flask import Flask

LISTEN = "127.0.0.1:8094"
# waitress: threads that answer, connections at most, and seconds that a silent one lasts.
THREADS, CONNECTIONS, SILENT = 8, 1000, 60
# Bytes of a request's head and of a form at most.
MOST_HEADER, MOST_BODY = 16_384, 65_536
SYSTEMD_SOCKET = 3


def add_arguments(parser: Parser) -> None:
    """Adds the arguments of `pressroom board`."""
    parser.add_argument("spool", metavar="SPOOL", help="the folder of the spool")
    parser.add_argument(
        "--listen",
        metavar="127.0.0.1:PORT",
        type=address,
        default=LISTEN,
        help=f"where it listens ({LISTEN})",
    )
    parser.add_argument(
        "--socket",
        metavar="PATH",
        help="listen at a UNIX socket instead, for a reverse proxy that names users",
    )
    parser.add_argument(
        "--actions", action="store_true", help="let users approve, reject, hold, release, resend and cancel"
    )
    parser.add_argument(
        "--actors", metavar="NAMES", default="", help="with --actions: only these users, with commas between"
    )
    parser.add_argument(
        "--cache", metavar="FOLDER", help="keep pictures in this folder (default: a temporary one)"
    )


def address(text: str) -> str:
    """Reads an address: this machine's own, and a port."""
    named = re.fullmatch(r"(?:127\.0\.0\.1|localhost):([0-9]{1,5})", text)
    if named is None or not int(named[1]) < 65536:
        raise argparse.ArgumentTypeError(f"{text!r} isn't 127.0.0.1:PORT; other machines come by a proxy")
    return f"127.0.0.1:{named[1]}"


def from_systemd() -> socket.socket | None:
    """Returns the socket that systemd opened for this process; raises Fault where it isn't a UNIX socket."""
    if os.environ.get("LISTEN_PID") != str(os.getpid()) or os.environ.get("LISTEN_FDS") != "1":
        return None
    sock = socket.socket(fileno=SYSTEMD_SOCKET)
    if sock.family != socket.AF_UNIX:
        raise Fault("the socket of pressroom-board.socket isn't a UNIX socket")
    return sock


def run(words: argparse.Namespace) -> int:
    """Serves until it is ended. Returns the status."""
    need_libraries("flask", "waitress")
    from pressroom.board.actions import Guard

    given = from_systemd()
    trusts = given is not None or words.socket is not None
    if words.actions and not trusts:
        raise Fault("--actions needs --socket: only a proxy at a UNIX socket can say who acts")
    actors = frozenset(name.strip() for name in words.actors.split(",") if name.strip())
    if actors and not words.actions:
        raise Fault("--actors needs --actions")
    guard = Guard(words.actions, trusts, actors)
    cache = words.cache or os.environ.get("CACHE_DIRECTORY")
    if cache:
        os.makedirs(cache, exist_ok=True)
        return serve(words, guard, cache, given)
    with tempfile.TemporaryDirectory(prefix="pressroom-board-") as folder:
        return serve(words, guard, folder, given)


def serve(words: argparse.Namespace, guard: Any, cache: str, given: socket.socket | None) -> int:
    """Builds the application and serves it."""
    import waitress

    from pressroom.board.app import Board, make_app
    from pressroom.board.link import Link
    from pressroom.board.pictures import Pictures
    from pressroom.board.view import all_sums

    pictures = Pictures(os.path.abspath(words.spool), cache)
    link = Link(words.spool, lambda state: pictures.want(all_sums(state)))
    pictures.begin()
    link.begin()
    app: "Flask" = make_app(Board(link, pictures, guard))
    console = Console("pressroom board", words.json)
    console.tell("listens", place_of(words, given))
    signal.signal(signal.SIGTERM, end)
    waitress.serve(
        app,
        threads=THREADS,
        connection_limit=CONNECTIONS,
        channel_timeout=SILENT,
        asyncore_use_poll=True,
        max_request_body_size=MOST_BODY,
        max_request_header_size=MOST_HEADER,
        ident=None,
        _quiet=True,
        **listens(words, given),
    )
    return 0


def listens(words: argparse.Namespace, given: socket.socket | None) -> dict[str, Any]:
    """Returns where waitress listens."""
    if given is not None:
        return {"sockets": [given]}
    if words.socket is not None:
        return {"unix_socket": words.socket, "unix_socket_perms": "660"}
    return {"listen": words.listen}


def place_of(words: argparse.Namespace, given: socket.socket | None) -> str:
    """Returns where the board listens, in words."""
    if given is not None:
        return "at the socket of systemd"
    return f"at {words.socket}" if words.socket is not None else f"at http://{words.listen}/"


def end(*_: object) -> None:
    """Ends the board when systemd or a person says so."""
    raise SystemExit(0)
