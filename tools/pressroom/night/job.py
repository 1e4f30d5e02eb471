"""A job of the night, at the other end of a socket of the service: `pressroom job page`, `plates` or `send`.

It answers request after request until the service closes the socket, and ends at once when that happens
while it works, with all that it started. It is started by systemd, which gives it the connection as handle
3, or by the service itself.
"""
import ctypes
import importlib
import os
import select
import socket
import sys
import threading
from collections.abc import Callable, Sequence
from typing import Any

from pressroom.night import family, wire
from pressroom.night.escapes import shown

Work = Callable[[dict[str, Any], Sequence[int]], dict[str, Any]]
# prctl's number by which orphans of a process's children become its own children (Linux, sys/prctl.h).
SUBREAPER = 36


def work_of(kind: str) -> Work:
    """Returns what answers the requests of a kind of job. Only its own modules are loaded."""
    if kind not in ("page", "plates", "send"):
        raise SystemExit(f"pressroom job: {kind!r} isn't a kind of job: page, plates or send")
    work: Work = importlib.import_module(f"pressroom.night.{kind}_job").work
    return work


def end_with(sock: socket.socket) -> None:
    """Waits until the service closes its end, and then ends this process with all that it started."""
    poll = select.poll()
    poll.register(sock, select.POLLRDHUP)
    while True:
        if any(event & (select.POLLRDHUP | select.POLLHUP | select.POLLERR) for _, event in poll.poll()):
            family.kill(family.descendants(os.getpid()))
            os._exit(0)


def serve(sock: socket.socket, work: Work) -> None:
    """Answers requests until the service closes its end."""
    while True:
        request = wire.receive(sock)
        if request is None:
            return
        message, handles = request
        try:
            answer = work(message, handles)
        except Exception as error:  # Whatever went wrong is the machine's fault, and the service's to tell.
            answer = {"verdict": "none", "why": shown(f"{type(error).__name__}: {error}"), "network": False}
            answer["failed"] = answer["why"]
        finally:
            for handle in handles:
                os.close(handle)
        wire.answer(sock, answer)


def main(words: Sequence[str] | None = None) -> int:
    """Runs a job of the kind that the arguments name."""
    words = sys.argv[1:] if words is None else words
    work = work_of(words[0] if len(words) == 1 else "")
    sock = socket.socket(fileno=int(os.environ.pop("PRESSROOM_JOB", "3")))
    os.set_inheritable(sock.fileno(), False)
    ctypes.CDLL(None).prctl(SUBREAPER, 1, 0, 0, 0)
    threading.Thread(target=end_with, args=[sock], daemon=True).start()
    try:
        serve(sock, work)
    except (wire.Malformed, OSError) as error:
        print(f"pressroom job: {error}", file=sys.stderr)
        return 1
    return 0


if __name__ == "__main__":
    sys.exit(main())
