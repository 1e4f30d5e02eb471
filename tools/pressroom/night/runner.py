"""Starts the jobs of the night, and asks them.

Where systemd has sockets for them, a job is a unit of its own, which begins with the connection and ends with
it. Otherwise it is a child of the service, with the same program at the other end of a pair of sockets.
"""
import os
import shutil
import signal
import socket
import subprocess
import sys
import time
from collections.abc import Callable, Mapping, Sequence
from typing import Any

from pressroom.night import family, sandbox, wire
from pressroom.night.records import Kind

TOOLS = os.path.normpath(os.path.join(os.path.dirname(os.path.abspath(__file__)), "..", ".."))
# The variable that tells a job its handle of the socket; systemd gives it as handle 3.
HANDLE = "PRESSROOM_JOB"


class Job:
    """A job that runs: the service's end of its socket, and its process where it is a child."""

    def __init__(
        self, kind: Kind, sock: socket.socket, child: "subprocess.Popen[bytes] | None", scratch: str
    ):
        self.kind, self.sock, self.child, self.scratch = kind, sock, child, scratch
        self.ends = time.monotonic() + sandbox.LIMITS[kind].seconds
        self.why = "ended without an answer"
        sock.setblocking(False)

    def fileno(self) -> int:
        """Returns the handle to wait for."""
        return self.sock.fileno()

    def ask(self, request: Mapping[str, Any], handles: Sequence[int] = ()) -> None:
        """Sends a request; raises OSError where the job is gone."""
        wire.send(self.sock, request, handles)

    def answer(self) -> dict[str, Any] | None:
        """Returns the answer that is there; None where the job ended without one, and `why` says how.

        Raises BlockingIOError if neither is so yet. What isn't an answer ends the job.
        """
        try:
            said = wire.receive_answer(self.sock)
        except wire.Malformed as error:
            self.why, said = f"answered what isn't one: {error}", None
        except ConnectionError:
            said = None
        if said is None and self.child is not None:
            self.see_end(self.child)
        return said

    def see_end(self, child: "subprocess.Popen[bytes]") -> None:
        """Notes how a child ended, if it did."""
        try:
            status = child.wait(0.05)
        except subprocess.TimeoutExpired:
            return
        if status < 0:
            self.why = f"killed by {signal.Signals(-status).name}"
        elif status:
            self.why = f"ended with status {status}"

    def late(self, now: float | None = None) -> bool:
        """Returns whether its time is over, by time.monotonic()."""
        return (time.monotonic() if now is None else now) > self.ends

    def stop(self) -> None:
        """Ends the job and all its processes. It doesn't wait for one that hangs in the kernel."""
        self.sock.close()
        if self.child is not None:
            family.kill([self.child.pid, *family.descendants(self.child.pid)])
            self.see_end(self.child)
        if self.scratch:
            shutil.rmtree(self.scratch, ignore_errors=True)
            self.scratch = ""


class Runner:
    """Starts jobs: by the sockets of `run`, where it has them, or as children.

    `spool` is the folder of the spool, `program` the path of plateroom, `targets` returns the folders of sites
    into which a job may write, and `held` handles that children inherit, except those of strangers' pages: such
    as one with a lock for as long as any of them runs.
    """

    def __init__(
        self,
        spool: str,
        run: str,
        program: str,
        targets: Callable[[], Sequence[str]] = tuple,
        held: Sequence[int] = (),
    ):
        self.spool, self.run = os.path.abspath(spool), os.path.abspath(run)
        self.program, self.targets, self.held = os.path.abspath(program), targets, list(held)
        self.number = 0

    def socket_of(self, kind: Kind) -> str:
        """Returns the path of the socket at which systemd starts jobs of a kind."""
        return os.path.join(self.run, f"{kind}.sock")

    def has_units(self) -> bool:
        """Returns whether systemd starts the jobs."""
        return all(os.path.exists(self.socket_of(kind)) for kind in sandbox.LIMITS)

    def missing(self) -> list[str]:
        """Returns what protects jobs of systemd's units and is missing here; nothing where it starts them."""
        if self.has_units():
            return []
        missing = [
            "a user of their own for pages and deliveries",
            "limits of memory for all of a job's processes",
        ]
        if not sandbox.has_rooms():
            missing.insert(
                0, "any isolation: bwrap isn't installed or not permitted, so take no strangers' pages"
            )
        return missing

    def start(self, kind: Kind) -> Job:
        """Starts a job; raises OSError, the machine's fault."""
        if self.has_units():
            sock = socket.socket(socket.AF_UNIX, socket.SOCK_SEQPACKET)
            try:
                sock.setblocking(False)
                sock.connect(self.socket_of(kind))
            except OSError:
                sock.close()
                raise
            return Job(kind, sock, None, "")
        self.number += 1
        scratch = os.path.join(self.spool, "making", f"scratch-{os.getpid()}-{self.number}")
        os.mkdir(scratch, 0o700)
        ours, theirs = socket.socketpair(socket.AF_UNIX, socket.SOCK_SEQPACKET)
        try:
            child = self.child(kind, theirs.fileno(), scratch)
        except OSError:
            ours.close()
            shutil.rmtree(scratch, ignore_errors=True)
            raise
        finally:
            theirs.close()
        return Job(kind, ours, child, scratch)

    def child(self, kind: Kind, handle: int, scratch: str) -> "subprocess.Popen[bytes]":
        """Starts a child with its limits, in a room of its own where that is possible."""
        words = sandbox.limited(kind)
        if sandbox.has_rooms():
            needed = [TOOLS, *([self.program] if kind == "plates" else [])]
            words += sandbox.room(kind, self.spool, scratch, needed, self.targets())
        words += [sys.executable, "-B", "-m", "pressroom.night.job", kind]
        return subprocess.Popen(
            words,
            cwd=scratch,
            stdin=subprocess.DEVNULL,
            stdout=subprocess.DEVNULL,
            stderr=subprocess.DEVNULL,
            env=self.environment(handle, scratch),
            start_new_session=True,
            pass_fds=[handle, *([] if kind == "page" else self.held)],
        )

    def environment(self, handle: int, scratch: str) -> dict[str, str]:
        """Returns the environment of a child: what it needs, and nothing of the service's own."""
        kept = {name: os.environ[name] for name in ("PATH", "LANG", "SSH_AUTH_SOCK") if name in os.environ}
        return kept | {
            HANDLE: str(handle),
            "PLATEROOM": self.program,
            "PYTHONPATH": TOOLS,
            "HOME": os.path.expanduser("~"),
            "TMPDIR": scratch,
            "OPENBLAS_NUM_THREADS": "1",
        }
