"""Runs a program whose output a stranger decides: with a limit of time, and of what it prints."""
import os
import selectors
import subprocess
import time
from collections.abc import Sequence

MOST = 8 << 20


class Late(Exception):
    """The program took too long, and was killed."""


class TooMuch(Exception):
    """The program printed too much, and was killed."""


def call(words: Sequence[str], seconds: float, most: int = MOST) -> tuple[int, bytes, bytes]:
    """Runs a program. Returns its status, and at most `most` bytes of each of its outputs.

    Raises OSError if it can't be started, Late and TooMuch.
    """
    ends = time.monotonic() + seconds
    with subprocess.Popen(
        words, stdin=subprocess.DEVNULL, stdout=subprocess.PIPE, stderr=subprocess.PIPE
    ) as process, selectors.DefaultSelector() as selector:
        texts: dict[int, bytearray] = {}
        for stream in (process.stdout, process.stderr):
            assert stream is not None
            texts[stream.fileno()] = bytearray()
            selector.register(stream.fileno(), selectors.EVENT_READ)
        try:
            while selector.get_map():
                events = selector.select(max(0.0, ends - time.monotonic()))
                if not events:
                    raise Late()
                for key, _ in events:
                    data = os.read(key.fd, 65536)
                    texts[key.fd] += data
                    if not data:
                        selector.unregister(key.fd)
                    if len(texts[key.fd]) > most:
                        raise TooMuch()
            status = process.wait(max(0.1, ends - time.monotonic()))
        except subprocess.TimeoutExpired:
            raise Late() from None
        finally:
            process.kill()
    out, note = texts.values()
    return status, bytes(out), bytes(note)
