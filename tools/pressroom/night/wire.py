"""Messages between the service and its jobs: one JSON object in each, over a UNIX socket that keeps messages
apart (SOCK_SEQPACKET), with open handles beside them (SCM_RIGHTS).

A message has at most MESSAGE bytes. A longer request goes as a file in memory, which is the first of its
handles: a job may read what the service gave it. An answer never does, since the service reads no file of a
job, and waits for none.
"""
import array
import json
import os
import socket
from collections.abc import Mapping, Sequence
from typing import Any

from pressroom.night.below import write_all
from pressroom.night.records import MESSAGE

# The most handles that come with a message (the kernel's own limit is 253), and the longest request.
HANDLES, LONGEST = 64, 32 << 20
LONG = b"long"


class Malformed(Exception):
    """What came isn't a message; the text says why."""


def send(sock: socket.socket, message: Mapping[str, Any], handles: Sequence[int] = ()) -> None:
    """Sends a message, and copies of open handles with it. Raises OSError if the other end is gone."""
    data = json.dumps(message, separators=(",", ":")).encode()
    if len(data) <= MESSAGE:
        socket.send_fds(sock, [data], list(handles))
        return
    file = os.memfd_create("message", os.MFD_CLOEXEC)
    try:
        write_all(file, data)
        socket.send_fds(sock, [LONG], [file, *handles])
    finally:
        os.close(file)


def answer(sock: socket.socket, message: Mapping[str, Any]) -> None:
    """Sends an answer of a job, which must fit into one message."""
    data = json.dumps(message, separators=(",", ":")).encode()
    if len(data) > MESSAGE:
        raise Malformed(f"an answer of {len(data)} bytes")
    sock.send(data)


def receive(sock: socket.socket) -> tuple[dict[str, Any], list[int]] | None:
    """Returns a request and its handles, or None when the other end was closed."""
    data, handles = packet(sock, HANDLES)
    try:
        if data == LONG and handles:
            data = contents(handles.pop(0))
        return (parsed(data), handles) if data else None
    except Malformed:
        for handle in handles:
            os.close(handle)
        raise


def receive_answer(sock: socket.socket) -> dict[str, Any] | None:
    """Returns a job's answer, or None when the job's end was closed. No handle is accepted with it."""
    data, _ = packet(sock, 0)
    return parsed(data) if data else None


def packet(sock: socket.socket, most: int) -> tuple[bytes, list[int]]:
    """Returns the bytes of one message, and the handles that came with it."""
    numbers = array.array("i")
    room = socket.CMSG_LEN(most * numbers.itemsize) if most else 0
    data, more, flags, _ = sock.recvmsg(MESSAGE + 1, room, socket.MSG_CMSG_CLOEXEC)
    for level, kind, held in more:
        if level == socket.SOL_SOCKET and kind == socket.SCM_RIGHTS:
            numbers.frombytes(held[: len(held) - len(held) % numbers.itemsize])
    handles = numbers.tolist()
    if flags & (socket.MSG_TRUNC | socket.MSG_CTRUNC) or len(data) > MESSAGE:
        for handle in handles:
            os.close(handle)
        raise Malformed("longer than a message, or with more handles than it may have")
    return data, handles


def contents(handle: int) -> bytes:
    """Returns what a file in memory holds, and closes it."""
    with open(handle, "rb") as file:
        file.seek(0)
        data = file.read(LONGEST + 1)
    if len(data) > LONGEST:
        raise Malformed(f"more than {LONGEST} bytes")
    return data


def parsed(data: bytes) -> dict[str, Any]:
    """Returns the JSON object that a message is."""
    try:
        value = json.loads(data)
    except (ValueError, RecursionError):
        raise Malformed("not JSON, or nested too deeply") from None
    if not isinstance(value, dict):
        raise Malformed("not a JSON object")
    return value
