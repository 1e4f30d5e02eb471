"""Messages between the service and its jobs, and what isn't one."""
import json
import os
import socket
from collections.abc import Iterator

import pytest

from pressroom.night import wire
from pressroom.night.records import MESSAGE

Ends = tuple[socket.socket, socket.socket]


@pytest.fixture
def ends() -> Iterator[Ends]:
    ours, theirs = socket.socketpair(socket.AF_UNIX, socket.SOCK_SEQPACKET)
    with ours, theirs:
        yield ours, theirs


def handles() -> int:
    return len(os.listdir("/proc/self/fd"))


def test_messages_stay_apart_and_in_order(ends: Ends) -> None:
    for number in range(3):
        wire.send(ends[0], {"number": number, "text": "Köln \U0001f5de"})
    got = [wire.receive(ends[1]) for _ in range(3)]
    assert got == [({"number": number, "text": "Köln \U0001f5de"}, []) for number in range(3)]
    ends[0].close()
    assert wire.receive(ends[1]) is None


def test_handles_come_in_their_order(ends: Ends) -> None:
    before = handles()
    files = [os.memfd_create(str(number)) for number in range(35)]
    for number, file in enumerate(files):
        os.write(file, str(number).encode())
    wire.send(ends[0], {"kind": "page"}, files)
    message = wire.receive(ends[1])
    assert message is not None
    assert [os.pread(file, 9, 0) for file in message[1]] == [str(number).encode() for number in range(35)]
    assert not any(os.get_inheritable(file) for file in message[1])
    for file in [*files, *message[1]]:
        os.close(file)
    assert handles() == before


@pytest.mark.parametrize("size", [MESSAGE - 11, MESSAGE - 10, 5_000_000])
def test_a_long_request_comes_whole(ends: Ends, size: int) -> None:
    before, file = handles(), os.memfd_create("more")
    os.write(file, b"beside it")
    wire.send(ends[0], {"text": "x" * size}, [file])
    message = wire.receive(ends[1])
    assert message is not None and message[0] == {"text": "x" * size}
    assert [os.pread(handle, 20, 0) for handle in message[1]] == [b"beside it"]
    for handle in [file, *message[1]]:
        os.close(handle)
    assert handles() == before


def test_an_answer_fits_into_one_message(ends: Ends) -> None:
    wire.answer(ends[1], {"text": "x" * (MESSAGE - 11)})
    assert wire.receive_answer(ends[0]) == {"text": "x" * (MESSAGE - 11)}
    with pytest.raises(wire.Malformed):
        wire.answer(ends[1], {"text": "x" * (MESSAGE - 10)})


@pytest.mark.parametrize(
    "data",
    [
        b"",
        b"no JSON",
        b"[]",
        b"3",
        b"\xff\xfe",
        b"[" * 90_000,
        b'{"a":' * 20_000,
        b'{"a":' + b"9" * 50_000 + b"}",
        json.dumps({"a": "x" * MESSAGE}).encode(),
        b"long",
    ],
    ids=lambda data: repr(data[:12]),
)
def test_what_isn_t_an_answer_is_refused(ends: Ends, data: bytes) -> None:
    """An answer comes from a process that read a stranger's page: whatever it sends ends in Malformed or None."""
    ends[1].send(data)
    if not data:
        assert wire.receive_answer(ends[0]) is None
        return
    with pytest.raises(wire.Malformed):
        wire.receive_answer(ends[0])


def test_handles_of_an_answer_are_refused(ends: Ends) -> None:
    """No handle of a job comes into the service: it could be a pipe that is never read to its end."""
    before = handles()
    inner, outer = os.pipe()
    socket.send_fds(ends[1], [b'{"verdict":"accepted"}'], [inner])
    with pytest.raises(wire.Malformed):
        wire.receive_answer(ends[0])
    for handle in (inner, outer):
        os.close(handle)
    assert handles() == before


def test_the_service_doesn_t_wait_for_an_answer(ends: Ends) -> None:
    ends[0].setblocking(False)
    with pytest.raises(BlockingIOError):
        wire.receive_answer(ends[0])


def test_a_request_to_a_job_that_is_gone_fails(ends: Ends) -> None:
    ends[1].close()
    with pytest.raises(OSError):
        wire.send(ends[0], {"kind": "plates"})
