"""Jobs as children of the service: that they answer, end, are ended, and reach nothing that they needn't."""
import os
import select
import shutil
import signal
import time
from collections.abc import Iterator
from pathlib import Path
from typing import Any

import pytest

from pressroom.night import family, runner, sandbox
from pressroom.night.records import Kind

FOLDERS = ("in", "grab", "making", "store", "renders", "plates", "journal", "run", "out", "scratch")
NEEDED = ("prlimit", "setpriv")

pytestmark = pytest.mark.skipif(
    not all(map(shutil.which, NEEDED)), reason="util-linux's prlimit and setpriv aren't installed"
)


@pytest.fixture
def spool(tmp_path: Path) -> Path:
    for name in FOLDERS:
        (tmp_path / name).mkdir()
        (tmp_path / name / "kept").write_text(name)
    return tmp_path


@pytest.fixture
def way(spool: Path) -> Iterator[runner.Runner]:
    program = spool / "plateroom"
    program.write_text("#!/bin/sh\nexec sleep 100\n")
    program.chmod(0o755)
    yield runner.Runner(str(spool), str(spool / "run"), str(program), lambda: [str(spool / "out")])


def wait(job: runner.Job, seconds: float = 20) -> bool:
    return bool(select.select([job], [], [], seconds)[0])


def answer(job: runner.Job) -> dict[str, Any] | None:
    assert wait(job)
    return job.answer()


def tried(way: runner.Runner, kind: Kind, program: str, monkeypatch: pytest.MonkeyPatch) -> str:
    """Runs a program in the place of a job, with its limits and its room. Returns what it printed."""
    report = Path(way.spool) / "report"
    words = "import os, runpy, sys; print(eval(sys.argv[1]))"
    monkeypatch.setattr(sandbox, "LIMITS", dict(sandbox.LIMITS))
    room = sandbox.room(kind, way.spool, os.path.join(way.spool, "scratch"), [], way.targets())
    full = [
        *sandbox.limited(kind),
        *(room if sandbox.has_rooms() else []),
        "/usr/bin/python3",
        "-c",
        words,
        program,
    ]
    status = os.system(f"{' '.join(map(quoted, full))} > {quoted(str(report))} 2>&1")
    assert status == 0, report.read_text()
    return report.read_text().strip()


def quoted(word: str) -> str:
    return "'" + word.replace("'", "'\\''") + "'"


def test_a_job_answers_request_after_request(way: runner.Runner) -> None:
    job = way.start("send")
    target = {"name": "folder", "target": f"{way.spool}/out"}
    for name in ("MON/A-001/000001-aa", "MON/A-001/000002-bb"):
        job.ask({"kind": "look", "method": target, "expected": {name: "text"}})
        got = answer(job)
        assert got is not None and got["seen"] == {} and got["acked"] == []
    job.stop()
    assert os.listdir(f"{way.spool}/making") == ["kept"]


def test_a_job_ends_when_its_connection_closes(way: runner.Runner) -> None:
    job = way.start("send")
    assert job.child is not None
    job.sock.close()
    assert job.child.wait(10) == 0
    job.stop()


def test_a_job_that_works_ends_with_all_that_it_started(way: runner.Runner, spool: Path) -> None:
    """The program hangs; when the service lets go of the job, job and program are gone."""
    job = way.start("plates")
    assert job.child is not None
    plan = {"sites": [{"name": "OSLO"}], "sections": [], "pages": [], "edition": "MON"}
    job.ask({"kind": "whole", "plan": plan, "files": str(spool / "renders"), "site": "OSLO", "plates": {}})
    pids: list[int] = []
    for _ in range(200):
        pids = family.descendants(job.child.pid)
        if any(is_sleep(pid) for pid in pids):
            break
        time.sleep(0.05)
    assert any(is_sleep(pid) for pid in pids)
    with pytest.raises(BlockingIOError):
        job.answer()
    job.stop()
    job.stop()
    gone = time.monotonic() + 10
    while any(is_alive(pid) for pid in pids) and time.monotonic() < gone:
        time.sleep(0.05)
    assert not [pid for pid in pids if is_alive(pid)]


def is_sleep(pid: int) -> bool:
    try:
        return Path(f"/proc/{pid}/comm").read_text().strip() == "sleep"
    except OSError:
        return False


def is_alive(pid: int) -> bool:
    try:
        return Path(f"/proc/{pid}/stat").read_text().rpartition(")")[2].split()[0] != "Z"
    except OSError:
        return False


def test_a_job_that_is_killed_says_by_what(way: runner.Runner) -> None:
    job = way.start("send")
    assert job.child is not None
    job.ask({"kind": "look", "method": {"name": "folder", "target": f"{way.spool}/out"}, "expected": {}})
    assert answer(job)
    os.kill(job.child.pid, signal.SIGKILL)
    assert answer(job) is None
    assert job.why == "killed by SIGKILL"
    job.stop()


def test_a_job_whose_request_is_nonsense_lives_on(way: runner.Runner) -> None:
    job = way.start("send")
    job.ask({"kind": "look"})
    got = answer(job)
    assert got is not None and got["failed"] == "KeyError: 'method'" and got["network"] is False
    job.ask({"kind": "look", "method": {"name": "folder", "target": f"{way.spool}/out"}, "expected": {}})
    got = answer(job)
    assert got is not None and got["seen"] == {}
    job.stop()


def test_a_job_has_a_limit_of_time(way: runner.Runner) -> None:
    job = way.start("send")
    assert not job.late()
    assert job.late(time.monotonic() + sandbox.LIMITS["send"].seconds + 1)
    job.stop()


@pytest.mark.parametrize("kind", ["page", "plates", "send"])
def test_limits_are_set(way: runner.Runner, kind: Kind, monkeypatch: pytest.MonkeyPatch) -> None:
    said = tried(way, kind, "[__import__('resource').getrlimit(n)[0] for n in (9, 1, 0, 4)]", monkeypatch)
    limits = sandbox.LIMITS[kind]
    assert said == str([limits.memory << 20, limits.output << 20, limits.cpu, 0])


@pytest.mark.skipif(not sandbox.has_rooms(), reason="bwrap isn't installed or not permitted")
@pytest.mark.parametrize(
    "kind, seen",
    [
        ("page", {"scratch"}),
        ("plates", {"scratch", "making", "renders", "plates"}),
        ("send", {"scratch", "renders", "plates", "out"}),
    ],
)
def test_a_room_shows_only_what_its_job_needs(
    way: runner.Runner, kind: Kind, seen: set[str], monkeypatch: pytest.MonkeyPatch
) -> None:
    paths = [f"{way.spool}/{name}/kept" for name in FOLDERS]
    said = tried(way, kind, f"[os.path.exists(p) for p in {paths!r}]", monkeypatch)
    assert {name for name, is_seen in zip(FOLDERS, eval(said)) if is_seen} == seen


@pytest.mark.skipif(not sandbox.has_rooms(), reason="bwrap isn't installed or not permitted")
@pytest.mark.parametrize(
    "kind, wanted", [("page", ["scratch"]), ("plates", ["scratch", "making"]), ("send", ["scratch", "out"])]
)
def test_a_room_lets_write_only_where_its_job_must(
    way: runner.Runner, kind: Kind, wanted: list[str], monkeypatch: pytest.MonkeyPatch
) -> None:
    paths = [f"{way.spool}/{name}" for name in FOLDERS]
    tried(way, kind, f"[os.system('touch %s/new 2>/dev/null' % path) for path in {paths!r}]", monkeypatch)
    assert [name for name in FOLDERS if os.path.exists(f"{way.spool}/{name}/new")] == sorted(
        wanted, key=FOLDERS.index
    )


@pytest.mark.skipif(not sandbox.has_rooms(), reason="bwrap isn't installed or not permitted")
@pytest.mark.parametrize("kind, has", [("page", False), ("plates", False), ("send", True)])
def test_only_deliveries_have_a_network(
    way: runner.Runner, kind: Kind, has: bool, monkeypatch: pytest.MonkeyPatch
) -> None:
    said = tried(
        way,
        kind,
        "sorted(os.listdir('/proc/self/net') and open('/proc/net/dev').read().split())",
        monkeypatch,
    )
    others = [word for word in eval(said) if word.endswith(":") and word != "lo:"]
    here = [line.split()[0] for line in open("/proc/net/dev") if ":" in line and "lo:" not in line]
    assert others == (sorted(here) if has else [])


@pytest.mark.skipif(not sandbox.has_rooms(), reason="bwrap isn't installed or not permitted")
def test_a_site_s_folder_that_is_gone_stops_no_job_for_another(
    way: runner.Runner, spool: Path, monkeypatch: pytest.MonkeyPatch
) -> None:
    way.targets = lambda: [str(spool / "out"), str(spool / "unmounted")]
    said = tried(way, "send", f"os.access({str(spool / 'out')!r}, os.W_OK)", monkeypatch)
    assert said == "True" and not (spool / "unmounted").exists()


def test_what_is_missing_is_said(way: runner.Runner, monkeypatch: pytest.MonkeyPatch) -> None:
    assert "a user of their own for pages and deliveries" in way.missing()
    monkeypatch.setattr(sandbox, "has_rooms", lambda: False)
    assert way.missing()[0].startswith("any isolation: bwrap")


def test_sockets_of_units_are_used_where_they_are(way: runner.Runner, spool: Path) -> None:
    """A server in the place of systemd: the connection is the job's, and no child is started."""
    import socket

    servers = []
    for kind in sandbox.LIMITS:
        server = socket.socket(socket.AF_UNIX, socket.SOCK_SEQPACKET)
        server.bind(way.socket_of(kind))
        server.listen(1)
        servers.append(server)
    assert way.has_units() and way.missing() == []
    job = way.start("page")
    assert job.child is None
    connection, _ = servers[0].accept()
    job.ask({"kind": "page"})
    assert connection.recv(100) == b'{"kind":"page"}'
    connection.close()
    assert answer(job) is None and job.why == "ended without an answer"
    job.stop()
    for server in servers:
        server.close()
    with pytest.raises(OSError):
        way.start("page")
