"""Deliveries: by rsync to a folder and over ssh, into a mounted folder, and all that can go wrong at a site."""
import hashlib
import os
import shutil
import socket
import stat
import subprocess
import time
from collections.abc import Iterator
from pathlib import Path
from typing import Any

import pytest

from pressroom.night import method_rsync, send_job
from pressroom.night.method import Fault
from pressroom.night.method_rsync import STATUSES, Rsync

AT = "MON/A-002/000412-1a2b3c4d"
TEXT = "edition MON\nversion 412\nend\n"
PLATES = {"MON-A-002-C.tif": b"cyan" * 5000, "MON-A-002-K.tif": b"black" * 5000}

needs_rsync = pytest.mark.skipif(not shutil.which("rsync"), reason="rsync isn't installed")
METHODS = ["folder", pytest.param("rsync", marks=needs_rsync)]


class Site:
    """A site's folder on this machine, the way to it, and the plates that are sent."""

    def __init__(self, path: Path, name: str):
        self.folder, self.source = path / "site", path / "plates" / "J7-1"
        self.folder.mkdir()
        self.source.mkdir(parents=True)
        self.keys: dict[str, Any] = {"name": name, "target": str(self.folder), "timeout": 20}
        for plate, data in PLATES.items():
            (self.source / plate).write_bytes(data)

    def sums(self, names: list[str]) -> str:
        return "".join(f"{hashlib.sha256(PLATES[name]).hexdigest()}  {name}\n" for name in sorted(names))

    def ask(self, kind: str, **more: Any) -> dict[str, Any]:
        answer = send_job.work({"kind": kind, "site": "OSLO", "method": self.keys, **more}, [])
        assert answer.pop("seconds") >= 0
        return answer

    def plates(self, folder: str = AT, names: list[str] | None = None) -> dict[str, Any]:
        names = sorted(PLATES) if names is None else names
        return self.ask("plates", source=str(self.source), names=names, sums=self.sums(names), folder=folder)

    def ready(self, folder: str = AT, text: str = TEXT) -> dict[str, Any]:
        return self.ask("ready", folder=folder, text=text)

    def look(self, **expected: str) -> dict[str, Any]:
        return self.ask("look", expected=expected or {AT: TEXT})

    def files(self, folder: str = AT) -> dict[str, bytes]:
        place = self.folder / folder
        return {path.name: path.read_bytes() for path in place.iterdir()} if place.is_dir() else {}


@pytest.fixture(params=METHODS)
def site(tmp_path: Path, request: pytest.FixtureRequest) -> Site:
    return Site(tmp_path, request.param)


# ---- what is sent


def test_plates_come_first_and_ready_by_itself(site: Site) -> None:
    assert site.look() == {"seen": {}, "acked": []}
    assert site.plates() == {"there": True}
    assert site.files() == PLATES | {"SHA256SUMS": site.sums(sorted(PLATES)).encode()}
    assert site.look() == {"seen": {}, "acked": []}
    assert site.ready() == {"there": True, "kept": site.keys["name"] == "folder"}
    assert site.files()["READY"] == TEXT.encode()
    assert site.look() == {"seen": {AT: TEXT}, "acked": []}
    checked = subprocess.run(["sha256sum", "-c", "--quiet", "SHA256SUMS"], cwd=site.folder / AT, check=False)
    assert checked.returncode == 0
    assert all(stat.S_IMODE(path.stat().st_mode) & 0o444 == 0o444 for path in (site.folder / AT).iterdir())


def test_everything_may_be_sent_again(site: Site) -> None:
    for _ in range(2):
        assert site.plates() == {"there": True}
        assert site.ready()["there"] is True
    assert sorted(site.files()) == [*sorted(PLATES), "READY", "SHA256SUMS"]
    assert site.look() == {"seen": {AT: TEXT}, "acked": []}


def test_a_plate_that_is_torn_at_the_site_is_sent_again(site: Site) -> None:
    """Also where its size and its time are those of the right one."""
    site.plates()
    plate = site.folder / AT / "MON-A-002-K.tif"
    times = plate.stat()
    plate.unlink()  # in the method "folder" it may be a link to the plate itself
    plate.write_bytes(b"\0" * len(PLATES[plate.name]))
    os.utime(plate, ns=(times.st_atime_ns, times.st_mtime_ns))
    assert site.plates() == {"there": True}
    assert plate.read_bytes() == PLATES[plate.name]
    assert (site.source / plate.name).read_bytes() == PLATES[plate.name]


def test_a_resend_has_one_plate_in_a_folder_of_its_own(site: Site) -> None:
    site.plates()
    site.ready()
    before = site.files()
    assert site.plates(f"{AT}.r2", ["MON-A-002-K.tif"]) == {"there": True}
    assert site.ready(f"{AT}.r2", TEXT)["there"] is True
    assert sorted(site.files(f"{AT}.r2")) == ["MON-A-002-K.tif", "READY", "SHA256SUMS"]
    assert site.files() == before


def test_complete_has_ready_alone_and_makes_its_folder(site: Site) -> None:
    assert site.ready("MON/COMPLETE/000500-aa", TEXT)["there"] is True
    assert site.files("MON/COMPLETE/000500-aa") == {"READY": TEXT.encode()}


def test_ready_never_comes_where_its_plates_are_gone(site: Site) -> None:
    site.plates()
    shutil.rmtree(site.folder / AT)
    answer = site.ready()
    assert "unsure" in answer and "there" not in answer
    assert not (site.folder / AT / "READY").exists()
    assert site.look() == {"seen": {}, "acked": []}


@pytest.mark.parametrize("harm", ["lost", "changed", "other sums"])
def test_plates_that_aren_t_what_was_made_are_never_sent(site: Site, harm: str) -> None:
    plate, sums = site.source / "MON-A-002-K.tif", site.sums(sorted(PLATES))
    if harm == "lost":
        plate.unlink()
    elif harm == "changed":
        plate.write_bytes(b"x" + PLATES[plate.name][1:])
    else:
        sums = sums.splitlines()[0] + "\n"
    answer = site.ask("plates", source=str(site.source), names=sorted(PLATES), sums=sums, folder=AT)
    assert answer["network"] is False and "failed" in answer
    assert site.files() == {}


# ---- looks


def test_a_look_tells_missing_other_and_right_apart(site: Site) -> None:
    for number in range(4):
        site.plates(f"MON/A-00{number}/v")
    site.ready("MON/A-000/v")
    site.ready("MON/A-001/v", "cut off")
    (site.folder / "MON/A-003/v/READY").write_bytes(b"")
    expected = {f"MON/A-00{number}/v": TEXT for number in range(5)}
    answer = site.ask("look", expected=expected)
    assert answer == {"seen": {"MON/A-000/v": TEXT, "MON/A-001/v": "", "MON/A-003/v": ""}, "acked": []}


def test_a_look_finds_acks_of_the_folders_that_were_asked_for_alone(site: Site) -> None:
    for at in (AT, "MON/A-003/v", "TUE/A-001/v"):
        site.plates(at)
        site.ready(at)
        (site.folder / at / "ACK").write_text("exposed")
    answer = site.ask("look", expected={AT: TEXT, "MON/A-003/v": TEXT, "MON/A-004/v": TEXT})
    assert answer == {"seen": {AT: TEXT, "MON/A-003/v": TEXT}, "acked": [AT, "MON/A-003/v"]}


def test_a_look_changes_nothing_at_the_site(site: Site) -> None:
    site.plates()
    before = sorted(str(path) for path in site.folder.rglob("*"))
    site.ask("look", expected={AT: TEXT, "NEW/A-001/v": TEXT})
    assert sorted(str(path) for path in site.folder.rglob("*")) == before


def test_a_site_with_strange_files_is_looked_at(site: Site) -> None:
    site.plates()
    site.ready()
    for name in ("a\nb", "\x1b[31m", "K\udcf6ln", "READY\n.f+++++++++ MON", "x" * 200):
        (site.folder / AT / name).write_bytes(b"")
    os.mkfifo(site.folder / AT / "ACK")
    for number in range(300):
        (site.folder / AT / f"more{number}").mkdir()
    assert site.look() == {"seen": {AT: TEXT}, "acked": []}


@pytest.mark.parametrize("kind", ["link", "pipe", "folder"])
def test_a_ready_that_is_no_file_is_not_seen_as_ready(site: Site, kind: str) -> None:
    site.plates()
    place = site.folder / AT / "READY"
    (site.folder / "elsewhere").write_text(TEXT)
    if kind == "link":
        place.symlink_to(site.folder / "elsewhere")
    elif kind == "pipe":
        os.mkfifo(place)
    else:
        place.mkdir()
    answer = site.look()
    assert answer.get("seen", {}).get(AT, "") == "" and answer.get("acked", []) == []


# ---- a mounted folder


def folder_site(tmp_path: Path) -> Site:
    return Site(tmp_path, "folder")


def test_a_folder_that_isn_t_mounted_is_the_network_s_fault(tmp_path: Path) -> None:
    site = folder_site(tmp_path)
    site.keys["target"] = str(tmp_path / "none")
    for answer in (site.plates(), site.ready(), site.look()):
        assert answer["network"] is True and answer["failed"].endswith(
            "No such file or directory; is it mounted?"
        )
    assert not (tmp_path / "none").exists()


def test_the_spool_s_own_folder_of_a_site_is_made(tmp_path: Path) -> None:
    site = folder_site(tmp_path)
    site.keys |= {"target": str(tmp_path / "out" / "OSLO"), "make": True}
    assert site.plates()["network"] is True and not (tmp_path / "out").exists()
    (tmp_path / "out").mkdir()
    assert site.look() == {"seen": {}, "acked": []}
    assert site.plates() == {"there": True}
    assert (tmp_path / "out" / "OSLO" / AT / "SHA256SUMS").exists()


@pytest.mark.parametrize("part", ["MON", "MON/A-002", AT])
def test_links_below_a_mounted_folder_aren_t_followed(tmp_path: Path, part: str) -> None:
    site, private = folder_site(tmp_path), tmp_path / "private"
    private.mkdir()
    (site.folder / part).parent.mkdir(parents=True, exist_ok=True)
    (site.folder / part).symlink_to(private)
    assert "failed" in site.plates()
    assert "unsure" in site.ready()
    assert list(private.iterdir()) == []


def test_a_link_in_a_plate_s_place_is_replaced(tmp_path: Path) -> None:
    site, private = folder_site(tmp_path), tmp_path / "private"
    private.write_text("kept")
    (site.folder / AT).mkdir(parents=True)
    for name in ("MON-A-002-K.tif", ".MON-A-002-C.tif.part", "READY", ".READY.part"):
        (site.folder / AT / name).symlink_to(private)
    assert site.plates() == {"there": True} and site.ready()["there"] is True
    assert private.read_text() == "kept"
    assert not any(path.is_symlink() for path in (site.folder / AT).iterdir())


def test_plates_are_copied_where_they_can_t_be_linked(
    tmp_path: Path, monkeypatch: pytest.MonkeyPatch
) -> None:
    def other_disk(*_: Any, **__: Any) -> None:
        raise OSError(18, "Invalid cross-device link")

    monkeypatch.setattr(os, "link", other_disk)
    site = folder_site(tmp_path)
    assert site.plates() == {"there": True}
    for name, data in PLATES.items():
        assert (site.folder / AT / name).read_bytes() == data
        assert (site.folder / AT / name).stat().st_ino != (site.source / name).stat().st_ino


# ---- rsync that fails


def rsync_site(tmp_path: Path, monkeypatch: pytest.MonkeyPatch, script: str) -> Site:
    """A site whose rsync is a shell script."""
    site = Site(tmp_path, "rsync")
    (tmp_path / "bin").mkdir()
    program = tmp_path / "bin" / "rsync"
    program.write_text(f"#!/bin/sh\n{script}\n")
    program.chmod(0o755)
    monkeypatch.setenv("PATH", f"{tmp_path}/bin:{os.environ['PATH']}")
    return site


@pytest.mark.parametrize("status", [*sorted(STATUSES), 99])
def test_each_status_of_rsync_is_a_kind_of_fault(
    tmp_path: Path, monkeypatch: pytest.MonkeyPatch, status: int
) -> None:
    site = rsync_site(tmp_path, monkeypatch, f"echo 'rsync: something' >&2; exit {status}")
    machine = status in (1, 14, 15, 16, 19, 20, 21, 22, 24)
    plates, ready = site.plates(), site.ready()
    assert plates["network"] is not machine and plates["failed"].endswith(": rsync: something")
    assert ("failed" if status == 1 else "unsure") in ready and "there" not in ready
    look = site.look()
    assert "seen" not in look and look["network"] is not machine


def test_the_statuses_are_those_of_rsync_s_manual() -> None:
    manual = {1, 2, 3, 4, 5, 6, 10, 11, 12, 13, 14, 20, 21, 22, 23, 24, 25, 30, 35}
    assert manual <= set(STATUSES)


@pytest.mark.parametrize("status", [12, 255])
def test_a_site_that_ssh_cant_reach_is_so_whichever_status_rsync_ends_with(
    tmp_path: Path, monkeypatch: pytest.MonkeyPatch, status: int
) -> None:
    """rsync ends with 12 where ssh was gone before rsync wrote to it, and with ssh's 255 otherwise."""
    line = "ssh: connect to host oslo port 22: Connection refused"
    answer = rsync_site(tmp_path, monkeypatch, f"echo '{line}' >&2; exit {status}").plates()
    assert answer == {"failed": f"ssh can't reach it: {line}", "network": True, "host_key": False}


def test_a_rsync_that_is_killed_or_missing_is_the_machine_s_fault(
    tmp_path: Path, monkeypatch: pytest.MonkeyPatch
) -> None:
    site = rsync_site(tmp_path, monkeypatch, "kill -9 $$")
    assert site.plates() == {"failed": "rsync was killed by signal 9", "network": False, "host_key": False}
    assert site.ready() == {"unsure": "rsync was killed by signal 9", "network": False, "host_key": False}
    monkeypatch.setenv("PATH", str(tmp_path / "empty"))
    for answer in (site.plates(), site.ready()):
        assert answer["failed"].startswith("rsync can't be started") and answer["network"] is False


def test_a_site_that_hangs_is_left_in_time(tmp_path: Path, monkeypatch: pytest.MonkeyPatch) -> None:
    site = rsync_site(tmp_path, monkeypatch, "exec sleep 100")
    site.keys["timeout"] = 0.3
    begun = time.monotonic()
    assert site.plates()["failed"] == "no answer within 0.3 s"
    assert site.ready()["unsure"] == "no answer within 0.3 s"
    assert time.monotonic() - begun < 5


@pytest.mark.parametrize("stream", ["1", "2"])
def test_a_site_that_prints_without_end_is_left(
    tmp_path: Path, monkeypatch: pytest.MonkeyPatch, stream: str
) -> None:
    site = rsync_site(tmp_path, monkeypatch, f"exec yes >&{stream}")
    assert site.plates()["failed"] == "it prints without end"


def test_the_text_of_a_site_is_cut_and_escaped(tmp_path: Path, monkeypatch: pytest.MonkeyPatch) -> None:
    script = "printf '\\n  \\n\\033[31mforged\\r\\377 ' >&2; head -c 5000 /dev/zero | tr '\\0' A >&2; exit 12"
    why = rsync_site(tmp_path, monkeypatch, script).plates()["failed"]
    assert why.startswith("the connection broke off: \\x1b[31mforged") and len(why) == 300
    assert why.isprintable()


def test_a_changed_host_key_is_named(tmp_path: Path, monkeypatch: pytest.MonkeyPatch) -> None:
    line = "@" * 59
    note = f"{line}\n@    WARNING: REMOTE HOST IDENTIFICATION HAS CHANGED!     @\n{line}\nIT IS POSSIBLE THAT SOMEONE"
    site = rsync_site(tmp_path, monkeypatch, f"cat >&2 <<'X'\n{note}\nX\nexit 255")
    answer = site.plates()
    assert answer == {"failed": "the site's host key has changed", "network": True, "host_key": True}


def test_ready_that_compares_as_another_is_unsure(tmp_path: Path, monkeypatch: pytest.MonkeyPatch) -> None:
    """rsync says that READY was sent, and then that what is there is something else."""
    script = 'case "$*" in *-n*) echo ">fc........ READY";; esac; exit 0'
    answer = rsync_site(tmp_path, monkeypatch, script).ready()
    assert answer == {"unsure": "READY compares as something else", "network": True, "host_key": False}


def test_the_order_of_the_calls(tmp_path: Path, monkeypatch: pytest.MonkeyPatch) -> None:
    """Plates with --fsync; SHA256SUMS in place with --fsync, in a call of its own; then READY, alone."""
    site = rsync_site(tmp_path, monkeypatch, f'echo "$*" >> {tmp_path}/calls')
    site.plates()
    site.ready()
    calls = (tmp_path / "calls").read_text().splitlines()
    assert len(calls) == 4
    assert (
        "--fsync" in calls[0] and "K.tif" in calls[0] and "C.tif" in calls[0] and "SHA256SUMS" not in calls[0]
    )
    assert (
        "--fsync" in calls[1]
        and "--inplace" in calls[1]
        and "SHA256SUMS" in calls[1]
        and ".tif" not in calls[1]
    )
    assert "--fsync" in calls[2] and "--inplace" not in calls[2] and ".tif" not in calls[2]
    assert "--mkpath" not in calls[2] and "-n" in calls[3] and "--checksum" in calls[3]


def test_options_of_the_house() -> None:
    keys = {"target": "oslo:plates", "port": 2222, "key": "/etc/key", "bandwidth": 500, "timeout": 60}
    options = Rsync(keys).options
    assert "--bwlimit=500" in options and "--timeout=60" in options
    ssh = options[options.index("-e") + 1]
    for word in (
        "BatchMode=yes",
        "StrictHostKeyChecking=yes",
        "-p 2222",
        "-i /etc/key",
        "IdentitiesOnly=yes",
    ):
        assert word in ssh
    assert "-e" not in Rsync({"target": "rsync://oslo/plates"}).options


# ---- over ssh


def free_port() -> int:
    with socket.socket() as one:
        one.bind(("127.0.0.1", 0))
        port: int = one.getsockname()[1]
        return port


@pytest.fixture
def server(tmp_path: Path) -> Iterator[Site]:
    """A site behind an sshd of its own, which accepts one key for rsync below one folder."""
    sshd = shutil.which("sshd", path="/usr/sbin:/usr/bin")
    if not sshd or not shutil.which("rsync") or not shutil.which("rrsync") or not shutil.which("ssh-keygen"):
        pytest.skip("sshd, rsync or rrsync isn't installed")
    site, port = Site(tmp_path, "rsync"), free_port()
    for name in ("host", "other", "key"):
        subprocess.run(["ssh-keygen", "-q", "-t", "ed25519", "-N", "", "-f", tmp_path / name], check=True)
    public = (tmp_path / "key.pub").read_text().strip()
    (tmp_path / "authorized").write_text(f'restrict,command="rrsync {site.folder}" {public}\n')
    host = " ".join((tmp_path / "host.pub").read_text().split()[:2])
    (tmp_path / "key.known").write_text(f"[127.0.0.1]:{port} {host}\n")
    (tmp_path / "config").write_text(
        f"Port {port}\nListenAddress 127.0.0.1\nHostKey {tmp_path}/host\nStrictModes no\nUsePAM no\n"
        f"AuthorizedKeysFile {tmp_path}/authorized\nPasswordAuthentication no\nPidFile none\n"
    )
    os.makedirs("/run/sshd", exist_ok=True)
    words = [sshd, "-D", "-e", "-f", str(tmp_path / "config")]
    with open(tmp_path / "log", "wb") as log, subprocess.Popen(words, stderr=log) as process:
        for _ in range(100):
            with socket.socket() as probe:
                if probe.connect_ex(("127.0.0.1", port)) == 0:
                    break
            time.sleep(0.05)
        site.keys |= {"target": "127.0.0.1:.", "port": port, "key": str(tmp_path / "key")}
        yield site
        process.terminate()


def test_a_site_over_ssh(server: Site) -> None:
    if os.geteuid():
        pytest.skip("the server needs root")
    assert server.plates() == {"there": True}, (server.folder.parent / "log").read_text()
    assert server.look() == {"seen": {}, "acked": []}
    assert server.ready() == {"there": True, "kept": False}
    (server.folder / AT / "ACK").write_text("")
    assert server.look() == {"seen": {AT: TEXT}, "acked": [AT]}
    assert server.files() == PLATES | {
        "SHA256SUMS": server.sums(sorted(PLATES)).encode(),
        "READY": TEXT.encode(),
        "ACK": b"",
    }
    answer = server.ask("look", expected={"TUE/A-001/v": TEXT, AT: TEXT})
    assert answer == {"seen": {AT: TEXT}, "acked": [AT]}


def test_a_site_whose_host_key_changed(server: Site) -> None:
    if os.geteuid():
        pytest.skip("the server needs root")
    known = server.folder.parent / "key.known"
    other = (server.folder.parent / "other.pub").read_text().split()[1]
    known.write_text(" ".join([*known.read_text().split()[:2], other]) + "\n")
    for answer in (server.plates(), server.look()):
        assert answer == {"failed": "the site's host key has changed", "network": True, "host_key": True}
    known.write_text("")
    assert server.plates()["failed"] == "the site's host key isn't known"


def test_a_site_that_is_down(server: Site) -> None:
    server.keys["port"] = free_port()
    answer = server.plates()
    assert answer["network"] is True and answer["failed"].startswith("ssh can't reach it: ")


def test_a_site_whose_disk_is_full(server: Site, monkeypatch: pytest.MonkeyPatch) -> None:
    """Its folder is of no use: a file is in the edition's place."""
    if os.geteuid():
        pytest.skip("the server needs root")
    (server.folder / "MON").write_text("")
    answer = server.plates()
    assert answer["network"] is True and "failed" in answer


@pytest.mark.parametrize("status", [12, 255])
def test_ssh_that_can_t_reach_a_site_is_told_alike_whatever_rsync_s_status(status: int) -> None:
    said = b"ssh: connect to host oslo port 22: Connection refused\r\nrsync: connection unexpectedly closed\n"
    fault = method_rsync.fault_of(status, said)
    assert str(fault) == "ssh can't reach it: ssh: connect to host oslo port 22: Connection refused"
    assert fault.network and fault.status == status


def test_a_fault_says_whether_anything_began() -> None:
    assert Fault("why").begun and not Fault("why", begun=False).begun
    assert method_rsync.fault_of(1, b"").begun is False and method_rsync.fault_of(12, b"").begun is True
