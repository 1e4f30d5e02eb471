"""What strangers put into in/: what is found, what is copied into the store, and what is removed."""
import hashlib
import os
import socket
import stat
import threading
from collections.abc import Callable
from dataclasses import dataclass
from pathlib import Path

import pytest

from pressroom.night import clear, scan, take
from pressroom.night.records import Found, Taken, Unfit

PAGE = b"%PDF-1.4 a page"
SECRET = b"%PDF-1.4 a secret of the service"


@dataclass
class Spool:
    """A spool's folders, and the folder `in` as an uploader fills it."""

    path: Path

    def __post_init__(self) -> None:
        for name in ("in", "store", "making", "grab"):
            (self.path / name).mkdir()

    def put(self, name: str, data: bytes = PAGE) -> Path:
        path = self.path / "in" / name
        path.parent.mkdir(parents=True, exist_ok=True)
        path.write_bytes(data)
        return path

    def found(self) -> list[Found]:
        return [item for item in scan.scan(str(self.path / "in")) if isinstance(item, Found)]

    def unfit(self) -> dict[bytes, str]:
        return {item.name: item.why for item in scan.scan(str(self.path / "in")) if isinstance(item, Unfit)}

    def begin(self, found: Found) -> take.Copy:
        return take.Copy(
            str(self.path / "in"), found, str(self.path / "making/part"), str(self.path / "store")
        )

    def copy(self, found: Found) -> Taken:
        steps = take.copy(
            str(self.path / "in"), found, str(self.path / "making/part"), str(self.path / "store")
        )
        try:
            while True:
                next(steps)
        except StopIteration as end:
            taken = end.value
            assert isinstance(taken, Taken)
            return taken

    def clear(self, found: Found, number: int = 1) -> str:
        return clear.clear(str(self.path / "in"), found, str(self.path / "grab" / str(number)))

    def stored(self) -> dict[str, bytes]:
        return {path.name: path.read_bytes() for path in (self.path / "store").iterdir()}


@pytest.fixture
def spool(tmp_path: Path) -> Spool:
    return Spool(tmp_path)


def nothing_left(spool: Spool) -> bool:
    return not list((spool.path / "making").iterdir()) and not list((spool.path / "grab").iterdir())


# ---- what is found


def test_pages_and_zones_are_found(spool: Spool) -> None:
    spool.put("MON/A01.pdf")
    spool.put("MON/west/A02.tif", b"II*\0")
    spool.put("MON/edition.toml", b"")
    spool.put("TUE-2.x/B10.pdf")
    assert [(one.edition, one.name, one.size) for one in spool.found()] == [
        ("MON", b"MON/A01.pdf", len(PAGE)),
        ("MON", b"MON/edition.toml", 0),
        ("MON", b"MON/west/A02.tif", 4),
        ("TUE-2.x", b"TUE-2.x/B10.pdf", len(PAGE)),
    ]
    assert spool.unfit() == {}


def test_names_under_which_uploads_begin_are_passed_over(spool: Spool) -> None:
    spool.put("MON/.A01.pdf.Xk3d2")
    spool.put("MON/READY", b"")
    spool.put(".cache/A01.pdf")
    assert spool.found() == [] and spool.unfit() == {}


@pytest.mark.parametrize("name", ["Köln", "Mon day", "_MON", "-MON", "M" * 65, "MON\nTUE", "MON;id"])
def test_a_folder_that_no_edition_can_have_is_unfit_and_blocks_nothing(spool: Spool, name: str) -> None:
    spool.put(f"{name}/A01.pdf")
    spool.put("TUE/A01.pdf")
    assert spool.unfit() == {os.fsencode(name): "not a name of an edition"}
    assert [one.edition for one in spool.found()] == ["TUE"]


def test_a_name_outside_utf_8_is_found_as_bytes(spool: Spool) -> None:
    folder = os.fsencode(spool.path / "in" / "MON")
    os.makedirs(folder)
    with open(folder + b"/A0\xe4.pdf", "wb") as file:
        file.write(PAGE)
    assert [one.name for one in spool.found()] == [b"MON/A0\xe4.pdf"]


def link(path: Path) -> None:
    path.symlink_to("/etc/passwd")


def dangling(path: Path) -> None:
    path.symlink_to(path.parent / "nothing")


def pipe(path: Path) -> None:
    os.mkfifo(path)


def local_socket(path: Path) -> None:
    with socket.socket(socket.AF_UNIX) as server:
        server.bind(os.path.relpath(path))


def device(path: Path) -> None:
    os.mknod(path, stat.S_IFCHR | 0o666, os.makedev(1, 5))  # /dev/zero: it never ends.


HOSTILE = [
    (link, "a link, not a regular file"),
    (dangling, "a link, not a regular file"),
    (pipe, "a pipe, not a regular file"),
    (local_socket, "a socket, not a regular file"),
    (device, "a device, not a regular file"),
]


@pytest.mark.parametrize("make, why", HOSTILE)
@pytest.mark.parametrize("where", ["MON", "MON/west"])
def test_what_is_no_regular_file_is_unfit(
    spool: Spool, make: Callable[[Path], None], why: str, where: str, monkeypatch: pytest.MonkeyPatch
) -> None:
    if make is device and os.geteuid():
        pytest.skip("a device can be made by root alone")
    good = spool.put(f"{where}/A02.pdf")
    monkeypatch.chdir(good.parent)
    make(good.parent / "A01.pdf")
    assert spool.unfit() == {os.fsencode(f"{where}/A01.pdf"): why}
    assert [one.name for one in spool.found()] == [os.fsencode(f"{where}/A02.pdf")]


@pytest.mark.parametrize("make, why", HOSTILE)
def test_what_is_no_folder_is_unfit_as_an_edition(
    spool: Spool, make: Callable[[Path], None], why: str, monkeypatch: pytest.MonkeyPatch
) -> None:
    if make is device and os.geteuid():
        pytest.skip("a device can be made by root alone")
    monkeypatch.chdir(spool.path / "in")
    make(spool.path / "in" / "MON")
    assert spool.unfit() == {b"MON": why.replace("regular file", "folder")}
    assert spool.found() == []


def test_a_link_to_a_folder_is_no_edition_and_no_zone(spool: Spool, tmp_path: Path) -> None:
    (tmp_path / "private").mkdir()
    (tmp_path / "private" / "A01.pdf").write_bytes(SECRET)
    (spool.path / "in" / "MON").symlink_to(tmp_path / "private")
    spool.put("TUE/A01.pdf")
    (spool.path / "in" / "TUE" / "west").symlink_to(tmp_path / "private")
    assert spool.unfit() == {b"MON": "a link, not a folder", b"TUE/west": "a link, not a regular file"}
    assert [one.name for one in spool.found()] == [b"TUE/A01.pdf"]


def test_a_folder_in_a_zone_is_unfit(spool: Spool) -> None:
    spool.put("MON/west/deep/A01.pdf")
    assert spool.unfit() == {b"MON/west/deep": "a folder, not a regular file"}


def test_a_folder_that_may_not_be_read_is_unfit(spool: Spool) -> None:
    if not os.geteuid():
        pytest.skip("root may read every folder; check/night_users.py tries it with two users")
    spool.put("MON/A01.pdf").parent.chmod(0)
    assert spool.unfit() == {b"MON": "can't be opened: Permission denied"}


def test_faults_and_files_of_one_folder_are_bounded(spool: Spool, monkeypatch: pytest.MonkeyPatch) -> None:
    monkeypatch.setattr(scan, "MOST_FILES", 20)
    monkeypatch.setattr(scan, "MOST_UNFIT", 5)
    for number in range(30):
        spool.put(f"MON/A{number:02}.pdf")
    for number in range(10):
        (spool.path / "in" / f"bad name {number}").mkdir()
        link(spool.put("TUE/A01.pdf").parent / f"link{number}")
    assert len([one for one in spool.found() if one.edition == "MON"]) == 20
    unfit = spool.unfit()
    assert unfit[b"MON"] == "more than 20 files"
    assert unfit[b"."] == "more than 5 names that no edition has"
    assert unfit[b"TUE"] == "more than 5 entries that can't be taken"
    assert len(unfit) == 1 + (5 + 1) + (5 + 1)
    assert [one.name for one in spool.found() if one.edition == "TUE"] == [b"TUE/A01.pdf"]


def test_a_file_that_is_too_long_is_unfit(spool: Spool) -> None:
    with open(spool.put("MON/A01.pdf"), "wb") as file:
        file.truncate(scan.MOST_BYTES + 1)
    assert spool.unfit() == {b"MON/A01.pdf": "more than 1073741824 bytes"}


def test_a_stamp_changes_with_everything_that_changes_a_file(spool: Spool) -> None:
    page = spool.put("MON/A01.pdf")
    stamps = {spool.found()[0].stamp}
    page.write_bytes(PAGE + b".")
    stamps.add(spool.found()[0].stamp)
    status = page.stat()
    page.write_bytes(PAGE + b"!")
    os.utime(page, ns=(status.st_atime_ns, status.st_mtime_ns))  # the time of its content is set back
    stamps.add(spool.found()[0].stamp)
    other = spool.put("MON/.new", PAGE + b"!")
    os.utime(other, ns=(status.st_atime_ns, status.st_mtime_ns))
    other.rename(page)
    stamps.add(spool.found()[0].stamp)
    assert len(stamps) == 4
    assert spool.found()[0].stamp in stamps


# ---- what is copied


@pytest.mark.parametrize("size", [1, take.CHUNK - 1, take.CHUNK, take.CHUNK + 1, 3 * take.CHUNK])
def test_a_page_is_stored_under_its_sum(spool: Spool, size: int) -> None:
    data = os.urandom(size)
    spool.put("MON/west/A02.TIFF", data)
    sha = hashlib.sha256(data).hexdigest()
    assert spool.copy(spool.found()[0]) == Taken(sha, size, "tiff")
    assert spool.stored() == {sha: data}
    assert nothing_left(spool)


def test_the_same_bytes_are_stored_once(spool: Spool) -> None:
    spool.put("MON/A01.pdf")
    spool.put("TUE/A02.pdf")
    assert len({spool.copy(found).sha for found in spool.found()}) == 1
    assert len(spool.stored()) == 1


@pytest.mark.parametrize(
    "name, data, why", [("A01.pdf", b"", "empty"), ("A01.txt", PAGE, "its name doesn't end")]
)
def test_what_is_no_page_is_not_taken(spool: Spool, name: str, data: bytes, why: str) -> None:
    spool.put(f"MON/{name}", data)
    with pytest.raises(take.NotTaken, match=why):
        spool.copy(spool.found()[0])
    assert spool.stored() == {} and nothing_left(spool)


@pytest.mark.parametrize("make", [make for make, _ in HOSTILE])
def test_what_takes_a_page_s_place_before_the_copy_is_not_taken(
    spool: Spool, make: Callable[[Path], None], monkeypatch: pytest.MonkeyPatch
) -> None:
    if make is device and os.geteuid():
        pytest.skip("a device can be made by root alone")
    page = spool.put("MON/A01.pdf")
    found = spool.found()[0]
    monkeypatch.chdir(page.parent)
    page.unlink()
    make(page)
    with pytest.raises((take.Changed, take.NotTaken)):
        spool.copy(found)
    assert spool.stored() == {} and nothing_left(spool)


@pytest.mark.parametrize("part", ["MON", "MON/west"])
def test_a_folder_that_becomes_a_link_before_the_copy_is_not_followed(
    spool: Spool, tmp_path: Path, part: str
) -> None:
    spool.put("MON/west/A02.pdf")
    found = spool.found()[0]
    elsewhere = tmp_path / "elsewhere"
    (spool.path / "in" / part).rename(elsewhere)
    (spool.path / "in" / part).symlink_to(elsewhere)
    with pytest.raises(take.Changed):
        spool.copy(found)
    assert spool.clear(found) == "left"
    assert spool.stored() == {} and nothing_left(spool)
    assert list(elsewhere.rglob("A02.pdf"))


def append(page: Path) -> None:
    with open(page, "ab") as file:
        file.write(b".")


def cut(page: Path) -> None:
    os.truncate(page, take.CHUNK + 5)


def overwrite(page: Path) -> None:
    status = page.stat()
    with open(page, "r+b") as file:
        file.write(b"other")
    os.utime(page, ns=(status.st_atime_ns, status.st_mtime_ns))


def touch(page: Path) -> None:
    os.utime(page)


@pytest.mark.parametrize("write", [append, cut, overwrite, touch])
def test_a_writer_that_goes_on_during_the_copy_is_seen(spool: Spool, write: Callable[[Path], None]) -> None:
    page = spool.put("MON/A01.pdf", b"x" * (2 * take.CHUNK))
    copy = spool.begin(spool.found()[0])
    assert copy.step() is None
    write(page)
    with pytest.raises(take.Changed):
        while copy.step() is None:
            pass
    copy.close()
    assert spool.stored() == {} and nothing_left(spool)
    assert spool.copy(spool.found()[0]).size == page.stat().st_size


def test_a_page_that_is_replaced_during_the_copy_is_stored_as_it_was(spool: Spool) -> None:
    """The copy has the old file's bytes under the old file's sum; the new file is found by its own stamp."""
    data = os.urandom(2 * take.CHUNK)
    page = spool.put("MON/A01.pdf", data)
    found = spool.found()[0]
    copy = spool.begin(found)
    assert copy.step() is None
    os.link(page, spool.path / "old")  # the old file lives on under another name
    spool.put("MON/.new").rename(page)
    with pytest.raises(take.Changed):  # its inode was touched by that name
        while copy.step() is None:
            pass
    copy.close()
    assert spool.found()[0].stamp != found.stamp


def test_a_full_disk_is_the_machine_s_fault_and_leaves_nothing(
    spool: Spool, monkeypatch: pytest.MonkeyPatch
) -> None:
    spool.put("MON/A01.pdf")

    def full(handle: int, data: bytes) -> None:
        raise OSError(28, "No space left on device")

    monkeypatch.setattr(take, "write_all", full)
    with pytest.raises(OSError, match="No space left"):
        spool.copy(spool.found()[0])
    assert spool.stored() == {} and nothing_left(spool)


def test_a_part_that_is_there_is_not_written_over(spool: Spool) -> None:
    spool.put("MON/A01.pdf")
    (spool.path / "making" / "part").write_bytes(b"of another copy")
    with pytest.raises(FileExistsError):
        spool.copy(spool.found()[0])
    assert (spool.path / "making" / "part").read_bytes() == b"of another copy"


def test_short_files_are_read_whole_or_refused(spool: Spool) -> None:
    page = spool.put("MON/edition.toml", b"x" * 100)
    found = spool.found()[0]
    folder = str(spool.path / "in")
    assert take.read_small(folder, found, 100) == b"x" * 100
    with pytest.raises(take.NotTaken, match="more than 99 bytes"):
        take.read_small(folder, found, 99)
    page.write_bytes(b"y" * 100)
    with pytest.raises(take.Changed):
        take.read_small(folder, found, 100)


def test_a_race_of_replacements_never_brings_a_stranger_s_file_into_the_store(
    spool: Spool, tmp_path: Path
) -> None:
    """A page and a link to a private file take each other's place, as fast as they can, while pages are taken."""
    (tmp_path / "secret").write_bytes(SECRET)
    page = spool.put("MON/A01.pdf")
    stop = threading.Event()

    def swap() -> None:
        while not stop.is_set():
            trick = page.parent / ".trick"
            trick.symlink_to(tmp_path / "secret")
            trick.rename(page)
            trick.write_bytes(PAGE)
            trick.rename(page)

    swapper = threading.Thread(target=swap)
    swapper.start()
    ends = {"taken": 0, "changed": 0}
    try:
        while min(ends.values()) < 20 and sum(ends.values()) < 20_000:
            for found in spool.found():
                try:
                    spool.copy(found)
                    ends["taken"] += 1
                    spool.clear(found, sum(ends.values()))
                except (take.Changed, take.NotTaken):
                    ends["changed"] += 1
    finally:
        stop.set()
        swapper.join()
    assert ends["taken"] and ends["changed"]
    assert set(spool.stored().values()) == {PAGE}
    assert (tmp_path / "secret").read_bytes() == SECRET


# ---- what is removed


def test_a_page_that_was_taken_is_removed(spool: Spool) -> None:
    page = spool.put("MON/west/A02.pdf")
    assert spool.clear(spool.found()[0]) == "removed"
    assert not page.exists() and nothing_left(spool)


def test_a_page_that_came_in_the_last_moment_is_kept_and_found_again(
    spool: Spool, monkeypatch: pytest.MonkeyPatch
) -> None:
    page = spool.put("MON/west/A02.pdf")
    found = spool.found()[0]
    rename = os.rename

    def replaced_first(*words: object, **more: object) -> None:
        other = page.parent / ".new"
        other.write_bytes(b"%PDF-1.4 the correction")
        rename(other, page)
        rename(*words, **more)  # type: ignore[arg-type]

    monkeypatch.setattr(clear.os, "rename", replaced_first)  # type: ignore[attr-defined]
    assert spool.clear(found) == "grabbed"
    (folder,) = clear.grabbed(str(spool.path / "grab"))
    (again,) = [item for item in scan.scan(folder) if isinstance(item, Found)]
    assert (again.edition, again.name) == ("MON", b"MON/west/A02.pdf")
    steps = take.copy(folder, again, str(spool.path / "making/part"), str(spool.path / "store"))
    assert list(steps) == [None]
    assert list(spool.stored().values()) == [b"%PDF-1.4 the correction"]
    assert clear.drop(folder) == "" and nothing_left(spool)


def test_another_file_in_the_page_s_place_is_left(spool: Spool) -> None:
    page = spool.put("MON/A01.pdf")
    found = spool.found()[0]
    page.write_bytes(b"%PDF-1.4 longer than it was")
    assert spool.clear(found) == "left"
    page.unlink()
    assert spool.clear(found) == "left"
    assert nothing_left(spool)


def test_a_page_that_can_t_be_moved_is_kept(spool: Spool, monkeypatch: pytest.MonkeyPatch) -> None:
    spool.put("MON/A01.pdf")

    def refused(*words: object, **more: object) -> None:
        raise OSError(1, "Operation not permitted")

    monkeypatch.setattr(clear.os, "rename", refused)  # type: ignore[attr-defined]
    assert spool.clear(spool.found()[0]) == "kept: Operation not permitted"
    assert nothing_left(spool) and spool.found()


def test_grabbed_folders_come_in_their_order(spool: Spool) -> None:
    for name in ("10", "9", "100", "notes"):
        (spool.path / "grab" / name).mkdir()
    folders = clear.grabbed(str(spool.path / "grab"))
    assert [os.path.basename(folder) for folder in folders] == ["9", "10", "100"]


def test_a_tree_that_was_grabbed_is_removed_without_following_links(spool: Spool, tmp_path: Path) -> None:
    (tmp_path / "private").mkdir()
    (tmp_path / "private" / "kept").write_bytes(SECRET)
    folder = spool.path / "grab" / "1" / "MON"
    (folder / "A01.pdf").mkdir(parents=True)
    (folder / "A01.pdf" / "link").symlink_to(tmp_path / "private")
    assert clear.drop(str(spool.path / "grab" / "1")) == ""
    assert (tmp_path / "private" / "kept").read_bytes() == SECRET
    assert nothing_left(spool)


def test_an_edition_s_folder_goes_when_it_is_empty(spool: Spool) -> None:
    folder = str(spool.path / "in")
    page = spool.put("MON/west/A02.pdf")
    assert not clear.clear_folder(folder, "MON") and page.exists()
    page.unlink()
    assert clear.clear_folder(folder, "MON") and clear.clear_folder(folder, "MON")
    assert not (spool.path / "in" / "MON").exists()
    (spool.path / "in" / "TUE").symlink_to(spool.path / "store")
    assert not clear.clear_folder(folder, "TUE")
