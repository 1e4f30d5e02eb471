"""What `pressroom late` leaves behind when it fails: nothing."""
import os
from pathlib import Path

import pytest

from pressroom import front
from pressroom.versions.late import Placed

STUB = "#!/bin/sh\nexit 1\n"


def tree(folder: Path) -> list[str]:
    """All paths below a folder."""
    return sorted(str(path.relative_to(folder)) for path in folder.rglob("*"))


def test_placed_files_are_taken_back(tmp_path: Path) -> None:
    (tmp_path / "new.pdf").write_bytes(b"new")
    (tmp_path / "in").mkdir()
    (tmp_path / "in" / "A01.pdf").write_bytes(b"old")
    before = tree(tmp_path)
    placed = Placed(str(tmp_path))
    for name in ("A01.pdf", "west/A01.pdf", "west/A02.pdf"):
        placed.put(str(tmp_path / "new.pdf"), str(tmp_path / "in" / name))
    assert (tmp_path / "in" / "A01.pdf").read_bytes() == b"new"
    placed.undo()
    assert tree(tmp_path) == before
    assert (tmp_path / "in" / "A01.pdf").read_bytes() == b"old"


def test_no_folder_is_made_where_out_is_missing(
    tmp_path: Path, monkeypatch: pytest.MonkeyPatch, capsys: pytest.CaptureFixture[str]
) -> None:
    (tmp_path / "A01.tif").write_bytes(b"page")
    (tmp_path / "work" / "files").mkdir(parents=True)
    program = tmp_path / "stub"
    program.write_text(STUB)
    program.chmod(0o755)
    (tmp_path / "house.toml").write_text("")
    monkeypatch.chdir(tmp_path)
    before = tree(tmp_path)
    words = ["late", "work", "A01.tif", "out", "--program", str(program)]
    assert front.main(words) == 2
    assert front.main([*words, "--house", "house.toml", "--in", "away/in"]) == 4
    assert tree(tmp_path) == before
    assert "pressroom intake: house.toml line 1: edition: is missing" in capsys.readouterr().out
    assert os.path.isdir("work")
