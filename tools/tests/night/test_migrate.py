"""A spool of an older pressroom: refused by the service, and put aside by `pressroom migrate`."""
import os

import pytest
from pressroom.commands import migrate
from pressroom.night import serve


@pytest.fixture
def spool(tmp_path, monkeypatch):
    for folder in ("in/MON", "work/MON", "out/SUN", "done/SUN", "failed", "state"):
        os.makedirs(tmp_path / folder)
    (tmp_path / "state" / "SUN.json").write_text("{}")
    (tmp_path / "in" / "MON" / "A01.pdf").write_text("x")
    (tmp_path / "in" / "MON" / "READY").write_text("")

    def run(*words):
        monkeypatch.setattr("sys.argv", ["pressroom migrate", str(tmp_path), *words])
        return migrate.main()

    return tmp_path, run


def test_an_edition_under_way_is_named(spool, capsys):
    path, run = spool
    assert serve.is_old(str(path))
    assert run() == 1
    assert "MON: under way" in capsys.readouterr().err
    assert sorted(os.listdir(path)) == ["done", "failed", "in", "out", "state", "work"]


def test_what_was_made_is_put_aside(spool):
    path, run = spool
    assert run("--again", "MON") == 0
    assert sorted(os.listdir(path)) == ["in", "old"]
    assert sorted(os.listdir(path / "old")) == ["done", "failed", "out", "state", "work"]
    assert os.listdir(path / "in" / "MON") == ["A01.pdf"]
    assert not serve.is_old(str(path))
    assert run() == 2
