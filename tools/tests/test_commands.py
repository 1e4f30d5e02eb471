"""Every command: help within 80 columns with an example, --json and --version, errors in one form, and what is made of
the table of commands."""
import re
import shutil
import subprocess
from pathlib import Path

import pytest

from pressroom import __version__, front, table
from pressroom.house.folders import folders

TOOLS = Path(__file__).parents[1]


@pytest.mark.parametrize("command", front.COMMANDS)
def test_help(command: str, capsys: pytest.CaptureFixture[str]) -> None:
    with pytest.raises(SystemExit) as ended:
        front.main(["help", command])
    text = capsys.readouterr().out
    assert ended.value.code == 0
    assert max(map(len, text.splitlines())) <= 80
    assert re.search(rf"^example: pressroom {command}\b", text, re.MULTILINE)
    assert re.search(r"^status: 0 ", text, re.MULTILINE)
    assert {"--help", "--json", "--version"} <= set(re.findall(r"--[a-z]+", text))


@pytest.mark.parametrize("command", front.COMMANDS)
def test_version_and_errors(command: str, capsys: pytest.CaptureFixture[str]) -> None:
    calls: list[tuple[list[str], int]] = [(["--version"], 0), (["--jsn"], 2), ([], 2)]
    for words, status in calls:
        with pytest.raises(SystemExit) as ended:
            front.main([command, *words])
        assert ended.value.code == status
        out, err = capsys.readouterr()
        if words == ["--version"]:
            assert (out, err) == (f"pressroom {__version__}\n", "")
        else:
            assert out == "" and len(err.splitlines()) == 1 and err.startswith(f"pressroom {command}: ")
        if words == ["--jsn"]:
            assert "no option --jsn; did you mean --json?" in err


def test_unknown_command(capsys: pytest.CaptureFixture[str]) -> None:
    assert front.main(["intke"]) == 2
    assert "no command 'intke'; did you mean intake?" in capsys.readouterr().err
    assert front.main([]) == 2
    assert front.main(["--help"]) == 0
    listed = re.findall(r"^  ([a-z]+)  ", capsys.readouterr().out, re.MULTILINE)
    assert listed == list(front.COMMANDS)
    modules = {path.stem for path in (TOOLS / "pressroom" / "commands").glob("*.py")} - {"__init__"}
    assert modules == set(front.COMMANDS) | front.INTERNAL


def test_folders_of_the_file(
    tmp_path: Path, monkeypatch: pytest.MonkeyPatch, capsys: pytest.CaptureFixture[str]
) -> None:
    """The command line counts first, then PRESSROOM_HOUSE, then pressroom.toml."""
    monkeypatch.chdir(tmp_path)
    monkeypatch.delenv("PRESSROOM_HOUSE", raising=False)
    assert folders() == {}
    (tmp_path / "pressroom.toml").write_text('house = "h.toml"\nin = "pages"\nwork = "w"\n')
    assert folders() == {"house": "h.toml", "in": "pages", "work": "w"}
    monkeypatch.setenv("PRESSROOM_HOUSE", "/etc/house.toml")
    assert folders()["house"] == "/etc/house.toml"
    if shutil.which("gs") and shutil.which("qpdf"):
        assert front.main(["intake"]) == 2
        assert "/etc/house.toml: No such file" in capsys.readouterr().err
    (tmp_path / "pressroom.toml").write_text("houses = 1\n")
    assert front.main(["make"]) == 2
    assert "pressroom make: pressroom.toml line 1: houses: isn't a key" in capsys.readouterr().err


def test_tile_as_json(capsys: pytest.CaptureFixture[str]) -> None:
    assert front.main(["tile", "K45", "--angle", "45", "--ruling", "100", "--json"]) == 0
    out, err = capsys.readouterr()
    assert '"event": "tile"' in out and '"name": "K45"' in out and err == ""


@pytest.mark.parametrize("shell", ["bash", "zsh", "fish"])
def test_completion_is_read_by_its_shell(shell: str, tmp_path: Path) -> None:
    if shutil.which(shell) is None:
        pytest.skip(f"{shell} isn't installed")
    text = {"bash": table.bash, "zsh": table.zsh, "fish": table.fish}[shell]()
    path = tmp_path / "script"
    path.write_text(text)
    subprocess.run([shell, "--no-execute" if shell == "fish" else "-n", str(path)], check=True)
    for command in front.COMMANDS:
        for option in table.options_of(command):
            assert option.names[-1].lstrip("-") in text
    if shell == "fish":
        asked = f"source {path}; complete -C 'pressroom parts --by '"
        answer = subprocess.run([shell, "-c", asked], capture_output=True, text=True, check=True).stdout
        assert [line.split("\t")[0] for line in answer.splitlines()] == ["both", "section", "site"]


@pytest.mark.parametrize("command", front.COMMANDS)
def test_man_page(command: str) -> None:
    text = table.man(command, "1.0")
    for heading in ("NAME", "SYNOPSIS", "DESCRIPTION", "ARGUMENTS", "EXIT STATUS", "EXAMPLE", "SEE ALSO"):
        assert f"\n# {heading}\n" in text, heading
    if shutil.which("scdoc"):
        subprocess.run(["scdoc"], input=text.encode(), capture_output=True, check=True)
