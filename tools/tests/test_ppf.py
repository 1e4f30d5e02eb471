"""PPF files: run lengths by another decoder, strings in 7 bits, and files of a whole folder of plates."""
import re
from pathlib import Path

import numpy
import pytest
from hypothesis import given, settings
from hypothesis import strategies as st
from tiffs import plate_bytes, write

from pressroom import front
from pressroom.proof import ppf_file
from pressroom.proof.ppf_file import factor_of, number, run_lengths, string


def decoded(data: bytes) -> bytes:
    """Bytes by PostScript's RunLengthDecode (PostScript Language Reference, 3.13.4)."""
    out, at = b"", 0
    while data[at] != 128:
        if data[at] < 128:
            out += data[at + 1 : at + 2 + data[at]]
            at += 2 + data[at]
        else:
            out += data[at + 1 : at + 2] * (257 - data[at])
            at += 2
    assert at == len(data) - 1
    return out


@settings(deadline=None)
@given(st.lists(st.tuples(st.integers(0, 255), st.integers(1, 300)), max_size=20))
def test_run_lengths(runs: list[tuple[int, int]]) -> None:
    data = b"".join(bytes([value]) * count for value, count in runs)
    assert decoded(run_lengths(data)) == data


@settings(deadline=None)
@given(st.text(max_size=30))
def test_strings_are_printable(text: str) -> None:
    """A string has 7-bit characters alone, and PostScript reads Latin-1 back."""
    written = string(text)
    assert re.fullmatch(r"\((?:[ -'*-\[\]-~]|\\[0-7]{3})*\)", written)
    codes = re.sub(r"\\([0-7]{3})", lambda found: chr(int(found[1], 8)), written[1:-1])
    assert codes == text.encode("latin-1", "replace").decode("latin-1")


@pytest.mark.parametrize(("value", "text"), [(50.8, "50.8"), (1.0, "1"), (0.12345, "0.123"), (100.0, "100")])
def test_numbers(value: float, text: str) -> None:
    assert number(value) == text


@pytest.mark.parametrize(("dpi", "factor"), [(1200, 24), (1016, 20), (25, 1), (1, 1)])
def test_factor(dpi: float, factor: int) -> None:
    """20 pixels a centimetre are 50.8 an inch: 1200 / 50.8 is 23.6, 1016 / 50.8 is 20."""
    assert factor_of(dpi) == factor


def test_file_has_each_line_short() -> None:
    samples = numpy.arange(6000, dtype=numpy.uint8).reshape(60, 100)
    text = ppf_file.text_of("E1", "A-001", ["OSLO"], 1016, [("Black", samples)])
    assert max(map(len, text.split("\n"))) <= 80
    digits = text.split("CIP3PreviewImage\n")[1].split(">")[0]
    assert decoded(bytes.fromhex(digits)) == samples.tobytes()
    assert "/CIP3AdmPSExtent [141.732 85.039] def" in text


def test_command_writes_files(tmp_path: Path, capsys: pytest.CaptureFixture[str]) -> None:
    """Two of the eight pixels of each row print: 20 of 80."""
    data = plate_bytes([b"\xc0"] * 10, 8)
    for site in ("OSLO", "BERGEN"):
        write(tmp_path / "plates" / site / "E1-A-001-K.tif", data)
    out = tmp_path / "out"
    assert front.main(["ppf", str(tmp_path / "plates"), str(out), "--keys", "2"]) == 0
    assert sorted(path.name for path in out.iterdir()) == ["E1-A-001-BERGEN.ppf", "keys-2.csv", "keys-2.json"]
    lines = (out / "keys-2.csv").read_text().splitlines()
    assert lines[1:] == ["A-001,BERGEN OSLO,K,Black,1,20,40,50.000", "A-001,BERGEN OSLO,K,Black,2,0,40,0.000"]
    write(tmp_path / "plates" / "OSLO" / "E1-A-001-K.tif", data[:40])
    assert front.main(["ppf", str(tmp_path / "plates"), str(out)]) == 1
    assert "E1-A-001-K.tif: cut off" in capsys.readouterr().err
