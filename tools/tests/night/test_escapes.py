"""Names and messages of strangers, shown on one line."""
import pytest

from pressroom.night.escapes import shown


@pytest.mark.parametrize(
    "name, text",
    [
        (b"A07.pdf", "A07.pdf"),
        ("Köln".encode(), "Köln"),
        ("Köln".encode("latin-1"), "K\\xf6ln"),
        (b"A01.pdf\nMON A02: accepted", "A01.pdf\\x0aMON A02: accepted"),
        (b"\x1b[31mred", "\\x1b[31mred"),
        (b"a\\x0ab", "a\\\\x0ab"),
        ("evil\u202efdp.exe", "evil\\u{202e}fdp.exe"),
        ("a\u2028b\u0085c", "a\\u{2028}b\\x85c"),
    ],
)
def test_shown(name: bytes | str, text: str) -> None:
    assert shown(name) == text
    assert "\n" not in shown(name)


def test_different_names_are_shown_differently() -> None:
    names = [b"\n", b"\\x0a", b"\\\\x0a", b"\xc3\xb6", b"\xf6", b"\\xf6", "\u2028".encode(), b"\\u{2028}"]
    assert len({shown(name) for name in names}) == len(names)


def test_a_long_message_is_cut() -> None:
    assert shown("@" * 5000, 300) == "@" * 297 + "..."
    assert len(shown("\n" * 5000, 300)) == 300
    assert shown("@" * 300, 300) == "@" * 300
