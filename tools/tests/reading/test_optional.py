"""Which optional content prints: ISO 32000-1, 8.11."""
import os
import sys

import pikepdf
import pytest

sys.dont_write_bytecode = True
sys.path.insert(0, os.path.join(os.path.dirname(os.path.abspath(__file__)), "..", ".."))

from pressroom.reading.optional import Optional


def layers() -> tuple[pikepdf.Pdf, list[pikepdf.Object]]:
    """Returns a PDF with three groups: the first is off, the second on, and the third off for print."""
    pdf = pikepdf.new()
    usage = pikepdf.Dictionary(Print=pikepdf.Dictionary(PrintState=pikepdf.Name("/OFF")))
    groups = [pdf.make_indirect(pikepdf.Dictionary(Type=pikepdf.Name("/OCG"), Usage=usage)) for _ in range(3)]
    event = pikepdf.Dictionary(
        Event=pikepdf.Name("/Print"), Category=[pikepdf.Name("/Print")], OCGs=pikepdf.Array([groups[2]])
    )
    default = pikepdf.Dictionary(OFF=pikepdf.Array([groups[0]]), AS=pikepdf.Array([event]))
    pdf.Root["/OCProperties"] = pikepdf.Dictionary(OCGs=pikepdf.Array(groups), D=default)
    return pdf, groups


def test_states_of_layers() -> None:
    pdf, groups = layers()
    assert [Optional(pdf.Root).shows(group) for group in groups] == [False, True, False]


def test_base_state() -> None:
    pdf, groups = layers()
    default = pdf.Root["/OCProperties"]["/D"]
    default["/BaseState"], default["/ON"] = pikepdf.Name("/OFF"), pikepdf.Array([groups[1]])
    assert [Optional(pdf.Root).shows(group) for group in groups] == [False, True, False]
    del default["/ON"]
    assert [Optional(pdf.Root).shows(group) for group in groups] == [False, False, False]


def test_intents() -> None:
    pdf, groups = layers()
    groups[0]["/Intent"] = pikepdf.Name("/Design")
    assert Optional(pdf.Root).shows(groups[0])
    pdf.Root["/OCProperties"]["/D"]["/Intent"] = pikepdf.Name("/All")
    assert not Optional(pdf.Root).shows(groups[0])


@pytest.mark.parametrize(
    ("policy", "wanted"),
    [("/AllOn", False), ("/AnyOn", True), ("/AnyOff", True), ("/AllOff", False), ("/X", True)],
)
def test_memberships(policy: str, wanted: bool) -> None:
    pdf, groups = layers()
    member = pikepdf.Dictionary(
        Type=pikepdf.Name("/OCMD"), OCGs=pikepdf.Array(groups), P=pikepdf.Name(policy)
    )
    assert Optional(pdf.Root).shows(member) is wanted


def test_visibility_expressions() -> None:
    pdf, groups = layers()
    inner = pikepdf.Array([pikepdf.Name("/Not"), groups[0]])
    outer = pikepdf.Array([pikepdf.Name("/And"), groups[1], inner])
    assert Optional(pdf.Root).shows(pikepdf.Dictionary(Type=pikepdf.Name("/OCMD"), VE=outer))
