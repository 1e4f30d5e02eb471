"""Functions of the PDF: ISO 32000-1, 7.10."""
import os
import sys

import numpy as np
import pikepdf
import pytest

sys.dont_write_bytecode = True
sys.path.insert(0, os.path.join(os.path.dirname(os.path.abspath(__file__)), "..", ".."))

from pressroom.reading.functions import function_of
from pressroom.reading.objects import Unreadable


def calculator(text: bytes, outputs: int = 1) -> pikepdf.Object:
    pdf = pikepdf.new()
    return pikepdf.Stream(pdf, text, FunctionType=4, Domain=[-9, 9], Range=[-9, 9] * outputs)


@pytest.mark.parametrize(
    ("text", "given", "wanted"),
    [
        (b"{2 mul 1 add}", 3, 7),
        (b"{dup 0 lt {neg} {2 exp} ifelse}", 2, 4),
        (b"{dup 0 lt {neg} {2 exp} ifelse}", -2, 2),
        (b"{1 2 3 3 1 roll pop pop exch pop}", 5, 3),
        (b"{4 1 index sub exch pop}", 1, 3),
        (b"{3 2 copy pop pop exch pop}", 1, 3),
        (b"{180 mul cos}", 1, -1),
        (b"{7 exch idiv}", 2, 3),
        (b"{1 lt {4} if 5}", 3, 5),
        (b"{neg 7 exch idiv}", 2, -3),
        (b"{5 mul}", 3, 9),
    ],
)
def test_calculators(text: bytes, given: float, wanted: float) -> None:
    assert function_of(calculator(text))(np.array([[float(given)]]))[0, 0] == pytest.approx(wanted)


@pytest.mark.parametrize("text", [b"{pop}", b"{pop pop}", b"{", b"{nope}", b"{" * 99 + b"}" * 99, b"{1 (a)}"])
def test_calculators_that_are_malformed(text: bytes) -> None:
    with pytest.raises(Unreadable):
        function_of(calculator(text))(np.array([[1.0]]))


def test_functions() -> None:
    pdf = pikepdf.new()
    linear = pikepdf.Dictionary(FunctionType=2, Domain=[0, 1], C0=[0, 1], C1=[1, 0], N=1)
    assert function_of(linear)(np.array([[0.25]])).ravel().tolist() == [0.25, 0.75]
    steps = pikepdf.Dictionary(
        FunctionType=3, Domain=[0, 1], Functions=[linear, linear], Bounds=[0.5], Encode=[0, 1, 1, 0]
    )
    assert function_of(steps)(np.array([[0.25, 0.75]]))[0].tolist() == [0.5, 0.5]
    # A bound belongs to the part above it (7.10.4).
    steps["/Encode"] = pikepdf.Array([0, 1, 0, 1])
    assert function_of(steps)(np.array([[0.5]]))[0].tolist() == [0]
    table = pikepdf.Stream(
        pdf,
        bytes([0, 255, 255, 0]),
        FunctionType=0,
        Domain=[0, 1, 0, 1],
        Range=[0, 1],
        Size=[2, 2],
        BitsPerSample=8,
    )
    corners = np.array([[0.0, 1.0, 0.0, 1.0, 0.5], [0.0, 0.0, 1.0, 1.0, 0.5]])
    assert function_of(table)(corners)[0].tolist() == [0, 1, 1, 0, 0.5]
