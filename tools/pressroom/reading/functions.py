"""Evaluates a PDF's functions, and makes functions from samples: ISO 32000-1, 7.10."""
import math
import re
from collections.abc import Callable
from dataclasses import dataclass

import numpy as np
import pikepdf
from numpy.typing import NDArray

from pressroom.reading import objects
from pressroom.reading.objects import Unreadable, get, is_array, is_dictionary, is_stream, number, numbers

Values = NDArray[np.float64]
# A program of a calculator function: numbers, operators and programs.
Program = list["float | str | Program"]
MOST_DEPTH, MOST_STEPS = 32, 100_000


@dataclass(frozen=True)
class Function:
    """A function of `inputs` numbers: its domain as pairs, and what makes of arrays of inputs (inputs, n) the
    outputs (outputs, n).
    """

    domain: Values
    call: Callable[[Values], Values]

    def __call__(self, given: Values) -> Values:
        low, high = self.domain[:, :1], self.domain[:, 1:]
        return self.call(np.clip(given, low, high))


def malformed(what: str) -> Unreadable:
    return Unreadable("damaged", f"damaged: a function {what}")


def pairs(holder: object, key: bytes) -> Values:
    """Returns the pairs of an array of numbers as an array of rows."""
    return np.array(objects.pairs(holder, key), dtype=float).reshape(-1, 2)


def function_of(value: object, depth: int = 0) -> Function:
    """Returns the function of an object; an array of functions of one output each counts as one function."""
    if depth > MOST_DEPTH:
        raise malformed("is nested too deeply")
    if is_array(value):
        parts = [function_of(item, depth + 1) for item in value]
        if not parts:
            raise malformed("is an empty list")
        return Function(parts[0].domain, lambda given: np.concatenate([part(given) for part in parts]))
    if not is_dictionary(value):
        raise malformed("is missing")
    domain, kind = pairs(value, b"/Domain"), number(get(value, b"/FunctionType"))
    makers = {0: sampled, 2: exponential, 3: stitched, 4: calculated}
    if not len(domain) or kind not in makers:
        raise malformed("has no domain or an unknown type")
    call = makers[int(kind)](value, domain, depth)
    limits = pairs(value, b"/Range")
    if not len(limits):
        return Function(domain, call)
    return Function(domain, lambda given: np.clip(call(given), limits[:, :1], limits[:, 1:]))


def exponential(value: object, domain: Values, depth: int) -> Callable[[Values], Values]:
    first = np.array(numbers(get(value, b"/C0")) or (0.0,))[:, None]
    last = np.array(numbers(get(value, b"/C1")) or (1.0,))[:, None]
    power = number(get(value, b"/N"))
    if power is None or first.shape != last.shape:
        raise malformed("of type 2 has no N, or C0 and C1 differ in length")
    exponent = power
    return lambda given: np.asarray(first + np.power(np.maximum(given, 0), exponent) * (last - first))


def stitched(value: object, domain: Values, depth: int) -> Callable[[Values], Values]:
    functions, bounds = get(value, b"/Functions"), numbers(get(value, b"/Bounds"))
    encode = pairs(value, b"/Encode")
    if not is_array(functions) or len(functions) != len(bounds) + 1 or len(encode) != len(functions):
        raise malformed("of type 3 has parts that don't fit its bounds")
    parts = [function_of(item, depth + 1) for item in functions]
    edges = [domain[0, 0], *bounds, domain[0, 1]]

    def call(given: Values) -> Values:
        chosen = np.searchsorted(np.array(bounds), given[0], side="right")
        outputs = len(parts[0](given[:, :1]))
        made = np.zeros((outputs, given.shape[1]))
        for place, part in enumerate(parts):
            here = chosen == place
            if here.any():
                width = edges[place + 1] - edges[place]
                low, high = encode[place]
                share = (given[:, here] - edges[place]) / width if width else given[:, here] * 0
                made[:, here] = part(low + share * (high - low))
        return made

    return call


def sampled(value: object, domain: Values, depth: int) -> Callable[[Values], Values]:
    limits, bits = pairs(value, b"/Range"), number(get(value, b"/BitsPerSample"))
    sizes = [int(size) for size in numbers(get(value, b"/Size"))]
    if (
        not is_stream(value)
        or len(sizes) != len(domain)
        or not len(limits)
        or bits not in (1, 2, 4, 8, 12, 16, 24, 32)
    ):
        raise malformed("of type 0 has no size, range or bits")
    count = math.prod(sizes) * len(limits)
    if min(sizes) < 1 or count > 1 << 24:
        raise malformed("of type 0 has too many samples")
    samples = samples_of(value.read_bytes(), int(bits), count)
    encode = pairs(value, b"/Encode")
    encode = encode if len(encode) == len(sizes) else np.array([(0, size - 1) for size in sizes], dtype=float)
    decode = pairs(value, b"/Decode")
    decode = decode if len(decode) == len(limits) else limits
    table = samples.reshape(*reversed(sizes), len(limits)) / (2 ** int(bits) - 1)
    table = decode[:, 0] + table * (decode[:, 1] - decode[:, 0])

    def call(given: Values) -> Values:
        width = domain[:, 1:] - domain[:, :1]
        share = (given - domain[:, :1]) / np.where(width == 0, 1, width)
        places = np.clip(
            encode[:, :1] + share * (encode[:, 1:] - encode[:, :1]), 0, np.array(sizes)[:, None] - 1
        )
        return interpolated(table, places, sizes)

    return call


def samples_of(data: bytes, bits: int, count: int) -> Values:
    """Returns the first samples of a stream of bits."""
    if len(data) * 8 < bits * count:
        raise malformed("of type 0 has too few samples")
    if bits in (8, 16, 32):
        return np.frombuffer(data, f">u{bits // 8}", count).astype(float)
    ones = np.unpackbits(np.frombuffer(data, np.uint8), count=bits * count).reshape(count, bits)
    return np.asarray(ones.astype(float) @ (2.0 ** np.arange(bits)[::-1]))


def interpolated(table: Values, places: Values, sizes: list[int]) -> Values:
    """Returns the table's values at these places, linear between its samples. The last axis of the table but one is
    the first input.
    """
    low = np.minimum(np.floor(places).astype(int), np.maximum(np.array(sizes)[:, None] - 2, 0))
    part, made = places - low, 0.0
    for corner in range(1 << len(sizes)):
        weight, index = 1.0, []
        for axis, size in enumerate(sizes):
            up = corner >> axis & 1
            weight = weight * (part[axis] if up else 1 - part[axis])
            index.append(np.minimum(low[axis] + up, size - 1))
        made = made + weight * table[tuple(reversed(index))].T
    return np.asarray(made)


def calculated(value: object, domain: Values, depth: int) -> Callable[[Values], Values]:
    if not is_stream(value):
        raise malformed("of type 4 has no program")
    text = re.sub(rb"%[^\r\n]*", b" ", value.read_bytes())
    program = program_of(re.findall(rb"[{}]|[^\s{}]+", text))
    outputs = len(pairs(value, b"/Range"))

    def call(given: Values) -> Values:
        made = np.zeros((outputs, given.shape[1]))
        for column in range(given.shape[1]):
            stack = Calculator()
            stack.values = [float(item) for item in given[:, column]]
            stack.run(program)
            if len(stack.values) < outputs:
                raise malformed("of type 4 leaves too few values")
            made[:, column] = stack.values[-outputs:]
        return made

    return call


def program_of(words: list[bytes]) -> Program:
    """Returns the program that these words say."""
    stack: list[Program] = [[]]
    for word in words:
        if word == b"{":
            stack.append([])
            if len(stack) > MOST_DEPTH:
                raise malformed("of type 4 is nested too deeply")
        elif word == b"}" and len(stack) > 1:
            inner = stack.pop()
            stack[-1].append(inner)
        else:
            try:
                stack[-1].append(float(word))
            except ValueError:
                stack[-1].append(word.decode("latin-1"))
    if len(stack) != 1 or len(stack[0]) != 1 or not isinstance(stack[0][0], list):
        raise malformed("of type 4 isn't one program")
    return stack[0][0]


def whole(value: float) -> int:
    return int(value)


def divided(one: float, other: float) -> float:
    return one / other if other else 0.0


def powered(one: float, other: float) -> float:
    try:
        made = one**other
        return made if isinstance(made, float) else 0.0
    except (ArithmeticError, ValueError):
        return 0.0


UNARY: dict[str, Callable[[float], float]] = {
    "abs": abs, "neg": lambda a: -a, "ceiling": math.ceil, "floor": math.floor, "round": lambda a: math.floor(a + 0.5),
    "truncate": math.trunc, "sqrt": lambda a: math.sqrt(max(a, 0)), "sin": lambda a: math.sin(math.radians(a)),
    "cos": lambda a: math.cos(math.radians(a)), "ln": lambda a: math.log(a) if a > 0 else 0.0,
    "log": lambda a: math.log10(a) if a > 0 else 0.0, "cvi": math.trunc, "cvr": float,
    "not": lambda a: (not a) if isinstance(a, bool) else ~whole(a),
}  # fmt: skip
BINARY: dict[str, Callable[[float, float], float]] = {
    "add": lambda a, b: a + b, "sub": lambda a, b: a - b, "mul": lambda a, b: a * b, "div": divided,
    "idiv": lambda a, b: math.trunc(divided(a, b)), "mod": lambda a, b: math.fmod(a, b) if b else 0.0,
    "exp": powered, "atan": lambda a, b: math.degrees(math.atan2(a, b)) % 360,
    "eq": lambda a, b: a == b, "ne": lambda a, b: a != b, "gt": lambda a, b: a > b, "ge": lambda a, b: a >= b,
    "lt": lambda a, b: a < b, "le": lambda a, b: a <= b,
    "and": lambda a, b: (a and b) if isinstance(a, bool) else whole(a) & whole(b),
    "or": lambda a, b: (a or b) if isinstance(a, bool) else whole(a) | whole(b),
    "xor": lambda a, b: (a != b) if isinstance(a, bool) else whole(a) ^ whole(b),
    "bitshift": lambda a, b: whole(a) << min(whole(b), 32) if b >= 0 else whole(a) >> min(-whole(b), 32),
}  # fmt: skip


class Calculator:
    """Runs a program of a calculator function on a stack: ISO 32000-1, table 42."""

    def __init__(self) -> None:
        self.values: list[float] = []
        self.steps = 0

    def run(self, program: Program) -> None:
        for place, word in enumerate(program):
            self.steps += 1
            if self.steps > MOST_STEPS or len(self.values) > 200:
                raise malformed("of type 4 takes too many steps")
            if isinstance(word, (float, list)):
                if isinstance(word, float):
                    self.values.append(word)
                continue
            try:
                self.step(word, program, place)
            except (IndexError, OverflowError):
                raise malformed(f"of type 4 can't do {word}") from None

    def step(self, word: str, program: Program, place: int) -> None:
        values = self.values
        if word in UNARY:
            values.append(UNARY[word](values.pop()))
        elif word in BINARY:
            last = values.pop()
            values.append(BINARY[word](values.pop(), last))
        elif word in ("true", "false"):
            values.append(word == "true")
        elif word in ("if", "ifelse"):
            self.choose(word, program, place)
        else:
            self.move(word)

    def choose(self, word: str, program: Program, place: int) -> None:
        parts = program[max(0, place - (2 if word == "ifelse" else 1)) : place]
        chosen = parts[0] if self.values.pop() else parts[1] if len(parts) > 1 else []
        if not isinstance(chosen, list):
            raise malformed(f"of type 4 has no program before {word}")
        self.run(chosen)

    def move(self, word: str) -> None:
        """Does an operator that moves values on the stack."""
        values = self.values
        if word == "pop":
            values.pop()
        elif word == "dup":
            values.append(values[-1])
        elif word == "exch":
            values[-2:] = [values[-1], values[-2]]
        elif word in ("copy", "index"):
            count = whole(values.pop())
            if count < 0 or count + (word == "index") > len(values):
                raise IndexError
            if word == "copy":
                values.extend(values[len(values) - count :])
            else:
                values.append(values[-1 - count])
        elif word == "roll":
            turn, count = whole(values.pop()), whole(values.pop())
            if not 0 <= count <= len(values):
                raise IndexError
            part = values[len(values) - count :]
            turn = turn % count if count else 0
            values[len(values) - count :] = part[len(part) - turn :] + part[: len(part) - turn]
        else:
            raise malformed(f"of type 4 has the operator {word[:20]}")


def of_samples(pdf: pikepdf.Pdf, samples: Values, domain: tuple[float, ...]) -> pikepdf.Object:
    """Makes a sampled function of one input from an array of outputs (outputs, n) from 0 to 1."""
    data = (np.clip(samples, 0, 1).T * 65535 + 0.5).astype(">u2").tobytes()
    return pdf.make_indirect(
        pikepdf.Stream(
            pdf, data, FunctionType=0, Domain=list(domain), Size=[samples.shape[1]], BitsPerSample=16,
            Range=[0, 1] * len(samples),
        )
    )  # fmt: skip
