"""The circuit file: its check, its planning and the printed text.

The file has its own order of refusals: 12 when it is under 23 bytes, then 11,
1, 2, 12 for its whole length, then planning's 3, then 9 and 10.
"""

import struct
from typing import NamedTuple

from arith import PAPER
from calls import first_refusal
from circuit import KIND_NAMES, Gate, counts_outside, settle
from params import Params, largest_that_fits, within_limits

MARK = b"GAT"
VERSION = 1

# Big-endian: mark, version, n, q, L, E, F, inputs, gates.
HEAD = struct.Struct(">3sHHIHIHHH")
# Big-endian: kind, left, right.
RECORD = struct.Struct(">BHH")


class Head(NamedTuple):
    """The first 23 bytes of a circuit file."""

    mark: bytes
    version: int
    params: Params
    inputs: int
    gates: int


class Look(NamedTuple):
    """What a look at a file gives. Gates and bounds are filled only if number is 0."""

    number: int
    place: int = 0
    head: Head = None
    gates: list = ()
    bounds: list = ()


class Printed(NamedTuple):
    """The answer of the text in a lent buffer: the text's length."""

    number: int
    place: int = 0
    length: int = 0


def read_head(data):
    """The head of a file of at least 23 bytes."""
    mark, version, n, q, L, E, F, inputs, gates = HEAD.unpack(data[: HEAD.size])
    return Head(mark, version, Params(n, q, L, E, F), inputs, gates)


def read_gates(data):
    """The gate records of a file whose length is right."""
    return [Gate(*fields) for fields in RECORD.iter_unpack(data[HEAD.size :])]


def look_at(data, buffer_length=None, rules=PAPER):
    """Goes through the whole order of a file. All inputs start at bound E.

    buffer_length is the length of planning's buffer, None where there is none.
    """
    data = bytes(data)
    if len(data) < HEAD.size:
        return Look(12)
    head = read_head(data)
    wires = head.inputs + head.gates
    number = first_refusal([
        (11, lambda: head.mark != MARK or head.version != VERSION),
        (1, lambda: not within_limits(head.params)),
        (2, lambda: counts_outside(head.inputs, head.gates)),
        (12, lambda: len(data) != HEAD.size + RECORD.size * head.gates),
        (3, lambda: buffer_length is not None and buffer_length != 4 * wires),
    ])
    if number:
        return Look(number)
    gates = read_gates(data)
    input_bounds = [head.params.E] * head.inputs
    settled = settle(head.params, head.inputs, gates, input_bounds, rules)
    if settled.number:
        return Look(settled.number, settled.place)
    return Look(0, 0, head, gates, settled.bounds)


def check_file(data, rules=PAPER):
    """The file check. Answers 65,536 times the number plus the place."""
    look = look_at(data, None, rules)
    return 65536 * look.number + look.place


def plan_file(data, buffer, rules=PAPER):
    """Planning on a file's bytes. Answers as the check does.

    It writes every wire's bound into the byte buffer, four big-endian bytes each.
    """
    look = look_at(data, len(buffer), rules)
    if look.number == 0:
        buffer[:] = b"".join(bound.to_bytes(4, "big") for bound in look.bounds)
    return 65536 * look.number + look.place


def printed(data, rules=PAPER):
    """The budget printer's text. Every line ends with a newline."""
    look = look_at(data, None, rules)
    if look.number:
        return f"REFUSED {look.number} {look.place}\n"
    kinds = ["IN"] * look.head.inputs + [KIND_NAMES[gate.kind] for gate in look.gates]
    lines = [
        f"{wire} {kind} {bound}\n"
        for wire, (kind, bound) in enumerate(zip(kinds, look.bounds))
    ]
    largest = largest_that_fits(look.head.params)
    return "".join(lines) + f"OK {look.bounds[-1]} {largest}\n"


def print_file(data, buffer, rules=PAPER):
    """The text in a lent byte buffer. Answers its length and writes it at the front.

    A buffer that is shorter than the text is refused with 3 and stays as it is.
    """
    text = printed(data, rules).encode()
    if len(buffer) < len(text):
        return Printed(3)
    buffer[: len(text)] = text
    return Printed(0, 0, len(text))
