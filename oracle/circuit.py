"""Planning and evaluating a circuit."""

from typing import NamedTuple

import definitions
from arith import PAPER
from calls import (
    Answer,
    first_refusal,
    some_bound_outside,
    some_entry_outside,
    some_length_differs,
)
from params import fits_budget, within_limits

XOR, AND, NOT = 0, 1, 2
KIND_NAMES = {XOR: "XOR", AND: "AND", NOT: "NOT"}

MOST_INPUTS = 1024
MOST_GATES = 4096


class Gate(NamedTuple):
    """A gate record. NOT has right 0, which is no operand."""

    kind: int
    left: int
    right: int


def counts_outside(inputs, gate_count):
    """True when the input count or the gate count is outside its range."""
    return not (1 <= inputs <= MOST_INPUTS and 1 <= gate_count <= MOST_GATES)


def is_right(gate, own_wire):
    """A known kind, and operands below the gate's own wire; NOT has right 0."""
    kind, left, right = gate
    if kind not in KIND_NAMES or not 0 <= left < own_wire:
        return False
    if kind == NOT:
        return right == 0
    return 0 <= right < own_wire


def wrong_gates(inputs, gates):
    """The gates that are wrong, one after the other."""
    return (g for g, gate in enumerate(gates) if not is_right(gate, inputs + g))


def gate_bound(p, gate, bounds, rules):
    """The bound of one gate's wire, from the bounds of the wires below it."""
    kind, left, right = gate
    if kind == NOT:
        return bounds[left]
    if kind == XOR:
        return definitions.xor_bound(bounds[left], bounds[right])
    return rules.and_bound(p, bounds[left], bounds[right])


def over_gates(p, gates, bounds, rules):
    """The gates whose bound does not fit, one after the other.

    The bounds, which are the inputs' at first, get every gate's. A bound that does not
    fit is cut to q, so that it stays one that does not.
    """
    inputs = len(bounds)
    for g, gate in enumerate(gates):
        bound = min(gate_bound(p, gate, bounds, rules), p.q)
        bounds.append(bound)
        if not fits_budget(p, bound) and rules.counts(inputs, g, gates):
            yield g


class Settled(NamedTuple):
    """What settling gives: 0, 9 or 10, its place, and every wire's bound if it is 0."""

    number: int
    place: int
    bounds: list


def settle(p, inputs, gates, input_bounds, rules=PAPER):
    """Checks all gates for 9, then walks the bounds and stops at the first 10.

    Every gate counts against the budget, used later or not.
    """
    wrong = rules.place(wrong_gates(inputs, gates))
    if wrong is not None:
        return Settled(9, wrong, [])
    bounds = list(input_bounds)
    over = rules.place(over_gates(p, gates, bounds, rules))
    if over is not None:
        return Settled(10, over, [])
    return Settled(0, 0, bounds)


def plan(p, inputs, gates, bounds, rules=PAPER):
    """Planning. Refuses with 1, 2, 3, 8, 9 and 10.

    bounds holds every wire's bound, inputs filled. Only the gates' are written.
    """
    number = first_refusal([
        (1, lambda: not within_limits(p)),
        (2, lambda: counts_outside(inputs, len(gates))),
        (3, lambda: some_length_differs((bounds, inputs + len(gates)))),
        (8, lambda: some_bound_outside(p, bounds[:inputs])),
    ])
    if number:
        return Answer(number)
    settled = settle(p, inputs, gates, bounds[:inputs], rules)
    if settled.number:
        return Answer(settled.number, settled.place)
    bounds[inputs:] = settled.bounds[inputs:]
    return Answer(0)


def gate_result(p, gate, wire_list, switching_key, rules):
    """The ciphertext of one gate's wire, from the wires below it."""
    kind, left, right = gate
    if kind == NOT:
        return definitions.not_of(p, wire_list[left], rules)
    if kind == XOR:
        return definitions.xor_of(p, wire_list[left], wire_list[right], rules)
    return definitions.and_of(p, wire_list[left], wire_list[right], switching_key, rules)


def gate_stretches(p, inputs, gates, wires, switching_key, rules):
    """All the gates' stretches of the wire buffer, as one run."""
    wire_list = [wires[w * p.n : (w + 1) * p.n] for w in range(inputs)]
    for gate in gates:
        wire_list.append(gate_result(p, gate, wire_list, switching_key, rules))
    return [entry for wire in wire_list[inputs:] for entry in wire]


def evaluate(
    p, inputs, gates, wires, bounds, switching_key, scratch, rules=PAPER
):
    """Evaluation. Refuses with 1, 2, 3, 6, 8, 9 and 10.

    wires holds n entries a wire and bounds one, inputs filled. For 6 the input
    wires and the switching key are read. What stands in the gates' stretches,
    the gates' bounds and the scratch is never read.
    """
    total = inputs + len(gates)
    number = first_refusal([
        (1, lambda: not within_limits(p)),
        (2, lambda: counts_outside(inputs, len(gates))),
        (3, lambda: some_length_differs(
            (wires, total * p.n),
            (bounds, total),
            (switching_key, p.n**3),
            (scratch, p.n**2),
        )),
        (6, lambda: some_entry_outside(p.q, wires[: inputs * p.n])
            or some_entry_outside(p.Q, switching_key)),
        (8, lambda: some_bound_outside(p, bounds[:inputs])),
    ])
    if number:
        return Answer(number)
    settled = settle(p, inputs, gates, bounds[:inputs], rules)
    if settled.number:
        return Answer(settled.number, settled.place)
    stretches = gate_stretches(p, inputs, gates, wires, switching_key, rules)
    wires[inputs * p.n :] = stretches
    bounds[inputs:] = settled.bounds[inputs:]
    scratch[:] = rules.scratch(scratch)
    return Answer(0)


def some_list_differs(kinds, lefts, rights):
    """True when the three lists of a circuit have not one length."""
    return len(lefts) != len(kinds) or len(rights) != len(kinds)


def uneven_number(p, inputs, kinds):
    """The number where the three lists have not one length. The gate count is that of the kinds."""
    return first_refusal([
        (1, lambda: not within_limits(p)),
        (2, lambda: counts_outside(inputs, len(kinds))),
        (3, lambda: True),
    ])


def plan_lists(p, inputs, kinds, lefts, rights, bounds, rules=PAPER):
    """Planning of a circuit that is lent as three lists. Refuses with 1, 2, 3, 8, 9 and 10."""
    if some_list_differs(kinds, lefts, rights):
        return Answer(uneven_number(p, inputs, kinds))
    return plan(p, inputs, [Gate(*g) for g in zip(kinds, lefts, rights)], bounds, rules)


def evaluate_lists(
    p, inputs, kinds, lefts, rights, wires, bounds, switching_key, scratch, rules=PAPER
):
    """Evaluation of a circuit that is lent as three lists. Refuses as evaluation does."""
    if some_list_differs(kinds, lefts, rights):
        return Answer(uneven_number(p, inputs, kinds))
    gates = [Gate(*g) for g in zip(kinds, lefts, rights)]
    return evaluate(p, inputs, gates, wires, bounds, switching_key, scratch, rules)
