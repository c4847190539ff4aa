"""Random circuits as calls: planning and evaluation of each, of three lists and of gate records, valid
and damaged.

A circuit is first drawn so that no refusal applies: on a house sheet or on any
other set, its key and inputs true ones of a known secret, or anything within range, or such that
the sums pass 2^63. Some are drawn gate by gate until one does not fit. What the calls only write
arrives with anything in it. Then each of the two calls over three lists is mostly damaged by itself,
and is followed by the same over gate records: where the lists have one length, both answer alike.
"""

from typing import NamedTuple

import circuit
import engine
from circuit import MOST_GATES, MOST_INPUTS
from engine import HOUSE_SHEETS, Gate, Params, fits_budget, largest_that_fits
from replay_batch import (LEAST_64, MOST_64, REFUSALS, WRAPPING, and_bounds, damage_set,
                          draw_bound, draw_entries, draw_errors, draw_found, draw_key,
                          make_wide_and, put, quiet_set)
from replay_format import (EVALUATE, EVALUATE_GATES, FIELDS, MAKE_SWITCHING_KEY, MOST_ENTRIES, PLAN,
                           PLAN_GATES, SET, WORD)

# Where the calls have their fields. KINDS, LEFTS and RIGHTS are those of both.
SET_AT, INPUTS_AT, KINDS, LEFTS, RIGHTS, WIRES, KEY, SCRATCH = 0, 1, 2, 3, 4, 5, 7, 8
BOUNDS_AT = {PLAN: 5, EVALUATE: 6}

MOST_WORD = 2**32 - 1


class Circuit(NamedTuple):
    """A circuit to which no refusal applies, with what is lent for its inputs."""

    p: Params
    gates: list
    bounds: list  # of the inputs
    wires: list   # those of the inputs, one after the other
    key: list     # a switching key


class CircuitSizes(NamedTuple):
    """How large circuits are drawn."""

    n: tuple        # one of these, mostly
    large_n: tuple  # one of these, one time in `seldom`
    seldom: int
    wide_n: tuple   # one of these where the sums are to pass 2^63
    inputs: int     # the most inputs, seldom
    gates: int      # the most gates, seldom


FULL = CircuitSizes((2, 2, 3, 3, 4, 4, 5, 6, 7, 8), (9, 12, 15, 16, 16, 16, 16, 24, 33, 64), 15,
                    (6, 7, 8), 40, 64)
SMALL = CircuitSizes((2, 2, 2, 3, 3, 4), (6,), 30, (6,), 6, 14)


# What is drawn: gates.


def draw_gate(rng, below):
    """A gate on the wires below its own. Late wires are favoured, and one wire twice is frequent."""
    kind = rng.choice((engine.XOR, engine.AND, engine.AND, engine.NOT))
    left, right = (max(rng.randrange(below), rng.choice((0, rng.randrange(below))))
                   for _ in range(2))
    if rng.randrange(6) == 0:
        right = left
    return Gate(kind, left, 0 if kind == engine.NOT else right)


def gate_bound(p, gate, bounds):
    """The bound of a gate's wire by the paper's rules."""
    return circuit.gate_bound(p, gate, bounds, engine.PAPER)


def draw_gates(rng, p, bounds, first, count):
    """At most so many gates that fit: up to one that does not, or with a NOT in the place of each
    such."""
    gates, bounds = [], list(bounds)
    goes_on = rng.randrange(3)
    gate = first
    while len(gates) < count:
        if not fits_budget(p, gate_bound(p, gate, bounds)):
            if gates and not goes_on:
                break
            gate = Gate(engine.NOT, gate.left, 0)
        gates.append(gate)
        bounds.append(gate_bound(p, gate, bounds))
        gate = draw_gate(rng, len(bounds))
    return gates


def draw_first(rng, inputs):
    """The first gate: mostly an AND of the first two inputs, whose bounds are drawn for it."""
    if rng.randrange(4):
        return Gate(engine.AND, 0, min(1, inputs - 1))
    return draw_gate(rng, inputs)


def draw_counts(rng, n, sizes):
    """How many inputs and gates; few gates where n is large."""
    few = 10 if n > 16 else sizes.gates
    gates = rng.choice((1, 2, 3, rng.randint(1, 12), rng.randint(1, few), few))
    return rng.choice((1, 2, 2, 3, rng.randint(1, 6), rng.randint(1, sizes.inputs))), min(gates, few)


# What is drawn: circuits.


def true_circuit(rng, p, inputs, count):
    """Encryptions under a known secret, and its switching key. E is lowered until an AND fits."""
    while not fits_budget(p, engine.and_bound(p, p.E, p.E)):
        p = p._replace(E=p.E // 2)
    secret = draw_key(rng, p)
    key = [0] * p.n**3
    masks = draw_entries(rng, p.Q, (p.n - 1) * p.n**2)
    engine.make_switching_key(p, secret, masks, draw_errors(rng, p.F, p.n**2), key)
    wires = []
    for _ in range(inputs):
        wire = [0] * p.n
        engine.encrypt(p, secret, rng.randrange(2), draw_entries(rng, p.q, p.n - 1),
                       draw_errors(rng, p.E, 1)[0], wire)
        wires += wire
    bounds = [p.E] * inputs
    return Circuit(p, draw_gates(rng, p, bounds, draw_first(rng, inputs), count), bounds, wires, key)


def any_circuit(rng, p, inputs, count):
    """Inputs and a switching key of anything within range, and bounds that fit, often just so."""
    bounds = and_bounds(rng, p) if inputs > 1 else [rng.randint(0, largest_that_fits(p)) // (4 * p.L)]
    bounds += [draw_bound(rng, rng.choice((largest_that_fits(p), min(3, largest_that_fits(p)))))
               for _ in range(inputs - 2)]
    gates = draw_gates(rng, p, bounds, draw_first(rng, inputs), count)
    return Circuit(p, gates, bounds, draw_entries(rng, p.q, inputs * p.n),
                   draw_entries(rng, p.Q, p.n**3))


def wide_circuit(rng, n, inputs, count):
    """An AND whose sums pass 2^63 before other gates."""
    p, left, first, right, second, key = make_wide_and(rng, n)[1][:6]
    others = max(0, inputs - 2)
    bounds = [first, second] + [draw_bound(rng, 3) for _ in range(others)]
    gates = draw_gates(rng, p, bounds, Gate(engine.AND, 0, 1), count)
    return Circuit(p, gates, bounds, left + right + draw_entries(rng, p.q, others * n), key)


def draw_circuit(rng, sizes):
    """A circuit to which no refusal applies."""
    n = rng.choice(sizes.n if rng.randrange(sizes.seldom) else sizes.large_n)
    inputs, count = draw_counts(rng, n, sizes)
    if rng.randrange(12) == 0:
        return wide_circuit(rng, rng.choice(sizes.wide_n), inputs, count)
    make = true_circuit if rng.randrange(2) else any_circuit
    return make(rng, quiet_set(rng, n), inputs, count)


# The calls.


def draw_found_words(rng, count):
    """What planning finds in the gates' bounds: anything."""
    return [rng.choice((0, MOST_WORD, rng.choice(WRAPPING), rng.randint(0, MOST_WORD)))
            for _ in range(count)]


def lent_lists(drawn):
    """The kinds, the lefts and the rights of a circuit."""
    return [list(column) for column in zip(*drawn.gates)]


def plan_call(rng, drawn):
    """Planning of a circuit."""
    found = draw_found_words(rng, len(drawn.gates))
    return PLAN, [drawn.p, len(drawn.bounds), *lent_lists(drawn), drawn.bounds + found]


def evaluate_call(rng, drawn):
    """Evaluation of a circuit."""
    p, count = drawn.p, len(drawn.gates)
    return EVALUATE, [
        p, len(drawn.bounds), *lent_lists(drawn), drawn.wires + draw_found(rng, count * p.n),
        drawn.bounds + draw_found_words(rng, count), list(drawn.key), draw_found(rng, p.n * p.n),
    ]


RECORD_CALL = {PLAN: PLAN_GATES, EVALUATE: EVALUATE_GATES}


def as_records(call):
    """A call over three lists as one over gate records. There is a record for each kind; a wire that
    the other lists lack is 0."""
    number, fields = call
    kinds, lefts, rights = fields[KINDS : RIGHTS + 1]
    missing = [0] * len(kinds)
    records = zip(kinds, lefts + missing, rights + missing)
    numbers = [x for record in records for x in record]
    return RECORD_CALL[number], [*fields[:KINDS], numbers, *fields[RIGHTS + 1 :]]


def both_ways(call):
    """A call over three lists, and the same over gate records."""
    return call, as_records(call)


# Damages.


def gates_of(call):
    """The gates of a call, as many as the shortest list has."""
    return [Gate(*g) for g in zip(*call[1][KINDS : RIGHTS + 1])]


def own_wire(call, g):
    """The wire of a gate."""
    return call[1][INPUTS_AT] + g


def some_gate(rng, call):
    """A gate of a call: the first, the last or any. None where there is none."""
    count = len(gates_of(call))
    return rng.choice((0, count - 1, rng.randrange(count))) if count else None


def damage_counts(rng, call):
    """2: no input, one too many, or the same of gates; the kinds alone decide how many gates."""
    fields = call[1]
    way = rng.randrange(8)
    if way < 5:
        inputs = fields[INPUTS_AT]
        fields[INPUTS_AT] = rng.choice((0, 0, MOST_INPUTS + 1, 2**16 + inputs, 2**31, MOST_WORD))
    elif way < 7:
        for at in (KINDS, LEFTS, RIGHTS) if way == 5 else (KINDS,):
            fields[at] = []
    else:
        fields[KINDS] = [0] * (MOST_GATES + 1)


def damage_lengths(rng, call):
    """3: a buffer or one of the three lists one short, one long or of some other length, or all
    three lists one short or one long."""
    fields = call[1]
    lists = [at for at, field in enumerate(fields) if isinstance(field, list)]
    if rng.randrange(len(lists) + 1) == 0:
        longer = rng.randrange(2)
        for at in (KINDS, LEFTS, RIGHTS):
            fields[at] = fields[at] + [0] if longer else fields[at][:-1]
        return
    at = rng.choice(lists)
    lent = fields[at]
    others = [lent[:-1], lent + [rng.randrange(2)], lent[: len(lent) // 2]]
    fields[at] = rng.choice(others if at == KINDS else others + [[]])


def damage_entries(rng, call):
    """6: an entry of an input or of the key just outside its range, or at the end of its width."""
    fields = call[1]
    p = fields[SET_AT]
    if rng.randrange(2):
        half = p.Q // 2
        put(rng, fields[KEY], (half, -half - 1, p.Q, LEAST_64, MOST_64))
        return
    half = p.q // 2
    inputs = fields[WIRES][: fields[INPUTS_AT] * p.n]
    put(rng, inputs, (half, -half - 1, p.q, -p.q, 2**32, -(2**32), LEAST_64, MOST_64))
    fields[WIRES][: len(inputs)] = inputs


def damage_bound(rng, call):
    """8: an input's bound at a quarter of q, or so large that four times it does not fit 32 bits."""
    number, fields = call
    over = (fields[SET_AT].q + 3) // 4
    lent = fields[BOUNDS_AT[number]]
    inputs = lent[: fields[INPUTS_AT]]
    put(rng, inputs, (over, over + 1) + WRAPPING)
    lent[: len(inputs)] = inputs


def heavy_gates(rng, p, bounds):
    """Gates on these wires whose bound does not fit, some of them just so."""
    wires = rng.sample(range(len(bounds)), min(len(bounds), 12))
    gates = [Gate(kind, left, right)
             for kind in (engine.XOR, engine.AND) for left in wires for right in wires]
    over = [gate for gate in gates if not fits_budget(p, gate_bound(p, gate, bounds))]
    return sorted(over, key=lambda gate: gate_bound(p, gate, bounds))


def damage_budget(rng, call):
    """10: a gate whose bound does not fit, often just so. Where there is none, an input's bound is
    raised to the largest that fits first."""
    number, fields = call
    p = fields[SET_AT]
    g = some_gate(rng, call)
    lent = fields[BOUNDS_AT[number]]
    if g is None or fields[INPUTS_AT] > len(lent):
        return
    bounds = lent[: fields[INPUTS_AT]]
    before = circuit.settle(p, len(bounds), gates_of(call)[:g], bounds)
    heavy = heavy_gates(rng, p, before.bounds) if before.bounds else []
    if not heavy:
        lent[0] = largest_that_fits(p)
        heavy = [Gate(engine.XOR, 0, 0)]
    chosen = rng.choice((heavy[0], rng.choice(heavy)))
    for at, value in zip((KINDS, LEFTS, RIGHTS), chosen):
        fields[at][g] = value


def damage_gate(rng, call):
    """9: one gate or several with an unknown kind, an operand not below its own wire, or NOT's
    right not 0. Sometimes another gate does not fit."""
    fields = call[1]
    if rng.randrange(4) == 0:
        damage_budget(rng, call)
    for _ in range(rng.choice((1, 1, 2))):
        g = some_gate(rng, call)
        if g is None:
            return
        own = own_wire(call, g)
        high = rng.choice((own, own, own + 1, own + 2**16, 2**31, MOST_WORD))
        way = rng.randrange(4)
        if way == 0:
            fields[KINDS][g] = rng.choice((3, 3, 4, 255, 256, 257, 2**16 + 1, 2**31, MOST_WORD))
        elif way == 1:
            fields[LEFTS][g] = high
        elif way == 2 or fields[KINDS][g] != engine.NOT:
            fields[RIGHTS][g] = high
        else:
            fields[RIGHTS][g] = rng.choice((1, own - 1, own, 2**16, MOST_WORD)) or 1


DAMAGES = {1: damage_set, 2: damage_counts, 3: damage_lengths, 6: damage_entries,
           8: damage_bound, 9: damage_gate, 10: damage_budget}


def damaged(rng, call):
    """The call as it is, four times in ten; else damaged for one number, seldom for two."""
    numbers = REFUSALS[call[0]]
    damages = rng.choice((0, 0, 0, 0, 1, 1, 1, 1, 1, 2))
    for refusal in sorted(rng.sample(numbers, damages), reverse=True):
        DAMAGES[refusal](rng, call)
    return call


def make_circuits(rng, count, sizes):
    """So many circuits, planning and evaluation of each, both ways."""
    for _ in range(count):
        drawn = draw_circuit(rng, sizes)
        yield from both_ways(damaged(rng, plan_call(rng, drawn)))
        yield from both_ways(damaged(rng, evaluate_call(rng, drawn)))


# The largest circuit.


def largest_circuit(rng):
    """As many inputs and gates as there may be, n = 2, every gate within the budget."""
    p = Params(2, 1048574, 6, 3, 1)
    while True:
        drawn = true_circuit(rng, p, MOST_INPUTS, MOST_GATES)
        if len(drawn.gates) == MOST_GATES:
            return drawn


def with_last(drawn, gate):
    """A circuit with another last gate."""
    return drawn._replace(gates=drawn.gates[:-1] + [gate])


def fullest_call(number):
    """A call with every list as long as the format lets it be."""
    def fullest(kind):
        if kind == SET:
            return HOUSE_SHEETS[4]
        return 1 if kind == WORD else [1] * MOST_ENTRIES[kind]
    return number, [fullest(kind) for kind in FIELDS[number]]


def largest_calls(rng):
    """Both calls, both ways, on the largest circuit, on the same with a last gate that is wrong and with
    one that does not fit, and with one gate and one input too many; and the longest calls."""
    drawn = largest_circuit(rng)
    bounds = circuit.settle(drawn.p, MOST_INPUTS, drawn.gates, drawn.bounds).bounds
    loudest = bounds.index(max(bounds[:-1]))
    wrong = Gate(engine.XOR, 0, MOST_INPUTS + MOST_GATES - 1)
    loud = Gate(engine.AND, loudest, loudest)
    more = drawn._replace(gates=drawn.gates + [Gate(engine.NOT, 0, 0)])
    wider = drawn._replace(bounds=drawn.bounds + [0], wires=drawn.wires + [0, 0])
    for one in (drawn, with_last(drawn, wrong), with_last(drawn, loud), more, wider):
        yield from both_ways(plan_call(rng, one))
        yield from both_ways(evaluate_call(rng, one))
    yield from (fullest_call(number) for number in (
        MAKE_SWITCHING_KEY, PLAN, EVALUATE, PLAN_GATES, EVALUATE_GATES))
