"""Circuits with a known key, from keys to decrypted bits, all done by the program `replay`.

The program makes the switching keys (call 4), encrypts the inputs (7), evaluates (13, and over gate
records 18) and decrypts every wire (8), in three runs, since later calls borrow earlier answers.
This script keeps the key and judges: the true noise of every wire for its plaintext bit is at most
the bound that was tracked, four times the bound is under q, the decrypted bit is the plaintext bit,
and the two evaluations answered and left the same.

    python3 oracle/end_to_end.py [--seed N] [--circuits N] [--program FILE]

The exit status is 1 on any violation, where only one bit was seen at the outputs, and where fewer
circuits with an AND were accepted than asked for.
"""

import argparse
import random
import sys
from fractions import Fraction
from typing import NamedTuple

import definitions
import search
from engine import AND, HOUSE_SHEETS, NOT, PAPER, XOR, Params
from replay import PROGRAM, answers_of
from replay_circuits import both_ways, draw_first, draw_gates
from replay_format import DECRYPT, ENCRYPT, EVALUATE, MAKE_SWITCHING_KEY, written

DEFAULT_CIRCUITS = 3000
GROUP = 200               # circuits that go through the three runs together
TRIES_PER_CIRCUIT = 3     # groups are drawn until so many times the circuits were tried
INPUT = "input"
KIND_NAMES = {XOR: "XOR", AND: "AND", NOT: "NOT", INPUT: "input"}


class Drawn(NamedTuple):
    """A circuit with all that is lent to make its keys and its inputs."""

    p: Params
    secret: list
    gates: list
    bits: list    # of the inputs
    masks: list   # of the inputs, each a list
    errors: list  # of the inputs
    key_masks: list
    key_errors: list


class Evaluated(NamedTuple):
    """What the program made of a circuit."""

    drawn: Drawn
    wires: list   # each a list
    bounds: list


class Violation(Exception):
    """Something that must not be."""


# What is drawn.


def draw_searched(rng):
    """A small circuit as the search draws it, every input fresh, with a q that accepts it."""
    plain = search.draw_plain(rng)
    plain = plain._replace(fresh=[True] * plain.inputs, stated=[plain.E] * plain.inputs)
    q = search.draw_q(rng, plain, PAPER)
    if q is None:
        return None
    return Params(plain.n, q, plain.L, plain.E, plain.F), plain.inputs, plain.gates


def draw_on_a_sheet(rng):
    """A circuit on one of the sheets 1 to 4, up to 40 gates; few where n is large."""
    p = HOUSE_SHEETS[rng.choice((1, 1, 1, 2, 2, 3) if rng.randrange(40) else (4,))]
    inputs = rng.randint(1, 6)
    count = rng.randint(1, 40 if p.n < 16 else 8)
    return p, inputs, draw_gates(rng, p, [p.E] * inputs, draw_first(rng, inputs), count)


def first_and(p, secret, gates, bits, wires):
    """The first AND of a circuit, for switching errors that add to its noise."""
    plain = search.Plain(p.n, p.L, p.E, p.F, len(bits), gates, [], [])
    return search.first_and(plain, p, secret, bits, [x for wire in wires for x in wire])


def draw_circuit(rng):
    """A circuit with an AND and all that is lent for it, or None."""
    shape = draw_searched(rng) if rng.randrange(5) else draw_on_a_sheet(rng)
    if shape is None or all(gate.kind != AND for gate in shape[2]):
        return None
    p, inputs, gates = shape
    secret = search.draw_key(rng, p)
    way, sign = rng.choice(("down", "up", "ends", "random")), rng.choice((-1, 1))
    bits = [rng.randrange(2) for _ in range(inputs)]
    masks = [search.draw_mask(rng, p, secret, way) for _ in range(inputs)]
    errors = [search.draw_error(rng, p.E, sign) for _ in range(inputs)]
    wires = [definitions.encryption(p, secret, *lent) for lent in zip(bits, masks, errors)]
    key_errors = search.draw_switching_errors(rng, p, first_and(p, secret, gates, bits, wires))
    return Drawn(p, secret, gates, bits, masks, errors, search.draw_switching_masks(rng, p), key_errors)


# What the program does.


def answers(program, calls):
    """The program's answers to calls, each a list of numbers."""
    lines = answers_of(program, "".join(written(call) for call in calls))
    if len(lines) != len(calls) + 1:
        raise Violation(f"the program answered {len(lines) - 1} of {len(calls)} calls")
    return [[int(x) for x in line.split()] for line in lines[:-1]]


def done(answer, what):
    """What follows the number and the place of an answer, which must both be 0."""
    if answer[:2] != [0, 0]:
        raise Violation(f"{what} was refused with {answer[0]} at {answer[1]}")
    return answer[2:]


def lend(program, group):
    """The switching key and the encrypted inputs of each circuit, made by the program."""
    calls = []
    for d in group:
        calls.append((MAKE_SWITCHING_KEY,
                      [d.p, d.secret, d.key_masks, d.key_errors, [0] * d.p.n**3]))
        calls += [(ENCRYPT, [d.p, d.secret, bit, mask, error, [0] * d.p.n])
                  for bit, mask, error in zip(d.bits, d.masks, d.errors)]
    said = iter(answers(program, calls))
    for d in group:
        key = done(next(said), "a switching key")
        made = [done(next(said), "an encryption") for _ in d.bits]
        yield key, [x for bound_and_wire in made for x in bound_and_wire[1:]], [m[0] for m in made]


def evaluate(program, group):
    """Every circuit of a group that the program accepts, evaluated."""
    calls = []
    for d, (key, wires, bounds) in zip(group, lend(program, group)):
        count = len(d.gates)
        three = [list(column) for column in zip(*d.gates)]
        calls += both_ways((EVALUATE, [d.p, len(d.bits), *three, wires + [0] * (count * d.p.n),
                                       bounds + [0] * count, key, [0] * d.p.n**2]))
    said = answers(program, calls)
    for d, answer, over_records in zip(group, said[::2], said[1::2]):
        if answer != over_records:
            raise Violation(f"{d.p}, gates {d.gates}: evaluated otherwise over gate records")
        if answer[0] == 10:
            continue
        left = done(answer, "an evaluation")
        total, n = len(d.bits) + len(d.gates), d.p.n
        wires = [left[w * n : (w + 1) * n] for w in range(total)]
        yield Evaluated(d, wires, left[total * n : total * n + total])


def decrypt(program, evaluated):
    """The decrypted bits of every wire of each circuit."""
    calls = [(DECRYPT, [e.drawn.p, e.drawn.secret, wire]) for e in evaluated for wire in e.wires]
    said = iter(answers(program, calls))
    return [[done(next(said), "a decryption")[0] for _ in e.wires] for e in evaluated]


# What is judged.


class Kind:
    """What was seen of the wires of one kind."""

    def __init__(self):
        self.wires = self.exact = 0
        self.largest = Fraction(0)

    def take(self, noise, bound):
        """Counts a wire."""
        self.wires += 1
        if bound:
            self.exact += noise == bound
            self.largest = max(self.largest, Fraction(noise, bound))


class Seen:
    """What was seen so far."""

    def __init__(self):
        self.tried = self.accepted = 0
        self.outputs = [0, 0]
        self.kinds = {kind: Kind() for kind in KIND_NAMES}
        self.sizes = {}

    def judge(self, one, read):
        """Judges every wire of a circuit."""
        p, secret = one.drawn.p, one.drawn.secret
        inputs = len(one.drawn.bits)
        bits = search.plain_bits(one.drawn.gates, one.drawn.bits)
        kinds = [INPUT] * inputs + [gate.kind for gate in one.drawn.gates]
        for w, (kind, bit) in enumerate(zip(kinds, bits)):
            noise, bound = definitions.true_noise(p, secret, one.wires[w], bit), one.bounds[w]
            if noise > bound or 4 * bound >= p.q or read[w] != bit:
                raise Violation(f"{p}, secret {secret}, gates {one.drawn.gates}, wire {w}: noise "
                                f"{noise}, bound {bound}, bit {bit}, decrypted {read[w]}")
            self.kinds[kind].take(noise, bound)
        self.accepted += 1
        self.outputs[bits[-1]] += 1
        self.sizes[p.n] = self.sizes.get(p.n, 0) + 1

    def show(self):
        """Prints what was seen."""
        sizes = " ".join(f"{n}:{self.sizes[n]}" for n in sorted(self.sizes))
        print(f"accepted circuits with an AND: {self.accepted} of {self.tried}, by n: {sizes}")
        for kind, name in KIND_NAMES.items():
            seen = self.kinds[kind]
            print(f"  {name:<5} wires: {seen.wires}, largest noise/bound: {float(seen.largest):.6f}, "
                  f"noise equal to a bound over 0: {seen.exact}")
        print(f"  output bits: {self.outputs[0]} of 0, {self.outputs[1]} of 1")


def run(seed, wanted, program):
    """Judges circuits until enough are accepted. Gives what was seen."""
    rng = random.Random(seed)
    seen = Seen()
    while seen.accepted < wanted and seen.tried < TRIES_PER_CIRCUIT * wanted + GROUP:
        drawn = [draw_circuit(rng) for _ in range(GROUP)]
        group = [d for d in drawn if d is not None]
        seen.tried += len(group)
        evaluated = list(evaluate(program, group))
        for one, read in zip(evaluated, decrypt(program, evaluated)):
            seen.judge(one, read)
    return seen


def main():
    """Does what was asked for."""
    parser = argparse.ArgumentParser(description="Circuits from end to end.")
    parser.add_argument("--seed", type=int, default=1)
    parser.add_argument("--circuits", type=int, default=DEFAULT_CIRCUITS)
    parser.add_argument("--program", default=str(PROGRAM))
    asked = parser.parse_args()
    print(f"seed {asked.seed}")
    try:
        seen = run(asked.seed, asked.circuits, asked.program)
    except Violation as violation:
        print(f"VIOLATION: {violation}")
        return 1
    seen.show()
    if seen.accepted < asked.circuits:
        print(f"TOO FEW: {asked.circuits} accepted circuits were asked for")
        return 1
    if not all(seen.outputs):
        print("ONE BIT ALONE was seen at the outputs")
        return 1
    print("every noise within its bound, every bit right")
    return 0


if __name__ == "__main__":
    sys.exit(main())
