"""Searches for a circuit whose noise breaks its bound.

Random small circuits are drawn so that most are accepted, with keys, masks,
errors and input ciphertexts chosen to make the noise large. Fresh inputs,
switching keys, planning, evaluation and decryption go through the public calls.
Then for every wire: its true noise for its plaintext bit is at most its tracked
bound, four times the bound is under q, and decryption gives the bit.

The same search is then run with two planted faults, and must find each out.
"""

import argparse
import random
import sys
from fractions import Fraction
from typing import NamedTuple

import definitions
import engine
import faults
from arith import PAPER
from engine import AND, NOT, XOR, Gate, Params
from params import LARGEST_Q, SMALLEST_Q

DEFAULT_SEED = 1
DEFAULT_CIRCUITS = 10000
TRIES_PER_CIRCUIT = 20
LEAST_FOR_A_FAULT = 1000


class Plain(NamedTuple):
    """A circuit before any number modulo q: sizes, gates, and what its inputs are."""

    n: int
    L: int
    E: int
    F: int
    inputs: int
    gates: list
    fresh: list  # per input: made by encryption, or by hand
    stated: list  # per input: its stated bound


class Run(NamedTuple):
    """An accepted circuit after its evaluation, with all that is needed to judge it."""

    p: Params
    key: list
    inputs: int
    gates: list
    bits: list
    wires: list
    bounds: list


# What is drawn: sizes, gates, modulus.


def draw_gates(rng, inputs, count):
    """Gates of all kinds, one of them an AND for certain. Late wires are favoured."""
    gates = []
    sure = rng.randrange(count)
    for g in range(count):
        kind = AND if g == sure else rng.choice((XOR, XOR, NOT, NOT, AND))
        below = inputs + g
        left = max(rng.randrange(below), rng.randrange(below))
        right = 0 if kind == NOT else rng.randrange(below)
        gates.append(Gate(kind, left, right))
    return gates


def draw_up_to(rng, *tops):
    """A number from 1 to one of the tops."""
    return rng.randint(1, rng.choice(tops))


def draw_plain(rng):
    """Sizes and gates. Most are small, so that roundings weigh much in the bound."""
    n = rng.choice((2, 2, 2, 2, 3, 3, 3, 4, 4, rng.randint(2, 6)))
    L = rng.choice((1, 1, 2, 2, 3, 3, 4, 5, 8, draw_up_to(rng, 20, 200, 700)))
    E = rng.choice((0, 0, 1, 1, 2, 3, draw_up_to(rng, 40, 4000, 60000)))
    F = rng.choice((0, 0, 0, 1, 1, 2, draw_up_to(rng, 60, 5000, 65535)))
    inputs = rng.randint(1, 4)
    gates = draw_gates(rng, inputs, rng.choice((1, 1, 2, 3, 4, 6, 8, 12)))
    fresh = [rng.random() < 0.6 for _ in range(inputs)]
    stated = [
        E if fresh[w] else rng.choice((0, 1, 2, draw_up_to(rng, 100, 5000)))
        for w in range(inputs)
    ]
    return Plain(n, L, E, F, inputs, gates, fresh, stated)


def planned_bounds(plain, q, rules):
    """Every wire's bound at this q by the planning call, or None when it refuses."""
    p = Params(plain.n, q, plain.L, plain.E, plain.F)
    bounds = plain.stated + [0] * len(plain.gates)
    answer = engine.plan(p, plain.inputs, plain.gates, bounds, rules)
    return bounds if answer.number == 0 else None


def tight_q(plain, rules):
    """A q that is accepted and little over four times the largest bound, or None.

    A smaller q may raise an AND bound a little, so a few tries are made.
    """
    bounds = planned_bounds(plain, LARGEST_Q, rules)
    if bounds is None:
        return None
    q = max(SMALLEST_Q, 4 * max(max(bounds), plain.E) + 2)
    while q < LARGEST_Q:
        if planned_bounds(plain, q, rules) is not None:
            return q
        q += 2 * (q // 40 + 1)
    return LARGEST_Q


def draw_q(rng, plain, rules):
    """A q at which the circuit is accepted: mostly tight, seldom a power of two."""
    tight = tight_q(plain, rules)
    if tight is None:
        return None
    choice = rng.random()
    if choice < 0.6:
        return tight
    if choice < 0.75:
        return min(LARGEST_Q, 2 ** (tight - 1).bit_length())
    top = min(LARGEST_Q, 20 * tight) if choice < 0.9 else LARGEST_Q
    return 2 * rng.randint(tight // 2, top // 2)


# What is lent: key, inputs, switching key.


def draw_key(rng, p):
    """A key whose sizes mostly add up to L exactly."""
    key = [1] + [0] * (p.n - 1)
    units = p.L - 1 if rng.random() < 0.8 else rng.randint(0, p.L - 1)
    while units:
        i = rng.randrange(1, p.n)
        step = rng.randint(1, units)
        key[i] += step if key[i] > 0 or (key[i] == 0 and rng.random() < 0.5) else -step
        units -= step
    return key


def draw_mask(rng, p, key, way):
    """A mask: at the range ends with one sign for every key product, or otherwise."""
    ends = (-p.half, p.half - 1)
    if way in ("down", "up"):
        low_for_positive = way == "down"
        return [ends[0] if (s >= 0) == low_for_positive else ends[1] for s in key[1:]]
    if way == "ends":
        return [rng.choice(ends) for _ in key[1:]]
    return [rng.randint(*ends) for _ in key[1:]]


def draw_error(rng, limit, sign):
    """Mostly the whole limit with the circuit's sign, else anything within it."""
    if rng.random() < 0.7:
        return sign * limit
    return rng.choice((-limit, limit, rng.randint(-limit, limit)))


def draw_input(rng, p, key, fresh, stated, way, sign, rules):
    """The bit and the ciphertext of one input.

    A fresh one comes from encryption. One made by hand is in range and has noise
    within its stated bound, which may be well over E.
    """
    # With every mask entry at its end, this bit makes 2k+b as large as it can be.
    bit = p.L % 2 if rng.random() < 0.4 else rng.randint(0, 1)
    mask = draw_mask(rng, p, key, way)
    error = draw_error(rng, stated, sign)
    if not fresh:
        return bit, definitions.encryption(p, key, bit, mask, error)
    ciphertext = [0] * p.n
    expect_done(engine.encrypt(p, key, bit, mask, error, ciphertext, rules))
    return bit, ciphertext


def draw_inputs(rng, plain, p, key, rules):
    """Bits and ciphertexts of all inputs."""
    way = rng.choice(("down", "up", "ends", "random"))
    sign = rng.choice((-1, 1))
    bits, wires = [], []
    for fresh, stated in zip(plain.fresh, plain.stated):
        bit, ciphertext = draw_input(rng, p, key, fresh, stated, way, sign, rules)
        bits.append(bit)
        wires += ciphertext
    return bits, wires


class FirstAnd(NamedTuple):
    """The first AND gate of a circuit, as far as it goes without a switching key."""

    bit: int
    entries: list  # its tensor
    noise: int  # the tensor's noise under the tensor of the key, with its sign


def first_and(plain, p, key, bits, wires):
    """Works the gates up to the first AND. Only XOR and NOT come before it."""
    bits = plain_bits(plain.gates, bits)
    wire_list = [wires[w * p.n : (w + 1) * p.n] for w in range(plain.inputs)]
    for g, (kind, left, right) in enumerate(plain.gates):
        if kind == AND:
            bit = bits[plain.inputs + g]
            entries = engine.tensor(p, wire_list[left], wire_list[right])
            whole = engine.inner(definitions.key_tensor(key), entries)
            return FirstAnd(bit, entries, engine.centred(whole - bit * p.half, p.q))
        if kind == XOR:
            wire_list.append(definitions.xor_of(p, wire_list[left], wire_list[right]))
        else:
            wire_list.append(definitions.not_of(p, wire_list[left]))
    raise ValueError("a circuit without an AND")


def draw_switching_errors(rng, p, first):
    """Errors at F, signed so that they add to the first AND's noise, or otherwise."""
    way = rng.choice(("aligned", "aligned", "ends", "random"))
    if way == "aligned":
        sign = 1 if first.noise > 0 else -1 if first.noise < 0 else rng.choice((-1, 1))
        return [sign * p.F if t >= 0 else -sign * p.F for t in first.entries]
    if way == "ends":
        return [rng.choice((-p.F, p.F)) for _ in range(p.n * p.n)]
    return [rng.randint(-p.F, p.F) for _ in range(p.n * p.n)]


def draw_switching_masks(rng, p):
    """Masks at the range ends, at multiples of q/2 for ties, or anywhere."""
    ends = (-p.Q // 2, p.Q // 2 - 1)
    count = (p.n - 1) * p.n * p.n
    way = rng.choice(("ends", "halves", "random", "random"))
    if way == "ends":
        return [rng.choice(ends) for _ in range(count)]
    if way == "halves":
        return [p.half * rng.randint(-p.q, p.q - 1) for _ in range(count)]
    return [rng.randint(*ends) for _ in range(count)]


def draw_switching_key(rng, p, key, first):
    """A switching key made by its call."""
    masks = draw_switching_masks(rng, p)
    errors = draw_switching_errors(rng, p, first)
    switching_key = [0] * p.n**3
    expect_done(engine.make_switching_key(p, key, masks, errors, switching_key))
    return switching_key


def loudest(draws, draw, loudness):
    """The one of a few draws that makes the most noise."""
    return max((draw() for _ in range(draws)), key=loudness)


def expect_done(answer):
    """The draws above are always good, so a refusal here is an error of its own."""
    if answer.number:
        raise ValueError(f"a good draw was refused with {answer.number}")


# One circuit from end to end.


def plain_bits(gates, bits):
    """The plaintext bit of every wire."""
    bits = list(bits)
    for kind, left, right in gates:
        if kind == XOR:
            bits.append(bits[left] ^ bits[right])
        elif kind == AND:
            bits.append(bits[left] & bits[right])
        else:
            bits.append(1 - bits[left])
    return bits


def draw_loans(rng, plain, p, key, rules):
    """Input bits, input wires and switching key.

    Sometimes each is the loudest of several draws, judged at the first AND.
    """
    draws = rng.choice((1, 1, 4, 16))
    bits, wires = loudest(
        draws,
        lambda: draw_inputs(rng, plain, p, key, rules),
        lambda drawn: abs(first_and(plain, p, key, *drawn).noise),
    )
    first = first_and(plain, p, key, bits, wires)
    switching_key = loudest(
        draws,
        lambda: draw_switching_key(rng, p, key, first),
        lambda drawn: engine.true_noise(
            p, key, engine.switch(p, first.entries, drawn, rules), first.bit
        ),
    )
    return bits, wires, switching_key


def draw_run(rng, rules):
    """Draws a circuit and evaluates it. None when no q accepts it."""
    plain = draw_plain(rng)
    q = draw_q(rng, plain, rules)
    if q is None:
        return None
    p = Params(plain.n, q, plain.L, plain.E, plain.F)
    key = draw_key(rng, p)
    bits, wires, switching_key = draw_loans(rng, plain, p, key, rules)
    wires += [0] * (len(plain.gates) * p.n)
    bounds = plain.stated + [0] * len(plain.gates)
    answer = engine.evaluate(
        p, plain.inputs, plain.gates, wires, bounds, switching_key, [0] * p.n**2, rules
    )
    if answer.number:
        return None
    bits = plain_bits(plain.gates, bits)
    return Run(p, key, plain.inputs, plain.gates, bits, wires, bounds)


class Tally:
    """What a search has seen so far."""

    def __init__(self):
        self.tries = 0
        self.accepted = 0
        self.wires = 0
        self.ands = 0
        self.exact = 0
        self.exact_over_zero = 0
        self.largest_ratio = Fraction(0)
        self.nearest_budget = Fraction(0)
        self.output_bits = [0, 0]
        self.counterexample = None

    def add_wire(self, run, w, noise):
        """Counts one wire."""
        bound = run.bounds[w]
        self.wires += 1
        self.nearest_budget = max(self.nearest_budget, Fraction(4 * bound, run.p.q))
        if w < run.inputs or run.gates[w - run.inputs].kind != AND:
            return
        self.ands += 1
        if noise == bound:
            self.exact += 1
            self.exact_over_zero += bound > 0
        if bound > 0:
            self.largest_ratio = max(self.largest_ratio, Fraction(noise, bound))


def judge(run, tally, rules):
    """Checks every wire of a run. Gives the first that is wrong, as text, or None."""
    p = run.p
    for w, bit in enumerate(run.bits):
        ciphertext = run.wires[w * p.n : (w + 1) * p.n]
        bound = run.bounds[w]
        noise = engine.true_noise(p, run.key, ciphertext, bit)
        read = engine.decrypt(p, run.key, ciphertext, rules)
        if noise > bound or 4 * bound >= p.q or read != (0, 0, bit):
            return (
                f"n {p.n} q {p.q} L {p.L} E {p.E} F {p.F}, wire {w}: noise {noise}, "
                f"bound {bound}, bit {bit}, decrypted {read.bit}"
            )
        tally.add_wire(run, w, noise)
    tally.output_bits[run.bits[-1]] += 1
    return None


def search(rules, seed, wanted):
    """Judges accepted circuits until enough are seen or one of them is wrong."""
    rng = random.Random(seed)
    tally = Tally()
    while tally.accepted < wanted and tally.tries < TRIES_PER_CIRCUIT * wanted:
        tally.tries += 1
        run = draw_run(rng, rules)
        if run is None:
            continue
        tally.accepted += 1
        tally.counterexample = judge(run, tally, rules)
        if tally.counterexample:
            break
    return tally


# What is printed.


def report(tally, wanted):
    """Prints the search with the paper's rules. True when all is well."""
    zeros, ones = tally.output_bits
    print("the paper's rules")
    print(f"  accepted circuits with an AND: {tally.accepted} of {tally.tries} drawn")
    print(f"  wires judged: {tally.wires}, AND wires among them: {tally.ands}")
    print(f"  AND wires that meet their bound exactly: {tally.exact}, "
          f"with a bound over 0: {tally.exact_over_zero}")
    print(f"  largest noise/bound of an AND wire: {tally.largest_ratio}")
    print(f"  largest 4*bound/q: {float(tally.nearest_budget):.6f}")
    print(f"  output bits: {zeros} of 0, {ones} of 1")
    if tally.counterexample:
        print(f"  COUNTEREXAMPLE: {tally.counterexample}")
        return False
    if tally.accepted < wanted:
        print(f"  TOO FEW: {wanted} accepted circuits were asked for")
        return False
    print("  no counterexample")
    return True


def report_fault(name, tally):
    """Prints the search with a planted fault. True when it was found out."""
    print(f"planted fault: {name}")
    if tally.counterexample is None:
        print(f"  NOT FOUND in {tally.accepted} accepted circuits")
        return False
    print(f"  found at accepted circuit {tally.accepted}: {tally.counterexample}")
    return True


def main():
    """Runs the three searches. The exit status is 1 when one of them went wrong."""
    parser = argparse.ArgumentParser(description="Searches for a counterexample.")
    parser.add_argument("--seed", type=int, default=DEFAULT_SEED)
    parser.add_argument("--circuits", type=int, default=DEFAULT_CIRCUITS)
    options = parser.parse_args()
    print(f"seed {options.seed}")
    well = report(search(PAPER, options.seed, options.circuits), options.circuits)
    planted = (
        ("the AND bound lowered by one", faults.AND_BOUND_ONE_LESS),
        ("each product of the switch rounded by itself", faults.EACH_PRODUCT_ROUNDED),
    )
    for name, rules in planted:
        wanted = max(options.circuits, LEAST_FOR_A_FAULT)
        well &= report_fault(name, search(rules, options.seed, wanted))
    return 0 if well else 1


if __name__ == "__main__":
    sys.exit(main())
