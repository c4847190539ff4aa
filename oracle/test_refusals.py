"""The order of refusals, and that a refusal writes nothing.

Each call has a set of good loans and a list of breaks. A break spoils the loans
so that one number applies. Every break alone must give its own number; every
two breaks of different numbers together must give the lower one.
"""

import copy
import random
import unittest
from typing import Callable, NamedTuple

import engine
from engine import Params
from testkit import (
    EXAMPLE_GATES,
    LEAST_32,
    LEAST_64,
    MOST_64,
    MOST_BOUND,
    SHEET_1,
    WRAPPING_BOUNDS,
    random_entries,
)

KEY = [1, -1, 1, 1]


class Break(NamedTuple):
    """A number, the place that goes with it, and what spoils the loans."""

    number: int
    place: int
    spoil: Callable


class Call(NamedTuple):
    """A call: its good loans by name, how to run it, and its breaks."""

    name: str
    loans: dict
    run: Callable
    breaks: list


def put(number, name, index, value, place=0):
    """One entry of a lent buffer replaced."""
    def spoil(loans):
        loans[name][index] = value
    return Break(number, place, spoil)


def take(number, name, value, place=0):
    """A lent number or list replaced whole."""
    def spoil(loans):
        loans[name] = copy.deepcopy(value)
    return Break(number, place, spoil)


def lengths(*names):
    """Each of the buffers once too long, once too short and once empty."""
    breaks = []
    for name in names:
        breaks.append(Break(3, 0, lambda loans, name=name: loans[name].append(0)))
        breaks.append(Break(3, 0, lambda loans, name=name: loans[name].pop()))
        breaks.append(Break(3, 0, lambda loans, name=name: loans[name].clear()))
    return breaks


def bad_params():
    """Each parameter outside its range, most of them with every length still right."""
    fields = (("n", 0), ("n", 1), ("n", 1025), ("q", 65537), ("q", 14), ("q", 1048578),
              ("L", 0), ("L", 4097), ("E", 16384), ("E", 2**30), ("F", 65536))
    return [take(1, "p", SHEET_1._replace(**{name: value})) for name, value in fields]


def bad_keys():
    return [put(4, "key", 0, 0), put(4, "key", 0, -1), put(4, "key", 1, 3),
            put(4, "key", 1, LEAST_32)]


def bad_entries(name, places, modulus):
    half = modulus // 2
    values = (half, -half - 1, LEAST_64, MOST_64)
    return [put(6, name, place, value) for place in places for value in values]


def bad_bounds(name, places):
    values = (16384,) + WRAPPING_BOUNDS
    return [put(8, name, place, value) for place in places for value in values]


def bad_gates():
    """Wrong gates, with the first of them at the place given."""
    last = [(3, 0, 0), (0, 4, 0), (0, 0, 4), (1, 4, 0), (1, 0, 4), (2, 4, 0), (2, 0, 1),
            (MOST_BOUND, 0, 0), (0, MOST_BOUND, 0), (2, 0, MOST_BOUND)]
    breaks = [put(9, "gates", 2, gate, place=2) for gate in last]
    breaks.append(put(9, "gates", 1, (2, 3, 0), place=1))
    breaks.append(put(9, "gates", 0, (1, 0, 2), place=0))
    return breaks


def run_bench(loans):
    """The number of the check call, then every entry of the maker's rows."""
    number = engine.check_bench_key(**loans)
    rows = engine.make_bench_key(**loans)
    return (number, 0) + tuple(entry for row in rows for entry in row)


def key_calls():
    masks = random_entries(random.Random(1), 65536**2, 48)
    errors = [1, -1] * 8
    loans = {"key": KEY, "masks": masks, "errors": errors}
    shared = lengths("key", "masks", "errors") + bad_keys()
    shared += bad_entries("masks", (0, 47), 65536**2)
    shared += [put(7, "errors", place, value) for place in (0, 15)
               for value in (2, -2, LEAST_64, MOST_64)]
    yield Call("key check", {"p": SHEET_1, "key": KEY},
               lambda x: engine.check_key(**x), bad_params() + lengths("key") + bad_keys())
    yield Call("bench key", loans, run_bench, shared)
    yield Call("switching key", {"p": SHEET_1, **loans, "result": [9] * 64},
               lambda x: engine.make_switching_key(**x),
               bad_params() + lengths("result") + shared)


def cipher_calls():
    yield Call(
        "encrypt",
        {"p": SHEET_1, "key": KEY, "bit": 1, "mask": [-32768, 32767, 5], "error": -2,
         "result": [9] * 4},
        lambda x: engine.encrypt(**x),
        bad_params() + lengths("key", "mask", "result") + bad_keys()
        + [take(5, "bit", 2), take(5, "bit", MOST_BOUND)]
        + bad_entries("mask", (0, 2), 65536)
        + [take(7, "error", value) for value in (3, -3, LEAST_64, MOST_64)],
    )
    yield Call(
        "decrypt",
        {"p": SHEET_1, "key": KEY, "ciphertext": [-32768, 32767, 5, 0]},
        lambda x: engine.decrypt(**x),
        bad_params() + lengths("key", "ciphertext") + bad_keys()
        + bad_entries("ciphertext", (0, 3), 65536),
    )


def gate_calls():
    pair = {"p": SHEET_1, "left": [1, 2, 3, -32768], "left_bound": 5,
            "right": [-4, 32767, 0, 7], "right_bound": 6}
    entries = bad_entries("left", (0, 3), 65536) + bad_entries("right", (0, 3), 65536)
    bounds = [take(8, name, value) for name in ("left_bound", "right_bound")
              for value in (16384,) + WRAPPING_BOUNDS]
    common = bad_params() + lengths("left", "right", "result") + entries
    # For 10 one bound is raised and the other left, so that 8 can apply as well.
    yield Call("XOR", {**pair, "result": [9] * 4}, lambda x: engine.xor_gate(**x),
               common + bounds[:5] + [take(10, "right_bound", 16383)])
    yield Call("XOR, other side", {**pair, "result": [9] * 4},
               lambda x: engine.xor_gate(**x),
               common + bounds[5:] + [take(10, "left_bound", 16383)])
    yield Call(
        "AND",
        {**pair, "switching_key": random_entries(random.Random(2), 65536**2, 64),
         "scratch": [9] * 16, "result": [9] * 4},
        lambda x: engine.and_gate(**x),
        common + lengths("switching_key", "scratch") + bounds[:5]
        + bad_entries("switching_key", (0, 63), 65536**2)
        + [take(10, "right_bound", 16383)],
    )
    yield Call(
        "NOT",
        {"p": SHEET_1, "ciphertext": [1, 2, 3, -32768], "bound": 16383, "result": [9] * 4},
        lambda x: engine.not_gate(**x),
        bad_params() + lengths("ciphertext", "result")
        + bad_entries("ciphertext", (0, 3), 65536)
        + [take(8, "bound", value) for value in (16384,) + WRAPPING_BOUNDS],
    )


def circuit_calls():
    plain = {"p": SHEET_1, "inputs": 2, "gates": [engine.Gate(*g) for g in EXAMPLE_GATES],
             "bounds": [2, 2, 9, 9, 9]}
    counts = [take(2, "inputs", value) for value in (0, 1025, 2**31, MOST_BOUND)]
    counts += [take(2, "gates", []), take(2, "gates", [(2, 0, 0)] * 4097)]
    common = bad_params() + counts + lengths("bounds") + bad_bounds("bounds", (1,))
    common += bad_gates() + [put(10, "bounds", 0, 16383, place=0),
                             put(10, "bounds", 0, 4088, place=2)]
    yield Call("planning", plain, lambda x: engine.plan(**x), common)
    rng = random.Random(3)
    yield Call(
        "evaluation",
        {**plain, "wires": random_entries(rng, 65536, 8) + [MOST_64] * 12,
         "switching_key": random_entries(rng, 65536**2, 64), "scratch": [9] * 16},
        lambda x: engine.evaluate(**x),
        common + lengths("wires", "switching_key", "scratch")
        + bad_entries("wires", (0, 7), 65536)
        + bad_entries("switching_key", (0, 63), 65536**2),
    )


def all_calls():
    for group in (key_calls, cipher_calls, gate_calls, circuit_calls):
        yield from group()


class Order(unittest.TestCase):
    def check(self, call, expected, breaks):
        """Spoils fresh loans, contents before lengths, and checks all that comes back."""
        loans = copy.deepcopy(call.loans)
        for one in breaks:
            one.spoil(loans)
        before = copy.deepcopy(loans)
        answer = call.run(loans)
        self.assertEqual(answer[:2], (expected.number, expected.place), call.name)
        self.assertFalse(any(answer[2:]), call.name)
        self.assertEqual(loans, before, call.name)

    def test_good_loans_are_taken(self):
        for call in all_calls():
            self.assertEqual(call.run(copy.deepcopy(call.loans))[:2], (0, 0), call.name)

    def test_every_break_alone(self):
        for call in all_calls():
            for one in call.breaks:
                self.check(call, one, [one])

    def test_every_pair(self):
        pairs = 0
        for call in all_calls():
            for low in call.breaks:
                for high in call.breaks:
                    if low.number < high.number:
                        self.check(call, low, [high, low])
                        pairs += 1
        self.assertGreater(pairs, 5000)

    def test_every_call_has_every_number_it_should(self):
        expected = {
            "key check": {1, 3, 4}, "bench key": {3, 4, 6, 7},
            "switching key": {1, 3, 4, 6, 7}, "encrypt": {1, 3, 4, 5, 6, 7},
            "decrypt": {1, 3, 4, 6}, "XOR": {1, 3, 6, 8, 10},
            "XOR, other side": {1, 3, 6, 8, 10}, "AND": {1, 3, 6, 8, 10},
            "NOT": {1, 3, 6, 8}, "planning": {1, 2, 3, 8, 9, 10},
            "evaluation": {1, 2, 3, 6, 8, 9, 10},
        }
        found = {call.name: {one.number for one in call.breaks} for call in all_calls()}
        self.assertEqual(found, expected)


class Counts(unittest.TestCase):
    """2 where every length is right, and the largest counts taken."""

    def test_counts_with_right_lengths(self):
        for inputs, gates, number in ((0, 1, 2), (1, 0, 2), (1025, 1, 2), (1, 4097, 2),
                                      (1, 1, 0), (1024, 4096, 0)):
            bounds = [0] * (inputs + gates)
            answer = engine.plan(SHEET_1, inputs, [(2, 0, 0)] * gates, bounds)
            self.assertEqual(answer, (number, 0))

    def test_evaluation_of_the_largest_circuit(self):
        p = Params(2, 16, 1, 0, 0)
        wires = [3, -8] * 1024 + [LEAST_64] * 8192
        bounds = [3] * 1024 + [MOST_BOUND] * 4096
        gates = [(2, wire, 0) for wire in range(1023, 5119)]
        answer = engine.evaluate(p, 1024, gates, wires, bounds, [0] * 8, [MOST_64] * 4)
        self.assertEqual(answer, (0, 0))
        self.assertTrue(wires == [3, -8] * 1024 + [-5, -8, 3, -8] * 2048)
        self.assertTrue(bounds == [3] * 5120)


class Places(unittest.TestCase):
    def test_first_of_several_wrong_gates(self):
        gates = [(2, 0, 0), (0, 9, 9), (7, 0, 0)]
        self.assertEqual(engine.plan(SHEET_1, 1, gates, [0] * 4), (9, 1))

    def test_nine_after_ten_still_wins(self):
        gates = [(0, 0, 0), (2, 0, 0), (2, 0, 5)]
        self.assertEqual(engine.plan(SHEET_1, 1, gates, [16383, 0, 0, 0]), (9, 2))

    def test_first_of_several_over_budget(self):
        gates = [(2, 0, 0), (0, 0, 1), (0, 2, 2), (1, 2, 2)]
        self.assertEqual(engine.plan(SHEET_1, 1, gates, [8192] + [0] * 4), (10, 1))

    def test_last_gate_of_the_longest_circuit(self):
        gates = [(2, 0, 0)] * 4095 + [(0, 0, 0)]
        self.assertEqual(engine.plan(SHEET_1, 1, gates, [8192] + [0] * 4096), (10, 4095))

    def test_a_gate_may_not_use_its_own_wire(self):
        self.assertEqual(engine.plan(SHEET_1, 1, [(2, 1, 0)], [0, 0]), (9, 0))
        self.assertEqual(engine.plan(SHEET_1, 1, [(0, 0, 1)], [0, 0]), (9, 0))
        self.assertEqual(engine.plan(SHEET_1, 1, [(0, 0, 0)], [0, 0]), (0, 0))


class WhatIsOnlyWritten(unittest.TestCase):
    """Results, scratch and the gates' parts may arrive with anything in them."""

    WRITTEN = {
        "switching key": (("result", 0),), "encrypt": (("result", 0),),
        "XOR": (("result", 0),), "NOT": (("result", 0),),
        "AND": (("result", 0), ("scratch", 0)), "planning": (("bounds", 2),),
        "evaluation": (("wires", 8), ("bounds", 2), ("scratch", 0)),
    }

    def run_filled(self, call, filler):
        """Runs a call with the written parts filled; gives answer, loans and arrival."""
        loans = copy.deepcopy(call.loans)
        for name, start in self.WRITTEN[call.name]:
            loans[name][start:] = [filler] * (len(loans[name]) - start)
        before = copy.deepcopy(loans)
        return call.run(loans), loans, before

    def test_prefilled_with_extremes(self):
        for call in all_calls():
            if call.name not in self.WRITTEN:
                continue
            expected = self.run_filled(call, 0)
            self.assertEqual(expected[0].number, 0)
            for filler in (LEAST_64, MOST_64, MOST_BOUND, -1):
                answer, loans, _ = self.run_filled(call, filler)
                self.assertEqual((answer, loans), expected[:2], call.name)

    def test_nothing_else_is_written_and_scratch_is_zero(self):
        for call in all_calls():
            if call.name not in self.WRITTEN:
                continue
            _, loans, before = self.run_filled(call, MOST_64)
            starts = dict(self.WRITTEN[call.name])
            for name, value in before.items():
                if name not in starts:
                    self.assertEqual(loans[name], value)
                    continue
                self.assertEqual(loans[name][:starts[name]], value[:starts[name]])
                self.assertNotIn(MOST_64, loans[name])
            if "scratch" in loans:
                self.assertFalse(any(loans["scratch"]))

    def test_scratch_and_key_count_without_an_and(self):
        gates = [(2, 0, 0)]
        good = dict(p=SHEET_1, inputs=1, gates=gates, wires=[0] * 8, bounds=[0, 0],
                    switching_key=[0] * 64, scratch=[7] * 16)
        loans = copy.deepcopy(good)
        self.assertEqual(engine.evaluate(**loans), (0, 0))
        self.assertEqual(loans["scratch"], [0] * 16)
        for name, value, number in (("scratch", [7] * 15, 3), ("switching_key", [], 3),
                                    ("switching_key", [2**31] * 64, 6)):
            loans = copy.deepcopy({**good, name: value})
            self.assertEqual(engine.evaluate(**loans), (number, 0))


class Junk(unittest.TestCase):
    """Random loans never raise; a refusal changes nothing."""

    NUMBERS = (0, 1, 2, 3, -1, 15, 16, 65536, 2**30, 2**31, MOST_BOUND, LEAST_64, MOST_64,
               -(10**30), 10**30)

    def junk_for(self, rng, value):
        """Something of the same sort as a loan, of about the right length."""
        if isinstance(value, Params):
            return Params(*(self.junk_for(rng, part) if rng.random() < 0.1 else part
                            for part in value))
        if isinstance(value, tuple):
            return tuple(self.junk_for(rng, part) for part in value)
        if isinstance(value, list):
            length = max(0, len(value) + rng.choice((0, 0, 0, 0, 0, 0, 1, -1)))
            padded = (value + value + [0])[:length]
            return [self.junk_for(rng, x) if rng.random() < 0.03 else x for x in padded]
        return rng.choice(self.NUMBERS)

    def test_junk(self):
        rng = random.Random(4)
        taken = refused = 0
        for call in list(all_calls()) * 300:
            loans = {
                name: self.junk_for(rng, value) if rng.random() < 0.6 else
                copy.deepcopy(value) for name, value in call.loans.items()
            }
            before = copy.deepcopy(loans)
            answer = call.run(loans)
            if answer[0]:
                refused += 1
                self.assertFalse(any(answer[2:]))
                self.assertEqual(loans, before)
            else:
                taken += 1
        self.assertGreater(taken, 100)
        self.assertGreater(refused, 1000)

    def test_junk_for_the_makers(self):
        rng = random.Random(5)
        for _ in range(2000):
            made = engine.make_params(*(rng.choice(self.NUMBERS) for _ in range(5)))
            self.assertIn(made.number, (0, 1))
            self.assertIn(engine.house_sheet(rng.choice(self.NUMBERS)).number, (0, 1))


if __name__ == "__main__":
    unittest.main()
