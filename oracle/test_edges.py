"""Edges of the definitions: ties, magnitudes of q/4, range ends, odd halves, floors."""

import unittest

import definitions
import engine
import faults
from engine import Params
from params import within_limits
from testkit import HOUSE_SHEETS, SHEET_0, SHEET_1


class Ties(unittest.TestCase):
    def test_halves_go_up(self):
        self.assertEqual(engine.round_half_up(9, 2), 5)
        self.assertEqual(engine.round_half_up(-9, 2), -4)
        self.assertEqual(engine.round_half_up(1, 2), 1)
        self.assertEqual(engine.round_half_up(-1, 2), 0)
        self.assertEqual(faults.halves_down(9, 2), 4)

    def test_ties_of_the_switch(self):
        # S is 72 and -72 over q = 16: 4.5 and -4.5.
        for row_0, row_1, expected in ((72, -72, [5, -4]), (8, -8, [1, 0])):
            key = [row_0, 0, 0, 0, row_1, 0, 0, 0]
            self.assertEqual(engine.switch(SHEET_0, [1, 0, 0, 0], key), expected)

    def test_a_tie_rounded_up_to_half_of_q_is_reduced(self):
        # S/q = 7.5 goes up to 8, which is -8 modulo 16.
        key = [120, 0, 0, 0, -136, 0, 0, 0]
        self.assertEqual(engine.switch(SHEET_0, [1, 0, 0, 0], key), [-8, -8])


class QuarterMagnitude(unittest.TestCase):
    def test_exactly_a_quarter_reads_0(self):
        for ciphertext, bit in (([4, 0], 0), ([-4, 0], 0), ([5, 0], 1), ([-5, 0], 1),
                                ([3, 0], 0), ([-8, 0], 1), ([-4, -8], 0)):
            self.assertEqual(engine.decrypt(SHEET_0, [1, 1], ciphertext), (0, 0, bit))

    def test_the_fault_is_seen(self):
        answer = engine.decrypt(SHEET_0, [1, 1], [4, 0], faults.A_QUARTER_READS_ONE)
        self.assertEqual(answer.bit, 1)

    def test_q_18_has_no_exact_quarter(self):
        p = Params(2, 18, 2, 1, 1)
        self.assertEqual(engine.decrypt(p, [1, 1], [4, 0]).bit, 0)
        self.assertEqual(engine.decrypt(p, [1, 1], [5, 0]).bit, 1)
        self.assertEqual(engine.decrypt(p, [1, 1], [-4, 0]).bit, 0)
        self.assertEqual(engine.decrypt(p, [1, 1], [-5, 0]).bit, 1)


class RangeEnds(unittest.TestCase):
    def test_ends_are_taken_and_the_next_is_refused(self):
        for p in (SHEET_0, Params(2, 18, 2, 1, 1), Params(2, 1048574, 2, 1, 1)):
            half = p.q // 2
            for entry, number in ((-half, 0), (half - 1, 0), (-half - 1, 6), (half, 6)):
                for ciphertext in ([entry, 0], [0, entry]):
                    self.assertEqual(engine.decrypt(p, [1, 1], ciphertext).number, number)
                answer = engine.encrypt(p, [1, 1], 0, [entry], 0, [0, 0])
                self.assertEqual(answer.number, number)

    def test_switching_entries_at_their_ends(self):
        for p in (SHEET_0, Params(2, 18, 2, 1, 1), Params(2, 1048574, 2, 1, 1)):
            half = p.q * p.q // 2
            for entry, number in ((-half, 0), (half - 1, 0), (-half - 1, 6), (half, 6)):
                answer = engine.make_switching_key(
                    p, [1, 1], [0, 0, entry, 0], [0] * 4, [0] * 8
                )
                self.assertEqual(answer.number, number)

    def test_least_entries_in_the_tensor(self):
        # (-q/2)*(-q/2) gives q/2, which is -q/2 after reduction.
        for q in (16, 18, 1048574, 1048576):
            p = Params(2, q, 1, 0, 0)
            least = -q // 2
            self.assertEqual(engine.tensor(p, [least] * 2, [least] * 2), [least] * 4)
            self.assertEqual(engine.tensor(p, [least] * 2, [1, -1]), [-1, 1, -1, 1])
            top = q // 2 - 1
            self.assertEqual(engine.tensor(p, [least, 0], [top, 0])[0], -top)

    def test_not_and_xor_at_the_ends(self):
        result = [0, 0]
        engine.not_gate(SHEET_0, [-8, -8], 0, result)
        self.assertEqual(result, [0, -8])
        engine.not_gate(SHEET_0, [0, 7], 0, result)
        self.assertEqual(result, [-8, 7])
        engine.xor_gate(SHEET_0, [-8, 7], 0, [-8, 7], 0, result)
        self.assertEqual(result, [0, -2])


class NoPowerOfTwo(unittest.TestCase):
    def test_q_18_by_hand(self):
        p = Params(2, 18, 2, 2, 1)
        result = [0, 0]
        self.assertEqual(engine.encrypt(p, [1, 1], 1, [-9], -2, result), (0, 0, 2))
        self.assertEqual(result, [-2, -9])  # 9 + 9 - 2 = 16, which is -2
        self.assertEqual(engine.decrypt(p, [1, 1], result), (0, 0, 1))
        self.assertEqual(engine.true_noise(p, [1, 1], result, 1), 2)
        # 2*5*7/18 = 3.9 and 2*5*-8/18 = -4.4; 2*-3*7/18 = -2.3 and 2*-3*-8/18 = 2.7
        self.assertEqual(engine.tensor(p, [5, -3], [7, -8]), [4, -4, -2, 3])

    def test_q_1048574_by_hand(self):
        p = Params(2, 1048574, 2, 2, 1)
        result = [0, 0]
        self.assertEqual(engine.encrypt(p, [1, 1], 1, [-524287], 2, result), (0, 0, 2))
        self.assertEqual(result, [2, -524287])
        self.assertEqual(engine.decrypt(p, [1, 1], result), (0, 0, 1))

    def test_odd_q_is_refused(self):
        for q in (17, 19, 65535, 1048575):
            self.assertEqual(engine.make_params(2, q, 2, 1, 1).number, 1)


class TensorIndices(unittest.TestCase):
    def test_two_different_vectors(self):
        p = Params(2, 16, 2, 1, 1)
        # Entry u*n+v takes cu from the left and dv from the right.
        self.assertEqual(engine.tensor(p, [7, 1], [3, 5]), [3, 4, 0, 1])
        self.assertEqual(engine.tensor(p, [3, 5], [7, 1]), [3, 0, 4, 1])

    def test_and_tells_left_from_right(self):
        p = Params(2, 1024, 2, 0, 0)
        key = [0] * 8
        key[1] = 1024  # row 0 column 1 = 0*n+1: left entry 0 and right entry 1
        result = [9, 9]
        answer = engine.and_gate(p, [100, 7], 0, [-3, 200], 0, key, [0] * 4, result)
        self.assertEqual(answer.number, 0)
        self.assertEqual(result, [39, 0])  # 2*100*200/1024 = 39.06
        engine.and_gate(p, [-3, 200], 0, [100, 7], 0, key, [0] * 4, result)
        self.assertEqual(result, [0, 0])  # 2*-3*7/1024 rounds to 0

    def test_switching_key_columns(self):
        p = Params(2, 64, 4, 0, 0)
        result = [0] * 8
        engine.make_switching_key(p, [1, -3], [0] * 4, [0] * 4, result)
        self.assertEqual(result, [64, -192, -192, 576, 0, 0, 0, 0])


class TwoFloors(unittest.TestCase):
    def test_floors_are_separate(self):
        p = Params(2, 1024, 1, 0, 1)
        self.assertEqual(engine.and_bound(p, 0, 0), 2)
        self.assertEqual(faults.and_bound_one_floor(p, 0, 0), 3)
        bounds = [0, 99]
        self.assertEqual(engine.plan(p, 1, [(1, 0, 0)], bounds), (0, 0))
        self.assertEqual(bounds, [0, 2])

    def test_floors_decide_acceptance(self):
        p = Params(2, 16, 1, 1, 1)
        loans = ([0, 0], 1, [0, 0], 0, [0] * 8, [0] * 4, [0, 0])
        self.assertEqual(engine.and_gate(p, *loans), (0, 0, 3))
        self.assertEqual(engine.and_gate(p, *loans, faults.AND_BOUND_ONE_FLOOR), (10, 0, 0))


class Limits(unittest.TestCase):
    def test_each_parameter_at_its_ends(self):
        good = {"n": (2, 1024), "q": (16, 18, 1048574, 1048576), "L": (1, 4096),
                "E": (0, 3), "F": (0, 65535)}
        bad = {"n": (-1, 0, 1, 1025), "q": (-16, 0, 14, 15, 17, 1048575, 1048577, 1048578),
               "L": (-1, 0, 4097), "E": (-1, 4), "F": (-1, 65536)}
        for values, number in ((good, 0), (bad, 1)):
            for name, numbers in values.items():
                for value in numbers:
                    p = SHEET_0._replace(**{name: value})
                    made = engine.make_params(*p)
                    self.assertEqual(made.number, number, p)
                    self.assertEqual(made.params, p if number == 0 else (0, 0, 0, 0, 0))

    def test_house_sheets(self):
        for k, sheet in enumerate(HOUSE_SHEETS):
            self.assertTrue(within_limits(sheet))
            self.assertEqual(engine.house_sheet(k), (0, 0, sheet))
            self.assertEqual(engine.make_params(*sheet), (0, 0, sheet))
        for k in (-1, -6, 6, 7, 2**31, 2**32 - 1):
            self.assertEqual(engine.house_sheet(k), (1, 0, (0, 0, 0, 0, 0)))

    def test_key_sum_at_its_limit(self):
        for key, number in (([1, 3, 0, 0], 0), ([1, -1, 1, -1], 0), ([1, 2, -2, 0], 4),
                            ([-1, 0, 0, 0], 4), ([0, 1, 0, 0], 4), ([2, 0, 0, 0], 4)):
            self.assertEqual(engine.check_key(SHEET_1, key), (number, 0))

    def test_errors_at_their_limits(self):
        for error, number in ((2, 0), (-2, 0), (3, 7), (-3, 7)):
            answer = engine.encrypt(SHEET_1, [1, 1, 1, 1], 1, [0] * 3, error, [0] * 4)
            self.assertEqual(answer, (number, 0, 0 if number else 2))
        for error, number in ((1, 0), (-1, 0), (2, 7), (-2, 7)):
            errors = [0] * 15 + [error]
            loans = ([1, 1, 1, 1], [0] * 48, errors)
            self.assertEqual(engine.check_bench_key(*loans), number)

    def test_stated_bound_is_never_the_error(self):
        for error in (-2, -1, 0, 1, 2):
            answer = engine.encrypt(SHEET_1, [1, 0, 0, 0], 0, [0] * 3, error, [0] * 4)
            self.assertEqual(answer, (0, 0, 2))


class Depth(unittest.TestCase):
    def test_depth_by_squaring_a_fresh_wire(self):
        for sheet, depth in zip(HOUSE_SHEETS, (0, 3, 2, 2, 1, 1)):
            for gates in range(1, 6):
                squares = [(1, g, g) for g in range(gates)]
                answer = engine.plan(sheet, 1, squares, [sheet.E] + [0] * gates)
                self.assertEqual(answer, (0, 0) if gates <= depth else (10, depth))

    def test_sheet_0_refuses_every_and(self):
        self.assertEqual(engine.and_bound(SHEET_0, 0, 0), 5)
        self.assertEqual(engine.plan(SHEET_0, 1, [(1, 0, 0)], [0, 0]), (10, 0))


class UnusedGates(unittest.TestCase):
    def test_every_gate_counts_against_the_budget(self):
        # Gate 1 is over and nobody uses it; the output is small.
        gates = [(0, 0, 0), (0, 1, 1), (2, 0, 0)]
        self.assertEqual(engine.plan(SHEET_0, 1, gates, [1, 0, 0, 0]), (10, 1))

    def test_and_of_definitions(self):
        key = [-83, 116, 9, 15, 100, -100, 7, 0]
        self.assertEqual(definitions.and_of(SHEET_0, [6, 3], [6, 3], key), [7, 4])


if __name__ == "__main__":
    unittest.main()
