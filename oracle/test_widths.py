"""Numbers that trap a program whose numbers have widths."""

import unittest

import engine
from engine import Params
from testkit import (
    EXAMPLE_GATES,
    LEAST_32,
    LEAST_64,
    MOST_32,
    MOST_64,
    MOST_BOUND,
    SHEET_0,
    SHEET_1,
    WRAPPING_BOUNDS,
    file_bytes,
)

KEY = [1, 1, -1, 1]


class BoundsThatWrap(unittest.TestCase):
    def test_fresh_error_limit(self):
        for E in WRAPPING_BOUNDS:
            self.assertEqual(engine.make_params(4, 65536, 4, E, 1).number, 1)
            data = file_bytes(SHEET_1._replace(E=E), 2, EXAMPLE_GATES)
            self.assertEqual(engine.check_file(data), 65536 * 1)
            self.assertEqual(engine.printed(data), "REFUSED 1 0\n")

    def test_stated_bounds_of_single_gates(self):
        zero = [0] * 4
        for bound in WRAPPING_BOUNDS:
            for pair in ((bound, 0), (0, bound), (bound, bound)):
                answers = (
                    engine.xor_gate(SHEET_1, zero, pair[0], zero, pair[1], [0] * 4),
                    engine.and_gate(SHEET_1, zero, pair[0], zero, pair[1], [0] * 64,
                                    [0] * 16, [0] * 4),
                    engine.not_gate(SHEET_1, zero, bound, [0] * 4),
                )
                self.assertEqual(answers, ((8, 0, 0),) * 3)

    def test_stated_bounds_of_circuits(self):
        for bound in WRAPPING_BOUNDS:
            for bounds in ([bound, 0, 0, 0, 0], [0, bound, 0, 0, 0]):
                answers = (
                    engine.plan(SHEET_1, 2, EXAMPLE_GATES, list(bounds)),
                    engine.evaluate(SHEET_1, 2, EXAMPLE_GATES, [0] * 20, list(bounds),
                                    [0] * 64, [0] * 16),
                )
                self.assertEqual(answers, ((8, 0),) * 2)


class AndBoundOfTwoToThe32(unittest.TestCase):
    P = Params(1024, 1048576, 1, 0, 8192)

    def test_exactly_two_to_the_32(self):
        self.assertEqual(engine.and_bound(self.P, 0, 0), 2**32)
        bounds = [0, 7]
        self.assertEqual(engine.plan(self.P, 1, [(1, 0, 0)], bounds), (10, 0))
        self.assertEqual(bounds, [0, 7])

    def test_through_a_file(self):
        data = file_bytes(self.P, 1, [(2, 0, 0), (1, 0, 1)])
        self.assertEqual(engine.check_file(data), 65536 * 10 + 1)
        self.assertEqual(engine.printed(data), "REFUSED 10 1\n")

    def test_largest_numbers_of_all(self):
        p = Params(1024, 1048576, 4096, 262143, 65535)
        numerator = 2 * p.q * p.L * 2 * p.E + 4 * p.E * p.E + p.q * p.L * p.L
        self.assertLess(numerator, 2**53)
        self.assertEqual(engine.plan(p, 1, [(1, 0, 0)], [p.E, 0]), (10, 0))


class LargestThatFits(unittest.TestCase):
    def test_by_trying(self):
        for q in list(range(16, 200, 2)) + [1048574, 1048576]:
            p = Params(2, q, 1, 0, 0)
            largest = engine.largest_that_fits(p)
            self.assertEqual(engine.not_gate(p, [0, 0], largest, [0, 0]).number, 0)
            self.assertEqual(engine.not_gate(p, [0, 0], largest + 1, [0, 0]).number, 8)

    def test_q_18(self):
        p = Params(2, 18, 1, 4, 0)
        self.assertEqual(engine.largest_that_fits(p), 4)
        self.assertEqual(engine.printed(file_bytes(p, 1, [(2, 0, 0)])),
                         "0 IN 4\n1 NOT 4\nOK 4 4\n")
        self.assertEqual(engine.make_params(2, 18, 1, 5, 0).number, 1)
        self.assertEqual(engine.xor_gate(p, [0, 0], 2, [0, 0], 2, [0, 0]), (0, 0, 4))
        self.assertEqual(engine.xor_gate(p, [0, 0], 3, [0, 0], 2, [0, 0]), (10, 0, 0))


class EndsOfTheWidths(unittest.TestCase):
    def test_key_entries(self):
        # The sizes of the third key add up to 1 modulo 2**32.
        keys = ([LEAST_32, 0, 0, 0], [1, LEAST_32, 0, 0], [1, LEAST_32, LEAST_32, 0],
                [1, 0, 0, MOST_32], [MOST_32, MOST_32, MOST_32, MOST_32], [LEAST_32] * 4,
                [1, MOST_32, MOST_32, 2])
        for key in keys:
            answers = (
                engine.check_key(SHEET_1, key).number,
                engine.encrypt(SHEET_1, key, 0, [0] * 3, 0, [0] * 4).number,
                engine.decrypt(SHEET_1, key, [0] * 4).number,
                engine.make_switching_key(SHEET_1, key, [0] * 48, [0] * 16, [0] * 64).number,
                engine.check_bench_key(key, [0] * 48, [0] * 16),
            )
            self.assertEqual(answers, (4,) * 5, key)

    def test_key_of_the_largest_n(self):
        # 1,023 sizes of 2**31 add up to far over 2**32.
        p = Params(1024, 1048576, 4096, 0, 0)
        self.assertEqual(engine.check_key(p, [1] + [LEAST_32] * 1023), (4, 0))
        self.assertEqual(engine.check_key(p, [1] + [4] * 1023), (0, 0))

    def test_masks_and_ciphertexts(self):
        for entry in (LEAST_64, MOST_64, LEAST_64 + 65536):
            for i in range(4):
                wrong = [0] * 4
                wrong[i] = entry
                zero = [0] * 4
                answers = (
                    engine.decrypt(SHEET_1, KEY, wrong).number,
                    engine.encrypt(SHEET_1, KEY, 0, wrong[:3], 0, [0] * 4).number if i < 3
                    else 6,
                    engine.not_gate(SHEET_1, wrong, 0, [0] * 4).number,
                    engine.xor_gate(SHEET_1, wrong, 0, zero, 0, [0] * 4).number,
                    engine.xor_gate(SHEET_1, zero, 0, wrong, 0, [0] * 4).number,
                    engine.and_gate(SHEET_1, wrong, 0, zero, 0, [0] * 64, [0] * 16,
                                    [0] * 4).number,
                    engine.and_gate(SHEET_1, zero, 0, wrong, 0, [0] * 64, [0] * 16,
                                    [0] * 4).number,
                    engine.evaluate(SHEET_1, 2, EXAMPLE_GATES, zero + wrong + [0] * 12,
                                    [0] * 5, [0] * 64, [0] * 16).number,
                )
                self.assertEqual(answers, (6,) * 8)

    def test_switching_entries(self):
        zero = [0] * 4
        for entry in (LEAST_64, MOST_64, 2**31, -(2**31) - 1):
            for place in (0, 15, 16, 63):
                key = [0] * 64
                key[place] = entry
                single = engine.and_gate(SHEET_1, zero, 0, zero, 0, key, [0] * 16, [0] * 4)
                whole = engine.evaluate(SHEET_1, 2, EXAMPLE_GATES, [0] * 20, [0] * 5, key,
                                        [0] * 16)
                self.assertEqual((single.number, whole.number), (6, 6))
            for place in (0, 47):
                masks = [0] * 48
                masks[place] = entry
                self.assertEqual(engine.check_bench_key(KEY, masks, [0] * 16), 6)

    def test_errors(self):
        for error in (LEAST_64, MOST_64, LEAST_64 + 1, 2**32, -(2**32)):
            answer = engine.encrypt(SHEET_1, KEY, 0, [0] * 3, error, [0] * 4)
            self.assertEqual(answer, (7, 0, 0))
            for place in (0, 15):
                errors = [0] * 16
                errors[place] = error
                self.assertEqual(engine.check_bench_key(KEY, [0] * 48, errors), 7)
                answer = engine.make_switching_key(SHEET_1, KEY, [0] * 48, errors, [0] * 64)
                self.assertEqual(answer, (7, 0))

    def test_bits(self):
        for bit in (2, 3, 256, 2**31, MOST_BOUND):
            answer = engine.encrypt(SHEET_1, KEY, bit, [0] * 3, 0, [0] * 4)
            self.assertEqual(answer, (5, 0, 0))

    def test_gate_fields(self):
        for big in (2, 65536, 2**16 + 1, 2**31, MOST_BOUND):
            for gate in ((0, big, 0), (0, 0, big), (1, big, 0), (1, 0, big), (2, big, 0)):
                self.assertEqual(engine.plan(SHEET_1, 1, [(2, 0, 0), gate], [0] * 3), (9, 1))
        for kind in (3, 256, 257, 2**31, MOST_BOUND):
            self.assertEqual(engine.plan(SHEET_1, 1, [(kind, 0, 0)], [0, 0]), (9, 0))
        for right in (1, 2**16, 2**31, MOST_BOUND):
            self.assertEqual(engine.plan(SHEET_1, 2, [(2, 0, right)], [0] * 3), (9, 0))

    def test_parameters(self):
        for name in ("n", "q", "L", "E", "F"):
            for value in (2**16, 2**31, 2**32 - 2, 2**32 - 1):
                p = SHEET_1._replace(**{name: value})
                number = 0 if (name, value) == ("q", 65536) else 1
                self.assertEqual(engine.make_params(*p).number, number)

    def test_counts(self):
        for inputs in (0, 1025, 2**16, 2**31, MOST_BOUND):
            self.assertEqual(engine.plan(SHEET_0, inputs, [(2, 0, 0)], [0, 0]), (2, 0))


if __name__ == "__main__":
    unittest.main()
