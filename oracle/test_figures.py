"""Every figure of the paper's section 'Sheet 0 and edge figures'.

Those marked P there are marked P here. AND on sheet 0 is always over budget,
so its figures are those of the definitions.
"""

import unittest

import definitions
import engine
import faults
from arith import round_half_up
from engine import Params
from testkit import SHEET_0, SHEET_1

KEY = [1, 1]
MASKS = [100, -100, 7, 0]
ERRORS = [1, 0, 0, -1]
ROW_0 = [-83, 116, 9, 15]


def encrypted(key, bit, mask, error):
    """The answer and the result of one encryption on sheet 0."""
    result = [0, 0]
    answer = engine.encrypt(SHEET_0, key, bit, [mask], error, result)
    return answer, result


class Encryption(unittest.TestCase):
    def check(self, key, bit, mask, error, expected, noise):
        answer, result = encrypted(key, bit, mask, error)
        self.assertEqual(answer, (0, 0, 1))
        self.assertEqual(result, expected)
        self.assertEqual(engine.decrypt(SHEET_0, key, result), (0, 0, bit))
        self.assertEqual(engine.true_noise(SHEET_0, key, result, bit), noise)

    def test_p_bit_1_mask_3_error_1(self):
        self.check(KEY, 1, 3, 1, [6, 3], 1)

    def test_p_bit_0_mask_least_error_0(self):
        self.check(KEY, 0, -8, 0, [-8, -8], 0)

    def test_p_bit_1_mask_least_error_minus_1(self):
        self.check(KEY, 1, -8, -1, [-1, -8], 1)

    def test_p_key_1_minus_1(self):
        self.check([1, -1], 1, 5, 0, [-3, 5], 0)


class XorAndNot(unittest.TestCase):
    def test_p_xor_with_itself(self):
        result = [0, 0]
        answer = engine.xor_gate(SHEET_0, [6, 3], 1, [6, 3], 1, result)
        self.assertEqual(answer, (0, 0, 2))
        self.assertEqual(result, [-4, 6])
        self.assertEqual(engine.decrypt(SHEET_0, KEY, result), (0, 0, 0))
        self.assertEqual(engine.true_noise(SHEET_0, KEY, result, 0), 2)

    def test_p_not(self):
        result = [0, 0]
        answer = engine.not_gate(SHEET_0, [6, 3], 1, result)
        self.assertEqual(answer, (0, 0, 1))
        self.assertEqual(result, [-2, 3])
        self.assertEqual(engine.decrypt(SHEET_0, KEY, result), (0, 0, 0))


class TensorAndSwitch(unittest.TestCase):
    def test_p_tensor(self):
        self.assertEqual(engine.tensor(SHEET_0, [6, 3], [6, 3]), [5, 2, 2, 1])

    def test_p_switching_key(self):
        result = [0] * 8
        answer = engine.make_switching_key(SHEET_0, KEY, MASKS, ERRORS, result)
        self.assertEqual(answer, (0, 0))
        self.assertEqual(result, ROW_0 + MASKS)

    def test_p_switch_5_2_2_1(self):
        result = engine.switch(SHEET_0, [5, 2, 2, 1], ROW_0 + MASKS)
        self.assertEqual(result, [7, 4])
        self.assertEqual(engine.decrypt(SHEET_0, KEY, result), (0, 0, 1))
        self.assertEqual(engine.true_noise(SHEET_0, KEY, result, 1), 3)

    def test_p_switch_2_2_2_2(self):
        self.assertEqual(engine.switch(SHEET_0, [2, 2, 2, 2], ROW_0 + MASKS), [7, 1])


class AndBounds(unittest.TestCase):
    def answer(self, bound):
        p = Params(4, 65536, 4, 2, 1)
        return engine.and_gate(
            p, [0] * 4, bound, [0] * 4, bound, [0] * 64, [0] * 16, [0] * 4
        )

    def test_p_two_of_2030(self):
        self.assertEqual(self.answer(2030), (0, 0, 16383))
        bounds = [2030, 2030, 0]
        self.assertEqual(engine.plan(SHEET_1, 2, [(1, 0, 1)], bounds), (0, 0))
        self.assertEqual(bounds, [2030, 2030, 16383])

    def test_p_two_of_2031(self):
        self.assertEqual(engine.and_bound(SHEET_1, 2031, 2031), 16391)
        self.assertEqual(self.answer(2031), (10, 0, 0))
        bounds = [2031, 2031, 0]
        self.assertEqual(engine.plan(SHEET_1, 2, [(1, 0, 1)], bounds), (10, 0))
        self.assertEqual(bounds, [2031, 2031, 0])


class EdgeFigures(unittest.TestCase):
    def test_fresh_error_limit_at_q_16(self):
        self.assertEqual(engine.make_params(2, 16, 2, 3, 1), (0, 0, (2, 16, 2, 3, 1)))
        self.assertEqual(engine.make_params(2, 16, 2, 4, 1), (1, 0, (0, 0, 0, 0, 0)))

    def test_stated_bound_at_q_16(self):
        result = [0, 0]
        self.assertEqual(engine.not_gate(SHEET_0, [0, 0], 3, result), (0, 0, 3))
        self.assertEqual(engine.not_gate(SHEET_0, [0, 0], 4, result), (8, 0, 0))
        self.assertEqual(engine.xor_gate(SHEET_0, [0, 0], 3, [0, 0], 0, result), (0, 0, 3))
        self.assertEqual(engine.xor_gate(SHEET_0, [0, 0], 4, [0, 0], 0, result), (8, 0, 0))
        self.assertEqual(engine.plan(SHEET_0, 1, [(2, 0, 0)], [3, 0]), (0, 0))
        self.assertEqual(engine.plan(SHEET_0, 1, [(2, 0, 0)], [4, 0]), (8, 0))

    def test_xor_on_sheet_0(self):
        zero = [0, 0]
        self.assertEqual(engine.xor_gate(SHEET_0, zero, 1, zero, 2, [0, 0]), (0, 0, 3))
        self.assertEqual(engine.xor_gate(SHEET_0, zero, 1, zero, 3, [0, 0]), (10, 0, 0))

    def test_and_on_sheet_0(self):
        zero = [0, 0]
        self.assertEqual(engine.and_bound(SHEET_0, 1, 1), 9)
        answer = engine.and_gate(SHEET_0, zero, 1, zero, 1, [0] * 8, [0] * 4, [0, 0])
        self.assertEqual(answer, (10, 0, 0))


class Slips(unittest.TestCase):
    """The three slips to exclude: the slip is shown, and that the program has it not."""

    def test_rounding_each_product(self):
        key = ROW_0 + MASKS
        wrong = engine.switch(SHEET_0, [2, 2, 2, 2], key, faults.EACH_PRODUCT_ROUNDED)
        self.assertEqual(wrong, [-8, 2])
        self.assertEqual(engine.switch(SHEET_0, [2, 2, 2, 2], key), [7, 1])

    def test_rounding_minus_four_and_a_half(self):
        self.assertEqual(faults.halves_away_from_zero(-9, 2), -5)
        self.assertEqual(round_half_up(-9, 2), -4)
        self.assertEqual(round_half_up(9, 2), 5)
        # 2 * -6 * 6 / 16 is -4.5, so the tensor shows the slip too.
        self.assertEqual(engine.tensor(SHEET_0, [-6, 0], [6, 0])[0], -4)
        slip = definitions.tensor(SHEET_0, [-6, 0], [6, 0], faults.HALVES_AWAY_FROM_ZERO)
        self.assertEqual(slip[0], -5)

    def test_entries_left_from_zero_up(self):
        slip = definitions.xor_of(SHEET_0, [6, 3], [6, 3], faults.ENTRIES_FROM_ZERO_UP)
        self.assertEqual(slip, [12, 6])
        self.assertEqual(engine.decrypt(SHEET_0, KEY, slip), (6, 0, 0))
        # (-1,-1) and (15,15) are the same modulo q; only the first keeps 2k+b within L.
        self.assertEqual(engine.true_noise(SHEET_0, KEY, [-1, -1], 0), 2)
        self.assertEqual(engine.true_noise(SHEET_0, KEY, [15, 15], 0), 2)
        self.assertEqual(engine.multiplier(SHEET_0, KEY, [-1, -1], 0), 0)
        self.assertEqual(engine.multiplier(SHEET_0, KEY, [15, 15], 0), 4)
        self.assertGreater(4, SHEET_0.L)


if __name__ == "__main__":
    unittest.main()
