"""The switch where its sum S goes beyond 64 bits.

Signs are aligned, the tensor entries stand at or near an end of their range,
and so do the entries of the key. The expected values are worked out here with
fractions, from S alone. The same check is then held against an engine that
cuts S to 64 bits, and must find it out.
"""

import random
import unittest
from fractions import Fraction
from math import floor

import engine
import faults
from arith import PAPER
from engine import Params


def expected_entry(p, tensor_entries, row):
    """[round(S/q)]q by fractions and by taking q away or adding it."""
    whole = 0
    for t, w in zip(tensor_entries, row):
        whole += t * w
    rounded = floor(Fraction(whole, p.q) + Fraction(1, 2))
    _, rest = divmod(rounded, p.q)
    return whole, rest if rest < p.q // 2 else rest - p.q


def near_end(rng, half, sign, spread):
    """A number near the top or the bottom end of -half to half-1."""
    step = rng.randint(0, spread)
    return -half + step if sign < 0 else half - 1 - step


def aligned_case(rng, n, q, sign, spread):
    """Two ciphertexts and a key whose products all have one sign.

    The left ciphertext is -q/2 all along, so tensor entry u*n+v is [-dv]q.
    """
    p = Params(n, q, 1, 0, 0)
    half, half_Q = q // 2, q * q // 2
    left = [-half] * n
    right = [near_end(rng, half, rng.choice((-1, 1)), spread) for _ in range(n)]
    entries = [-half if d == -half else -d for _ in range(n) for d in right]
    key = []
    for _ in range(n):
        for t in entries:
            key.append(near_end(rng, half_Q, sign if t > 0 else -sign, spread))
    return p, left, right, entries, key


def cases(q, sizes):
    """The cases at one q: all at the very end, then near the ends at random."""
    rng = random.Random(2024)
    for n in sizes:
        for sign in (-1, 1):
            for spread in (0, 1, 3, 1000):
                yield aligned_case(rng, n, q, sign, spread)


def wrong_answers(rules, q, sizes):
    """How many cases there are, and in how many the AND call differs from expected."""
    seen = wrong = 0
    for p, left, right, entries, key in cases(q, sizes):
        columns = p.n * p.n
        expected = []
        for i in range(p.n):
            whole, entry = expected_entry(p, entries, key[i * columns : (i + 1) * columns])
            if -(2**63) <= whole < 2**63:
                raise ValueError("this case fits 64 bits and shows nothing")
            expected.append(entry)
        result = [0] * p.n
        answer = engine.and_gate(
            p, left, 0, right, 0, key, [5] * columns, result, rules
        )
        seen += 1
        wrong += answer.number != 0 or result != expected
    return seen, wrong


class BeyondSixtyFourBits(unittest.TestCase):
    Q_ODD_HALF = 1048574

    def test_paper_is_exact(self):
        for q in (self.Q_ODD_HALF, 1048572, 1048576):
            seen, wrong = wrong_answers(PAPER, q, (6, 7, 10))
            self.assertEqual((seen, wrong), (24, 0))

    def test_a_cut_sum_is_found_out(self):
        for q in (self.Q_ODD_HALF, 1048572):
            seen, wrong = wrong_answers(faults.SUM_CUT_TO_64_BITS, q, (6, 7, 10))
            self.assertEqual((seen, wrong), (24, 24))

    def test_a_cut_sum_hides_where_q_is_a_power_of_two(self):
        # 2**64 is then a multiple of Q. This is why q is 1,048,574 above.
        seen, wrong = wrong_answers(faults.SUM_CUT_TO_64_BITS, 1048576, (6, 7, 10))
        self.assertEqual((seen, wrong), (24, 0))

    def test_all_at_the_least(self):
        # S is 36 * (q/2) * (Q/2) in every row, a little over 2**63.
        q = self.Q_ODD_HALF
        p = Params(6, q, 1, 0, 0)
        whole = 36 * (q // 2) * (q * q // 2)
        self.assertGreater(whole, 2**63)
        rounded = (2 * whole + q) // (2 * q)
        rest = rounded % q
        expected = rest if rest < q // 2 else rest - q
        result = [0] * 6
        least = [-(q // 2)] * 6
        key = [-(q * q // 2)] * 216
        engine.and_gate(p, least, 0, least, 0, key, [0] * 36, result)
        self.assertEqual(result, [expected] * 6)

    def test_evaluation_is_exact_too(self):
        for p, left, right, entries, key in cases(self.Q_ODD_HALF, (6, 7)):
            columns = p.n * p.n
            wires = left + right + [0] * p.n
            bounds = [0, 0, 0]
            gates = [(1, 0, 1)]
            answer = engine.evaluate(p, 2, gates, wires, bounds, key, [1] * columns)
            self.assertEqual(answer, (0, 0))
            for i in range(p.n):
                row = key[i * columns : (i + 1) * columns]
                self.assertEqual(wires[2 * p.n + i], expected_entry(p, entries, row)[1])

    def test_the_largest_sum_of_all(self):
        # One row at n = 1,024: S is 2**20 * 2**19 * 2**39 = 2**78 at q = 2**20.
        q = 1048576
        count = 1024 * 1024
        row = [-(q * q // 2)] * count
        whole = PAPER.switch_entry([-(q // 2)] * count, row, q, PAPER.rounding)
        self.assertEqual(whole, 2**78 // q)


if __name__ == "__main__":
    unittest.main()
