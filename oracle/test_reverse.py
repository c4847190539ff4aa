"""Each definition checked a second way: by search, by fractions, or by going back."""

import random
import unittest
from fractions import Fraction
from math import floor

import arith
import definitions
import engine
import faults
from engine import Params
from testkit import (
    SHEET_1,
    file_bytes,
    random_entries,
    random_entry,
    random_key,
    small_params,
)

ROUNDS = 400


def searched_residue(x, m):
    """All numbers in -m/2 to m/2-1 that differ from x by a multiple of m."""
    return [r for r in range(-(m // 2), m // 2) if (x - r) % m == 0]


def divided_down(x):
    """The floor of a fraction by search from a guess."""
    guess = int(x) - 2
    while guess + 1 <= x:
        guess += 1
    return guess


def random_errors(rng, p):
    """n*n switching errors, many of them at the limit."""
    return [rng.choice((-p.F, p.F, rng.randint(-p.F, p.F))) for _ in range(p.n * p.n)]


def random_switching_key(rng, p, key):
    """A switching key made by the call."""
    masks = random_entries(rng, p.Q, (p.n - 1) * p.n * p.n)
    result = [0] * p.n**3
    answer = engine.make_switching_key(p, key, masks, random_errors(rng, p), result)
    return answer, result


class Arithmetic(unittest.TestCase):
    def test_centred_by_search(self):
        for m in range(2, 41, 2):
            for x in range(-90, 91):
                self.assertEqual([engine.centred(x, m)], searched_residue(x, m))
                self.assertTrue(arith.is_centred(engine.centred(x, m), m))

    def test_residues_are_never_larger(self):
        rng = random.Random(1)
        for _ in range(ROUNDS):
            m = 2 * rng.randint(8, 2**39)
            x = rng.randint(-(2**80), 2**80)
            r = engine.centred(x, m)
            self.assertLessEqual(abs(r), abs(x))
            self.assertEqual((x - r) % m, 0)
            self.assertTrue(-m <= 2 * r < m)

    def test_rounding_by_search(self):
        for a in range(-60, 61):
            for b in range(1, 13):
                expected = divided_down(Fraction(a, b) + Fraction(1, 2))
                self.assertEqual(engine.round_half_up(a, b), expected)
                self.assertLessEqual(abs(2 * (b * expected - a)), b)

    def test_and_bound_by_fractions(self):
        rng = random.Random(2)
        for _ in range(ROUNDS):
            p = small_params(rng)
            b1, b2 = (rng.randint(0, (p.q - 1) // 4) for _ in range(2))
            first = p.L * (b1 + b2) + Fraction(2 * b1 * b2, p.q) + Fraction(p.L**2, 2)
            second = Fraction(p.n**2 * p.F + p.L, 2)
            self.assertEqual(engine.and_bound(p, b1, b2), floor(first) + floor(second))
            joint = faults.and_bound_one_floor(p, b1, b2)
            self.assertEqual(joint, floor(first + second))

    def test_cut_to_64_bits(self):
        for x in (0, 1, -1, 2**63 - 1, -(2**63)):
            self.assertEqual(faults.cut_to_64_bits(x), x)
        self.assertEqual(faults.cut_to_64_bits(2**63), -(2**63))
        self.assertEqual(faults.cut_to_64_bits(-(2**63) - 1), 2**63 - 1)


class Ciphertexts(unittest.TestCase):
    def test_encrypt_then_decrypt(self):
        rng = random.Random(3)
        for _ in range(ROUNDS):
            p = small_params(rng)
            key = random_key(rng, p)
            mask = random_entries(rng, p.q, p.n - 1)
            bit = rng.randint(0, 1)
            error = rng.choice((-p.E, p.E, rng.randint(-p.E, p.E)))
            result = [0] * p.n
            self.assertEqual(engine.encrypt(p, key, bit, mask, error, result), (0, 0, p.E))
            self.assertEqual(result[1:], mask)
            self.assertEqual(engine.decrypt(p, key, result), (0, 0, bit))
            self.assertEqual(definitions.signed_noise(p, key, result, bit), error)

    def test_decrypt_by_distance(self):
        # 1 exactly when <s,c> is over q/4 away from every multiple of q.
        rng = random.Random(4)
        for _ in range(ROUNDS):
            p = small_params(rng)
            key = random_key(rng, p)
            ciphertext = random_entries(rng, p.q, p.n)
            rest = sum(s * c for s, c in zip(key, ciphertext)) % p.q
            away = min(rest, p.q - rest)
            expected = 1 if Fraction(away) > Fraction(p.q, 4) else 0
            self.assertEqual(engine.decrypt(p, key, ciphertext), (0, 0, expected))

    def test_size_of_2k_plus_b(self):
        rng = random.Random(5)
        checked = 0
        for _ in range(ROUNDS):
            p = small_params(rng)
            key = random_key(rng, p)
            ciphertext = random_entries(rng, p.q, p.n)
            for bit in (0, 1):
                noise = engine.true_noise(p, key, ciphertext, bit)
                if 4 * noise < p.q:
                    size = abs(engine.multiplier(p, key, ciphertext, bit))
                    self.assertLessEqual(size, p.L)
                    checked += 1
        self.assertGreater(checked, ROUNDS // 2)

    def test_xor_and_not_against_bits(self):
        rng = random.Random(6)
        for _ in range(ROUNDS):
            p = small_params(rng)
            p = p._replace(E=p.E // 2)
            key = random_key(rng, p)
            made = []
            for _ in range(2):
                bit, result = rng.randint(0, 1), [0] * p.n
                error = rng.choice((-p.E, p.E))
                mask = random_entries(rng, p.q, p.n - 1)
                engine.encrypt(p, key, bit, mask, error, result)
                made.append((bit, result))
            (b1, c), (b2, d) = made
            result = [0] * p.n
            self.assertEqual(engine.xor_gate(p, c, p.E, d, p.E, result), (0, 0, 2 * p.E))
            self.assertEqual(engine.decrypt(p, key, result).bit, b1 ^ b2)
            self.assertEqual(engine.not_gate(p, c, p.E, result), (0, 0, p.E))
            self.assertEqual(engine.decrypt(p, key, result).bit, 1 - b1)
            engine.not_gate(p, list(result), p.E, result)
            self.assertEqual(result, c)


class SwitchingKeys(unittest.TestCase):
    def test_column_identity(self):
        # <s, column j> is q*su*sv + fj modulo Q.
        rng = random.Random(7)
        for _ in range(100):
            p = small_params(rng)
            key = random_key(rng, p)
            columns = p.n * p.n
            masks = random_entries(rng, p.Q, (p.n - 1) * columns)
            errors = random_errors(rng, p)
            result = [0] * p.n**3
            answer = engine.make_switching_key(p, key, masks, errors, result)
            self.assertEqual(answer, (0, 0))
            self.assertEqual(result[columns:], masks)
            for u in range(p.n):
                for v in range(p.n):
                    j = u * p.n + v
                    whole = sum(key[i] * result[i * columns + j] for i in range(p.n))
                    rest = whole - p.q * key[u] * key[v] - errors[j]
                    self.assertEqual(rest % (p.q * p.q), 0)
                    self.assertTrue(-p.Q <= 2 * result[j] < p.Q)

    def test_bench_key_is_the_switching_key(self):
        rng = random.Random(8)
        for _ in range(50):
            key = random_key(rng, SHEET_1)
            masks = random_entries(rng, SHEET_1.Q, 48)
            errors = random_errors(rng, SHEET_1)
            run = [0] * 64
            engine.make_switching_key(SHEET_1, key, masks, errors, run)
            rows = engine.make_bench_key(key, masks, errors)
            self.assertEqual(rows, [run[0:16], run[16:32], run[32:48], run[48:64]])
            self.assertEqual(engine.check_bench_key(key, masks, errors), 0)

    def test_bench_key_is_never_all_zeros(self):
        # With every mask 0, entry (0,0) is q + f.
        for f in (-1, 0, 1):
            for key in ([1, 0, 0, 0], [1, 1, 1, 1], [1, -3, 0, 0]):
                rows = engine.make_bench_key(key, [0] * 48, [f] * 16)
                self.assertEqual(rows[0][0], 65536 + f)

    def test_by_value(self):
        loans = [1, 0, 0, 0], [0] * 48, [0] * 16
        engine.make_bench_key(*loans)[1][0] = 5
        self.assertEqual(engine.make_bench_key(*loans)[1][0], 0)
        self.assertEqual(loans[1], [0] * 48)


class TensorAndSwitch(unittest.TestCase):
    def test_tensor_by_fractions(self):
        rng = random.Random(9)
        for _ in range(ROUNDS):
            p = small_params(rng)
            c = random_entries(rng, p.q, p.n)
            d = random_entries(rng, p.q, p.n)
            entries = engine.tensor(p, c, d)
            self.assertEqual(len(entries), p.n * p.n)
            for u in range(p.n):
                for v in range(p.n):
                    whole = floor(Fraction(2 * c[u] * d[v], p.q) + Fraction(1, 2))
                    entry = entries[u * p.n + v]
                    self.assertEqual((whole - entry) % p.q, 0)
                    self.assertTrue(-p.q <= 2 * entry < p.q)

    def test_switch_by_fractions(self):
        rng = random.Random(10)
        for _ in range(ROUNDS):
            p = small_params(rng)
            columns = p.n * p.n
            entries = random_entries(rng, p.q, columns)
            key = random_entries(rng, p.Q, p.n * columns)
            result = engine.switch(p, entries, key)
            for i in range(p.n):
                exact = sum(Fraction(entries[j] * key[i * columns + j], p.q)
                            for j in range(columns))
                whole = floor(exact + Fraction(1, 2))
                self.assertEqual((whole - result[i]) % p.q, 0)
                self.assertTrue(-p.q <= 2 * result[i] < p.q)

    def test_only_s_modulo_big_q_counts(self):
        rng = random.Random(11)
        for _ in range(ROUNDS):
            q = 2 * rng.randint(8, 524288)
            whole, step = rng.randint(-(2**70), 2**70), rng.randint(-99, 99)
            first = engine.centred(engine.round_half_up(whole, q), q)
            moved = engine.centred(engine.round_half_up(whole + step * q * q, q), q)
            self.assertEqual(first, moved)


class Circuits(unittest.TestCase):
    GATES = [(1, 0, 1), (2, 2, 0), (0, 3, 0), (1, 4, 4), (0, 5, 2), (2, 1, 0)]

    def test_evaluation_is_its_single_gates(self):
        rng = random.Random(12)
        for _ in range(60):
            p = Params(rng.randint(2, 4), 2 * rng.randint(200000, 524288), 3, 2, 1)
            key = random_key(rng, p)
            answer, switching_key = random_switching_key(rng, p, key)
            self.assertEqual(answer, (0, 0))
            inputs = [random_entries(rng, p.q, p.n) for _ in range(2)]
            wires = inputs[0] + inputs[1] + [random_entry(rng, p.q)] * (6 * p.n)
            bounds = [2, 1] + [0] * 6
            planned = list(bounds)
            answer = engine.evaluate(
                p, 2, self.GATES, wires, bounds, switching_key, [1] * p.n**2
            )
            self.assertEqual(answer, (0, 0))
            self.assertEqual(engine.plan(p, 2, self.GATES, planned), (0, 0))
            self.assertEqual(planned, bounds)
            for g in range(6):
                self.check_gate(p, g, wires, bounds, switching_key)

    def check_gate(self, p, g, wires, bounds, switching_key):
        """One gate's wire and bound against the single call on its operands."""
        def wire(w):
            return wires[w * p.n : (w + 1) * p.n]

        kind, a, b = self.GATES[g]
        result = [0] * p.n
        if kind == 0:
            answer = engine.xor_gate(p, wire(a), bounds[a], wire(b), bounds[b], result)
        elif kind == 1:
            answer = engine.and_gate(p, wire(a), bounds[a], wire(b), bounds[b],
                                     switching_key, [3] * p.n**2, result)
        else:
            answer = engine.not_gate(p, wire(a), bounds[a], result)
        self.assertEqual(answer, (0, 0, bounds[2 + g]))
        self.assertEqual(result, wire(2 + g))

    def test_file_plan_is_the_plan(self):
        p = Params(3, 1000000, 3, 2, 1)
        bounds = [p.E] * 2 + [0] * 6
        self.assertEqual(engine.plan(p, 2, self.GATES, bounds), (0, 0))
        buffer = bytearray(32)
        self.assertEqual(engine.plan_file(file_bytes(p, 2, self.GATES), buffer), 0)
        read = [int.from_bytes(buffer[i : i + 4], "big") for i in range(0, 32, 4)]
        self.assertEqual(read, bounds)


if __name__ == "__main__":
    unittest.main()
