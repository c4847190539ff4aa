"""Writes the input of the program `edges` (crates/edges), and what it must print.

A case is its number and its operands, numbers first and lists last; a list is
its count and its entries. Each case has one line of output: its results with a
space after each, or `refused` where the function does not take the operands.

     1  q x              [x]q
     2  q x              [x]Q
     3  q a              round(a/q)
     4  q x y            an entry of the tensor
     5  q c d            the tensor
     6  q t row          a switched entry
     7  q n t key        the n switched entries
     8  q xs             1 if every entry is in -q/2 to q/2-1, else 0
     9  q xs             the same for Q
    10  limit xs         1 if every entry is at most limit in size, else 0
    11  s                the sum of sizes
    12  s c              <s,c>
    13  width j s table  <s,column j> of a table that lies row by row

A number that is none of these is refused, and has no operands.

    python3 oracle/edges.py --write    writes crates/edges/stdin and stdout
    python3 oracle/edges.py --check    exit status 1 if they are not these
"""

import random
import sys
from pathlib import Path
from typing import NamedTuple

import faults
from arith import PAPER, inner, is_centred
from definitions import switch, tensor
from params import Params
from testkit import LEAST_32, LEAST_64, MOST_32, MOST_64

CRATE = Path(__file__).resolve().parent.parent / "crates" / "edges"

# A row of n*n products, taken 16 at a time, leaves 4, 9, 0, 9, 1, 0, 1 and 1 of them.
SIZES = (2, 3, 4, 5, 7, 16, 17, 33)

MODULI = (16, 18, 1048574, 1048576)
LARGEST = 1048576
LARGEST_ROUNDED = 2**62
LARGEST_KEY_LENGTH, LARGEST_KEY_SUM = 1024, 4096
LARGEST_ENTRY = 2**39
LARGEST_WIDTH = 65536

# What the program holds: entries of a first list, of a second, and of a made list.
FIRST, SECOND, MADE = 4096, 40960, 4096


class Case(NamedTuple):
    """A case as the program reads it."""

    number: int
    numbers: tuple = ()
    lists: tuple = ()


# ---- what each case gives: a list of numbers, or None where it is refused


def is_modulus(q):
    """Even, and from 2 to 2**20."""
    return 2 <= q <= LARGEST and q % 2 == 0


def all_centred(entries, m):
    """True when every entry lies in -m/2 to m/2-1."""
    return all(is_centred(x, m) for x in entries)


def on_numbers(case, rules):
    """Cases 1 to 4."""
    q, x = case.numbers[:2]
    if not is_modulus(q):
        return None
    if case.number == 1:
        return [rules.reduction(x, q)]
    if case.number == 2:
        return [rules.reduction(x, q * q)]
    if case.number == 3:
        return [rules.rounding(x, q)] if abs(x) <= LARGEST_ROUNDED else None
    if not all_centred(case.numbers[1:], q):
        return None
    return tensor(Params(1, q, 1, 0, 0), [x], [case.numbers[2]], rules)


def on_tensor(case, rules):
    """Case 5."""
    (q,), (left, right) = case.numbers, case.lists
    if not is_modulus(q) or max(len(left), len(right)) > 1024:
        return None
    if len(left) * len(right) > MADE or not all_centred(left + right, q):
        return None
    return tensor(Params(len(left), q, 1, 0, 0), left, right, rules)


def on_row(case, rules):
    """Case 6."""
    (q,), (entries, row) = case.numbers, case.lists
    if not is_modulus(q) or len(entries) != len(row):
        return None
    if not all_centred(entries, q) or not all_centred(row, q * q):
        return None
    return [rules.reduction(rules.switch_entry(entries, row, q, rules.rounding), q)]


def on_switch(case, rules):
    """Case 7."""
    (q, n), (entries, key) = case.numbers, case.lists
    if not is_modulus(q) or not 0 <= n <= 1024:
        return None
    if len(entries) != n * n or len(key) != n * len(entries):
        return None
    if not all_centred(entries, q) or not all_centred(key, q * q):
        return None
    return switch(Params(n, q, 1, 0, 0), entries, key, rules)


def on_range(case, _):
    """Cases 8 to 10."""
    (bound,), (entries,) = case.numbers, case.lists
    if case.number == 10:
        if not 0 <= bound < 2**32:
            return None
        return [int(all(abs(x) <= bound for x in entries))]
    if not is_modulus(bound):
        return None
    return [int(all_centred(entries, bound if case.number == 8 else bound * bound))]


def is_taken_key(key):
    """A key of 32-bit entries that is not too long."""
    return len(key) <= LARGEST_KEY_LENGTH and all(
        LEAST_32 <= entry <= MOST_32 for entry in key
    )


def is_multiplied(key, entries):
    """A key of a small sum, and entries that it may be multiplied by."""
    return sum(abs(s) for s in key) <= LARGEST_KEY_SUM and all(
        abs(x) <= LARGEST_ENTRY for x in entries
    )


def on_key(case, _):
    """Cases 11 and 12."""
    key = case.lists[0]
    if not is_taken_key(key):
        return None
    if case.number == 11:
        return [sum(abs(entry) for entry in key)]
    entries = case.lists[1]
    if len(key) != len(entries) or not is_multiplied(key, entries):
        return None
    return [inner(key, entries)]


def on_column(case, _):
    """Case 13."""
    (width, j), (key, table) = case.numbers, case.lists
    if not 0 <= j < width <= LARGEST_WIDTH or len(table) != len(key) * width:
        return None
    if not is_taken_key(key) or not is_multiplied(key, table):
        return None
    return [inner(key, [table[i * width + j] for i in range(len(key))])]


ANSWERS = {
    1: on_numbers, 2: on_numbers, 3: on_numbers, 4: on_numbers, 5: on_tensor,
    6: on_row, 7: on_switch, 8: on_range, 9: on_range, 10: on_range, 11: on_key,
    12: on_key, 13: on_column,
}


def answer(case, rules=PAPER):
    """The results of a case, or None where it is refused."""
    if case.number not in ANSWERS:
        return None
    return ANSWERS[case.number](case, rules)


# ---- text


def input_line(case):
    """The case as the program reads it."""
    words = [case.number, *case.numbers]
    for entries in case.lists:
        words += [len(entries), *entries]
    return " ".join(map(str, words)) + "\n"


def output_line(case, rules=PAPER):
    """The line that the program must print."""
    results = answer(case, rules)
    if results is None:
        return "refused \n"
    return "".join(f"{x} " for x in results) + "\n"


# ---- numbers at the ends of their ranges


def around(*places):
    """Each place with its two neighbours, where they fit 64 bits."""
    near = {place + step for place in places for step in (-1, 0, 1)}
    return sorted(x for x in near if LEAST_64 <= x <= MOST_64)


def ends(m):
    """The two ends of -m/2 to m/2-1 and their neighbours outside."""
    return (-(m // 2) - 1, -(m // 2), m // 2 - 1, m // 2)


def numbers_to_reduce(m):
    """Numbers whose residue modulo m is an end, and those about 0 and at 64 bits."""
    half = m // 2
    return around(0, half, -half, m, -m, 3 * half, -3 * half, LEAST_64, MOST_64)


def numbers_to_round(q):
    """Ties both ways, whole quotients, and the ends of what may be rounded."""
    ties = [(2 * k + 1) * (q // 2) for k in (-5, -2, -1, 0, 1, 4, q // 2, -q // 2)]
    wholes = [k * q for k in (-4, -1, 0, 1, 4)]
    return around(*ties, *wholes, LARGEST_ROUNDED, -LARGEST_ROUNDED, LEAST_64, MOST_64)


def on_single_numbers():
    """Cases 1 to 3, and operands that are refused."""
    for q in (2, *MODULI):
        yield from (Case(1, (q, x)) for x in numbers_to_reduce(q))
        yield from (Case(2, (q, x)) for x in numbers_to_reduce(q * q))
        yield from (Case(3, (q, a)) for a in numbers_to_round(q))
    for q in (LEAST_64, -16, -1, 0, 1, 3, 17, 1048575, 1048577, 1048578, 2**32 + 16, MOST_64):
        for number in (1, 2, 3):
            yield Case(number, (q, 5))


# x, y and q where 2*x*y/q is a tie: 0.5, -0.5, 4.5 and -4.5. There is none at 18 and 1,048,574.
TENSOR_TIES = (
    (2, 2, 16), (-2, 2, 16), (6, 6, 16), (-6, 6, 16),
    (512, 512, 1048576), (-512, 512, 1048576), (4608, 512, 1048576), (4608, -512, 1048576),
    (262143, 1, 1048572), (262143, -1, 1048572), (262143, 9, 1048572), (-262143, 9, 1048572),
)


def on_tensor_entries():
    """Case 4 at ties, at all ends of the two entries, and outside."""
    for x, y, q in TENSOR_TIES:
        yield Case(4, (q, x, y))
    for q in (2, *MODULI):
        half = q // 2
        entries = sorted({*ends(q), 1 - half, -1, 0, 1, half - 2, LEAST_64, MOST_64})
        yield from (Case(4, (q, x, y)) for x in entries for y in entries)
    yield Case(4, (17, 1, 1))
    yield Case(4, (0, 0, 0))


# ---- lists


def near_end(rng, m, sign, spread):
    """A number within spread of the bottom end of -m/2 to m/2-1, or of its top end."""
    step = rng.randint(0, spread)
    return -(m // 2) + step if sign < 0 else m // 2 - 1 - step


def any_entries(rng, m, count):
    """Numbers of -m/2 to m/2-1, half of them at its ends."""
    half = m // 2
    return [
        rng.choice((-half, half - 1, rng.randint(-half, half - 1), rng.randint(-half, half - 1)))
        for _ in range(count)
    ]


def aligned_row(rng, entries, q, sign, spread):
    """A row near the ends, whose products with the entries all have one sign."""
    return [near_end(rng, q * q, sign if t > 0 else -sign, spread) for t in entries]


def aligned_rows():
    """Case 6 with a sum as far from 0 as a row of n*n entries gives, of both signs."""
    rng = random.Random(78)
    for n in SIZES:
        for q in MODULI:
            least = [-(q // 2)] * (n * n)
            mixed = [near_end(rng, q, rng.choice((-1, 1)), 3) for _ in range(n * n)]
            for sign in (-1, 1):
                for entries, spread in ((least, 0), (mixed, 3)):
                    if n < 33 or (q == 1048574 and spread == 0) or (q == 1048576 and spread == 3):
                        yield Case(6, (q,), (entries, aligned_row(rng, entries, q, sign, spread)))


def rows_of_every_rest():
    """Case 6 at every count from 0 to 49: every number of chunks and every rest."""
    rng = random.Random(16)
    for count in range(50):
        for q in (18, 1048574):
            yield Case(6, (q,), (any_entries(rng, q, count), any_entries(rng, q * q, count)))


def longest_row():
    """Case 6 at the longest row that the program holds: S is about 2**70."""
    q = 1048574
    return [Case(6, (q,), ([-(q // 2)] * FIRST, [-(q * q // 2)] * FIRST))]


def tied_rows():
    """Case 6 where S/q is 4.5, -4.5, 0.5 and -0.5, and where a tie goes up to q/2."""
    for q in MODULI:
        for odd in (9, -9, 1, -1, q - 1, -q - 1):
            whole = odd * (q // 2)
            for rest in (-1, 0, 1):
                row = [whole + rest, 0, 0, 0]
                if all_centred(row, q * q):
                    yield Case(6, (q,), ([1, 0, 0, 0], row))


def tensors():
    """Case 5 at every size: least entries, entries at the ends, and any."""
    rng = random.Random(5)
    for n in SIZES:
        for q in MODULI:
            least = [-(q // 2)] * n
            yield Case(5, (q,), (any_entries(rng, q, n), any_entries(rng, q, n)))
            if n < 33:
                yield Case(5, (q,), (least, any_entries(rng, q, n)))
        yield Case(5, (1048574,), ([-524287] * n, [-524287] * n))
    for left, right in ((0, 0), (0, 3), (3, 0), (1, 1), (3, 5), (1024, 4), (4, 1024), (64, 64)):
        yield Case(5, (16,), (any_entries(rng, 16, left), any_entries(rng, 16, right)))


def switches():
    """Case 7 at every size: aligned rows of both signs, then any entries."""
    rng = random.Random(7)
    for n in SIZES:
        for q in (18,) if n == 33 else MODULI:
            entries = any_entries(rng, q, n * n)
            yield Case(7, (q, n), (entries, any_entries(rng, q * q, n**3)))
        for q in (1048574,) if n > 7 else (16, 1048574):
            entries = [near_end(rng, q, rng.choice((-1, 1)), 3) for _ in range(n * n)]
            key = []
            for i in range(n):
                key += aligned_row(rng, entries, q, (-1) ** i, 3)
            yield Case(7, (q, n), (entries, key))
    yield Case(7, (16, 0), ([], []))
    yield Case(7, (16, 1), ([-8], [-128]))


def refused_lists():
    """Cases 5 to 7 with one operand that is not taken."""
    for q in MODULI:
        low, over, big_low, big_over = -(q // 2) - 1, q // 2, -(q * q // 2) - 1, q * q // 2
        for bad in (low, over, LEAST_64, MOST_64):
            for place in (0, 3):
                entries = [0] * place + [bad] + [0] * (3 - place)
                yield Case(5, (q,), (entries, [1, 1]))
                yield Case(5, (q,), ([1, 1], entries))
                yield Case(6, (q,), (entries, [1] * 4))
                yield Case(7, (q, 2), (entries, [1] * 8))
        for bad in (big_low, big_over, LEAST_64, MOST_64):
            for place in (0, 3):
                row = [0] * place + [bad] + [0] * (3 - place)
                yield Case(6, (q,), ([1] * 4, row))
                yield Case(7, (q, 2), ([1] * 4, [0] * 4 + row))
    yield from refused_lengths()


def refused_lengths():
    """Cases 5 to 7 with a length or a modulus that is not taken."""
    for left, right in ((1025, 1), (1, 1025), (1024, 5), (64, 65), (1025, 0)):
        yield Case(5, (16,), ([1] * left, [1] * right))
    for left, right in ((0, 1), (1, 0), (16, 17), (17, 16)):
        yield Case(6, (16,), ([1] * left, [1] * right))
    for n, count, key_count in (
        (2, 3, 8), (2, 5, 8), (2, 4, 7), (2, 4, 9), (2, 4, 16), (3, 4, 8), (0, 1, 0), (0, 0, 1),
        (-2, 4, 8), (-1, 0, 0), (1025, 1, 1), (65536, 0, 0), (65537, 1, 1), (LEAST_64, 0, 0),
        (MOST_64, 1, 1), (2**32 + 2, 4, 8),
    ):
        yield Case(7, (16, n), ([1] * count, [1] * key_count))
    for q in (-16, 0, 17, 1048578, 2**32 + 16):
        yield Case(5, (q,), ([0], [0]))
        yield Case(6, (q,), ([0], [0]))
        yield Case(7, (q, 1), ([0], [0]))


# ---- range tests and keys


def range_tests():
    """Cases 8 to 10, right at each end and one beyond, at several places of a list."""
    bounds = [(8, q, ends(q)) for q in (2, *MODULI)]
    bounds += [(9, q, ends(q * q)) for q in (2, *MODULI)]
    bounds += [
        (10, limit, (-limit - 1, -limit, limit, limit + 1))
        for limit in (0, 1, 4, 65535, 2**31 - 1, 2**31, 2**32 - 1)
    ]
    for number, bound, entries in bounds:
        yield Case(number, (bound,), ([],))
        for count, place in ((1, 0), (4, 0), (4, 3), (17, 16), (33, 5)):
            for x in (*entries, 0, LEAST_64, LEAST_64 + 1, MOST_64):
                yield Case(number, (bound,), ([0] * place + [x] + [0] * (count - place - 1),))
        yield Case(number, (bound,), ([entries[1], entries[2]] * 8,))
        yield Case(number, (bound,), ([LEAST_64, MOST_64] * 16,))
    for number, bad in (
        (8, 17), (8, 0), (9, 1048578), (9, -16), (10, -1), (10, 2**32), (10, MOST_64),
    ):
        yield Case(number, (bad,), ([0, 0],))


def key_sums():
    """Case 11 at the ends of 32 bits and of the length."""
    for key in (
        [], [0], [1, -1], [LEAST_32], [MOST_32], [LEAST_32, MOST_32], [LEAST_32] * 1024,
        [MOST_32] * 1024, [LEAST_32] * 1025, [0] * 1025, [LEAST_32 - 1], [MOST_32 + 1],
        [0, LEAST_64], [MOST_64, 0], [1] * 1023 + [MOST_32 + 1], [2**32], [-(2**32)],
    ):
        yield Case(11, (), (key,))


def products():
    """Case 12 at the ends of the key's sum and of the entries."""
    top = LARGEST_ENTRY
    for key, entries in (
        ([], []), ([1], [top]), ([4096], [top]), ([4096], [-top]), ([-4096], [top]),
        ([-4096], [-top]),
        ([4] * 1024, [top] * 1024), ([-4] * 1024, [top] * 1024), ([4, -4] * 512, [top, -top] * 512),
        ([4097], [1]), ([4] * 1024, [top] * 1023 + [top + 1]), ([1], [top + 1]), ([1], [-top - 1]),
        ([1], [LEAST_64]), ([1], [MOST_64]), ([LEAST_32], [0]), ([MOST_32], [0]),
        ([2048, -2049], [0, 0]),
        ([1], []), ([], [1]), ([1, 1], [1]), ([1] * 1024, [-1] * 1024), ([0] * 1025, [0] * 1025),
        ([MOST_32 + 1], [0]), ([2**32 + 1], [1]),
    ):
        yield Case(12, (), (key, entries))


def columns():
    """Case 13 at every column, at the ends, and with widths and places that are refused."""
    rng = random.Random(13)
    for count, width in ((1, 1), (2, 4), (3, 9), (16, 17), (17, 16), (1024, 4)):
        key = [rng.choice((-4, 4)) for _ in range(count)]
        table = [
            rng.choice((-LARGEST_ENTRY, LARGEST_ENTRY, rng.randint(-9, 9)))
            for _ in range(count * width)
        ]
        for j in (3,) if count == 1024 else sorted({0, 1, width // 2, width - 1, width, -1}):
            yield Case(13, (width, j), (key, table))
    for width, j, count, entries in (
        (4, 0, 2, 7), (4, 0, 2, 9), (0, 0, 2, 0), (1, 0, 0, 0), (65536, 65535, 0, 0),
        (65537, 0, 0, 0), (-1, -2, 0, 0), (MOST_64, 0, 0, 0), (2**32 + 1, 0, 1, 1),
        (40960, 40959, 1, 40960), (1, LEAST_64, 1, 1),
    ):
        yield Case(13, (width, j), ([1] * count, [3] * entries))
    for key, table in (
        ([4096, 1], [0, 0]), ([1, 1], [0, LARGEST_ENTRY + 1]), ([1, 2**31], [0, 0]),
        ([0] * 1025, [0] * 1025),
    ):
        yield Case(13, (1, 0), (key, table))


def no_cases():
    """Numbers of no case."""
    return [Case(number) for number in (0, -1, 14, 100, 2**32 + 1, LEAST_64, MOST_64)]


# ---- cases at random


def random_modulus(rng):
    """Any even modulus, often a small or a large one, and seldom an odd number."""
    if rng.randrange(20) == 0:
        return rng.choice((15, 17, 1048575))
    return 2 * rng.choice((1, 8, 9, 511, 524287, 524288, rng.randint(1, 524288)))


def random_case(rng):
    """A case at random, of a small size."""
    number, q, n = rng.randint(1, 13), random_modulus(rng), rng.choice((1, 2, 3, 4, 5))
    big, wide = q * q, rng.randint(LEAST_64, MOST_64)
    if number <= 2:
        return Case(number, (q, rng.choice((wide, rng.randint(-big, big)))))
    if number == 3:
        tie = q // 2 * rng.randint(-q, q)
        return Case(3, (q, rng.choice((wide // 2, rng.randint(-big, big), tie))))
    if number == 4:
        return Case(4, (q, *any_entries(rng, q, 2)))
    if number == 5:
        return Case(5, (q,), (any_entries(rng, q, n), any_entries(rng, q, rng.randint(1, 5))))
    if number == 6:
        count = rng.randint(1, 70)
        return Case(6, (q,), (any_entries(rng, q, count), any_entries(rng, big, count)))
    if number == 7:
        return Case(7, (q, n), (any_entries(rng, q, n * n), any_entries(rng, big, n**3)))
    if number <= 9:
        m = q if number == 8 else big
        wider = m + rng.choice((0, 0, 2))
        return Case(number, (q,), (any_entries(rng, wider, rng.randint(0, 20)),))
    if number == 10:
        return Case(10, (q,), (any_entries(rng, 2 * q + rng.choice((0, 2)), rng.randint(0, 20)),))
    key = [rng.randint(-9, 9) for _ in range(rng.randint(0, 20))]
    if number == 11:
        return Case(11, (), (key + [rng.randint(LEAST_32, MOST_32)],))
    if number == 12:
        return Case(12, (), (key, any_entries(rng, 2 * LARGEST_ENTRY, len(key))))
    return Case(13, (n, rng.randrange(n)), (key, any_entries(rng, 2 * LARGEST_ENTRY, len(key) * n)))


def random_cases(count=600, seed=20260):
    """Cases at random, the same at every run."""
    rng = random.Random(seed)
    return [random_case(rng) for _ in range(count)]


# ---- all of it


def all_cases():
    """Every case, in the order of the files."""
    parts = (
        on_single_numbers, on_tensor_entries, tensors, tied_rows, rows_of_every_rest, aligned_rows,
        longest_row, switches, refused_lists, range_tests, key_sums, products, columns, no_cases,
        random_cases,
    )
    return [case for part in parts for case in part()]


def row_sums(case):
    """The sums S of the rows that an accepted case 6 or 7 switches."""
    if case.number not in (6, 7) or answer(case) is None:
        return []
    entries, rows = case.lists
    width = len(entries)
    return [inner(entries, rows[at : at + width]) for at in range(0, len(rows), width or 1)]


def weaknesses(cases):
    """What the cases fail to try; nothing, if all is well."""
    sums = [whole for case in cases for whole in row_sums(case)]
    for bits, least in ((63, 40), (64, 10)):
        for sign in (-1, 1):
            passed = sum(sign * whole > 2**bits for whole in sums)
            if passed < least:
                yield f"only {passed} rows of sign {sign} pass 2**{bits}"
    for case in cases:
        limits = (FIRST, SECOND)
        if any(len(entries) > limit for entries, limit in zip(case.lists, limits)):
            yield f"case {case.number} has a list that the program cannot hold"
    for name, rules in (
        ("halves away from zero", faults.HALVES_AWAY_FROM_ZERO),
        ("halves down", faults.HALVES_DOWN),
        ("each product rounded", faults.EACH_PRODUCT_ROUNDED),
        ("entries from zero up", faults.ENTRIES_FROM_ZERO_UP),
        ("sum cut to 64 bits", faults.SUM_CUT_TO_64_BITS),
    ):
        tried = [case for case in cases if case.numbers[:1] == (1048574,)]
        if all(output_line(case, rules) == output_line(case) for case in tried):
            yield f"no case at q = 1,048,574 tells the planted fault: {name}"


def main(arguments):
    """Writes the two files, or compares them."""
    cases = all_cases()
    found = list(weaknesses(cases))
    files = {
        CRATE / "stdin": "".join(map(input_line, cases)),
        CRATE / "stdout": "".join(map(output_line, cases)),
    }
    if arguments == ["--write"]:
        for path, text in files.items():
            path.write_text(text)
    elif arguments == ["--check"]:
        found += [
            f"{path.name} of crates/edges is not what oracle/edges.py writes"
            for path, text in files.items()
            if not path.exists() or path.read_text() != text
        ]
    else:
        found.append("say --write or --check")
    for line in found:
        print(line)
    if not found:
        refused = sum(answer(case) is None for case in cases)
        print(f"edges: {len(cases)} cases, {refused} of them refused")
    return 1 if found else 0


if __name__ == "__main__":
    sys.exit(main(sys.argv[1:]))
