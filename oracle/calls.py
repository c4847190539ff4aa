"""The calls on single keys and ciphertexts, with their refusals.

Each call first looks for a refusal. Its rows (number, test) stand in ascending
order and a test is run only when every row before it has passed. So a test may
rely on the ones before: no content is read before every length is right. Only
then is something written, all at once, so a refusal leaves every buffer as it
was.
"""

from typing import NamedTuple

import definitions
from arith import PAPER, is_centred
from params import HOUSE_SHEETS, NO_PARAMS, Params, fits_budget, within_limits

BENCH_SHEET = HOUSE_SHEETS[1]


class Answer(NamedTuple):
    """What a call answers that returns nothing else. Number 0 means done."""

    number: int
    place: int = 0


class Made(NamedTuple):
    """The answer of the parameter maker. On a refusal the set is all zeros."""

    number: int
    place: int
    params: Params


class Bounded(NamedTuple):
    """The answer of a call that returns a ciphertext's bound."""

    number: int
    place: int = 0
    bound: int = 0


class Decrypted(NamedTuple):
    """The answer of decryption."""

    number: int
    place: int = 0
    bit: int = 0


def first_refusal(rows):
    """The number of the first row whose test says yes, or 0 when none does."""
    for number, test in rows:
        if test():
            return number
    return 0


def some_length_differs(*pairs):
    """True when some lent buffer has not the length required of it."""
    return any(len(buffer) != required for buffer, required in pairs)


def some_entry_outside(modulus, *buffers):
    """True when some entry is outside -modulus/2 to modulus/2-1."""
    return any(not is_centred(x, modulus) for buffer in buffers for x in buffer)


def some_bound_outside(p, bounds):
    """True when some stated bound has 4B at or above q."""
    return any(not fits_budget(p, bound) for bound in bounds)


def make_params(n, q, L, E, F):
    """The parameter maker. Refuses with 1."""
    p = Params(n, q, L, E, F)
    if not within_limits(p):
        return Made(1, 0, NO_PARAMS)
    return Made(0, 0, p)


def house_sheet(k):
    """House sheet k. Another sheet number is refused with 1."""
    if not 0 <= k < len(HOUSE_SHEETS):
        return Made(1, 0, NO_PARAMS)
    return Made(0, 0, HOUSE_SHEETS[k])


def check_key(p, key):
    """The key check. Refuses with 1, 3 and 4."""
    return Answer(
        first_refusal([
            (1, lambda: not within_limits(p)),
            (3, lambda: some_length_differs((key, p.n))),
            (4, lambda: not definitions.is_key(p, key)),
        ])
    )


def make_switching_key(p, key, masks, errors, result):
    """The switching key maker. Refuses with 1, 3, 4, 6 and 7.

    masks holds n-1 rows of n*n, errors n*n, and result n rows of n*n.
    """
    number = first_refusal([
        (1, lambda: not within_limits(p)),
        (3, lambda: some_length_differs(
            (key, p.n),
            (masks, (p.n - 1) * p.n**2),
            (errors, p.n**2),
            (result, p.n**3),
        )),
        (4, lambda: not definitions.is_key(p, key)),
        (6, lambda: some_entry_outside(p.Q, masks)),
        (7, lambda: any(abs(f) > p.F for f in errors)),
    ])
    if number:
        return Answer(number)
    result[:] = definitions.switching_rows(p, key, masks, errors)
    return Answer(0)


def check_bench_key(key, masks, errors):
    """Answers the number of the bench key maker on the same loans, 0 when it is made."""
    unused = [0] * BENCH_SHEET.n**3
    return make_switching_key(BENCH_SHEET, key, masks, errors, unused).number


def make_bench_key(key, masks, errors):
    """The switching key on sheet 1: four rows of sixteen, all zeros on a refusal."""
    run = [0] * BENCH_SHEET.n**3
    make_switching_key(BENCH_SHEET, key, masks, errors, run)
    return [definitions.row_of(BENCH_SHEET, run, i) for i in range(BENCH_SHEET.n)]


def encrypt(p, key, bit, mask, error, result, rules=PAPER):
    """Encryption. Refuses with 1, 3, 4, 5, 6 and 7. The bound is E, never |e|."""
    number = first_refusal([
        (1, lambda: not within_limits(p)),
        (3, lambda: some_length_differs((key, p.n), (mask, p.n - 1), (result, p.n))),
        (4, lambda: not definitions.is_key(p, key)),
        (5, lambda: bit not in (0, 1)),
        (6, lambda: some_entry_outside(p.q, mask)),
        (7, lambda: abs(error) > p.E),
    ])
    if number:
        return Bounded(number)
    result[:] = definitions.encryption(p, key, bit, mask, error, rules)
    return Bounded(0, 0, p.E)


def decrypt(p, key, ciphertext, rules=PAPER):
    """Decryption. Refuses with 1, 3, 4 and 6."""
    number = first_refusal([
        (1, lambda: not within_limits(p)),
        (3, lambda: some_length_differs((key, p.n), (ciphertext, p.n))),
        (4, lambda: not definitions.is_key(p, key)),
        (6, lambda: some_entry_outside(p.q, ciphertext)),
    ])
    if number:
        return Decrypted(number)
    return Decrypted(0, 0, definitions.decryption(p, key, ciphertext, rules))


def xor_gate(p, left, left_bound, right, right_bound, result, rules=PAPER):
    """A single XOR. Refuses with 1, 3, 6, 8 and 10."""
    number = first_refusal([
        (1, lambda: not within_limits(p)),
        (3, lambda: some_length_differs((left, p.n), (right, p.n), (result, p.n))),
        (6, lambda: some_entry_outside(p.q, left, right)),
        (8, lambda: some_bound_outside(p, (left_bound, right_bound))),
        (10, lambda: not fits_budget(p, definitions.xor_bound(left_bound, right_bound))),
    ])
    if number:
        return Bounded(number)
    result[:] = definitions.xor_of(p, left, right, rules)
    return Bounded(0, 0, definitions.xor_bound(left_bound, right_bound))


def not_gate(p, ciphertext, bound, result, rules=PAPER):
    """A single NOT. Refuses with 1, 3, 6 and 8; its bound is unchanged, so never 10."""
    number = first_refusal([
        (1, lambda: not within_limits(p)),
        (3, lambda: some_length_differs((ciphertext, p.n), (result, p.n))),
        (6, lambda: some_entry_outside(p.q, ciphertext)),
        (8, lambda: some_bound_outside(p, (bound,))),
    ])
    if number:
        return Bounded(number)
    result[:] = definitions.not_of(p, ciphertext, rules)
    return Bounded(0, 0, bound)


def and_gate(
    p, left, left_bound, right, right_bound, switching_key, scratch, result, rules=PAPER
):
    """A single AND. Refuses with 1, 3, 6, 8 and 10. On success scratch is all zero."""
    number = first_refusal([
        (1, lambda: not within_limits(p)),
        (3, lambda: some_length_differs(
            (left, p.n),
            (right, p.n),
            (switching_key, p.n**3),
            (scratch, p.n**2),
            (result, p.n),
        )),
        (6, lambda: some_entry_outside(p.q, left, right)
            or some_entry_outside(p.Q, switching_key)),
        (8, lambda: some_bound_outside(p, (left_bound, right_bound))),
        (10, lambda: not fits_budget(p, rules.and_bound(p, left_bound, right_bound))),
    ])
    if number:
        return Bounded(number)
    result[:] = definitions.and_of(p, left, right, switching_key, rules)
    scratch[:] = rules.scratch(scratch)
    return Bounded(0, 0, rules.and_bound(p, left_bound, right_bound))
