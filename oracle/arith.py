"""Whole-number arithmetic, and the few pieces of it that can be replaced.

Python's whole numbers have no width, so every sum and product here is exact.
`//` rounds down and `%` by a positive number is never negative.
"""

from typing import Callable, NamedTuple


def centred(x, m):
    """[x]m: the number in -m/2 to m/2-1 that differs from x by a multiple of m."""
    half = m // 2
    return (x + half) % m - half


def is_centred(x, m):
    """True when x already lies in -m/2 to m/2-1."""
    half = m // 2
    return -half <= x <= half - 1


def round_half_up(a, b):
    """round(a/b) for b > 0: the greatest whole number not above a/b + 1/2."""
    return (2 * a + b) // (2 * b)


def inner(left, right):
    """<left,right>: the sum of the products, entry by entry."""
    return sum(x * y for x, y in zip(left, right))


def round_after_sum(tensor, row, q, rounding):
    """round(S/q), S the whole sum over j of tensor entry j times row entry j.

    There is one rounding, after the sum.
    """
    return rounding(inner(tensor, row), q)


def and_bound(p, b1, b2):
    """The bound of an AND. Each of its two divisions is rounded down by itself."""
    product = (2 * p.q * p.L * (b1 + b2) + 4 * b1 * b2 + p.q * p.L * p.L) // (2 * p.q)
    switch = (p.n * p.n * p.F + p.L) // 2
    return product + switch


def more_than_a_quarter(d, q):
    """Decryption's comparison: 1 if 4|d| > q, so a magnitude of q/4 gives 0."""
    return 4 * abs(d) > q


def first_of(places):
    """The first of the offending gates, or None where there is none."""
    return next(places, None)


def every_gate(inputs, g, gates):
    """Whether gate g of a circuit counts against the budget: every gate does, used later or not."""
    return True


def all_zero(scratch):
    """What scratch holds after a call that is done."""
    return [0] * len(scratch)


class Rules(NamedTuple):
    """The pieces that a planted fault may replace. The defaults are the paper's."""

    reduction: Callable = centred
    rounding: Callable = round_half_up
    switch_entry: Callable = round_after_sum
    and_bound: Callable = and_bound
    reads_one: Callable = more_than_a_quarter
    place: Callable = first_of
    counts: Callable = every_gate
    scratch: Callable = all_zero


PAPER = Rules()
