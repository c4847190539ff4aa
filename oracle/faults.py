"""Planted faults: the paper's rules with one piece replaced by a wrong one.

A check that cannot tell a fault from the paper's rules is too weak. The tests
and the search use these to show that theirs can.
"""

from arith import PAPER, and_bound, inner


def halves_away_from_zero(a, b):
    """Rounds -4.5 to -5."""
    size = (2 * abs(a) + b) // (2 * b)
    return size if a >= 0 else -size


def halves_down(a, b):
    """Rounds 4.5 to 4."""
    return -((b - 2 * a) // (2 * b))


def round_each_product(tensor, row, q, rounding):
    """Rounds every product of the switch before it is added."""
    return sum(rounding(t * w, q) for t, w in zip(tensor, row))


def cut_to_64_bits(x):
    """What is left of x in a signed 64-bit number that wraps round."""
    return (x + 2**63) % 2**64 - 2**63


def round_after_cut_sum(tensor, row, q, rounding):
    """Takes S for its last 64 bits."""
    return rounding(cut_to_64_bits(inner(tensor, row)), q)


def and_bound_one_less(p, b1, b2):
    """The AND bound lowered by one, but never under 0."""
    return max(0, and_bound(p, b1, b2) - 1)


def and_bound_one_floor(p, b1, b2):
    """The two parts of the AND bound added first and rounded down together."""
    over_2q = 2 * p.q * p.L * (b1 + b2) + 4 * b1 * b2 + p.q * p.L * p.L
    over_2 = p.n * p.n * p.F + p.L
    return (over_2q + p.q * over_2) // (2 * p.q)


def a_quarter_or_more(d, q):
    """Reads a magnitude of exactly q/4 as 1."""
    return 4 * abs(d) >= q


def from_zero_up(x, m):
    """Leaves entries in 0 to m-1."""
    return x % m


def last_of(places):
    """The last of the offending gates."""
    last = None
    for last in places:
        pass
    return last


def all_but_the_last(inputs, g, gates):
    """Lets the last gate go without a look at its budget."""
    return g < len(gates) - 1


def used_later(inputs, g, gates):
    """Looks at the budget of those gates alone that a later one reads, and of the output."""
    later = gates[g + 1 :]
    return not later or any(inputs + g in (left, right) for _, left, right in later)


def as_found(scratch):
    """Leaves what stood in the scratch."""
    return list(scratch)


HALVES_AWAY_FROM_ZERO = PAPER._replace(rounding=halves_away_from_zero)
HALVES_DOWN = PAPER._replace(rounding=halves_down)
EACH_PRODUCT_ROUNDED = PAPER._replace(switch_entry=round_each_product)
SUM_CUT_TO_64_BITS = PAPER._replace(switch_entry=round_after_cut_sum)
AND_BOUND_ONE_LESS = PAPER._replace(and_bound=and_bound_one_less)
AND_BOUND_ONE_FLOOR = PAPER._replace(and_bound=and_bound_one_floor)
A_QUARTER_READS_ONE = PAPER._replace(reads_one=a_quarter_or_more)
ENTRIES_FROM_ZERO_UP = PAPER._replace(reduction=from_zero_up)
PLACE_OF_THE_LAST = PAPER._replace(place=last_of)
LAST_GATE_FREE = PAPER._replace(counts=all_but_the_last)
UNUSED_GATES_FREE = PAPER._replace(counts=used_later)
SCRATCH_LEFT = PAPER._replace(scratch=as_found)
