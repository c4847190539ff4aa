"""Parameter sets, their limits and the six house sheets."""

from typing import NamedTuple

SMALLEST_N, LARGEST_N = 2, 1024
SMALLEST_Q, LARGEST_Q = 16, 1048576
SMALLEST_L, LARGEST_L = 1, 4096
LARGEST_F = 65535


class Params(NamedTuple):
    """n, q, L, E and F as lent. They may be any numbers: each call tests them."""

    n: int  # entries of a ciphertext
    q: int  # modulus, even
    L: int  # limit on the sum of the key's absolute entries
    E: int  # limit on a fresh error
    F: int  # limit on a switching error

    @property
    def Q(self):
        """The modulus of the switching key."""
        return self.q * self.q

    @property
    def half(self):
        """q/2, which is where a bit of 1 stands."""
        return self.q // 2


NO_PARAMS = Params(0, 0, 0, 0, 0)

HOUSE_SHEETS = (
    Params(2, 16, 2, 1, 1),
    Params(4, 65536, 4, 2, 1),
    Params(8, 65536, 8, 2, 1),
    Params(16, 262144, 16, 3, 1),
    Params(64, 1048576, 64, 4, 2),
    Params(256, 1048576, 128, 8, 4),
)


def within_limits(p):
    """True when every parameter lies in its range."""
    return (
        SMALLEST_N <= p.n <= LARGEST_N
        and SMALLEST_Q <= p.q <= LARGEST_Q
        and p.q % 2 == 0
        and SMALLEST_L <= p.L <= LARGEST_L
        and 0 <= p.E
        and 4 * p.E < p.q
        and 0 <= p.F <= LARGEST_F
    )


def fits_budget(p, bound):
    """A bound fits the budget when four times it is less than q."""
    return 4 * bound < p.q


def largest_that_fits(p):
    """The largest bound that fits: the greatest B with 4B at most q - 1."""
    return (p.q - 1) // 4
