"""What the test files share: small builders and the ends of the number widths."""

from engine import HOUSE_SHEETS, Params

LEAST_32, MOST_32 = -(2**31), 2**31 - 1
LEAST_64, MOST_64 = -(2**63), 2**63 - 1
MOST_BOUND = 2**32 - 1

# Four times each of these does not fit 32 bits. Cut there, three of them give 0.
WRAPPING_BOUNDS = (2**30, 2**31, 3 * 2**30, 2**32 - 1)

SHEET_0 = HOUSE_SHEETS[0]
SHEET_1 = HOUSE_SHEETS[1]

EXAMPLE_FILE = bytes.fromhex(
    "47 41 54 00 01 00 04 00 01 00 00 00 04 00 00 00 02 00 01 00 02 00 03"
    " 01 00 00 00 01 02 00 02 00 00 00 00 03 00 00"
)

EXAMPLE_GATES = [(1, 0, 1), (2, 2, 0), (0, 3, 0)]


def head_bytes(p, inputs, gate_count, mark=b"GAT", version=1):
    """The 23 bytes of a head, put together field by field."""
    fields = ((version, 2), (p.n, 2), (p.q, 4), (p.L, 2), (p.E, 4), (p.F, 2),
              (inputs, 2), (gate_count, 2))
    return mark + b"".join(number.to_bytes(size, "big") for number, size in fields)


def gate_bytes(gates):
    """Five bytes a gate."""
    fields = [(number, size) for gate in gates for number, size in zip(gate, (1, 2, 2))]
    return b"".join(number.to_bytes(size, "big") for number, size in fields)


def file_bytes(p, inputs, gates):
    """A whole circuit file."""
    return head_bytes(p, inputs, len(gates)) + gate_bytes(gates)


def small_params(rng):
    """A random parameter set with small n and any even q."""
    q = 2 * rng.choice((8, 9, 11, 50, 511, 524287, 524288, rng.randint(8, 524288)))
    return Params(
        rng.randint(2, 4), q, rng.randint(1, 6), rng.randint(0, (q - 1) // 4),
        rng.choice((0, 1, 5, 65535)),
    )


def random_key(rng, p):
    """A key of p: s0 is 1 and the other sizes add up to at most L - 1."""
    key = [1] + [0] * (p.n - 1)
    for _ in range(rng.randint(0, p.L - 1)):
        i = rng.randrange(1, p.n)
        key[i] += rng.choice((-1, 1))
    return key


def random_entry(rng, modulus):
    """A number in range, often at an end of it."""
    half = modulus // 2
    return rng.choice((-half, half - 1, 0, rng.randint(-half, half - 1)))


def random_entries(rng, modulus, count):
    """A run of such numbers."""
    return [random_entry(rng, modulus) for _ in range(count)]
