"""Circuit files at random: valid ones, each field damaged, cut and extended, at the limits, and mere bytes.

`random_file(rng)` gives a byte string, `buffer_length(rng, data)` the length of a buffer for its bounds, mostly the right one.
"""

from circuit import AND, MOST_GATES, MOST_INPUTS, NOT, XOR
from gatfile import HEAD, RECORD, read_head
from params import HOUSE_SHEETS, Params
from testkit import file_bytes, small_params

# The lowest offset and the width of each field of the head.
FIELDS = ((0, 1), (1, 1), (2, 1), (3, 2), (5, 2), (7, 4), (11, 2), (13, 4), (17, 2), (19, 2), (21, 2))

# Room for several ANDs one after the other.
ROOMY = (Params(2, 1048576, 2, 1, 1), Params(4, 1048576, 4, 2, 1), Params(3, 1000002, 3, 0, 0), Params(2, 1048576, 1, 262143, 0))


def random_gates(rng, inputs, count, kinds=(XOR, AND, NOT)):
    """Right gates, of which some have one wire for both operands."""
    gates = []
    for own in range(inputs, inputs + count):
        kind = rng.choice(kinds)
        left = rng.randrange(own)
        right = 0 if kind == NOT else rng.choice((left, rng.randrange(own)))
        gates.append((kind, left, right))
    return gates


def valid_file(rng):
    """A file without a fault of its fields; its budget may be passed."""
    p = rng.choice((rng.choice(HOUSE_SHEETS), small_params(rng), rng.choice(ROOMY), rng.choice(ROOMY)))
    inputs = rng.choice((1, 2, rng.randint(1, 12), rng.randint(1, 40)))
    count = rng.choice((1, 2, rng.randint(1, 12), rng.randint(1, 40)))
    kinds = rng.choice(((XOR, AND, NOT), (XOR, NOT), (AND,), (NOT,), (XOR, NOT, NOT, NOT, NOT, AND)))
    return file_bytes(p, inputs, random_gates(rng, inputs, count, kinds))


def large_file(rng):
    """A file at or over the largest counts."""
    inputs = rng.choice((1, MOST_INPUTS, MOST_INPUTS, MOST_INPUTS + 1))
    count = rng.choice((MOST_GATES, MOST_GATES, MOST_GATES - 1, MOST_GATES + 1))
    p = rng.choice((Params(2, 1048576, 1, 262143, 0), Params(2, 1048576, 2, 0, 0), HOUSE_SHEETS[1]))
    data = file_bytes(p, inputs, random_gates(rng, inputs, count, rng.choice(((NOT,), (NOT,), (XOR, NOT)))))
    return rng.choice((data, data, data + bytes(rng.choice((1, 5, 4000))), data[:-1]))


def with_field(data, at, width, value):
    return data[:at] + value.to_bytes(width, "big") + data[at + width:]


def damaged_head(rng):
    """One field of the head of a valid file is another number, often one next to it or at an end."""
    data = valid_file(rng)
    at, width = rng.choice(FIELDS)
    top = 256**width - 1
    value = int.from_bytes(data[at:at + width], "big")
    other = rng.choice((0, 1, top, (value + 1) & top, (value - 1) & top, rng.randint(0, top), 2 * value & top))
    return with_field(data, at, width, other)


def damaged_gate(rng):
    """One gate of a valid file has a wrong kind, an operand at or above its own wire, or NOT's right is not 0."""
    data = valid_file(rng)
    head = read_head(data)
    g = rng.choice((0, head.gates - 1, rng.randrange(head.gates)))
    at = HEAD.size + RECORD.size * g
    own = head.inputs + g
    damage = rng.randrange(4)
    if damage == 0:
        return with_field(data, at, 1, rng.choice((3, 255, rng.randint(3, 255))))
    if damage == 1:
        return with_field(data, at + 1, 2, rng.choice((own, own + 1, 65535)))
    if damage == 2:
        return with_field(data, at + 3, 2, rng.choice((own, own + 1, 65535)))
    return with_field(with_field(data, at, 1, NOT), at + 3, 2, rng.randint(1, 3))


def cut_or_extended(rng):
    """A valid file that ends elsewhere: near its head's end, near its own, or anywhere."""
    data = valid_file(rng)
    end = rng.choice((rng.randint(20, 26), len(data) - rng.randint(1, 6), rng.randrange(len(data)), len(data) + rng.randint(1, 6)))
    return (data + bytes(8))[:max(0, end)]


def mere_bytes(rng):
    """Bytes at random, some after a right mark."""
    data = bytes(rng.randrange(256) for _ in range(rng.choice((0, 1, 22, 23, 24, 28, rng.randint(0, 60)))))
    return rng.choice((data, b"GAT\x00\x01" + data))


def random_file(rng):
    if rng.randrange(400) == 0:
        return large_file(rng)
    kinds = (valid_file, valid_file, valid_file, damaged_head, damaged_head, damaged_gate, cut_or_extended, mere_bytes)
    return rng.choice(kinds)(rng)


def buffer_length(rng, data):
    """Four bytes a wire for a file that has a head; now and then another length."""
    right = 0
    if len(data) >= HEAD.size:
        head = read_head(data)
        right = 4 * (head.inputs + head.gates)
    if right > 4 * (MOST_INPUTS + MOST_GATES + 2):
        right = 40
    if rng.randrange(6) == 0:
        return rng.choice((0, right + 1, max(0, right - 1), right + 4, max(0, right - 4), rng.randrange(100)))
    return right
