"""Circuit files as calls: check, planning and printing of each.

The files are those of `files.py`. The buffers arrive with anything in them; that of the text is as
long as the text, one byte shorter, or of some other length.
"""

import engine
from circuit import MOST_GATES, MOST_INPUTS, NOT, XOR
from files import buffer_length, random_file
from params import Params
from replay_circuits import fullest_call
from replay_format import CHECK_FILE, FILE, MOST_ENTRIES, PLAN_FILE, PRINT_FILE, TEXT
from testkit import file_bytes

# Of this set and the largest counts is the file whose text is the longest.
LONGEST_SET = Params(2, 1048576, 1, 262143, 0)


def draw_found(rng, count):
    """What a call finds in a buffer of bytes: anything."""
    alike = rng.choice((0, 170, 255, None))
    return [alike] * count if alike is not None else list(rng.randbytes(count))


def text_room(rng, data):
    """The length of a buffer for the text: as the text's, one off, or another."""
    length = len(engine.printed(data))
    return rng.choice((length, length, length - 1, length - 1, length + 1, 0, rng.randrange(length),
                       length + rng.randrange(40)))


def calls_on(rng, data, bounds_length, room):
    """Check, planning and printing of a file, with buffers of these lengths."""
    file = list(data)
    return [(CHECK_FILE, [file]), (PLAN_FILE, [file, draw_found(rng, bounds_length)]),
            (PRINT_FILE, [file, draw_found(rng, room)])]


def make_files(rng, count, most=MOST_ENTRIES[FILE]):
    """So many files, all three calls on each. A file that is longer than `most` is cut there."""
    for _ in range(count):
        data = random_file(rng)[:most]
        yield from calls_on(rng, data, buffer_length(rng, data), text_room(rng, data))


# The largest file.


def largest_gates():
    """As many NOT gates as there may be, each of the wire before its own."""
    return [(NOT, MOST_INPUTS + g - 1, 0) for g in range(MOST_GATES)]


def largest_files():
    """The file with the longest text; the same with a last gate that is wrong and with one that does
    not fit, with a gate and an input too many, and with a byte too many and one too few."""
    gates = largest_gates()
    last = MOST_INPUTS + MOST_GATES - 1
    data = file_bytes(LONGEST_SET, MOST_INPUTS, gates)
    return [
        data, file_bytes(LONGEST_SET, MOST_INPUTS, gates[:-1] + [(NOT, last, 0)]),
        file_bytes(LONGEST_SET, MOST_INPUTS, gates[:-1] + [(XOR, last - 1, last - 1)]),
        file_bytes(LONGEST_SET, MOST_INPUTS, gates + [(NOT, 0, 0)]),
        file_bytes(LONGEST_SET, MOST_INPUTS + 1, gates), data + b"\0", data[:-1],
    ]


def largest_calls(rng):
    """The calls on the largest files, the text of each in a buffer as long, one byte shorter and as
    long as the format lets it be; and the longest calls."""
    for data in largest_files():
        length = len(engine.printed(data))
        yield from calls_on(rng, data, 4 * (MOST_INPUTS + MOST_GATES), length)
        for room in (length - 1, MOST_ENTRIES[TEXT]):
            yield PRINT_FILE, [list(data), draw_found(rng, room)]
    yield from (fullest_call(number) for number in (CHECK_FILE, PLAN_FILE, PRINT_FILE))
