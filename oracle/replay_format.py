"""The format of docs/REPLAY.md: calls as text, and the answers of this program to them.

A call is a pair: its number and a list of what it borrows, in order. A parameter
set is a Params, a buffer is a list, everything else is a whole number.
"""

import re

import engine
from engine import PAPER, Gate, Params

(MAKE, SHEET, CHECK_KEY, MAKE_SWITCHING_KEY, CHECK_BENCH_KEY, MAKE_BENCH_KEY, ENCRYPT, DECRYPT,
 XOR, NOT, AND, PLAN, EVALUATE, CHECK_FILE, PLAN_FILE, PRINT_FILE, PLAN_GATES,
 EVALUATE_GATES) = range(1, 19)

NAMES = {
    MAKE: "make", SHEET: "sheet", CHECK_KEY: "check_key",
    MAKE_SWITCHING_KEY: "make_switching_key", CHECK_BENCH_KEY: "check_bench_key",
    MAKE_BENCH_KEY: "make_bench_key", ENCRYPT: "encrypt", DECRYPT: "decrypt",
    XOR: "xor", NOT: "not", AND: "and", PLAN: "plan", EVALUATE: "evaluate",
    CHECK_FILE: "check_file", PLAN_FILE: "plan_file", PRINT_FILE: "print_file",
    PLAN_GATES: "plan_gates", EVALUATE_GATES: "evaluate_gates",
}

# What a call borrows: an unsigned word, a signed number, a parameter set, a key, a buffer of
# at most n, n^2 or n^3 entries, a list of words, one for each gate or wire of a circuit or three for
# each gate, or a list of bytes: a circuit file or its bounds, or the buffer of a text.
WORD, NUMBER, SET, KEY, SHORT, MIDDLE, LONG, RUN, GATES, FILE, TEXT = range(11)

FIELDS = {
    MAKE: [SET],
    SHEET: [WORD],
    CHECK_KEY: [SET, KEY],
    MAKE_SWITCHING_KEY: [SET, KEY, LONG, MIDDLE, LONG],
    CHECK_BENCH_KEY: [KEY, SHORT, SHORT],
    MAKE_BENCH_KEY: [KEY, SHORT, SHORT],
    ENCRYPT: [SET, KEY, WORD, SHORT, NUMBER, SHORT],
    DECRYPT: [SET, KEY, SHORT],
    XOR: [SET, SHORT, WORD, SHORT, WORD, SHORT],
    NOT: [SET, SHORT, WORD, SHORT],
    AND: [SET, SHORT, WORD, SHORT, WORD, LONG, MIDDLE, SHORT],
    PLAN: [SET, WORD, RUN, RUN, RUN, RUN],
    EVALUATE: [SET, WORD, RUN, RUN, RUN, LONG, RUN, LONG, MIDDLE],
    CHECK_FILE: [FILE],
    PLAN_FILE: [FILE, FILE],
    PRINT_FILE: [FILE, TEXT],
    PLAN_GATES: [SET, WORD, GATES, RUN],
    EVALUATE_GATES: [SET, WORD, GATES, LONG, RUN, LONG, MIDDLE],
}

# The buffers that a call on gate records may write.
WRITTEN = {PLAN_GATES: (3,), EVALUATE_GATES: (3, 4, 6)}

WORDS = (0, 2**32 - 1)
NUMBERS = (-(2**63), 2**63 - 1)
KEY_ENTRIES = (-(2**31), 2**31 - 1)
BYTES = (0, 255)
MOST_ENTRIES = {KEY: 128, SHORT: 128, MIDDLE: 4160, LONG: 262400, RUN: 5200, GATES: 15600,
                FILE: 20600, TEXT: 81000}
WIDTHS = {KEY: KEY_ENTRIES, SHORT: NUMBERS, MIDDLE: NUMBERS, LONG: NUMBERS, RUN: WORDS,
          GATES: WORDS, FILE: BYTES, TEXT: BYTES}

END = "end \n"


class Unreadable(Exception):
    """The input has ended, or what comes next is no call."""


class Reader:
    """Takes whole numbers off a text, each within its width."""

    def __init__(self, text):
        self.tokens = iter(re.split("[ \t\n\r]+", text))

    def take(self, width):
        """The next number, which must lie within the width."""
        token = next(self.tokens, "") or next(self.tokens, "")
        if not re.fullmatch("-?[0-9]+", token) or not width[0] <= int(token) <= width[1]:
            raise Unreadable
        return int(token)

    def run(self, most, width):
        """A count of at most `most`, and that many numbers."""
        return [self.take(width) for _ in range(self.take((0, most)))]

    def field(self, kind):
        """One thing that a call borrows."""
        if kind == WORD:
            return self.take(WORDS)
        if kind == NUMBER:
            return self.take(NUMBERS)
        if kind == SET:
            return Params(*(self.take(WORDS) for _ in range(5)))
        return self.run(MOST_ENTRIES[kind], WIDTHS[kind])

    def call(self):
        """The next call, whole."""
        number = self.take(WORDS)
        if number not in FIELDS:
            raise Unreadable
        return number, [self.field(kind) for kind in FIELDS[number]]


def flat(field):
    """A borrowed thing as the numbers that stand for it."""
    if isinstance(field, Params):
        return list(field)
    if isinstance(field, list):
        return [len(field)] + field
    return [field]


def written(call):
    """A call as a line of text."""
    number, fields = call
    return " ".join(str(x) for field in [[number]] + [flat(f) for f in fields] for x in field) + "\n"


def bench_key(fields):
    """The answer of the bench key maker: four rows, one after the other."""
    return [x for row in engine.make_bench_key(*fields) for x in row]


def gates_of_three(numbers):
    """The gate records of a list, three numbers each. One or two left over are no gate."""
    return [Gate(*numbers[at : at + 3]) for at in range(0, len(numbers) - 2, 3)]


def gates_answer(number, lent, rules):
    """The answer of a call on gate records, and the buffers that it leaves."""
    p, inputs, numbers, *buffers = lent
    do = engine.plan if number == PLAN_GATES else engine.evaluate
    answer = do(p, inputs, gates_of_three(numbers), *buffers, rules)
    return [*answer, *(x for at in WRITTEN[number] for x in lent[at])]


def file_answer(number, lent, rules):
    """The answer of a call on a circuit file, and the bytes that it leaves."""
    data = bytes(lent[0])
    if number == CHECK_FILE:
        return [engine.check_file(data, rules)]
    buffer = bytearray(lent[1])
    if number == PLAN_FILE:
        return [engine.plan_file(data, buffer, rules), *buffer]
    return [*engine.print_file(data, buffer, rules), *buffer]


def answered(call, rules=PAPER):
    """What the call returns, and then the buffers that it may write, as they are at its exit.

    The caller's own lists are left alone. Other rules than the paper's are a planted fault.
    """
    number, fields = call
    lent = [list(f) if isinstance(f, list) else f for f in fields]
    if number in (MAKE, SHEET):
        made = engine.make_params(*lent[0]) if number == MAKE else engine.house_sheet(lent[0])
        return [made.number, made.place, *made.params]
    if number in (CHECK_FILE, PLAN_FILE, PRINT_FILE):
        return file_answer(number, lent, rules)
    if number == CHECK_BENCH_KEY:
        return [engine.check_bench_key(*lent), 0]
    if number == MAKE_BENCH_KEY:
        return bench_key(lent)
    if number == CHECK_KEY:
        return list(engine.check_key(*lent))
    if number == MAKE_SWITCHING_KEY:
        return [*engine.make_switching_key(*lent), *lent[-1]]
    if number in (PLAN_GATES, EVALUATE_GATES):
        return gates_answer(number, lent, rules)
    if number == PLAN:
        return [*engine.plan_lists(*lent, rules), *lent[-1]]
    if number == EVALUATE:
        answer = engine.evaluate_lists(*lent, rules)
        return [*answer, *lent[5], *lent[6], *lent[8]]
    answer = {
        ENCRYPT: engine.encrypt, DECRYPT: engine.decrypt,
        XOR: engine.xor_gate, NOT: engine.not_gate, AND: engine.and_gate,
    }[number](*lent, rules)
    if number == DECRYPT:
        return list(answer)
    scratch = lent[-2] if number == AND else []
    return [*answer, *scratch, *lent[-1]]


def line_of(answer):
    """An answer as a line. Each number has a space after it."""
    return "".join(f"{x} " for x in answer) + "\n"


def answer_line(call):
    """The line that answers a call."""
    return line_of(answered(call))


def spoken(text):
    """The answers to a text of calls, line by line, and the last line."""
    reader = Reader(text)
    try:
        while True:
            yield answer_line(reader.call())
    except Unreadable:
        yield END
