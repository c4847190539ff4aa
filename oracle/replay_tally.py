"""What a batch of calls has shown: how often each number was given, and how large the sums were."""

from collections import Counter

import circuit
import engine
from engine import Gate
from replay_batch import REFUSALS
from replay_format import (AND, CHECK_BENCH_KEY, CHECK_FILE, EVALUATE, EVALUATE_GATES,
                           MAKE_BENCH_KEY, MAKE_SWITCHING_KEY, NAMES, PLAN, PLAN_FILE, PLAN_GATES,
                           PRINT_FILE, answered)

ENOUGH = 50        # how often each number of a call is to be seen in a batch of ENOUGH_IN
ENOUGH_WIDE = 100  # and how many ANDs whose S passes 2^63
ENOUGH_IN = 20000

ENOUGH_CIRCUITS = 5000     # the same of the calls on circuits, in a batch of so many of them
ENOUGH_WITH_AN_AND = 1000  # and how many that are accepted and have an AND

# The same of the three calls on files, and of texts that just fit and just do not.
ENOUGH_FILES = 5000

CIRCUIT_CALLS = (PLAN, EVALUATE)
RECORD_CALLS = (PLAN_GATES, EVALUATE_GATES)
FILE_CALLS = (CHECK_FILE, PLAN_FILE, PRINT_FILE)
SINGLE_CALLS = [kind for kind in NAMES if kind not in CIRCUIT_CALLS + RECORD_CALLS + FILE_CALLS]


def number_of(call, answer):
    """The number that a call gives. That of the bench key maker is that of its check."""
    if call[0] == MAKE_BENCH_KEY:
        return answered((CHECK_BENCH_KEY, call[1]))[0]
    return answer[0] // 65536 if call[0] in (CHECK_FILE, PLAN_FILE) else answer[0]


def is_wide(p, left, right, key):
    """Whether some S of an AND is 2^63 or more in size."""
    columns = p.n * p.n
    if columns * p.half * (p.Q // 2) < 2**63:
        return False
    tensor = engine.tensor(p, left, right)
    rows = (key[i * columns : (i + 1) * columns] for i in range(p.n))
    return any(abs(engine.inner(tensor, row)) >= 2**63 for row in rows)


def gates_of(call):
    """The gates of a call on a circuit whose three lists have one length."""
    return [Gate(*g) for g in zip(*call[1][2:5])]


def has_wide_and(call, answer):
    """Whether the first AND of a circuit that was evaluated is wide."""
    p, key = call[1][0], call[1][7]
    gate = next(gate for gate in gates_of(call) if gate.kind == engine.AND)
    left, right = (answer[2 + w * p.n : 2 + (w + 1) * p.n] for w in gate[1:])
    return is_wide(p, left, right, key)


def and_depth(inputs, gates):
    """The most ANDs on a way from an input to a gate."""
    depths = [0] * inputs
    for kind, left, right in gates:
        depths.append(depths[left] if kind == engine.NOT
                      else max(depths[left], depths[right]) + (kind == engine.AND))
    return max(depths)


def is_over_before(call, place):
    """Whether a gate before this one has a bound that does not fit."""
    p, inputs = call[1][:2]
    bounds = call[1][5 if call[0] == PLAN else 6][:inputs]
    return any(True for _ in circuit.over_gates(p, gates_of(call)[:place], bounds, engine.PAPER))


class Circuits:
    """What was seen of circuits."""

    def __init__(self):
        self.with_an_and = Counter()  # that were evaluated, by n
        self.twice = 0                # with an AND or XOR of one wire
        self.wide = 0                 # with an AND of some |S| of 2^63 or more
        self.odd = 0                  # with a q that is no power of two
        self.depth = self.gates = 0   # the most ANDs on a way, the most gates
        self.late = Counter()         # 9 and 10 at a gate that is not the first
        self.both = 0                 # 9 after a gate that does not fit

    def take(self, call, answer):
        """Counts a call."""
        number, place = answer[:2]
        if number in (9, 10):
            self.late[number] += place > 0
            self.both += number == 9 and is_over_before(call, place)
        kinds = call[1][2]
        if call[0] == EVALUATE and number == 0 and engine.AND in kinds:
            self.take_evaluated(call, answer)

    def take_evaluated(self, call, answer):
        """Counts an evaluation with an AND."""
        p, inputs = call[1][:2]
        gates = gates_of(call)
        self.with_an_and[p.n] += 1
        self.twice += any(kind != engine.NOT and left == right for kind, left, right in gates)
        self.wide += has_wide_and(call, answer)
        self.odd += p.q & (p.q - 1) != 0
        self.depth = max(self.depth, and_depth(inputs, gates))
        self.gates = max(self.gates, len(gates))

    def show(self):
        """Prints what was seen."""
        sizes = " ".join(f"{n}:{self.with_an_and[n]}" for n in sorted(self.with_an_and))
        print(f"circuits with an AND that were evaluated: {sum(self.with_an_and.values())}, by n: {sizes}")
        print(f"  with one wire twice: {self.twice}, with a q that is no power of two: {self.odd}, "
              f"with some |S| of 2^63 or more: {self.wide}")
        print(f"  most ANDs on a way: {self.depth}, most gates: {self.gates}")
        print(f"refused with 9 and 10 at a gate after the first: {self.late[9]} and {self.late[10]}, "
              f"with 9 after a gate that does not fit: {self.both}")


class Files:
    """What was seen of circuit files."""

    def __init__(self):
        self.late = Counter()   # 9 and 10 at a gate that is not the first
        self.room = Counter()   # texts of accepted files, by how much longer the buffer is
        self.texts = Counter()  # texts, by what the file's check gives
        self.short = 0          # texts that had no room
        self.longest = 0        # text
        self.largest = 0        # file, in bytes

    def take(self, call, answer, number):
        """Counts a call."""
        kind, fields = call
        self.largest = max(self.largest, len(fields[0]))
        if kind == CHECK_FILE and number in (9, 10):
            self.late[number] += answer[0] % 65536 > 0
        if kind == PRINT_FILE:
            self.take_text(fields, answer[2], number)

    def take_text(self, fields, printed, number):
        """Counts a text, of which so many bytes were printed."""
        length = printed or len(engine.printed(bytes(fields[0])))
        checked = answered((CHECK_FILE, fields[:1]))[0] // 65536
        self.longest = max(self.longest, printed)
        self.texts[checked] += 1
        self.short += number == 3
        if checked == 0:
            self.room[len(fields[1]) - length] += 1

    def seldom(self, least):
        """Which texts were seen fewer than so many times."""
        few = [f"fewer than {least} texts of accepted files in a buffer {what}"
               for over, what in ((0, "just long enough"), (-1, "one byte too short"))
               if self.room[over] < least]
        return few + [f"fewer than {least} texts of files that the check gives {number}"
                      for number in (0,) + REFUSALS[CHECK_FILE] if self.texts[number] < least]

    def show(self):
        """Prints what was seen."""
        print("files refused with 9 and 10 at a gate after the first: "
              f"{self.late[9]} and {self.late[10]}, most bytes of a file: {self.largest}")
        numbers = " ".join(f"{k}:{self.texts[k]}" for k in (0,) + REFUSALS[CHECK_FILE])
        print(f"texts by what the file's check gives: {numbers}")
        print(f"texts of accepted files in a buffer just long enough: {self.room[0]}, "
              f"one byte too short: {self.room[-1]}, texts without room in all: {self.short}, "
              f"longest text: {self.longest} bytes")


class Tally:
    """Counts calls by their kinds and numbers."""

    def __init__(self):
        self.count = 0
        self.seen = Counter()   # by kind and number
        self.made = Counter()   # switching keys and ANDs that were made, by n
        self.wide = 0           # ANDs with some |S| of 2^63 or more
        self.circuits = Circuits()
        self.files = Files()

    def take(self, call, answer):
        """Counts a call."""
        kind, number = call[0], number_of(call, answer)
        self.count += 1
        self.seen[kind, number] += 1
        if kind in CIRCUIT_CALLS:
            self.circuits.take(call, answer)
        elif kind in FILE_CALLS:
            self.files.take(call, answer, number)
        elif number == 0 and kind in (MAKE_SWITCHING_KEY, AND):
            p, fields = call[1][0], call[1]
            self.made[p.n] += 1
            self.wide += kind == AND and is_wide(p, fields[1], fields[3], fields[5])

    def total(self, kinds):
        """How many calls of these kinds."""
        return sum(count for (kind, _), count in self.seen.items() if kind in kinds)

    def show(self):
        """Prints what was seen, a line for each kind of call."""
        for kind, name in NAMES.items():
            numbers = " ".join(f"{k}:{self.seen[kind, k]}" for k in (0,) + REFUSALS[kind])
            print(f"{kind:>2} {name:<18} {numbers}")
        print(f"ANDs with some |S| of 2^63 or more: {self.wide}")
        sizes = " ".join(f"{n}:{self.made[n]}" for n in sorted(self.made))
        print(f"switching keys and ANDs that were made, by n: {sizes}")
        self.circuits.show()
        self.files.show()

    def seldom(self, least, kinds):
        """What was seen fewer than so many times, of the numbers that these calls can give."""
        return [f"{NAMES[kind]} gives {k} fewer than {least} times"
                for kind in kinds for k in (0,) + REFUSALS[kind] if self.seen[kind, k] < least]

    def lacks(self):
        """What a batch that is large enough has shown too seldom."""
        few = []
        if self.total(SINGLE_CALLS) >= ENOUGH_IN:
            few += self.seldom(ENOUGH, SINGLE_CALLS)
            if self.wide < ENOUGH_WIDE:
                few.append(f"fewer than {ENOUGH_WIDE} ANDs with some |S| of 2^63 or more")
        if self.total([EVALUATE]) >= ENOUGH_CIRCUITS:
            few += self.seldom(ENOUGH, CIRCUIT_CALLS + RECORD_CALLS)
            if sum(self.circuits.with_an_and.values()) < ENOUGH_WITH_AN_AND:
                few.append(f"fewer than {ENOUGH_WITH_AN_AND} circuits with an AND were evaluated")
        if self.total([CHECK_FILE]) >= ENOUGH_FILES:
            few += self.seldom(ENOUGH, FILE_CALLS)
            few += self.files.seldom(ENOUGH)
        return few
