#!/usr/bin/env python3
"""Makes the circuit files of this folder, beside each the text that the printer has to print, and the names and a drawing of the
allowance rule's wires.

    python3 examples/make.py           writes them
    python3 examples/make.py --check   fails where a file is another than the one it would write, and where the allowance rule misjudges a claim
    python3 examples/make.py --limits FOLDER   writes files at the limits and their texts, which are too large to be kept

The texts are the independent program's (oracle/).
"""
import pathlib
import random
import struct
import sys

HERE = pathlib.Path(__file__).resolve().parent
sys.path.insert(0, str(HERE.parent / "oracle"))

from draw import drawing  # noqa: E402
from gatfile import printed  # noqa: E402  (the independent program stands in another folder)

XOR, AND, NOT = 0, 1, 2
SHEET_1 = (4, 65536, 4, 2, 1)
# Room for five ANDs one after the other.
DEEP = (4, 1048576, 4, 2, 1)


class Circuit:
    """Inputs and gates, each with the name of its wire."""

    def __init__(self, params):
        self.params = params
        self.names = []
        self.gates = []

    def number(self, name, bits):
        """An input of so many bits, the lowest first."""
        assert not self.gates
        first = len(self.names)
        self.names += [f"{name}, bit {k}" if bits > 1 else name for k in range(bits)]
        self.inputs = len(self.names)
        return list(range(first, self.inputs))

    def gate(self, kind, left, right, name):
        self.gates.append((kind, left, right))
        self.names.append(name)
        return len(self.names) - 1

    def both(self, a, b, name):
        return self.gate(AND, a, b, name)

    def differ(self, a, b, name):
        return self.gate(XOR, a, b, name)

    def opposite(self, a, name):
        return self.gate(NOT, a, 0, name)

    def below(self, xs, ys, name):
        """Whether xs is below ys, both as numbers, the lowest bit first. Halves are compared by themselves and joined, so that few ANDs follow on each
        other: xs is below ys where its upper half is, or where the upper halves are equal and the lower one is."""
        return self.compared(xs, ys, name)[0]

    def compared(self, xs, ys, name):
        if len(xs) == 1:
            less = self.both(self.opposite(xs[0], f"{name}: not the first"), ys[0], f"{name}: below")
            return less, self.opposite(self.differ(xs[0], ys[0], f"{name}: differ"), f"{name}: equal")
        half = len(xs) // 2
        low_less, low_same = self.compared(xs[:half], ys[:half], f"{name}, low {half}")
        high_less, high_same = self.compared(xs[half:], ys[half:], f"{name}, high {len(xs) - half}")
        tail = self.both(high_same, low_less, f"{name}: equal above and below in the rest")
        less = self.differ(high_less, tail, f"{name}: below")
        return less, self.both(high_same, low_same, f"{name}: equal")

    def file(self):
        return file_of(self.params, self.inputs, self.gates)


def file_of(params, inputs, gates, mark=b"GAT", version=1, count=None):
    n, q, bound, error, switching = params
    head = struct.pack(">3sHHIHIHHH", mark, version, n, q, bound, error, switching, inputs, len(gates) if count is None else count)
    return head + b"".join(struct.pack(">BHH", *gate) for gate in gates)


def allowance():
    """A small allowance rule: paid where the income is under the limit for the household, at least two live there, and the claimant is resident."""
    c = Circuit(DEEP)
    income = c.number("income, in hundreds", 8)
    limit = c.number("limit, in hundreds", 8)
    household = c.number("household", 4)
    least = c.number("least household", 4)
    resident = c.number("resident", 1)[0]
    poor = c.below(income, limit, "income under limit")
    small = c.below(household, least, "household under least")
    enough = c.opposite(small, "household large enough")
    there = c.both(enough, resident, "resident household")
    c.both(poor, there, "allowance")
    return c


def too_deep():
    """A rule that is refused deep inside: a check sum of forty bits, and then their conjunction, one after the other."""
    c = Circuit(DEEP)
    bits = c.number("answer", 40)
    total = bits[0]
    for bit in bits[1:]:
        total = c.differ(total, bit, "check sum")
    every = bits[0]
    for bit in bits[1:]:
        every = c.both(every, bit, "all so far")
    c.both(every, total, "rule")
    return c


def paper():
    return file_of(SHEET_1, 2, [(AND, 0, 1), (NOT, 2, 0), (XOR, 3, 0)])


def files():
    """Every file by its name."""
    good = [(AND, 0, 1)]
    return {
        "paper": paper(),
        "allowance": allowance().file(),
        "too-deep": too_deep().file(),
        "refused-1-odd-modulus": file_of((4, 65535, 4, 2, 1), 2, good),
        "refused-2-no-inputs": file_of(SHEET_1, 0, good),
        "refused-9-not-with-a-right": file_of(SHEET_1, 2, [(AND, 0, 1), (NOT, 2, 1)]),
        "refused-9-operand-ahead": file_of(SHEET_1, 2, [(XOR, 0, 2)]),
        "refused-10-sheet-0": file_of((2, 16, 2, 1, 1), 2, good),
        "refused-11-version-2": file_of(SHEET_1, 2, good, version=2),
        "refused-12-one-gate-missing": file_of(SHEET_1, 2, good, count=2),
        "refused-12-short": paper()[:22],
    }


def limits():
    """Files at the limits, by name, too large to be kept: the one with the longest text, and files longer than any valid one."""
    longest = file_of((2, 1048576, 1, 262143, 0), 1024, [(NOT, 0, 0)] * 4096)
    return {"longest": longest, "one-byte-more": longest + b"\0", "ten-thousand-more": longest + bytes(10000), "many-bytes": bytes(70000)}


def names():
    """The wires of the allowance rule, one line each."""
    c = allowance()
    lines = ["# The wires of allowance.gat: its inputs, then its gates, each with what it says. The last is the rule's answer."]
    lines += [f"{wire} {name}" for wire, name in enumerate(c.names)]
    return "\n".join(lines) + "\n"


def bits_of(gates, inputs):
    """The plaintext bit of every wire."""
    bits = list(inputs)
    for kind, left, right in gates:
        bits.append((bits[left] ^ bits[right], bits[left] & bits[right], 1 - bits[left])[kind])
    return bits


def misjudged(tries=2000):
    """How many of so many claims the allowance rule judges otherwise than it says; a third of them at the edge of a comparison."""
    draw = random.Random(1)
    c = allowance()
    wrong = 0
    for k in range(tries):
        income, limit = draw.randrange(256), draw.randrange(256)
        household, least = draw.randrange(16), draw.randrange(16)
        if k % 3 == 0:
            limit, least = min(255, income + k % 2), household
        resident = draw.randrange(2)
        inputs = [x >> i & 1 for x, width in ((income, 8), (limit, 8), (household, 4), (least, 4), (resident, 1)) for i in range(width)]
        wrong += bits_of(c.gates, inputs)[-1] != int(income < limit and household >= least and resident)
    return wrong


def contents():
    """Every file of this folder that is made, by its name."""
    rule = printed(allowance().file())
    made = {"allowance.names": names().encode(), "allowance.svg": drawing(rule, "The allowance rule: the bound on each wire's noise").encode()}
    for name, data in files().items():
        made[name + ".gat"] = data
        made[name + ".txt"] = printed(data).encode()
    return made


def write_limits(folder):
    for name, data in limits().items():
        (folder / (name + ".gat")).write_bytes(data)
        (folder / (name + ".txt")).write_bytes(printed(data).encode())
    assert len(printed(limits()["longest"])) == 79803


def main():
    if sys.argv[1:2] == ["--limits"]:
        write_limits(pathlib.Path(sys.argv[2]))
        return 0
    made = contents()
    if sys.argv[1:] == ["--check"]:
        others = {path.name for path in HERE.iterdir() if path.suffix in (".gat", ".txt", ".names", ".svg")} ^ set(made)
        wrong = sorted(others | {name for name in made if name not in others and (HERE / name).read_bytes() != made[name]})
        for name in wrong:
            print(f"examples: {name} is not what make.py writes")
        claims = misjudged()
        print(f"examples: {len(made)} files, {len(wrong)} faults; {claims} claims misjudged")
        return 1 if wrong or claims else 0
    for name, data in made.items():
        (HERE / name).write_bytes(data)
    print(f"examples: {len(made)} files written")
    return 0


if __name__ == "__main__":
    sys.exit(main())
