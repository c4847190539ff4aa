#!/usr/bin/env python3
"""Reads the hot loops out of object code, on any machine: nothing is run.

object.py count ARCHIVE [--markdown]            the instructions of the row loop and of the range check, and the divisions of the tensor's loop;
                                                exit status 1 where they miss their target
object.py cycles ARCHIVE OBJECT [--markdown]    what llvm-mca says of the row loop, of the range check and of the __int128 loop in OBJECT, in
                                                cycles an entry

A hot loop is one block of code: a jump back, with no other jump and no jump's target on the way.
"""
import re
import subprocess
import sys

from table import show, verdict

# for each processor, the names to ask llvm-mca for and how that processor's own model names its parts: the first that it has a model of
PROCESSORS = {
    "skylake": [("skylake", "SKL")],
    "sapphirerapids": [("sapphirerapids", "SPR"), ("alderlake", "ADLP"), ("icelake-server", "ICX")],
    "znver2": [("znver2", "Zn2")],
}
TURNS = 1000


class Instruction:
    """One line of a disassembly: address, name, operands, and where a jump goes."""

    def __init__(self, address, name, operands):
        self.address = int(address, 16)
        self.name = name
        self.operands = operands.split("#")[0].strip()
        jump = re.match(r"0x([0-9a-f]+) <", self.operands) if name.startswith("j") else None
        self.target = int(jump.group(1), 16) if jump else None


class Loop:
    """The instructions of one turn."""

    def __init__(self, instructions):
        self.instructions = instructions

    def count(self, *names):
        """How many instructions have a name that begins so."""
        return sum(i.name.startswith(names) for i in self.instructions)

    def packed_loads(self):
        """Loads of two entries each."""
        return sum(i.name in ("movdqu", "movdqa", "movups", "movaps") and re.search(r"\).*%xmm", i.operands) is not None for i in self.instructions)

    def text(self):
        """Assembly for llvm-mca."""
        lines = [f"{i.name} {'.Lturn' if i.target is not None else i.operands}" for i in self.instructions]
        return "\n".join([".Lturn:"] + lines) + "\n"


def fail(text):
    print(text, file=sys.stderr)
    sys.exit(1)


def functions(path):
    """The instructions of each function of an object file or archive."""
    run = subprocess.run(["llvm-objdump", "-d", "--no-show-raw-insn", path], capture_output=True, text=True)
    if run.returncode:
        fail(run.stderr.strip())
    found = []
    for line in run.stdout.split("\n"):
        body = re.match(r"\s*([0-9a-f]+):\s+(\S+)\s*(.*)", line)
        if re.match(r"[0-9a-f]+ <.+>:", line):
            found.append([])
        elif body and found:
            found[-1].append(Instruction(*body.groups()))
    return found


def loops(path):
    """Every loop of one block."""
    for code in functions(path):
        targets = {i.target for i in code if i.target is not None}
        at = {i.address: k for k, i in enumerate(code)}
        for end, jump in enumerate(code):
            start = at.get(jump.target)
            if start is None or start > end:
                continue
            whole = all(i.target is None and not i.name.startswith("call") for i in code[start:end])
            if whole and not any(i.address in targets for i in code[start + 1 : end + 1]):
                yield Loop(code[start : end + 1])


def longest(path, what, is_it):
    """Of the loops that are what is sought, the longest."""
    found = [loop for loop in loops(path) if is_it(loop)]
    if not found:
        fail(f"{path}: there is no {what}")
    return max(found, key=lambda loop: len(loop.instructions))


def row_loop(archive):
    """16 entries a turn."""
    return longest(archive, "row loop: no loop of one block has 16 imul", lambda l: l.count("imul") == 16)


def is_range_check(loop):
    """Whether all its work is packed: entries loaded, sums and differences, an `or` and an `and` of them; nothing stored, no entry read otherwise."""
    packed = [i for i in loop.instructions if "%xmm" in i.operands]
    rest = [i for i in loop.instructions if "%xmm" not in i.operands]
    loads = loop.packed_loads()
    work = [i for i in packed if i.name in ("paddq", "psubq", "por", "pand") and "(" not in i.operands]
    whole = len(packed) == loads + len(work) and not any("(" in i.operands for i in rest)
    return whole and loads > 0 and all(loop.count(name) >= loads for name in ("paddq", "psubq", "por", "pand"))


def range_loop(archive):
    """As many entries a turn as its loads take."""
    return longest(archive, "vectorised range check: no loop of one block keeps the or and the and of packed entries and no more", is_range_check)


def wide_loop(path):
    """The loop of C's __int128: a product of one operand for each entry, and a carry."""
    return longest(path, "__int128 loop", lambda l: l.count("imul") > 0 and l.count("adc") > 0)


def tensor_loops(archive):
    """Those of the tensor: for each entry a product and a shift by its 42 binary places. They stand in the code as often as they were inlined."""

    def is_one(loop):
        shifts = [i for i in loop.instructions if i.name.startswith("sar") and re.match(r"\$(42|0x2a),", i.operands)]
        return 0 < len(shifts) == loop.count("imul")

    found = [loop for loop in loops(archive) if is_one(loop)]
    if not found:
        fail(f"{archive}: there is no tensor's loop: no loop of one block has as many imul as shifts by 42")
    return found


def most_an_entry(found, count):
    """Of the tensor's loops, the most of what is counted for one entry."""
    return max(count(loop) / loop.count("imul") for loop in found)


def count(archive, as_markdown):
    """Prints what the loops are made of, and says whether that is the target."""
    row, check = row_loop(archive), range_loop(archive)
    entries = 2 * check.packed_loads()
    size, products, packed = len(row.instructions), row.count("imul"), row.count("pmuludq")
    row_met = size <= 64 and products == 16 and packed == 0
    check_met = entries >= 4
    row_told = f"{size} instructions, {products} `imul`, {packed} `pmuludq` for 16 entries"
    check_told = f"{4 * len(check.instructions) / max(entries, 1):g} instructions for 4 entries, {entries} entries a turn"
    tensor = tensor_loops(archive)
    divided = most_an_entry(tensor, lambda loop: loop.count("div", "idiv"))
    tensor_told = f"{divided:g} divisions and {most_an_entry(tensor, lambda loop: len(loop.instructions)):g} instructions an entry, in {len(tensor)} places"
    told = [
        ["row loop", row_told, "at most 64, 16, 0", verdict(row_met)],
        ["range check", check_told, "vectorised", verdict(check_met)],
        ["tensor", tensor_told, "at most 1 division", verdict(divided <= 1)],
    ]
    show("Object code", ["", "found", "target", ""], told, as_markdown)
    return row_met and check_met and divided <= 1


def mca(processor, text):
    """llvm-mca's report."""
    words = ["llvm-mca", "-mtriple=x86_64-linux-gnu", f"-mcpu={processor}", f"-iterations={TURNS}"]
    run = subprocess.run(words, input=text, capture_output=True, text=True)
    if run.returncode:
        fail(run.stderr.strip())
    return run.stdout


def nearest(names):
    """The first name that this llvm-mca has a model of, and not that of another processor."""
    for name, part in names:
        if re.search(rf"^\[\d+(\.\d+)?\]\s+- {part}", mca(name, "nop\n"), re.M):
            return name
    fail(f"this llvm-mca has no model of {names[0][0]}, nor one that is near")


def cycles(processor, loop, entries):
    """Cycles an entry."""
    return int(re.search(r"Total Cycles:\s+(\d+)", mca(processor, loop.text())).group(1)) / (TURNS * entries)


def line(what, numbers, most=None):
    """One row of the table; where there is a most, with what is held against it."""
    held = ["", ""] if most is None else [f"at most {most:.1f}", verdict(all(x <= most for x in numbers))]
    return [what] + [f"{x:.2f}" for x in numbers] + held


def compare(archive, path, as_markdown):
    """Prints cycles an entry of the three loops, for each processor, and their ratios."""
    row, check, wide = row_loop(archive), range_loop(archive), wide_loop(path)
    models = {asked: nearest(names) for asked, names in PROCESSORS.items()}
    by_row = [cycles(m, row, 16) for m in models.values()]
    by_check = [cycles(m, check, 2 * check.packed_loads()) for m in models.values()]
    by_wide = [cycles(m, wide, wide.count("imul")) for m in models.values()]
    version = re.search(r"LLVM version (\S+)", subprocess.run(["llvm-mca", "--version"], capture_output=True, text=True).stdout).group(1)
    rows = [
        line("row loop", by_row),
        line("C with `__int128`", by_wide),
        line("row loop / `__int128`", [r / w for r, w in zip(by_row, by_wide)], 0.8),
        line("range check", by_check),
        line("range check / row loop", [c / r for c, r in zip(by_check, by_row)], 1.2),
    ]
    others = [f"{model} in place of {asked}, of which it has no model" for asked, model in models.items() if model != asked]
    title = f"Cycles an entry by llvm-mca {version}" + "".join(", " + other for other in others)
    show(title, ["", *models.values(), "target", ""], rows, as_markdown)


def main(words):
    as_markdown = words[-1:] == ["--markdown"]
    words = words[: len(words) - as_markdown]
    if len(words) == 2 and words[0] == "count":
        return 0 if count(words[1], as_markdown) else 1
    if len(words) == 3 and words[0] == "cycles":
        compare(words[1], words[2], as_markdown)
        return 0
    print(__doc__, file=sys.stderr)
    return 2


if __name__ == "__main__":
    sys.exit(main(sys.argv[1:]))
