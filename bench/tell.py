#!/usr/bin/env python3
"""Measures all works of the program `works`, prints them as one table and draws how cost grows.

tell.py PROGRAM [--plugin PLUGIN] [--markdown] [--plot FILE]

By the clock, or with the plugin for the emulator qemu-user in instructions executed. The targets are of times, and held against those alone.
"""
import argparse
import sys

import growth
from measure import Clock, Counter
from table import show, verdict

WIDTHS = (16, 64, 128, 256)
MORE_WIDTHS = (8, 32)
GATES = (256, 512, 1024, 2048, 4096)
CIRCUIT_WIDTH, CIRCUIT_GATES = 64, 200
TURNS = {128: 3, 256: 4}

# each work, who does it beside Rattle, its name in the table and what its cost is told for
BY_N = {
    "row": (("int128", "shape", "read"), "row loop, a row in the cache", "entry of the key"),
    "switch": (("int128", "shape", "read"), "switch, the whole key", "entry of the key"),
    "tensor": (("int128", "shape"), "tensor", "entry of the tensor"),
    "and": (("int128", "shape", "read"), "whole AND", "entry of the key"),
    "range": (("int128", "shape", "read"), "range check of the key", "entry of the key"),
    "xor": (("int128", "shape"), "XOR, its checks with it", "gate"),
    "not": (("int128", "shape"), "NOT, its checks with it", "gate"),
}
CIRCUIT = (("int128", "shape", "read"), "circuit of 100 AND and 100 XOR", "gate")
BY_GATES = {
    "plan": (("int128",), "planning of 4,096 gates", "gate"),
    "check": (("int128",), "file check of 4,096 gates", "gate"),
}
COLUMNS = ("int128", "shape", "read")

# the most that a ratio may be: of a work to C, or of a work to another
TO_C = {("row", "int128"): 0.6, ("row", "shape"): 1.1, ("switch", "int128"): 0.6, ("switch", "shape"): 1.1}
TO_WORK = {"and": ("switch", "its switch", 1.15), "range": ("and", "one AND", 0.9)}


def asked(works):
    """The works with everyone who does them."""
    return [f"{name}:{who}" for name, row in works.items() for who in ("rattle", *row[0])]


def sizes():
    """Each size, the works to measure there, and how many turns a round takes."""
    for n in WIDTHS:
        more = asked({"circuit": CIRCUIT}) if n == CIRCUIT_WIDTH else []
        yield n, asked(BY_N) + more, TURNS.get(n, 10)
    for n in MORE_WIDTHS:
        yield n, ["and:rattle", "xor:rattle", "not:rattle"], 10
    for gates in GATES:
        yield gates, asked(BY_GATES), 10


def measured(how):
    """All costs, by the work and its size."""
    for size, works, _ in sizes():
        how.check(size, works[0])
    costs = {}
    for _ in range(how.rounds):
        for size, works, turns in sizes():
            for work, cost in how.costs(size, works, turns).items():
                costs[work, size] = costs[work, size] + cost if (work, size) in costs else cost
    return costs


def parts(name, size):
    """How many of what its cost is told for a work has."""
    if name in ("plan", "check"):
        return size
    return {"tensor": size**2, "xor": 1, "not": 1, "circuit": CIRCUIT_GATES}.get(name, size**3)


def held(name, size, costs):
    """The targets of a work, and whether all are met."""
    ours = costs[f"{name}:rattle", size]
    ratios = [("", ours.over(costs[f"{name}:{who}", size]), most) for (work, who), most in TO_C.items() if work == name]
    if name in TO_WORK:
        other, words, most = TO_WORK[name]
        ratio = ours.over(costs[f"{other}:rattle", size])
        ratios.append((f"{ratio:.2f} of {words}, ", ratio, most))
    if not ratios:
        return ["", ""]
    told = "".join(words for words, _, _ in ratios) + "at most " + " and ".join(f"{most:g}" for _, _, most in ratios)
    over = [f"{most:g}" for _, ratio, most in ratios if ratio > most]
    return [told, verdict(not over) + (" " + " and ".join(over) if over and len(ratios) > 1 else "")]


def row(name, words, size, costs, with_targets):
    """One row of the table."""
    doers, what, unit = words
    ours = costs[f"{name}:rattle", size]
    each = ours.least() / parts(name, size)
    ratios = [f"{ours.over(costs[f'{name}:{who}', size]):.2f}" if who in doers else "-" for who in COLUMNS]
    figure = f"{each:.2f}" if each < 100 else f"{each:,.0f}"
    return [what, "-" if name in BY_GATES else str(size), figure, unit] + ratios + (held(name, size, costs) if with_targets else [])


def tell(how, costs, as_markdown):
    targets = isinstance(how, Clock)
    rows = [row(name, words, n, costs, targets) for name, words in BY_N.items() for n in WIDTHS]
    rows.append(row("circuit", CIRCUIT, CIRCUIT_WIDTH, costs, targets))
    rows += [row(name, words, GATES[-1], costs, targets) for name, words in BY_GATES.items()]
    head = ["work", "n", how.unit, "for each", "/ C, `__int128`", "/ same shape in C", "/ plain read"] + ["target", ""] * targets
    title = "Times: the least, and ratios of times" if targets else "Instructions executed, and their ratios"
    show(title, head, rows, as_markdown)


def grown(costs):
    """What a gate of each kind costs by n, and what planning and the file check cost by the gates."""
    widths = sorted(WIDTHS + MORE_WIDTHS)
    by_n = {name: {n: costs[f"{name}:rattle", n].least() for n in widths} for name in ("and", "xor", "not")}
    by_gates = {name: {g: costs[f"{name}:rattle", g].least() for g in GATES} for name in BY_GATES}
    return by_n, by_gates


def tell_growth(how, by_n, by_gates, as_markdown):
    """The figures of the plot: for a gate, and so that what does not grow with the gates shows."""
    head = ["n"] + [str(n) for n in by_n["and"]]
    show(f"A gate by n: {how.unit}", head, [[name.upper()] + [f"{x:,.0f}" for x in points.values()] for name, points in by_n.items()], as_markdown)
    words = {"plan": "planning", "check": "file check"}
    rows = [[words[name]] + [f"{x / gates:.1f}" for gates, x in points.items()] for name, points in by_gates.items()]
    show(f"A circuit by its gates: {how.unit} a gate", ["gates"] + [f"{g:,}" for g in GATES], rows, as_markdown)


def main():
    words = argparse.ArgumentParser()
    words.add_argument("program")
    words.add_argument("--plugin")
    words.add_argument("--markdown", action="store_true")
    words.add_argument("--plot")
    given = words.parse_args()
    how = Counter(given.program, given.plugin) if given.plugin else Clock(given.program)
    costs = measured(how)
    tell(how, costs, given.markdown)
    by_n, by_gates = grown(costs)
    tell_growth(how, by_n, by_gates, given.markdown)
    if given.plot:
        with open(given.plot, "w", encoding="utf-8") as file:
            file.write(growth.drawing(by_n, by_gates, how.words))


if __name__ == "__main__":
    sys.exit(main())
