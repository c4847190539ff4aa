"""Holds the program `replay` against this one, call by call. docs/REPLAY.md has the format.

    python3 oracle/replay.py --speak < calls > answers
    python3 oracle/replay.py --make --seed N --count N --circuits N --files N > calls
    python3 oracle/replay.py --compare --seed N --count N --circuits N --files N [--program FILE]
    python3 oracle/replay.py --write
    python3 oracle/replay.py --check

--speak answers calls, --make writes a random batch, --compare makes a batch and has
both programs answer it. A batch has --count calls on sets, keys and ciphertexts, then
--circuits circuits, planning and evaluation of each over three lists and over gate records, and then
--files circuit files, check, planning and printing of each; --compare adds the largest circuit and the
largest file. --write writes the batch of the gate, with this program's answers, beside the source of
`replay`, and --check fails where the stored ones are others.
The exit status is 1 on a difference, and where a batch shows too little.
"""

import argparse
import itertools
import random
import subprocess
import sys
import time
from pathlib import Path

import replay_circuits
import replay_files
import replay_gate
from replay_batch import FULL, make_batch, unreadable_texts
from replay_format import END, answered, line_of, spoken, written
from replay_tally import Tally

ROOT = Path(__file__).resolve().parent.parent
PROGRAM = ROOT / "crates" / "replay" / "out" / "replay"
PART = 500        # calls that the program is given at a time
PROGRESS = 5000   # calls between two lines of progress


def command(program):
    """What starts a program, which is x86-64 code, on this machine."""
    return [ROOT / "tools" / "x86", program]


def answers_of(program, text):
    """The lines that the program answers to a text of calls."""
    run = subprocess.run(command(program), input=text.encode(), stdout=subprocess.PIPE, check=True)
    return run.stdout.decode().splitlines(keepends=True)


def misread(program):
    """The first text that ends with no call to which the program answers otherwise."""
    for text in unreadable_texts():
        if answers_of(program, text) != list(spoken(text)):
            return text
    return None


def batch(seed, count, circuits, files):
    """So many random calls on sets, keys and ciphertexts, then so many circuits, then so many files."""
    rng = random.Random(seed)
    return itertools.chain(make_batch(rng, count, FULL),
                           replay_circuits.make_circuits(rng, circuits, replay_circuits.FULL),
                           replay_files.make_files(rng, files))


def largest_calls(seed):
    """The calls on the largest circuit and on the largest file."""
    return itertools.chain(replay_circuits.largest_calls(random.Random(seed)),
                           replay_files.largest_calls(random.Random(seed)))


def differing(program, calls, answers):
    """The first call of these to which the program answers otherwise, with both answers."""
    said = answers_of(program, "".join(written(call) for call in calls))
    expected = [line_of(answer) for answer in answers] + [END]
    for i, line in enumerate(expected):
        other = said[i] if i < len(said) else ""
        if other != line:
            return i, line, other
    return None if len(said) == len(expected) else (len(calls), "", said[len(expected)])


def parts(calls, size):
    """Calls in parts of at most `size`."""
    part = []
    for call in calls:
        part.append(call)
        if len(part) == size:
            yield part
            part = []
    if part:
        yield part


def cut(line):
    """A line, short enough to be shown."""
    return line if len(line) <= 2000 else line[:2000] + f".. ({len(line)} bytes)\n"


def show_difference(before, part, found):
    """Prints the first call that differs, and both answers to it."""
    at, expected, other = found
    print(f"call {before + at} differs")
    if at < len(part):
        print("call:     " + cut(written(part[at])), end="")
    print("expected: " + cut(expected) + "program:  " + cut(other), end="")


def compare(seed, calls, program):
    """Has both programs answer a batch. 1 on a difference or where too little was seen."""
    started = time.time()
    text = misread(program)
    if text is not None:
        print("a text that ends with no call is answered otherwise: " + cut(text))
        return 1
    tally = Tally()
    for part in parts(itertools.chain(largest_calls(seed), calls), PART):
        answers = [answered(call) for call in part]
        found = differing(program, part, answers)
        if found:
            show_difference(tally.count, part, found)
            return 1
        for call, answer in zip(part, answers):
            tally.take(call, answer)
        if tally.count % PROGRESS == 0:
            print(f"{tally.count} calls, {time.time() - started:.0f} s", flush=True)
    print(f"seed {seed}: {tally.count} calls and {len(unreadable_texts())} texts that end with no "
          "call, every answer the same")
    tally.show()
    for line in tally.lacks():
        print(line)
    return 1 if tally.lacks() else 0


def arguments():
    """What was asked for on the command line."""
    parser = argparse.ArgumentParser(description="Calls for the program replay, and answers.")
    what = parser.add_mutually_exclusive_group(required=True)
    for name in ("speak", "make", "compare", "write", "check"):
        what.add_argument("--" + name, action="store_true")
    parser.add_argument("--seed", type=int, default=1)
    parser.add_argument("--count", type=int, default=1000)
    parser.add_argument("--circuits", type=int, default=200)
    parser.add_argument("--files", type=int, default=200)
    parser.add_argument("--program", default=str(PROGRAM))
    return parser.parse_args()


def main():
    """Does what was asked for."""
    asked = arguments()
    if asked.speak:
        sys.stdout.writelines(spoken(sys.stdin.read()))
        return 0
    calls = batch(asked.seed, asked.count, asked.circuits, asked.files)
    if asked.make:
        sys.stdout.writelines(written(call) for call in calls)
        return 0
    if asked.compare:
        return compare(asked.seed, calls, asked.program)
    return replay_gate.write() if asked.write else replay_gate.check()


if __name__ == "__main__":
    sys.exit(main())
