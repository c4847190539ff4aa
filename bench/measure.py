"""The cost of a work of the program `works`: by the clock, or in the instructions that it executes under the emulator qemu-user."""
import os
import statistics
import subprocess
import sys
import tempfile


class Cost:
    """What runs of a work took, and beside each what its rest took, which goes before the work itself. All for the work done once."""

    def __init__(self, runs, rests):
        self.runs = runs
        self.rests = rests

    def __add__(self, other):
        return Cost(self.runs + other.runs, self.rests + other.rests)

    def least(self):
        return min(self.runs) - min(self.rests)

    def over(self, other):
        """The ratio to another cost: the median of the ratios of neighbouring runs."""
        pairs = zip(self.runs, self.rests, other.runs, other.rests)
        return statistics.median((run - rest) / (other_run - other_rest) for run, rest, other_run, other_rest in pairs)


def done(words, **more):
    """Runs a program to its end, which must be a good one."""
    run = subprocess.run(words, **more)
    if run.returncode:
        print(f"{' '.join(words)} failed", file=sys.stderr)
        sys.exit(1)
    return run


class Clock:
    """Nanoseconds of processor time. All works that are asked for at one size run in turn in one process, several times. All sizes are gone through in
    several rounds, since each process lays its memory elsewhere and the machine has better and worse moments."""

    unit = "ns"
    words = "nanoseconds on x86-64,"
    rounds = 6

    def __init__(self, program):
        self.program = program

    def check(self, size, work):
        """Ends with status 1 where Rattle and C differ."""
        done([self.program, "agree", str(size), work])

    def costs(self, size, works, turns):
        """The cost of each work, from so many turns."""
        columns = list(zip(*self.lines([self.program, "clock", str(size), str(turns), *works])))
        return {work: Cost(columns[2 * k], columns[2 * k + 1]) for k, work in enumerate(works)}

    @staticmethod
    def lines(words):
        return [[float(x) for x in line.split()] for line in done(words, capture_output=True, text=True).stdout.splitlines()]


class Counter:
    """Instructions executed: the same in every run, so that one is enough. The processor is a plain one, with which C's library sets and copies
    memory by loops: of an instruction that repeats itself the emulator counts every turn."""

    unit = "instructions"
    words = "instructions of x86-64,"
    rounds = 1

    def __init__(self, program, plugin):
        self.program = program
        self.plugin = os.path.realpath(plugin)

    def emulated(self, *words):
        with tempfile.TemporaryDirectory() as folder:
            told = os.path.join(folder, "told")
            done(["qemu-x86_64", "-cpu", "qemu64", "-plugin", self.plugin, "-d", "plugin", "-D", told, self.program, *words])
            with open(told) as lines:
                return int(lines.read())

    def check(self, size, work):
        self.emulated("agree", str(size), work)

    def costs(self, size, works, turns):
        return {work: Cost((self.emulated("run", str(size), work),), (self.emulated("rest", str(size), work),)) for work in works}
