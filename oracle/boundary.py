"""Holds the file check and planning, called across the C boundary, against this program.

    python3 oracle/boundary.py PROGRAM [--seed N] [--count N]

PROGRAM is the built boundary/caller.c; further words before the options are run in front of it, as an emulator. Each file goes through both calls in
one process, with a buffer of bounds that is mostly of the right length. Fails at the first file whose answers or bounds differ, and where a number
that a call can give was seen too seldom for the count.
"""

import argparse
import collections
import random
import subprocess
import sys

from files import buffer_length, random_file
from gatfile import check_file, plan_file

FOUND_BYTE = 0xA5
PART = 5000  # files that one run of the program is given
CHECKED = (0, 1, 2, 9, 10, 11, 12)
PLANNED = (0, 1, 2, 3, 9, 10, 11, 12)


def expected(data, length):
    """The line of a case."""
    bounds = bytearray([FOUND_BYTE]) * length
    answers = check_file(data), plan_file(data, bounds)
    return f"{answers[0]} {answers[1]} {bounds.hex()}"


def told(words, cases):
    """The lines that the program answers."""
    text = b"".join(len(data).to_bytes(4, "big") + length.to_bytes(4, "big") + data for data, length in cases)
    run = subprocess.run(words, input=text, stdout=subprocess.PIPE, check=False)
    if run.returncode:
        sys.exit(f"boundary: the program ended with {run.returncode}: a guard byte or a byte of the file has changed, or it broke off")
    return run.stdout.decode().splitlines()


def show(data, length, wanted, found):
    print(f"boundary: differs for a buffer of {length} bytes and the file\n{data[:200].hex()}{'..' if len(data) > 200 else ''}")
    print(f"expected: {wanted[:400]}\nprogram:  {found[:400]}")


def compare(words, seed, count):
    rng = random.Random(seed)
    seen = collections.Counter()
    done = 0
    while done < count:
        files = [random_file(rng) for _ in range(min(PART, count - done))]
        cases = [(data, buffer_length(rng, data)) for data in files]
        lines = told(words, cases)
        for (data, length), found in zip(cases, lines + [""] * len(cases)):
            wanted = expected(data, length)
            if found != wanted:
                show(data, length, wanted, found)
                return 1
            answers = wanted.split()
            seen["check", int(answers[0]) >> 16] += 1
            seen["plan", int(answers[1]) >> 16] += 1
        done += len(cases)
        if count > 2 * PART:
            print(f"boundary: {done} of {count} files", file=sys.stderr, flush=True)
    return tell(seen, seed, count)


def tell(seen, seed, count):
    """Prints how often each number was seen. 1 where one was seen too seldom."""
    least = min(50, count // 100)
    for call, numbers in (("check", CHECKED), ("plan", PLANNED)):
        print(f"boundary: {call:5} " + "  ".join(f"{number}: {seen[call, number]}" for number in numbers))
    short = [key for key, numbers in (("check", CHECKED), ("plan", PLANNED)) for number in numbers if seen[key, number] < least]
    print(f"boundary: seed {seed}, {count} files through both calls, no difference; every number seen at least {least} times: {'no' if short else 'yes'}")
    return 1 if short else 0


def main():
    parser = argparse.ArgumentParser(description="The C boundary against the independent program.")
    parser.add_argument("program", nargs="+")
    parser.add_argument("--seed", type=int, default=1)
    parser.add_argument("--count", type=int, default=4000)
    given = parser.parse_args()
    return compare(given.program, given.seed, given.count)


if __name__ == "__main__":
    sys.exit(main())
