#!/usr/bin/env python3
"""Lines of code, of definitions and laws, and of proofs, crate by crate, as a table; with a log of the older kit's `rt ci` also how long each check took.

    python3 tools/sizes.py [LOG]

Today's `rt` tells no times. The older kit, rattle-kit-5, told them in lines 'rt: NAME proved (N s)'.
"""
import pathlib
import re
import sys

ROOT = pathlib.Path(__file__).resolve().parent.parent


def lines(crate, folder, suffix):
    """Lines that are neither empty nor a comment, nor what a crate's root says of its proofs."""
    total = 0
    for path in (ROOT / "crates" / crate / folder).rglob("*" + suffix):
        for line in path.read_text(encoding="utf-8").splitlines():
            bare = line.strip()
            total += bool(bare) and not bare.startswith(("//", "--", "#!"))
    return total


def times(log):
    return dict(re.findall(r"^rt: (\w+) proved \((\d+) s\)", pathlib.Path(log).read_text(encoding="utf-8"), re.M))


def told(name, row, seconds):
    """A row of the table."""
    code, laws, proofs, edits = row
    ratio = f"{proofs / code:.1f}" if code and proofs else ""
    return f"| {name} | {code:,} | {laws:,} | {proofs:,} | {ratio} | {edits} | {seconds} |"


def main():
    took = times(sys.argv[1]) if len(sys.argv) > 1 else {}
    crates = [line.split(":")[0].split()[0] for line in (ROOT / "crates.txt").read_text().splitlines() if ":" in line and not line.startswith("#")]
    print("| crate | code | definitions and laws | proofs | proofs for a line of code | must-fail edits | check, s |\n|---|---|---|---|---|---|---|")
    sums = [0, 0, 0, 0]
    for crate in crates:
        edits = len(list((ROOT / "crates" / crate).glob("must-fail/*.edit")))
        row = [lines(crate, "src", ".rt"), lines(crate, "specs", ".antt"), lines(crate, "proofs", ".antt"), edits]
        sums = [a + b for a, b in zip(sums, row)]
        print(told(f"`{crate}`", row, took.get(crate, "")))
    print(told("all", sums, ""))


if __name__ == "__main__":
    main()
