#!/usr/bin/env python3
"""What refused each must-fail edit, from what `rt ci` or `rt must-fail` said of it: the first error.

    python3 tools/first_errors.py LOG [CRATE...]
    rt must-fail CRATE | python3 tools/first_errors.py - CRATE

An edit is to be refused for a fact: what a function answers, a loop's invariant, a figure, a law. `rt` counts as refused also an edit after which a proof file
names something that is not in scope, and one for which the prover met a limit of its own: these show nothing of what is promised. Nor does an edit of a
definition after which that definition has no type: its first error is in a line of the edit. In code that is a fact, since the compiler has passed the line.
Exit status 1 where the first error of an edit is of such a kind, or where an edit was not tried.
"""
import pathlib
import re
import sys

ROOT = pathlib.Path(__file__).resolve().parent.parent
SAID = re.compile(r"^rt: must-fail (\w+)/(\S+)\.edit: (.*)$", re.M)
# An error; or, of a function that has no proof file, what the prover's own search could not show.
FACT = re.compile(r"refused, as it must be: (?:note: )?(?:\./)?((?:specs|proofs|src)/\S+?:\d+):\d+: (?:error: )?(.*)")
NO_NAME = re.compile(r"not in scope|no module")


def edited_lines(edit):
    """The places, FILE:LINE, of definitions and laws that the edit changes."""
    file = ""
    for line in edit.read_text(encoding="utf-8").splitlines():
        name, _, text = line.partition(": ")
        if name == "file":
            file = text
        elif name == "old" and not file.startswith("src/"):
            before = (edit.parent.parent / file).read_text(encoding="utf-8").partition(text)[0]
            yield f"{file}:{before.count(chr(10)) + 1}"


def is_fact(edit, said):
    """Whether what was said of the edit tells a fact that no longer holds."""
    found = FACT.fullmatch(said)
    return bool(found) and not NO_NAME.search(found[2]) and found[1] not in edited_lines(edit)


def main():
    log, *wanted = sys.argv[1:]
    text = sys.stdin.read() if log == "-" else pathlib.Path(log).read_text(encoding="utf-8", errors="replace")
    said = {(crate, name): what for crate, name, what in SAID.findall(text)}
    edits = [edit for edit in sorted((ROOT / "crates").glob("*/must-fail/*.edit")) if not wanted or edit.parent.parent.name in wanted]
    faults = 0
    for edit in edits:
        crate = edit.parent.parent.name
        what = said.get((crate, edit.stem), "was not tried")
        if not is_fact(edit, what):
            faults += 1
            print(f"NO FACT  {crate}/{edit.stem}: {what}")
    print(f"first errors: {len(edits)} must-fail edits, {faults} of them refused for no fact")
    return 1 if faults else 0


if __name__ == "__main__":
    sys.exit(main())
