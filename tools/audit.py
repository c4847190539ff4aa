#!/usr/bin/env python3
"""A mutation audit: makes small wrong edits, one operand or operator at a time, has the prover try each, and lists those that it still accepts.

    python3 tools/audit.py --list [CRATE...]                       prints the edits, one line each
    python3 tools/audit.py --try FOLDER [--each N] [CRATE...]      tries them, or N of each function, in a copy of the repository at FOLDER, which it makes
                                                                   where there is none; what was tried there before is not tried again
    python3 tools/audit.py --page FOLDER...                        prints the tables of docs/AUDIT.md, from what was tried in those folders, and writes the
                                                                   listing, docs/audit_functions.tsv or docs/audit_definitions.tsv

With --definitions the edits are of the definitions that docs/DEFINITIONS.md names, of a record field by field, and else of every function of the engine's
crates.

An edit exchanges < and <=, + and -, == and !=, & and |, * and +, / and %, makes a number one more or one less, takes one of two like operands for the
other (left for right, c for d), or one of two like fields, exchanges two neighbours in a list of arguments, drops a `!`, writes another letter, or gives a
row of a refusal list the number of the row beside it. Comments, contracts and declarations are left alone. Each edit is tried by itself, over what is kept of the last check, so
that only what it touches is proved again. It is refused, or accepted, or does not compile and says nothing. One that is accepted is tried from nothing.

A wrong definition is tried on the crates of definitions and theorems alone, and without their functions, so that what refuses it is a figure, a law or a
theorem, and never the code, which would be as wrong.
"""
import argparse
import collections
import pathlib
import re
import shutil
import subprocess
import sys

import audit_edits

ROOT = pathlib.Path(__file__).resolve().parent.parent
ENGINE = ("refusal", "modular", "passes", "bound", "keys", "tensor", "switch", "checks", "switchingkey", "benchkey", "regev", "gates", "filehead", "planning", "working", "evaluation", "records", "gatfile", "text")
THEOREMS = ("whole", "refusal", "scheme", "noise", "circuit", "vouched", "circuitfile")
RESULTS = "audit.tsv"
REFUSED, ACCEPTED, BAD = "refused", "accepted", "does not compile"
SHOWN_FIRST = (("Figures", "Ties", "Refusals", "Slips", "Example", "Witnesses", "Witness"), ("Wording", "Unique", "Foremost", "Order", "Exact", "Held", "Lettered"))

Tried = collections.namedtuple("Tried", "crate file line name old new verdict by")


# ---- trying

def said(folder, *words):
    """Whether a command of `rt` has proved all that it was given, and what it printed."""
    run = subprocess.run(["rt", *words], cwd=folder, stdout=subprocess.PIPE, stderr=subprocess.STDOUT, text=True, check=False)
    return run.returncode == 0, run.stdout


def is_refused(output):
    """Whether the last crate that was checked was read and not proved, be it for a limit of the prover."""
    return "logic=not-proved" in [line.split(" ")[0] for line in output.splitlines() if line.startswith("logic=")][-1:] or "antt ran out of" in output


class Code:
    """Edits of functions, each tried on its own crate."""

    crates = ENGINE

    @staticmethod
    def copied(folder):
        shutil.copytree(ROOT, folder, ignore=shutil.ignore_patterns(".git", "must-fail", "out", "target"))

    @staticmethod
    def edits(folder, crate):
        return audit_edits.of_code(folder, crate)

    @staticmethod
    def is_ready(folder, crate):
        """Whether the crate as it stands is proved, and kept for the edits."""
        return said(folder / "crates" / crate, "check")[0]

    @staticmethod
    def verdict(folder, edit):
        """The prover's verdict, and the first function that it could not prove."""
        place = folder / "crates" / edit.crate
        proved, output = said(place, "check")
        if proved:
            proved, output = said(place, "verdict")
        if proved:
            return ACCEPTED, ""
        unproved = re.search(r"^fn (\S+): (?:not proved|no proof)(?!: it calls)", output, re.M)
        return (REFUSED, unproved[1] if unproved else "") if is_refused(output) else (BAD, "")


class Definitions:
    """Edits of definitions, each tried on the crates of definitions and theorems, without any function."""

    crates = THEOREMS

    @staticmethod
    def copied(folder):
        """A copy of those crates."""
        for crate in THEOREMS:
            shutil.copytree(ROOT / "crates" / crate, folder / "crates" / crate, ignore=shutil.ignore_patterns("must-fail", "out"))
        for path in folder.glob("crates/*/src/*.rt"):
            path.write_text(audit_edits.without_functions(path.read_text(encoding="utf-8")), encoding="utf-8")
        for path in folder.glob("crates/*/proofs/*"):
            if path.is_dir():
                shutil.rmtree(path)
        shutil.copytree(ROOT / "docs", folder / "docs")
        shutil.copytree(ROOT / "tools", folder / "tools")
        leans = dict(line.split(":") for line in (ROOT / "crates.txt").read_text().splitlines() if ":" in line and line[0] != "#")
        lines = [f"{crate}: " + " ".join(d for d in leans[crate].split() if d in THEOREMS) for crate in THEOREMS]
        (folder / "crates.txt").write_text("\n".join(lines) + "\n")
        for path in folder.glob("crates/*/specs/*.antt"):
            path.write_text(audit_edits.with_partners(path.read_text(encoding="utf-8")), encoding="utf-8")

    @staticmethod
    def edits(folder, crate):
        return audit_edits.of_definitions(folder, crate)

    @staticmethod
    def is_ready(folder, crate):
        """Whether all crates as they stand are proved."""
        return said(folder, "all", "check")[0]

    @staticmethod
    def verdict(folder, edit):
        """The verdict, and every declaration that no longer holds in the first crates in which one does not, but for those that depend on such a one."""
        proved, output = said(folder, "all", "check")
        if proved:
            return ACCEPTED, ""
        found = [(crate, *fault) for crate, part in parts(output) for fault in re.findall(r"^\./(?:specs|proofs)/(\S+)\.antt:\d+:\d+: error: `([^`]+)`", part, re.M)]
        broken = dict.fromkeys(f"{crate}/{file}: {name}" for crate, file, name in found)
        if not broken or f"{edit.crate}/{edit.file[:-5]}: {edit.name}" in broken:
            return BAD, ""
        return REFUSED, "; ".join(broken)


def parts(output):
    """What was said of each crate."""
    heads = re.split(r"^== (\w+)$", output, flags=re.M)
    return zip(heads[1::2], heads[2::2])


def tried(kind, folder, edit):
    """The verdict on one edit. The text is as it was afterwards."""
    path = folder / "crates" / edit.crate / edit.folder / edit.file
    before = path.read_text(encoding="utf-8")
    lines = before.split("\n")
    lines[edit.line] = lines[edit.line].replace(edit.old, edit.new)
    path.write_text("\n".join(lines), encoding="utf-8")
    verdict = kind.verdict(folder, edit)
    path.write_text(before, encoding="utf-8")
    return Tried(edit.crate, edit.file, str(edit.line), edit.name, edit.old, edit.new, *verdict)


def spread(edits, each):
    """Of the edits of each function or definition so many, spread over its text; all where each is 0."""
    for of in grouped(edits, lambda e: (e.file, e.name)).values():
        yield from (of[k * len(of) // each] for k in range(each)) if 0 < each < len(of) else of


def try_all(kind, folder, crates, each):
    """Tries the edits that were not tried before, and keeps the results in the folder."""
    if not folder.exists():
        kind.copied(folder)
    path = folder / RESULTS
    path.touch()
    known = {t[:6] for t in results(folder)}
    for crate in crates:
        if not kind.is_ready(folder, crate):
            sys.exit(f"audit: {crate} is not proved before any edit")
        for edit in spread(list(kind.edits(folder, crate)), each):
            if (edit.crate, edit.file, str(edit.line), edit.name, edit.old, edit.new) not in known:
                done = tried(kind, folder, edit)
                with path.open("a", encoding="utf-8") as file:
                    file.write("\t".join(done) + "\n")
                print(f"{done.verdict}: {told(done)}  {done.by}", flush=True)


# ---- telling

def results(folder):
    return [Tried(*line.split("\t")) for line in (folder / RESULTS).read_text(encoding="utf-8").splitlines()]


def told(edit):
    return f"{edit.crate}/{edit.file}:{int(edit.line) + 1} {edit.name}: {edit.old}  ->  {edit.new}"


def counts(rows):
    by = collections.Counter(t.verdict for t in rows)
    return [len(rows), by[REFUSED], by[BAD], by[ACCEPTED]]


def grouped(rows, key):
    groups = collections.defaultdict(list)
    for row in rows:
        groups[key(row)].append(row)
    return groups


def table(rows):
    """The counts, crate by crate."""
    print("| crate | audited | edits | refused | do not compile | accepted |\n|---|---|---|---|---|---|")
    for crate, of in [*grouped(rows, lambda t: f"`{t.crate}`").items(), ("all", rows)]:
        print(f"| {crate} | {len({(t.crate, t.file, t.name) for t in of})} | " + " | ".join(f"{n:,}" for n in counts(of)) + " |")


def write_functions(rows):
    """Every edit of a function, with its verdict."""
    write("audit_functions.tsv", ("crate", "file", "function", "verdict", "old", "new"), ((t.crate, t.file, t.name, t.verdict, t.old, t.new) for t in rows))


def write(file, head, rows):
    """A listing of docs/, a line for each row."""
    (ROOT / "docs" / file).write_text("".join("\t".join(row) + "\n" for row in (head, *rows)), encoding="utf-8")


def weight(broken):
    """Figures come first, then sentences and theorems, then laws."""
    file = re.match(r"\w+/([\w/]+)", broken)[1]
    return next((k for k, files in enumerate(SHOWN_FIRST) if file in files), len(SHOWN_FIRST))


def write_definitions(rows):
    """What no longer holds, definition by definition, in how many of its edits: the figures first, at most four."""
    listing = []
    for (crate, file, name), of in grouped(rows, lambda t: (t.crate, t.file[:-5], t.name)).items():
        said = collections.Counter(b for t in of if t.verdict == REFUSED for b in t.by.split("; "))
        shown = sorted(said, key=lambda b: (weight(b), -said[b]))[:4]
        listing.append((crate, file, name, *map(str, counts(of)), "; ".join(f"{b.split('/', 1)[1]} ({said[b]})" for b in shown)))
    write("audit_definitions.tsv", ("crate", "file", "definition", "edits", "refused", "do not compile", "accepted", "what fails, in how many of them"), listing)


def main():
    parser = argparse.ArgumentParser(description="Small wrong edits, and what the prover says of each.")
    parser.add_argument("--list", action="store_true")
    parser.add_argument("--definitions", action="store_true")
    parser.add_argument("--try", dest="folder", type=pathlib.Path)
    parser.add_argument("--page", nargs="+", type=pathlib.Path)
    parser.add_argument("--each", type=int, default=0)
    parser.add_argument("crates", nargs="*")
    given = parser.parse_args()
    kind = Definitions if given.definitions else Code
    crates = given.crates or kind.crates
    if given.page:
        rows = [t for folder in given.page for t in results(folder)]
        table(rows)
        print("\nAccepted:\n" + "".join(f"\n- {told(t)}" for t in rows if t.verdict == ACCEPTED))
        (write_definitions if given.definitions else write_functions)(rows)
    elif given.folder:
        try_all(kind, given.folder, crates, given.each)
    else:
        for edit in (e for crate in crates for e in kind.edits(ROOT, crate)):
            print(told(edit))
    return 0


if __name__ == "__main__":
    sys.exit(main())
