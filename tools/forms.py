#!/usr/bin/env python3
"""Counts the places of older forms in the crates' src/, for docs/DESIGN-PASS.md.

    python3 tools/forms.py            the count of each form
    python3 tools/forms.py --list     each place too
    python3 tools/forms.py --in DIR   the same of another tree, such as `git archive COMMIT | tar x -C DIR`

A form is found by its text, so that a place which is found may be right as it stands: the page says why it is kept.
"""
import argparse
import collections
import difflib
import itertools
import pathlib
import re

# Each point's forms: a name, and what a line of it looks like.
LINES = {
    "1 a flag or a number as a field": r"^\s*(?:pub )?(?:found|whole|failed|good|number): (?:bool|u32|u64),",
    "1 an own enum of the shape of Result": r"^\s*(?:pub )?enum (?:Made|\w+(?:Result|Option))\b",
    "1 a function that answers a refusal's number": r"fn (?:\w+_number|row)\b.*|fn answer\(r: Refusal\)",
    "1 a kind as a number": r"\bkind (?:==|>=) [\w:]+|^const [A-Z]\w?: u8|^\s*match (?:number|case|calls::lent::word)",
    "3 a loop that counts an index by hand": r"^\s*while ",
    "3 an index over a range": r"for \w+ in (?:0|1)\.\.",
    "4 a conversion or a comparison by hand": r"^\s*(?:pub )?fn (?:size|bits|narrow|word|byte|count|one|two|four|write_four|is_inside|is_within|is_up_to|digit|digit_count|write_digits|put_number)\((?!&)",
    "4 a copy or a fill by hand": r"^\s*(?:pub )?fn (?:copy|copy_bounds|zero|fill|put)\(",
    "6 three lists of a circuit's gates side by side": r"^\s*(?:kinds: &(?:mut )?\[u32\],)|fn .*kinds: &(?:mut )?\[u32\]",
    "6 a buffer of fixed size": r"= \[0\w*; \w+\]|\[0\w*; \w+\];",
    "6 a place in a text, threaded by hand": r"\bat: usize,?(?: out: &mut \[u8\])?|cursor: Cursor",
    "7 a switch on which step to run": r"^\s*match (?:number|kind|case|calls::lent::word)|^\s*if kind == 0",
}


def sources(root):
    for path in sorted(root.glob("crates/*/src/**/*.rt")):
        yield path.relative_to(root / "crates"), path.read_text(encoding="utf-8")


def lines_of(root, pattern):
    form = re.compile(pattern)
    return [f"{name}:{k}: {line.strip()}" for name, text in sources(root) for k, line in enumerate(text.splitlines(), 1) if form.search(line)]


def functions(root):
    """Each function's name, its head and its body, and its tokens without the names that are its own."""
    head = re.compile(r"^( *)(?:#\[.*\] *)?(?:pub )?(?:extern \"C\" )?fn (\w+)", re.M)
    for name, text in sources(root):
        for found in head.finditer(text):
            end = text.find("\n" + found.group(1) + "}", found.start())
            whole = text[found.start():end]
            parts = whole.split("\n" + found.group(1) + "{\n", 1)
            yield f"{name.parts[0]}::{name.stem}::{found.group(2)}", parts[0], parts[1] if len(parts) > 1 else ""


KEPT = set("if else for in while let mut return match self Self fn as use pub struct enum impl ref move".split())


def shape(body):
    """The body's tokens: each name by what it comes first, each number alike."""
    seen = {}
    tokens = re.findall(r"[A-Za-z_]\w*|\d\w*|[^\s\w]", re.sub(r"//.*", "", body))
    return ["0" if t[0].isdigit() else t if t in KEPT or not re.match(r"[A-Za-z_]", t) else seen.setdefault(t, f"n{len(seen)}") for t in tokens]


def twins(root):
    """Pairs of functions of 15 tokens or more whose bodies are nine tenths alike but for names and numbers."""
    shapes = [(name, shape(body)) for name, _, body in functions(root)]
    shapes = [(name, s) for name, s in shapes if len(s) >= 15]
    alike = []
    for (a, s), (b, t) in itertools.combinations(shapes, 2):
        if min(len(s), len(t)) * 10 < max(len(s), len(t)) * 8:
            continue
        match = difflib.SequenceMatcher(None, s, t, autojunk=False)
        if match.real_quick_ratio() >= 0.9 and match.quick_ratio() >= 0.9 and match.ratio() >= 0.9:
            alike.append(f"{a} and {b}")
    return alike


def facts(root):
    """Facts that three contracts or more ask or ensure in the same words, each with how many do."""
    count = collections.Counter()
    for _, head, _ in functions(root):
        asked = set()
        for clause in re.findall(r"requires(?: \w+)? \{ (.*) \}", head):
            asked |= {re.sub(r"\b(?:c|d|t|s|xs|row|key)\.now\b", "_.now", f.strip("() ")) for f in clause.split(" × ")}
        for clause in re.findall(r"ensures(?: \w+)? \{ ((?:Placed|Within|CountIn|Written) .*) \}", head):
            asked.add(clause.split()[0])
        count.update(asked)
    return [f"{n} contracts: {fact}" for fact, n in count.most_common() if n >= 3]


def travelling(root):
    """Three parameters or more that the same four functions or more have."""
    having = collections.defaultdict(set)
    for name, head, _ in functions(root):
        names = re.findall(r"(\w+): ", head.split("{")[0].split("requires")[0].split("ensures")[0])
        for three in itertools.combinations(sorted(set(names)), 3):
            having[three].add(name)
    return [f"{len(fs)} functions: {', '.join(three)}" for three, fs in sorted(having.items(), key=lambda x: -len(x[1])) if len(fs) >= 4]


def proofs(root):
    return [str(p.relative_to(root / "crates")) for p in sorted(root.glob("crates/*/proofs/**/*.antt")) if p.name in ("Answers.antt", "Invariants.antt")]


def main():
    asked = argparse.ArgumentParser()
    asked.add_argument("--list", action="store_true")
    asked.add_argument("--in", dest="root", default=pathlib.Path(__file__).resolve().parent.parent)
    args = asked.parse_args()
    root = pathlib.Path(args.root)
    counts = {form: lines_of(root, pattern) for form, pattern in LINES.items()}
    counts["2 pairs of functions that are alike"] = twins(root)
    counts["5 a fact in three contracts or more"] = facts(root)
    counts["5 three parameters that travel together"] = travelling(root)
    counts["8 files of answers and invariants"] = proofs(root)
    for form in sorted(counts):
        print(f"{len(counts[form]):5} {form}")
        if args.list:
            print("".join(f"        {place}\n" for place in counts[form]), end="")


if __name__ == "__main__":
    main()
