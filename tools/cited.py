#!/usr/bin/env python3
"""What the circuit layer's code, specs and proofs call, cite and unfold of the crates below it, against an allowed list.

The circuit layer, the crates `circuit`, `checks`, `planning`, `working` and `evaluation`, is to rely on nothing about the arithmetic but its published promise: its proofs name the definitions that the
promises are made of and cite laws about them, and open none of them. This script reads every `.antt` and `.rt` file of the layer,
takes each name that comes from a crate below, and fails where a name is called, cited or unfolded that the list does not allow, and
where the list allows what is not used. A name comes from below by an import, by its whole path, or by an attribute
`#[tactic(auto, using(..), unfolding(..))]`, which cites or opens it at each goal of its function with no line in a proof.

    python3 tools/cited.py             the layer, against tools/cited.txt
    python3 tools/cited.py --list      prints what it found, in the form of the list
"""
import pathlib
import re
import sys

ROOT = pathlib.Path(__file__).resolve().parent.parent
LAYER = ("circuit", "checks", "planning", "working", "evaluation")
WRITTEN = ("src", "specs", "proofs")  # what is written by hand; out/ is made
COMPUTED = ("Example.antt", "Refusals.antt")  # tables of worked figures, by computation alone
NUMBERED = ("in_order", "order", "position", "position_in", "are_single", "before", "is_other")  # one computed test each, of the numbers of rows
ALLOWED = ROOT / "tools" / "cited.txt"

IMPORT = re.compile(r"\bRattle\.(\w+)\.([\w.+]+)\.\{([^}]*)\}")
PATH = re.compile(r"\bRattle\.(\w+)\.([\w.+]+)")
UNFOLDING = re.compile(r"^\s*unfolding (.+(?:\n +[^=:\n]+$)*)", re.M)
UNFOLD = re.compile(r"\bunfold (.+?) in\b", re.S)
TACTIC = re.compile(r"#!?\[tactic\((.*?)\)\]", re.S)
LISTED = re.compile(r"\b(using|unfolding)\(([^)]*)\)")
CALL = re.compile(r"\b([a-z_]+)::((?:\w+::)*)(?:(\w+)|\{([^}]*)\})")
COMMENT = re.compile(r"^\s*(?:--|//).*$", re.M)


def imports(text):
    """(crate, module, name there, name here) of each name that the file imports, and of each that it gives by its whole path."""
    for crate, module, names in IMPORT.findall(text):
        for words in (name.split() for name in names.split(",")):
            if words:
                yield crate, module, words[0], words[-1]
    for crate, path in PATH.findall(IMPORT.sub("", text)):
        module, _, name = path.rpartition(".")
        yield crate, module, name, f"Rattle.{crate}.{path}"


def listed(text, own):
    """(using or unfolding, crate, module, name) of each name that an attribute lists."""
    for attribute in TACTIC.findall(text):
        for what, paths in LISTED.findall(attribute):
            for path in filter(None, (path.strip() for path in paths.split(","))):
                crate, *module, name = path.split("::")
                yield what, own if crate == "crate" else crate, ".".join(module), name


def called(text):
    """(crate, module, name) of each function or type of another crate that the code imports or gives by its path."""
    for crate, module, name, names in CALL.findall(TACTIC.sub("", text)):
        for item in [name] if name else (part.split()[0] for part in names.split(",") if part.strip()):
            *deeper, last = (module + item).split("::")
            yield crate, "::".join(deeper), last


def below():
    """The crates that the layer leans on."""
    lower = set()
    for line in (ROOT / "crates.txt").read_text().splitlines():
        crate, _, deps = line.partition(":")
        if crate in LAYER:
            lower |= set(deps.split())
    return lower - set(LAYER)


def files():
    """(crate, path) of each file of the layer that is written by hand."""
    for crate in LAYER:
        for folder in WRITTEN:
            for path in sorted((ROOT / "crates" / crate / folder).rglob("*")):
                if path.suffix in (".antt", ".rt"):
                    yield crate, path


def opened(path, crate, name):
    """What it is called to open a definition there."""
    return "computes" if path.name in COMPUTED else "numbers" if crate == "refusal" and name in NUMBERED else "unfolds"


def scan():
    """All (what, crate, module, name) of the layer's files: what is calls, cites, unfolds, numbers or computes."""
    rows = set()
    lower = below()
    for own, path in files():
        text = COMMENT.sub("", path.read_text(encoding="utf-8"))
        here = {}
        for crate, module, name, local in imports(text):
            if crate in lower:
                here[local] = (crate, module, name)
                if path.name not in COMPUTED:
                    rows.add(("cites", crate, module, name))
        for line in UNFOLDING.findall(text) + UNFOLD.findall(text):
            for word in line.split():
                if word in here:
                    crate, module, name = here[word]
                    rows.add((opened(path, crate, name), crate, module, name))
        for what, crate, module, name in listed(text, own):
            if crate in lower:
                rows.add(("cites", crate, module, name))
                if what == "unfolding":
                    rows.add((opened(path, crate, name), crate, module, name))
        if path.suffix == ".rt":
            rows |= {("calls", *call) for call in called(text) if call[0] in lower}
    return rows


def show(rows):
    """The rows, one line for each what, crate and module."""
    grouped = {}
    for what, crate, module, name in rows:
        grouped.setdefault((what, crate, module), []).append(name)
    return [f"{what} {crate} {module or '-'}: {' '.join(sorted(names))}" for (what, crate, module), names in sorted(grouped.items())]


def read_allowed():
    rows = set()
    for line in ALLOWED.read_text(encoding="utf-8").splitlines():
        if line and not line.startswith("#"):
            head, _, names = line.partition(":")
            what, crate, module = head.split()
            for name in names.split():
                rows.add((what, crate, "" if module == "-" else module, name))
    return rows


def main():
    found = scan()
    if sys.argv[1:] == ["--list"]:
        print("\n".join(show(found)))
        return 0
    allowed = read_allowed()
    for line in show(found - allowed):
        print(f"cited: not allowed: {line}")
    for line in show(allowed - found):
        print(f"cited: allowed, and not used: {line}")
    print(f"cited: {len(found)} names from below, {len(found ^ allowed)} faults")
    return 1 if found ^ allowed else 0


if __name__ == "__main__":
    sys.exit(main())
