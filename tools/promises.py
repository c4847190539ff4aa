#!/usr/bin/env python3
"""Holds docs/PROMISES.md against document 01 and against the crates. Exit status 1 and a line for each fault.

- Sentences: each sentence of document 01 and of each request that has landed has its row, with its number and its words, and the
  row names what holds it, each with its kind, or says why it promises nothing. The sentences that a request changes are those
  that docs/DEFINITIONS.md marks too.
- Names: every function, must-fail edit, run, file, theorem and witness on the page exists, and the function has an `ensures`.
  Every must-fail edit of the crates and every function that another crate can call is named.
- Calls: a public call has no `requires`, and an equation for what it returns and for each buffer that it may write, by a
  definition that a file Unique has.
- Engines: each engine that document 01 shuts out has its entry, with an edit or a witness.
- Code: every public function has an `ensures` that speaks of what it returns.

    tools/promises.py           check
    tools/promises.py --list    print the numbered sentences
"""
import re
import sys

import contracts
from paper import CRATES, ROOT, SECTIONS, entries, flat, marks, names, numbered, read, row_faults, section, undeclared

CRATE = "|".join(sorted(path.name for path in CRATES.iterdir()))
PATH = re.compile(rf"`({CRATE})::([\w:]+)`")
EDIT = re.compile(rf"`((?:{CRATE})/[a-z0-9_]+)`")
RUN = re.compile(r"`((?:boundary|examples|oracle|tools)/[\w.]+)`")
WITNESS = re.compile(r"witness(?:es)? ((?:`[\w-]+`(?:, | and )?)+)")
SHUT_OUT = "These are shut out: "
READING = "## What holds each sentence"
KINDS = {  # what a holder of each kind must name
    "contract": PATH.search, "theorem": lambda text: any(names(text)), "edit": EDIT.search, "run": RUN.search, "gap": None,
}


def path_faults(text):
    for crate, path in PATH.findall(text):
        function = contracts.find(crate, path)
        if not function and not contracts.is_module(crate, path):
            yield f"names {crate}::{path}, which is not there"
        elif function and not function.ensures:
            yield f"names {crate}::{path}, which has no ensures"


def unnamed_faults(page):
    named = [contracts.find(crate, path) for crate, path in PATH.findall(page)]
    yield from (f"does not name {f.name} of {f.crate}/src/{f.file}.rt" for f in contracts.ALL if f.is_reached() and f not in named)


def run_faults(text):
    for path in RUN.findall(text):
        if not (ROOT / path).exists() or path not in read("test"):
            yield f"names {path}, which the tests do not run"


def answer_faults(holders):
    """What is wrong with that which is said to hold a sentence."""
    kinds = [holder.partition(":")[0] for holder in holders]
    if not set(kinds) - {"gap"}:
        yield "names no contract, theorem, edit or run"
    for kind, holder in zip(kinds, holders):
        if kind not in KINDS:
            yield f"is no contract, theorem, edit, run or gap: {holder}"
        elif KINDS[kind] and not KINDS[kind](holder):
            yield f"names no {kind}: {holder}"
        yield from undeclared(holder)


def mark_faults(page):
    """Where this page and that of the definitions do not mark the same sentences as changed."""
    here, there = marks(page), marks(read("docs/DEFINITIONS.md"))
    defined = {number for number, _ in numbered(SECTIONS[:6])}
    for number in sorted(defined & (set(here) | set(there))):
        if here.get(number) != there.get(number):
            yield f"has {number} changed by {here.get(number, [])}, docs/DEFINITIONS.md by {there.get(number, [])}"


def edit_faults(page):
    edits = {f"{path.parent.parent.name}/{path.stem}" for path in CRATES.glob("*/must-fail/*.edit")}
    named = set(EDIT.findall(page))
    yield from (f"names the must-fail edit {name}, which is not there" for name in sorted(named - edits))
    yield from (f"does not name the must-fail edit {name}" for name in sorted(edits - named))


def file_faults(page):
    yield from undeclared(page.partition(READING)[0])
    for path in re.findall(rf"`((?:{CRATE})/(?:specs|src|proofs)/[\w/.]+)`", page):
        if not any((CRATES / f"{path}{suffix}").exists() for suffix in ("", ".antt")):
            yield f"names the file {path}, which is not there"


def witness_faults(page):
    proved = "\n".join(path.read_text(encoding="utf-8") for folder in ("specs", "proofs") for path in CRATES.glob(f"*/{folder}/*.antt"))
    for group in WITNESS.findall(flat(page)):
        for name in re.findall(r"`([\w-]+)`", group):
            if not re.search(rf"^pub {re.escape(name)} :", proved, re.M):
                yield f"names the witness {name}, which is not there"


def promise_faults(call, unique):
    """What a public call's promise lacks."""
    if call.requires:
        yield "has a requires"
    for what in ["result"] * call.returns + [f"{buffer}.new" for buffer in call.lent]:
        definition = call.definition_of(what)
        if not definition:
            yield f"has no equation for {what}"
        elif not re.search(rf"≡ {re.escape(definition)}\b|→ {call.promise()[0]}\b", unique):
            yield f"gives {what} by {definition}, of which no file Unique speaks"


def call_faults(page):
    unique = "\n".join(path.read_text(encoding="utf-8") for path in CRATES.glob("*/specs/*.antt") if path.stem == "Unique")
    calls = [pair for _, text, _ in entries(section(page, "Public calls of the engine")) for pair in PATH.findall(text)]
    if not calls:
        yield "has no public call"
    for crate, path in calls:
        call = contracts.find(crate, path)
        yield from (f"has the call {crate}::{path}, which {fault}" for fault in (promise_faults(call, unique) if call else ()))


def engine_faults(page):
    sentence = next(sentence for _, sentence in numbered() if sentence.startswith(SHUT_OUT))
    shut_out = {name: " ".join(holders) for name, _, holders in entries(section(page, "Engines that are shut out"))}
    for engine in sentence.removeprefix(SHUT_OUT).rstrip(".").split("; "):
        if not any(pattern.search(shut_out.get(engine, "")) for pattern in (EDIT, WITNESS)):
            yield f"has no edit or witness for: {engine}"


def code_faults():
    for f in contracts.ALL:
        if f.public and not (f.names_its_answer() if f.returns else f.ensures):
            yield f"{f.crate}/src/{f.file}.rt: {f.name} has no promise on what it returns"


def faults(page):
    yield from row_faults(page, SECTIONS, answer_faults)
    for judge in (mark_faults, path_faults, unnamed_faults, run_faults, edit_faults, file_faults, witness_faults, call_faults, engine_faults):
        yield from (f"docs/PROMISES.md {fault}" for fault in judge(page))
    yield from code_faults()


def main():
    sentences = list(numbered())
    if "--list" in sys.argv:
        for number, sentence in sentences:
            print(number, sentence)
        return 0
    found = list(faults(read("docs/PROMISES.md")))
    for fault in found:
        print("promises:", fault)
    print(f"promises: {len(sentences)} sentences, {len(found)} faults")
    return 1 if found else 0


if __name__ == "__main__":
    sys.exit(main())
