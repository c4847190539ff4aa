#!/usr/bin/env python3
"""Holds docs/DEFINITIONS.md against the paper and against the crates.

Every sentence of docs/PAPER.md from its beginning to *Circuit file and printer*, and every sentence of a request of
docs/REQUESTS.md that has landed, must have its row, with its number and its words; every name in a row, and in the section on what
the theorems are stated with, must be declared in the file that the page gives. Exit status 1 and a line for each fault otherwise.

    tools/definitions.py           check
    tools/definitions.py --list    print the numbered sentences
"""
import sys

from paper import SECTIONS, names, numbered, read, row_faults, section, undeclared

DEFINING = SECTIONS[:6]
THEOREMS = "What the theorems are stated with"


def answer_faults(holders):
    yield from (f"names no definition: {holder}" for holder in holders if not any(names(holder)))
    for holder in holders:
        yield from undeclared(holder)


def main():
    sentences = list(numbered(DEFINING))
    if "--list" in sys.argv:
        for number, sentence in sentences:
            print(number, sentence)
        return 0
    page = read("docs/DEFINITIONS.md")
    found = [*row_faults(page, DEFINING, answer_faults), *undeclared(section(page, THEOREMS))]
    for fault in found:
        print("definitions:", fault)
    print(f"definitions: {len(sentences)} sentences, {len(found)} faults")
    return 1 if found else 0


if __name__ == "__main__":
    sys.exit(main())
