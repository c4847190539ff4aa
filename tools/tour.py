#!/usr/bin/env python3
"""Holds docs/TOUR.md to the files that it shows: each block, indented by four, stands line by line in the file that the line before it names.
Exit status 1 and a line for each fault."""
import re
import sys

from paper import ROOT, read

BLOCK = re.compile(r"^`([\w./-]+)`:\n\n((?:(?: {4}.*)?\n)+)", re.M)


def faults(page):
    found = BLOCK.findall(page)
    if len(found) < page.count("`:\n"):
        yield "names a file without showing lines of it"
    for path, block in found:
        lines = "".join(line[4:] + "\n" for line in block.rstrip("\n").split("\n"))
        if not (ROOT / path).exists():
            yield f"shows {path}, which is not there"
        elif lines not in read(path):
            yield f"shows lines that {path} does not have: {lines.splitlines()[0].strip()} .."


def main():
    page = read("docs/TOUR.md")
    found = list(faults(page))
    for fault in found:
        print("tour: docs/TOUR.md", fault)
    print(f"tour: {len(BLOCK.findall(page))} blocks, {len(found)} faults")
    return 1 if found else 0


if __name__ == "__main__":
    sys.exit(main())
