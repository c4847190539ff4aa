#!/usr/bin/env python3
"""Holds the pages to their form: exit status 1 and a line for each fault.

- No line has more than 124 characters, but for tables, code and a link that is longer by itself. docs/PAPER.md and docs/REQUESTS.md are
  documents 01 and 02, word for word, and are left as they are.
- Every link to a file of the repository leads to one.
- docs/REQUESTS.md has the requests A1 to A14, and a page of docs/changes/ that is named like a request is one's.
"""
import re
import sys

from paper import ROOT, requests

MOST = 124
LAWS = ("docs/PAPER.md", "docs/REQUESTS.md")


def pages():
    return sorted(path for folder in (".", "docs", "docs/changes", "oracle", "bench") for path in (ROOT / folder).glob("*.md"))


def long_lines(text):
    """The numbers of lines that are too long."""
    in_code = False
    for at, line in enumerate(text.split("\n"), 1):
        in_code ^= line.startswith("```")
        if len(line) > MOST and not in_code and not line.startswith(("|", "    ")) and " " in line.strip("- "):
            yield at


def faults():
    for path in pages():
        name, text = path.relative_to(ROOT), path.read_text(encoding="utf-8")
        if str(name) not in LAWS:
            yield from (f"{name}:{at}: more than {MOST} characters" for at in long_lines(text))
        for link in re.findall(r"\]\(([^)#]+)[^)]*\)", text):
            if "://" not in link and not (path.parent / link).exists():
                yield f"{name}: leads to {link}, which is not there"
    asked = list(requests())
    if asked != [f"A{k}" for k in range(1, 15)]:
        yield f"docs/REQUESTS.md: has the requests {', '.join(asked)}"
    for path in sorted((ROOT / "docs" / "changes").glob("A*.md")):
        if path.stem not in asked:
            yield f"docs/changes/{path.name}: is no request's"


def main():
    found = list(faults())
    for fault in found:
        print("pages:", fault)
    print(f"pages: {len(pages())} pages, {len(found)} faults")
    return 1 if found else 0


if __name__ == "__main__":
    sys.exit(main())
