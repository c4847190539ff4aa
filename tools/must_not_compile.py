#!/usr/bin/env python3
"""Tries the edits of crates/NAME/must-not-compile/*.edit: the compiler must refuse each, before any proof is looked at.

An edit has the form of a must-fail edit (lines `file:`, `old:`, `new:`), and a line `error:` with words that the refusal must
have. Each is applied to a copy of the repository's crates, outside the checkout, in which no function is named to be proved (`rt check --only ""`): what does not
compile is refused within a second or two. Exit status 1 where one is not refused so.
"""
import glob
import os
import shutil
import subprocess
import sys
import tempfile

ROOT = os.path.dirname(os.path.dirname(os.path.abspath(__file__)))


def fields(path):
    """The edit's lines as (name, text)."""
    with open(path, encoding="utf-8") as f:
        for line in f.read().split("\n"):
            name, found, text = line.partition(": ")
            if found and name in ("file", "old", "new", "error"):
                yield name, text


def refused(path, room):
    """Whether the compiler refuses the crate with the edit, in the words that the edit gives."""
    crate = path.split(os.sep)[-3]
    edit = dict(fields(path))
    target = os.path.join(room, "crates", crate, edit["file"])
    with open(target, encoding="utf-8") as f:
        text = f.read()
    if text.count(edit["old"]) != 1:
        print(f"must-not-compile {crate}: {os.path.basename(path)}: its old text is not there once")
        return False
    with open(target, "w", encoding="utf-8") as f:
        f.write(text.replace(edit["old"], edit["new"]))
    run = subprocess.run(["rt", "check", "--only", ""], cwd=os.path.join(room, "crates", crate), capture_output=True, text=True)
    with open(target, "w", encoding="utf-8") as f:
        f.write(text)
    said = run.stdout + run.stderr
    return run.returncode != 0 and "logic=not-proved" not in said and edit["error"] in said


def main():
    room = tempfile.mkdtemp()
    try:
        shutil.copytree(os.path.join(ROOT, "crates"), os.path.join(room, "crates"), ignore=shutil.ignore_patterns("out"))
        shutil.copy(os.path.join(ROOT, "crates.txt"), room)
        edits = sorted(glob.glob(os.path.join(ROOT, "crates", "*", "must-not-compile", "*.edit")))
        failed = 0
        for path in edits:
            good = refused(path, room)
            failed += not good
            name = os.path.relpath(path, os.path.join(ROOT, "crates"))
            print(f"must-not-compile: {name}: {'refused by the compiler' if good else 'NOT REFUSED'}")
        return 1 if failed or not edits else 0
    finally:
        shutil.rmtree(room)


if __name__ == "__main__":
    sys.exit(main())
