#!/usr/bin/env python3
"""What moved between two commits, as Markdown for a page of docs/changes/: definitions, promises, laws and proofs, by count and by name,
and how long each crate's check took in two logs.

    tools/changes.py OLD NEW [OLD-LOG NEW-LOG]

A log is what `rt ci` of the older kit, rattle-kit-5, printed: its lines 'rt: NAME proved (N s)' are read. Today's `rt` tells no times. Comments, line breaks and
the order of a file are nothing that counts. What counts as what:

- a definition: a declaration in specs that is `abbrev`, `unfoldable`, a `record` or `data`, with all its text;
- a promise: what a function in Rattle is given and returns, with its `requires` and `ensures`;
- a law: the statement of any other declaration in specs, so that a theorem that is proved in another way has stayed;
- a proof: how such a law is proved, the files of a function's proof as one, and each declaration of the files beside those.

Each has stayed, or it follows (it differs in nothing but names that were renamed), was moved to another file with the same text, was
renamed in its file with the same text but for its own name, was changed, added or removed. Imports count for nothing.
"""
import collections
import re
import subprocess
import sys
import textwrap

from contracts import FUNCTION
from paper import ROOT, flat
from sizes import times

HEAD = re.compile(r"((?:(?:abbrev|unfoldable|opaque|pub) )*)((?:record|data) )?([^\s:(){}=]+)(?: [({].*?[)}])* :(?= |$)")
KINDS = ("definitions", "promises", "laws", "proofs")
FATES = ("stayed", "follows", "moved", "renamed", "changed", "added", "removed")
WORD = re.compile(r"[^\W\d][\w'→-]*")


# ---- what a commit has

def files(commit):
    """(crate, folder and file, text) of each source file of a commit."""
    names = subprocess.run(["git", "ls-tree", "-r", "--name-only", commit, "crates"], cwd=ROOT, capture_output=True, text=True, check=True).stdout.split()
    names = [name for name in names if re.search(r"/(specs|proofs|src)/.*\.(antt|rt)$", name)]
    asked = "".join(f"{commit}:{name}\n" for name in names)
    said = subprocess.run(["git", "cat-file", "--batch"], cwd=ROOT, input=asked.encode(), capture_output=True, check=True).stdout
    for name in names:
        head, _, said = said.partition(b"\n")
        size = int(head.split()[-1])
        text, said = said[:size].decode(), said[size + 1:]
        _, crate, rest = name.split("/", 2)
        yield crate, rest, text


def declarations(text):
    """(modifiers, name, statement, the rest) of each declaration of a file of definitions or proofs."""
    module, found, part = "", [], None
    for line in text.splitlines():
        line = re.sub(r"(?:^|(?<= ))--(?: .*)?$", "", line).rstrip()
        deep = len(line) - len(line.lstrip())
        if not line or re.match(r"(?:ghost )?use |infix", line):
            continue
        if deep == 0:
            module = line if line.startswith("module ") else ""
        head = HEAD.match(line[deep:]) if deep == (2 if module else 0) else None
        if head and line != module:
            found.append((head[1] + (head[2] or ""), head[3], [module, line], []))
            part = 2
        elif found and line != module:
            part = 2 if part == 2 and deep > (2 if module else 0) else 3
            found[-1][part].append(line)
    for modifiers, name, statement, rest in found:
        yield modifiers, name, flat(" ".join(statement)), flat(" ".join(rest))


def of_specs(crate, file, text):
    place = f"{crate}/{file[6:-5]}"
    for modifiers, name, statement, rest in declarations(text):
        if re.search(r"abbrev|unfoldable|record|data", modifiers):
            yield "definitions", place, name, f"{statement} {rest}"
        else:
            yield "laws", place, name, statement
            yield "proofs", place, name, rest


def of_code(crate, file, text):
    module = "" if file in ("src/lib.rt", "src/main.rt") else f"::{file[4:-3]}"
    for found in FUNCTION.finditer(text):
        owners = re.findall(r"^impl (\w+)", text[:found.start()], re.M) if found[0].lstrip("\n").startswith(" ") else []
        owner = f"::{owners[-1]}" if owners else ""
        yield "promises", f"{crate}{module}{owner}", found[2], flat(f"{found[3]} -> {found[4]} {found[5]}")


def of_proofs(crate, file, text):
    if re.search(r"/(Answers|Invariants|Proof)\.antt$", file):
        bare = re.sub(r"(?m)(?:^|(?<= ))--(?: .*)?$|^(?:ghost )?use .*$", "", text)
        yield "proofs", f"{crate}::{'::'.join(file.split('/')[1:-2])}".removesuffix("::"), file.split("/")[-2], flat(bare)
    else:
        for _, name, statement, rest in declarations(text):
            yield "proofs", f"{crate}/{file[:-5]}", name, f"{statement} {rest}"


def items(commit):
    """For each kind: (place, name) of each item, and its text."""
    found = {kind: {} for kind in KINDS}
    read = {"specs": of_specs, "src": of_code, "proofs": of_proofs}
    for crate, file, text in files(commit):
        for kind, place, name, what in read[file.split("/")[0]](crate, file, text):
            found[kind][place, name] = f"{found[kind].get((place, name), '')}{what}"
    return found


# ---- what became of it

def shown(place, name):
    """A declaration under its file, a function under its crate."""
    if "/" in place:
        return f"`{place}`: `{name}`"
    crate, *module = place.split("::")
    return f"`{crate}`: `{'::'.join([*module, name])}`"


def without(name, text):
    """The text without its own name."""
    return re.sub(rf"(?<![\w'-]){re.escape(name)}(?![\w'-])", "·", text)


def paired(gone, come, old, new, alike):
    """Pairs of a key that is gone and one that has come, where the two are alike; each is taken once."""
    for before in sorted(gone):
        after = next((key for key in sorted(come) if alike(before, key, old[before], new[key])), None)
        if after:
            gone.remove(before)
            come.remove(after)
            yield before, after


def following(names, text):
    """The text with the new names."""
    return WORD.sub(lambda word: names.get(word[0], word[0]), text)


def fates(first, old, new):
    """What became of each item of one kind: for each fate the names, and the new names. `first` has the old texts, `old` those with new names."""
    told, names = collections.defaultdict(list), {}
    for key in sorted(set(old) & set(new)):
        told["stayed" if first[key] == new[key] else "follows" if old[key] == new[key] else "changed"].append(shown(*key))
    gone, come = set(old) - set(new), set(new) - set(old)
    for before, after in paired(gone, come, old, new, lambda a, b, s, t: a[1] == b[1] and s == t):
        told["moved"].append(f"`{before[0]}` → `{after[0]}`: `{before[1]}`")
    for before, after in paired(gone, come, old, new, lambda a, b, s, t: a[0] == b[0] and s and without(b[1], without(a[1], s)) == without(b[1], t)):
        told["renamed"].append(f"{shown(*before)} → `{after[1]}`")
        names[before[1]] = after[1]
    told["removed"] += [shown(*key) for key in sorted(gone)]
    told["added"] += [shown(*key) for key in sorted(come)]
    return told, names


def all_fates(old, new):
    """What became of everything: once more with the new names that were found, as long as there are any."""
    names = {}
    while True:
        followed = {kind: {key: following(names, text) for key, text in old[kind].items()} for kind in KINDS}
        told = {kind: fates(old[kind], followed[kind], new[kind]) for kind in KINDS}
        more = {name: to for _, found in told.values() for name, to in found.items() if name not in names}
        if not more:
            return {kind: of for kind, (of, _) in told.items()}
        names.update(more)


# ---- telling

def table(rows):
    head, *below = rows
    return "\n".join(["| " + " | ".join(head) + " |", "|" + "---|" * len(head), *("| " + " | ".join(row) + " |" for row in below)])


def filled(text):
    """A bullet, its lines broken."""
    return textwrap.fill(text, 118, initial_indent="- ", subsequent_indent="  ", break_long_words=False, break_on_hyphens=False)


def listed(names):
    """A bullet for each place, with its names."""
    by_place = collections.defaultdict(list)
    for name in names:
        place, _, rest = name.partition(": ")
        by_place[place].append(rest)
    for place, of in by_place.items():
        yield filled(f"{place}: {', '.join(of)}")


def by_crate(names):
    """How many of the names each crate has."""
    counted = collections.Counter(re.match(r"`(\w+)", name)[1] for name in names)
    return ", ".join(f"`{crate}` {count}" for crate, count in sorted(counted.items()))


def seconds(old_log, new_log):
    old, new = times(old_log), times(new_log)
    yield ("crate", "before, s", "after, s")
    for crate in [*new, *(crate for crate in old if crate not in new)]:
        yield (f"`{crate}`", old.get(crate, "-"), new.get(crate, "-"))
    yield ("all, one after the other", str(sum(map(int, old.values()))), str(sum(map(int, new.values()))))


def main():
    if len(sys.argv) not in (3, 5):
        sys.exit(__doc__)
    old, new = items(sys.argv[1]), items(sys.argv[2])
    told = all_fates(old, new)
    print("## What moved and what stayed\n")
    print(table([("", *FATES), *((kind, *(str(len(told[kind][fate])) for fate in FATES)) for kind in KINDS)]))
    print("\nWhat stayed, and what follows a renaming of something that it uses, by crate:\n")
    print("\n".join(filled(f"{kind}: {by_crate(told[kind]['stayed'] + told[kind]['follows'])}") for kind in KINDS))
    for kind in KINDS:
        for fate in FATES[2:]:
            if told[kind][fate]:
                print(f"\n### {kind.capitalize()} {fate}\n")
                print("\n".join(listed(told[kind][fate])))
    if len(sys.argv) == 5:
        print("\n## The check's time\n")
        print(table(list(seconds(*sys.argv[3:]))))
    return 0


if __name__ == "__main__":
    sys.exit(main())
