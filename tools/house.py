#!/usr/bin/env python3
"""Draws docs/house.svg: the engine's crates of crates.txt, each above all that it leans on.

    python3 tools/house.py             draws it
    python3 tools/house.py --check     exit status 1 where the drawing is not that of crates.txt

A line goes to what a crate leans on directly; what it reaches through another crate has none. The programs that compare and time the engine, and their
libraries, are left out: they lean on all of it.
"""
import pathlib
import sys

ROOT = pathlib.Path(__file__).resolve().parent.parent
PAGE = ROOT / "docs" / "house.svg"
WIDTH, HEIGHT, GAP, RISE, MARGIN = 104, 30, 18, 74, 16
KINDS = {"program": ("#fdf0d5", "what C links, and the printer"), "code": ("#dbe9f6", "code and its proofs"), "laws": ("#e3f1df", "definitions, laws and theorems alone")}
APART = ("stream", "calls", "answers", "edges", "replay", "loops", "bench")


def crates():
    """What each crate of the engine leans on, of the others."""
    lines = [line.partition(":") for line in (ROOT / "crates.txt").read_text(encoding="utf-8").splitlines() if line and line[0] != "#"]
    leans = {head.split()[0]: deps.split() for head, _, deps in lines}
    names = set(leans) - set(APART)
    return {name: [d for d in deps if d in names] for name, deps in leans.items() if name in names}


def kind(name):
    source = ROOT / "crates" / name / "src"
    text = "".join(path.read_text(encoding="utf-8") for path in source.glob("*.rt"))
    if 'extern "C" fn' in text or (source / "main.rt").exists():
        return "program"
    return "code" if "fn " in text else "laws"


def reached(leans, name):
    """All that a crate leans on, at any depth."""
    return set(leans[name]).union(*(reached(leans, d) for d in leans[name]))


def direct(leans):
    """What each crate leans on through no other."""
    return {name: [d for d in deps if not any(d in reached(leans, e) for e in deps)] for name, deps in leans.items()}


def heights(leans):
    known = {}

    def height(name):
        if name not in known:
            known[name] = 1 + max((height(d) for d in leans[name]), default=-1)
        return known[name]

    return {name: height(name) for name in leans}


def places(lines, height):
    """Where each crate stands in its row: near what it has lines to."""
    rows = [[name for name in lines if height[name] == h] for h in range(max(height.values()) + 1)]
    near = {name: set(deps) | {n for n, ds in lines.items() if name in ds} for name, deps in lines.items()}
    at = {name: i - (len(row) - 1) / 2 for row in rows for i, name in enumerate(row)}
    for turn in range(40):
        for row in rows if turn % 2 else rows[::-1]:
            wish = {name: sum(at[n] for n in near[name]) / max(1, len(near[name])) for name in row}
            row.sort(key=lambda name: (wish[name], name))
            middle = sum(wish.values()) / len(row)
            for i, name in enumerate(row):
                at[name] = middle + i - (len(row) - 1) / 2
    left = min(at.values())
    return {name: x - left for name, x in at.items()}


def drawn():
    leans = crates()
    lines, height = direct(leans), heights(leans)
    at = places(lines, height)
    top = max(height.values())

    def centre(name):
        return MARGIN + at[name] * (WIDTH + GAP) + WIDTH / 2, MARGIN + (top - height[name]) * RISE

    wide = max(centre(name)[0] for name in leans) + WIDTH / 2 + MARGIN
    tall = MARGIN + top * RISE + HEIGHT + 34
    out = [f'<svg xmlns="http://www.w3.org/2000/svg" width="{wide:.0f}" height="{tall:.0f}" font-family="sans-serif" font-size="13">', '<rect width="100%" height="100%" fill="white"/>']
    for name, deps in lines.items():
        x, y = centre(name)
        for d in deps:
            u, v = centre(d)
            out.append(f'<path d="M{x:.1f} {y + HEIGHT:.1f} C{x:.1f} {y + HEIGHT + 26:.1f} {u:.1f} {v - 26:.1f} {u:.1f} {v:.1f}" fill="none" stroke="#8a94a0"/>')
    for name in leans:
        x, y = centre(name)
        out.append(f'<rect x="{x - WIDTH / 2:.1f}" y="{y:.1f}" width="{WIDTH}" height="{HEIGHT}" rx="5" fill="{KINDS[kind(name)][0]}" stroke="#5b6670"/>')
        out.append(f'<text x="{x:.1f}" y="{y + 20:.1f}" text-anchor="middle">{name}</text>')
    x = MARGIN
    for colour, words in KINDS.values():
        out.append(f'<rect x="{x}" y="{tall - 24:.1f}" width="14" height="14" fill="{colour}" stroke="#5b6670"/>')
        out.append(f'<text x="{x + 20}" y="{tall - 12:.1f}">{words}</text>')
        x += 40 + 7 * len(words)
    return "\n".join(out + ["</svg>"]) + "\n"


def main():
    picture = drawn()
    if "--check" not in sys.argv[1:]:
        PAGE.write_text(picture, encoding="utf-8")
        return 0
    same = PAGE.exists() and PAGE.read_text(encoding="utf-8") == picture
    print("house: docs/house.svg is that of crates.txt" if same else "house: docs/house.svg is not that of crates.txt: run tools/house.py")
    return 0 if same else 1


if __name__ == "__main__":
    sys.exit(main())
