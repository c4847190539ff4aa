"""Brings the project's own definitions and lemmas to the spelling of today's Rattle, which the kit's script leaves: words in snake case, and no dash within one.

    python3 tools/respell.py [--list]

run once, at the top of the repository, right after the kit's script. It goes by text: a name that is defined in specs/ or proofs/ is renamed wherever it stands, but where
a file has it from the library. Functions of src/, types, modules, and what the compiler makes (goals, steps and their fields) keep their names. --list prints what would
be renamed, and the names that would fall together, and writes nothing.
"""
import collections
import pathlib
import re
import sys

TOP = pathlib.Path(__file__).resolve().parent.parent
CRATES = [p.name for p in (TOP / "crates").iterdir() if (p / "src").is_dir()]
STOP = r"\s(){}\[\];,.:@\"`"
WORD = re.compile(rf"[^{STOP}]+")
MARKS = r"(?:(?:pub|abbrev|unfoldable) )*"
SIGNATURE = re.compile(rf"^\s*{MARKS}((?:[^{STOP}]+ )*[^{STOP}]+)(?: {{[^}}]*}})? :(?: |$)")
DECLARED = re.compile(rf"^\s*{MARKS}(?:ruleset) ([^{STOP}]+)")
BOUND = re.compile(rf"\blet ([^{STOP}]+) [:=] |[({{]((?:[^{STOP}]+ )*[^{STOP}]+) : |λ \(?((?:[^{STOP}]+ ?)+)[.:]|\(([^{STOP}]+(?:, [^{STOP}]+)+)\) =")
IMPORT = re.compile(r"^\s*(?:ghost )?(?:pub )?use ([\w.·'+-]+)\.\{([^}]*)\}", re.M)
# Where the rule would say nothing good: the operators on ℤ, and names that another name already has.
BY_HAND = {
    "*ℤ-assoc": "*ℤ_assoc",
    "*ℤ-cancell": "*ℤ_cancell",
    "*ℤ-distl": "*ℤ_distl",
    "*ℤ-distr": "*ℤ_distr",
    "*ℤ-factor": "*ℤ_factor",
    "*ℤ-left-comm": "*ℤ_left_comm",
    "*ℤ-negℤ": "*ℤ-neg_ℤ",
    "negℤ-*ℤ": "neg_ℤ-*ℤ",
    "one-*ℤ": "one-*ℤ",
    "+ℤ-cancelr": "+ℤ_cancelr",
    "+ℤ-left-comm": "+ℤ_left_comm",
}
# A lemma that would have its function's name gets `_lem`.
for lemma in ["by-kind", "gate-wire", "in-range", "ok-line", "refused-line", "settled-bounds", "sheet-number", "tensor-entry", "wire-at", "wire-lines"]:
    BY_HAND[lemma] = lemma.replace("-", "_") + "_lem"


def own(module):
    """Whether a module is the project's own, and not the library's or one that the compiler makes."""
    m = re.match(r"Rattle\.(\w+)\.(specs|proofs)\.(.*)", module)
    return bool(m) and m.group(1) in CRATES and not m.group(3).startswith("declared") and not m.group(3).endswith((".Goals", ".Given", ".Tie", ".Statement"))


def respelled(name):
    if name in BY_HAND:
        return BY_HAND[name]
    if re.match(r"[A-Z][a-z]", name):
        return name
    name = re.sub(r"^get_d_", "get_or_", name.replace("getD", "get_or"))
    if re.match(r"[a-z]", name):
        name = re.sub(r"(?<=[a-z0-9])([A-Z]+)", lambda m: "_" + m.group(1).lower(), name)
    return re.sub(r"(?<=\w)-(?=\w)", "_", name)


def generated(path):
    """Whether the file is the proof of one function, in which the compiler's names stand."""
    return "proofs" in path.parts and path.name in ("Proof.antt", "Answers.antt", "Invariants.antt")


def without_comments(text):
    return re.sub(r"(^|\s)--.*", r"\1", text)


def defined(path):
    names = set()
    goals = set()
    for line in without_comments(path.read_text(encoding="utf-8")).split("\n"):
        if re.match(r"\s*(?:pub )?(?:use|record|data|module) ", line):
            continue
        m = SIGNATURE.match(line)
        if m:
            words = m.group(1).split()
            names.update(words)
            if " : tie." in line and re.search(r" : (?:\([^)]*\) → )?tie\.(?:Need|[Ii]nvariant|[Dd]ecreases)", line):
                goals.update(words)
            if re.match(r"\s*(?:abbrev )?(?:pub )?(?:invariant|decreases)-", line):
                goals.update(words)
        m = DECLARED.match(line)
        if m:
            names.add(m.group(1))
        if not generated(path):
            for m in BOUND.finditer(line):
                for group in m.groups():
                    if group:
                        names.update(re.split(r"[ ,]+", group))
    return names, goals


def main():
    sources = sorted(p for c in CRATES for p in (TOP / "crates" / c).rglob("*") if p.suffix in (".antt", ".rt") and "out" not in p.parts)
    shared, local, goals = set(), {}, collections.defaultdict(set)
    for p in sources:
        if p.suffix != ".antt":
            continue
        names, asked = defined(p)
        if generated(p):
            local[p] = names - asked
            goals[p] = asked
        else:
            shared |= names
    table = {n: respelled(n) for n in shared if respelled(n) != n}
    fields = set()
    plan = {}
    for p in sources:
        text = p.read_text(encoding="utf-8")
        library = set()
        for m in IMPORT.finditer(text):
            if not own(m.group(1)):
                library |= {w.split(" as ")[0].strip() for w in m.group(2).split(",")}
        here = {n: s for n, s in table.items() if n not in library and n not in goals.get(p, ())}
        for n in local.get(p, ()):
            if n not in library and respelled(n) != n:
                here[n] = respelled(n)
        plan[p] = (text, here)
    clashes = []
    for p, (text, here) in plan.items():
        words = set(WORD.findall(text))
        back = collections.defaultdict(set)
        for n in words:
            back[here.get(n, n)].add(n)
        clashes += [(str(p.relative_to(TOP)), s, sorted(ns)) for s, ns in back.items() if len(ns) > 1]
    if "--list" in sys.argv:
        for n in sorted(table):
            print(n, table[n])
        for c in clashes:
            print("together:", *c)
        return
    everywhere = dict(table)
    for p, (text, here) in plan.items():
        if generated(p):
            # the steps of a proof are named after the functions that they call
            text = re.sub(rf"(?<=\.)[^{STOP}]+", lambda m: m.group(0).replace("-", "_") if here.get(m.group(0), "").endswith("_lem") else m.group(0), text)
        turned = "\n".join(line if re.match(r"\s*mod |\s*pub mod ", line) else turn(line, here, p.suffix) for line in text.split("\n"))
        if turned != text:
            p.write_text(turned, encoding="utf-8")
    for p in [TOP / "README.md", TOP / "CONTRIBUTING.md", *(TOP / "docs").glob("*.md"), *(TOP / "oracle").glob("*.md")]:
        text = p.read_text(encoding="utf-8")
        turned = re.sub(r"`[^`\n]+`", lambda m: WORD.sub(lambda w: everywhere.get(w.group(0), w.group(0)), m.group(0)), text)
        if turned != text:
            p.write_text(turned, encoding="utf-8")


def turn(line, here, suffix):
    if suffix == ".rt":
        code, mark, comment = line.partition("//")
        comment = re.sub(r"`[^`]+`", lambda m: WORD.sub(lambda w: here.get(w.group(0), w.group(0)), m.group(0)), comment)
        strings = re.split(r"(\"(?:[^\"\\]|\\.)*\")", code)
        return "".join(s if i % 2 else WORD.sub(lambda w: here.get(w.group(0), w.group(0)), s) for i, s in enumerate(strings)) + mark + comment
    code, mark, comment = re.match(r"((?:(?!--).|(?<=\S)--)*)((?:--)?)(.*)", line).groups()
    comment = re.sub(r"`[^`]+`", lambda m: WORD.sub(lambda w: here.get(w.group(0), w.group(0)), m.group(0)), comment)
    return WORD.sub(lambda w: here.get(w.group(0), w.group(0)), code) + mark + comment


main()
