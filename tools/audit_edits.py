"""The small wrong edits of the mutation audit (tools/audit.py): of functions in Rattle's text and of definitions in the logic's."""
import collections
import re

Edit = collections.namedtuple("Edit", "crate folder file line name old new")

NUMBER = re.compile(r"(?<![\w-])(?<!\w\.)\d+(?=(?:u8|u32|u64|i64|usize)?\b)(?!\.\d)")
WORD = re.compile(r"(?<![\w.:'])[A-Za-z]\w*\b(?![:(!'])")
ARGUMENTS = re.compile(r"\b([a-z]\w*), ([a-z]\w*)(?=[,)]| as )")
LETTER = re.compile(r"(?<=\bb['\"])\w")
ROW = re.compile(r"(?:return |row[ (]|row_of )(\d+)")
FIELD = re.compile(r"(?<=[\w')]\.)[a-z]\w*")


class Language:
    """How one of the two languages writes operators, what stands for what, of fields of a record too, and negation."""

    def __init__(self, exchanged, like, fields, negation):
        self.exchanged, self.like, self.fields, self.negation = exchanged, like, fields, re.compile(negation)
        longest = sorted(exchanged, key=len, reverse=True)
        self.operator = re.compile("(?<![^ (])(" + "|".join(map(re.escape, longest)) + ")(?= )")


CODE = Language(
    {"<": "<=", "<=": "<", "+": "-", "-": "+", "+=": "-=", "==": "!=", "!=": "==", "&": "|", "|": "&", "*": "+", "/": "%", "%": "/", ">>": "<<"},
    (("left", "right"), ("lefts", "rights"), ("kinds", "lefts"), ("c", "d"), ("b1", "b2"), ("x", "y"), ("u", "v"), ("i", "j"), ("hi", "lo"), ("inputs", "gates"),
     ("n", "l"), ("l", "f"), ("low", "high"), ("masks", "errors"), ("number", "later")),
    (),
    r"!(?=[\w(])",
)
LOGIC = Language(
    {"+": "-", "-": "+", "*": "+", "/": "%", "%": "/", "+ℤ": "-ℤ", "-ℤ": "+ℤ", "*ℤ": "+ℤ", "&&": "||", "||": "&&", "leb": "ltb", "ltb": "leb", "le_z": "lt_z",
     "lt_z": "le_z", "take": "drop", "drop": "take", "≤": "<", "<": "≤"},
    (("B1", "B2"), ("c", "d"), ("x", "y"), ("b1", "b2"), ("left", "right"), ("L", "F"), ("masks", "f"), ("true", "false"), ("s", "c"), ("n", "q"), ("l", "f"),
     ("q", "b"), ("ws", "gs"), ("inputs", "gates")),
    (("left", "right"), ("left_bound", "right_bound"), ("n", "q"), ("l", "f"), ("e", "f"), ("masks", "errors"), ("key", "masks"), ("key", "mask"),
     ("key", "ciphertext"), ("key", "wires"), ("key", "scratch"), ("wires", "scratch"), ("inputs", "count"), ("number", "place"), ("kind", "left")),
    r"\bnot (?=\()",
)


# names of one module each: a file that imports one of a pair is made to import both, so that the edit means something
PARTNERS = (("leb", "ltb"), ("le_z", "lt_z"), ("take", "drop"), ("◌*◌", "◌+◌"), ("◌+◌", "◌-◌"), ("◌/◌", "◌%◌"), ("◌*ℤ◌", "◌+ℤ◌"), ("◌+ℤ◌", "◌-ℤ◌"), ("◌&&◌", "◌||◌"),
            ("true", "false"), ("◌≤◌", "◌<◌"))


class Body:
    """A function, constant or definition: its name, the number of its first line, and its lines."""

    def __init__(self, name, first, lines):
        self.name, self.first, self.lines = name, first, lines
        self.words, self.fields = set(WORD.findall("\n".join(lines))), set(FIELD.findall("\n".join(lines)))
        self.rows = [n for line in lines for n in ROW.findall(line)] if name.endswith(("number", "_rows")) else []


def code_bodies(text):
    """The functions and constants of a source file. The layout puts a body's brackets on lines of their own, as far in as its head."""
    lines = text.splitlines()
    for at, line in enumerate(lines):
        head = re.match(r"( *)(?:pub )?(?:extern \"C\" )?(fn|const) (\w+)", line)
        if head and head[2] == "const" and line.endswith(";"):
            yield Body(head[3], at, [line])
        elif head:
            ends = next(k for k in range(at, len(lines)) if lines[k] in (head[1] + "{", head[1] + "}", head[1] + "];") or lines[k].endswith((";", "{", "[")))
            if head[2] == "fn" and lines[ends].endswith(";"):  # a trait's, which has no body
                continue
            close = next(k for k in range(at, len(lines)) if lines[k] in (head[1] + "}", head[1] + "];"))
            start = next(k for k in range(at, close) if lines[k] == head[1] + "{" or k == at and line.endswith(("{", "["))) + 1
            yield Body(head[3], start, lines[start:close])


def definition_bodies(text, names):
    """The definitions of these names: the lines behind the type, and of a record those of its fields, up to the next empty one."""
    lines = text.splitlines()
    for at, line in enumerate(lines):
        head = re.match(r"(?:abbrev pub|unfoldable pub|pub record) (\S+) ", line)
        if head and head[1] in names:
            start = at + 1 if "record" in head[0] else next(k for k in range(at, len(lines)) if lines[k].startswith(head[1] + " "))
            close = next((k for k in range(start, len(lines)) if not lines[k].strip()), len(lines))
            yield Body(head[1], start, lines[start:close])


def without_functions(text):
    """The text of a source file without its functions."""
    kept, lines = [], iter(text.splitlines())
    for line in lines:
        head = re.match(r"( *)(?:pub )?(?:extern \"C\" )?fn ", line)
        if head:
            while kept and kept[-1].strip().startswith(("//", "#[")):
                kept.pop()
            while line != head[1] + "}":
                line = next(lines)
        else:
            kept.append(line)
    return "".join(f"{line}\n" for line in kept)


def with_partners(text):
    """The text of a file of definitions, in which the imports have the partners of their names."""
    imports = r"^(use \S+\.)\{([^}]*)\}"
    known = {name for _, names in re.findall(imports, text, re.M) for name in names.split(", ")}

    def both(found):
        names = found[2].split(", ")
        for pair in PARTNERS:
            if set(pair) & set(names):
                names += [name for name in pair if name not in known]
                known.update(pair)
        return f"{found[1]}{{{', '.join(names)}}}"
    return re.sub(imports, both, text, flags=re.M)


def replaced(line, found, new):
    return line[:found.start()] + new + line[found.end():]


def other_numbers(body, found):
    """One more and one less, and in a list of refusals the numbers of the rows beside it."""
    number = int(found.group())
    yield from (number + 1, number - 1)[:2 if number > 0 else 1]
    if found.group() in body.rows:
        at = body.rows.index(found.group())
        yield from map(int, body.rows[max(at - 1, 0):at + 2])


def variants(language, body, line):
    """Every line that differs from this one in one place."""
    for found in language.operator.finditer(line):
        yield replaced(line, found, language.exchanged[found.group()])
    for found in NUMBER.finditer(line):
        yield from (replaced(line, found, str(n)) for n in other_numbers(body, found))
    for found in WORD.finditer(line):
        for pair in language.like:
            if found.group() in pair and body.words >= set(pair):
                yield replaced(line, found, pair[1 - pair.index(found.group())])
    for found in FIELD.finditer(line):
        for pair in language.fields:
            if found.group() in pair and body.fields >= set(pair):
                yield replaced(line, found, pair[1 - pair.index(found.group())])
    for found in ARGUMENTS.finditer(line):
        yield replaced(line, found, f"{found.group(2)}, {found.group(1)}")
    for found in language.negation.finditer(line):
        yield replaced(line, found, "")
    for found in LETTER.finditer(line):
        yield replaced(line, found, "Z")


def head_of(body, line):
    """The head of a clause, which names what it is given and is none of its text; of a field, its name."""
    field = re.match(r"  pub [\w-]+ : ", line)
    if field:
        return field[0]
    if not line.startswith(body.name + " "):
        return ""
    return line[:line.index(" = ") + 3] if " = " in line else line


def edits(language, crate, path, body):
    for at, line in enumerate(body.lines, body.first):
        if line.strip().startswith(("//", "--", "ghost")):
            continue
        head = head_of(body, line)
        for new in dict.fromkeys(head + v for v in variants(language, body, line[len(head):])):
            if new != line:
                yield Edit(crate, path.parent.name, path.name, at, body.name, line.strip(), new.strip())


def of_code(root, crate):
    """The edits of a crate's functions and constants, in the order of its text."""
    for path in sorted((root / "crates" / crate / "src").glob("*.rt")):
        for body in code_bodies(path.read_text(encoding="utf-8")):
            yield from edits(CODE, crate, path, body)


def defined(root, crate):
    """The names that the table of definitions gives, file by file."""
    table = " ".join((root / "docs" / "DEFINITIONS.md").read_text(encoding="utf-8").split())
    names = collections.defaultdict(set)
    for file, listed in re.findall(rf"`{crate}/(\w+)`: ((?:`[^`]+`(?:, )?)+)", table):
        names[file].update(re.findall(r"`([^`]+)`", listed))
    return names


def by_hand(root, crate):
    """The edits made by hand, of definitions that have no operator, number or like operands: place, name, old and new text."""
    for line in (root / "tools" / "audit_by_hand.tsv").read_text(encoding="utf-8").splitlines():
        place, name, old, new = line.split("\t")
        if place.startswith(crate + "/"):
            path = root / "crates" / crate / "specs" / f"{place.split('/')[1]}.antt"
            bodies = definition_bodies(path.read_text(encoding="utf-8"), {name})
            at, line = next(((at, line) for body in bodies for at, line in enumerate(body.lines, body.first) if old in line), (0, ""))
            if not line:
                raise SystemExit(f"audit: {place} has no {name} with the text {old}")
            yield Edit(crate, "specs", path.name, at, name, line.strip(), line.strip().replace(old, new))


def of_definitions(root, crate):
    """The edits of the definitions of a crate that the table of definitions names."""
    yield from by_hand(root, crate)
    for file, names in sorted(defined(root, crate).items()):
        path = root / "crates" / crate / "specs" / f"{file}.antt"
        if path.exists():
            for body in definition_bodies(path.read_text(encoding="utf-8"), names):
                yield from edits(LOGIC, crate, path, body)
