"""Document 01 and the requests of document 02 as numbered sentences, the pages that answer them, and the names that such a page gives.

A row of a page is a bullet: a number, the sentence, and below it a bullet for each thing that answers it, or one that begins with
`nothing:` and says why nothing does. Lines are broken anywhere. A sentence that a landed request changes is marked behind its
number: `3.5 (changed by A2)`. A request has landed where it has a page in docs/changes/; its own sentences are numbered A2.1, A2.2, ..
"""
import pathlib
import re
from typing import NamedTuple

ROOT = pathlib.Path(__file__).resolve().parent.parent
CRATES = ROOT / "crates"
SECTIONS = (
    "What the engine covers", "Parameters", "Arithmetic", "Circuits", "Refusal numbers", "Circuit file and printer",
    "Sheet 0 and edge figures", "Language forms in the code", "What the promises must pin",
)
NOTHING = "nothing:"
ROW = re.compile(r"((?:A\d+|\d+)\.\d+)(?: \(changed by ([^)]*)\))? (.*)")


class Row(NamedTuple):
    number: str
    changed_by: list
    sentence: str
    holders: list


def read(path):
    return (ROOT / path).read_text(encoding="utf-8")


def flat(text):
    """The text on one line."""
    return " ".join(text.split())


# ---- the two documents

def is_rule(cells):
    """Whether a table's row is the line under its head."""
    return set("".join(cells)) <= set("-: ")


def cells_of(line):
    """The cells of a table's row."""
    return [cell.strip() for cell in re.split(r"(?<!\\)\|", line.strip())[1:-1]]


def blocks(text):
    """The paragraphs, bullets, table rows and code blocks of a section, in order."""
    code, para = None, []
    for line in text.split("\n") + [""]:
        fence = line.startswith("```")
        ends = fence or not line.strip() or line.startswith(("|", "- "))
        if para and ends and code is None:
            yield "text", " ".join(para)
            para = []
        if fence:
            if code is not None:
                yield "code", " ".join(code)
            code = [] if code is None else None
        elif code is not None:
            code.append(line)
        elif line.startswith("|"):
            if not is_rule(cells_of(line)):
                yield "row", " · ".join(cells_of(line))
        elif line.strip():
            para.append(line.strip().removeprefix("- "))


def sentences(text):
    """The sentences of a section. A table's head row is none."""
    head = True
    for kind, block in blocks(text):
        if kind == "row":
            if not head:
                yield block
            head = False
            continue
        head = True
        if kind == "code":
            yield block
        else:
            yield from (s.strip() for s in re.split(r"(?<=\.)\s+(?=[A-Z0-9`\[<])", block) if s.strip())


def section(page, heading):
    """The text of a page under `## heading`."""
    parts = re.split(r"^## (.*)$", page, flags=re.M)
    return dict(zip(parts[1::2], parts[2::2]))[heading]


def requests():
    """The title and the text of each request of document 02, by its number."""
    found = re.findall(r"^\*\*(A\d+)\. ([^*]+)\.\*\* (.*)$", read("docs/REQUESTS.md"), re.M)
    return {number: (title, text) for number, title, text in found}


def landed():
    """The requests that have landed, in order."""
    pages = {path.stem for path in (ROOT / "docs" / "changes").glob("A*.md")}
    return [number for number in requests() if number in pages]


def numbered(sections=SECTIONS):
    """(number, sentence) of document 01, then of each request that has landed."""
    paper = read("docs/PAPER.md")
    for i, heading in enumerate(sections):
        for j, sentence in enumerate(sentences(section(paper, heading)), 1):
            yield f"{i}.{j}", sentence
    for number in landed():
        for j, sentence in enumerate(sentences(requests()[number][1]), 1):
            yield f"{number}.{j}", sentence


# ---- pages

def bullets(text):
    """Each bullet at the left margin, and the bullets below it, each on one line."""
    for block in re.findall(r"^- .*(?:\n +\S.*)*", text, re.M):
        head, *below = block[2:].split("\n  - ")
        yield flat(head), [flat(item) for item in below]


def entries(text):
    """The bold name that an entry begins with, the rest of its paragraph, and its bullets."""
    for block in re.findall(r"^\*\*[^*]+\*\*.*(?:\n.+)*", text, re.M):
        head, *below = block.split("\n- ")
        _, name, rest = head.split("**", 2)
        yield flat(name), flat(rest), [flat(item) for item in below]


def rows(page):
    """The rows of a page."""
    for head, holders in bullets(page):
        found = ROW.fullmatch(head)
        if found:
            yield Row(found[1], re.findall(r"A\d+", found[2] or ""), found[3], holders)


def marks(page):
    """What each marked sentence is said to be changed by."""
    return {row.number: row.changed_by for row in rows(page) if row.changed_by}


def holder_faults(row, answer_faults):
    """What is wrong with that which a row gives."""
    if not row.holders:
        yield "nothing answers it"
    elif not any(holder.startswith(NOTHING) for holder in row.holders):
        yield from answer_faults(row.holders)
    elif len(row.holders) > 1:
        yield "says that there is nothing, and more"
    elif len(row.holders[0]) < len(NOTHING) + 4:
        yield "says that there is nothing and not why"


def row_faults(page, sections, answer_faults):
    """Where a page's rows are not the sentences of document 01 and of the landed requests, or what answers one is no answer."""
    sentence_of, here, seen = dict(numbered(sections)), landed(), set()
    for row in rows(page):
        if row.number in seen:
            yield f"{row.number}: two rows"
        seen.add(row.number)
        if sentence_of.get(row.number) != row.sentence:
            yield f"{row.number}: the row's words are not the paper's: {row.sentence}"
        yield from (f"{row.number}: changed by {number}, which has not landed" for number in row.changed_by if number not in here)
        yield from (f"{row.number}: {fault}" for fault in holder_faults(row, answer_faults))
    yield from (f"{number}: no row for: {sentence_of[number]}" for number in sentence_of if number not in seen)
    for number in here:
        heading = f"{number}. {requests()[number][0]}"
        if not re.search(rf"^##+ {re.escape(heading)}$", page, re.M):
            yield f"no heading: {heading}"


# ---- names

def names(answer):
    """(place, name) for each name that an answer gives as `crate/File`: `name`, `name`, as of specs/, or after `crate/proofs/File`,
    or after the whole path, `crate/specs/File.antt`. A place is CRATE/FOLDER/FILE, or CRATE/src."""
    for crate, folder, file, group in re.findall(r"`(\w+)/(?:(specs|proofs)/)?(\w+)(?:\.antt)?`: ((?:`[^`]+`(?:, )?)+)", flat(answer)):
        place = f"{crate}/src" if file == "src" else f"{crate}/{folder or 'specs'}/{file}"
        yield from ((place, name) for name in re.findall(r"`([^`]+)`", group))


def declared(place, name):
    """Whether `name` is declared in crates/CRATE/specs/FILE.antt or crates/CRATE/proofs/FILE.antt, or as a type in crates/CRATE/src/lib.rt."""
    crate, _, file = place.partition("/")
    if file == "src":
        path, pattern = CRATES / crate / "src" / "lib.rt", rf"pub (struct|enum|fn) {re.escape(name)}\b"
    else:
        path = CRATES / crate / f"{file}.antt"
        pattern = rf"^\s*((abbrev|unfoldable) )*pub (record |data )?{re.escape(name)}( \{{[^}}]*\}})?( \(.*\))? :"
    return path.exists() and bool(re.search(pattern, path.read_text(encoding="utf-8"), re.M))


def undeclared(answer):
    """A fault for each name that is not where the answer says."""
    return (f"{place} declares no {name}" for place, name in names(answer) if not declared(place, name))
