"""The functions of the crates' sources, with their contracts."""
import re
from typing import NamedTuple

from paper import CRATES

HEAD = r'^ *(pub )?(?:extern "C" )?fn (\w+)(?:<(?:[^<>]|<[^<>]*>)*>)?\(([^)]*)\)(?: -> ([^\n{]+?))?'
CLAUSE = r"^ +(requires|ensures)(?: (\w+))? \{ (.*) \}$"
# A trait's method ends after its clauses, with no body.
FUNCTION = re.compile(HEAD + r"(?: \{|((?:\n +(?:requires|ensures)\b[^\n;]*)*)(?:\n *\{|;))$", re.M)


class Clause(NamedTuple):
    name: str       # or nothing
    says: str

    def parts(self):
        """What it says, each part of a conjunction by itself."""
        return [bare(part) for part in split(self.says, " × ")]


class Function(NamedTuple):
    crate: str
    file: str
    public: bool
    name: str
    lent: list      # the buffers that it may write
    returns: bool
    requires: list
    ensures: list

    def is_in_root(self):
        """Whether its path has no module: it stands in the crate's root, or the root passes it on."""
        return self.file in ("lib", "main") or self.name in passed_on(self.crate, self.file)

    def is_reached(self):
        """Whether another crate can call it: public, in a library's root or in a public module of it, or passed on by the root."""
        return self.public and self.file != "main" and (self.is_in_root() or f"\npub mod {self.file};" in root_of(self.crate))

    def names_its_answer(self):
        """Whether a clause of its promise speaks of what it returns."""
        return any(re.search(r"(?<![\w.])result(?!\w)", clause.says) for clause in self.ensures)

    def promise(self):
        """The record of a promise that its contract cites, with what it is given, or nothing."""
        for clause in self.ensures:
            name, *given = [bare(word) for word in split(clause.says, " ")]
            if name in PROMISES:
                return name, given
        return None, []

    def definition_of(self, what):
        """The definition that its promise equates with what it returns, `result`, or with a buffer at exit, as `out.new`."""
        name, given = self.promise()
        if name:
            parameters, fields = PROMISES[name]
            of = re.compile(rf"(?:(?:answer_to|\w+_of) )?{re.escape(what)}")  # itself, or the paper's form of a Result
            names = [parameter for parameter, argument in zip(parameters, given) if of.fullmatch(argument)]
            return next((fields[parameter] for parameter in names if parameter in fields), None)
        parts = [part for clause in self.ensures for part in clause.parts()]
        return next((part.split()[2] for part in parts if part.startswith(f"{what} ≡ ")), None)


def root_of(crate):
    """The text of a library's root."""
    path = CRATES / crate / "src" / "lib.rt"
    return path.read_text(encoding="utf-8") if path.exists() else ""


def passed_on(crate, module):
    """The names that a library's root passes on from a module of it."""
    groups = re.findall(rf"^pub use {module}::(?:\{{([^}}]*)\}}|(\w+));", root_of(crate), re.M)
    return {name.strip() for some, one in groups for name in (some or one).split(",")}


def split(text, mark):
    """The text between the marks that stand outside its parentheses."""
    found, depth, start = [], 0, 0
    for i in range(len(text)):
        depth += {"(": 1, ")": -1}.get(text[i], 0)
        if not depth and i >= start and text.startswith(mark, i):
            found.append(text[start:i])
            start = i + len(mark)
    return [part for part in [*found, text[start:]] if part]


def bare(text):
    """The text without the parentheses around it."""
    return text[1:-1] if text.startswith("(") and split(text, ")")[0] == text[:-1] else text


def promises():
    """The records of promises in the crates' definitions: their parameters, and for each parameter that a field equates the definition."""
    for path in sorted(CRATES.glob("*/specs/*.antt")):
        for head, body in re.findall(r"^pub record (\w+ .*) : Type 0 where\n((?:  .*\n)+)", path.read_text(encoding="utf-8"), re.M):
            name, _, telescope = head.partition(" ")
            parameters = [p for group in re.findall(r"\(([^:()]+) :", telescope) for p in group.split()]
            yield name, (parameters, dict(re.findall(r"^  pub [\w-]+ : (\w+) ≡ ([\w-]+)", body, re.M)))


PROMISES = dict(promises())


def functions():
    for path in sorted(CRATES.glob("*/src/*.rt")):
        text = path.read_text(encoding="utf-8")
        found = FUNCTION.findall(text)
        assert len(found) == len(re.findall(r"^ *(?:pub )?(?:extern .*)?fn ", text, re.M)), f"{path}: a function that is not read"
        for public, name, lent, returned, contract in found:
            clauses = re.findall(CLAUSE, contract, re.M)
            assert len(clauses) == len(contract.split("\n")) - 1, f"{path}: a clause of {name} that is not read"
            requires, ensures = ([Clause(*clause[1:]) for clause in clauses if clause[0] == kind] for kind in ("requires", "ensures"))
            yield Function(
                path.parent.parent.name, path.stem, bool(public), name, re.findall(r"(\w+): &mut", lent), bool(returned), requires, ensures)


ALL = list(functions())


def find(crate, path):
    """The function of that path, in its module's file, or in the crate's root where the path has no module."""
    *before, name = path.split("::")
    module = before[0] if before and before[0].islower() else None
    return next((f for f in ALL if f.crate == crate and f.name == name and (f.file == module if module else f.is_in_root())), None)


def is_module(crate, path):
    return (CRATES / crate / "src" / f"{path}.rt").exists()
