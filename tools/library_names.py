#!/usr/bin/env python3
"""A name of the kit's library keeps the library's meaning: exit status 1 and a line for each of ours that takes one.

The library's names are read from the kit's own sources: the words (no laws, whose names say a fact) of its modules of numbers, tests and
lists that a file of the crates imports from, under whatever name std passes such a module on; what std passes on to every clause and every
proof, its `Prelude` and `Common`; and what stands for input and output, the kit's `io` and std's `Io`.

- No definition in a crate's specs, public or not, has such a name, and no law there or in its proofs, nor is one called `and` or `or`,
  which the library writes `◌&&◌` and `◌||◌`.
- No record field that is a function and no parameter of a definition in specs, and no parameter of a function in Rattle, has a name that
  a file of the crates imports, nor one of `all`, `any`, `and` and `or`.

    tools/library_names.py           check
    tools/library_names.py --list    print the library's names
"""
import functools
import json
import pathlib
import re
import subprocess
import sys

ROOT = pathlib.Path(__file__).resolve().parent.parent
CRATES = ROOT / "crates"
MODULES = ("mathlib.Core.Bool", "mathlib.Core.List", "lib.ListN", "lib.Seq", "lib.Dec", "lib.IntN", "lib.Signed", "native.Mathlib.Nat", "Prim.Native.Nat")
PASSED_ON = ("Rattle.std.specs.Prelude", "Rattle.std.proofs.Common")
READS_AND_WRITES = ("io/specs/*.antt", "std/specs/Io.antt", "std/specs/Io/*.antt")
CONNECTIVES = {"and", "or"}
SAME = {  # a definition that has a name of the library, and why
    ("whole/specs/Inner.antt", "sum"): "the library's meaning, for whole numbers",
    ("noise/proofs/Tensor.antt", "product"): "a law about the product of two numbers, used in its file alone",
    ("circuitfile/specs/Text.antt", "decimal"): "the library's meaning, defined from the paper; it is the older, and no file has both",
    ("refusal/specs/Order.antt", "position"): "the place of a number in the order of all; it is older than the library's, which no file imports, and seven crates cite it",
}
IMPORT = re.compile(r"^(?:ghost )?use ([\w.+]+)\.\{([^}]*)\}", re.M)
PASSES = re.compile(r"^ *(?:(?:abbrev|unfoldable) )*pub use ([\w.]+)\.\{([^}]*)\}", re.M)
PASSES_WHOLE = re.compile(r"^ *pub use ([\w.]+?)(?: as (\w+))?$", re.M)
DECLARED = re.compile(r"^( *)((?:(?:abbrev|unfoldable|opaque) )*)pub (record |data )?([A-Za-z]\w*)(?: [({].*?[)}])* :(?!:)(.*(?:\n\1 +\S.*)*)", re.M)
FACT = re.compile(r"[≡≢≤<↔∣¬⊥∥∈≃]|^(?:IsProp|Perm|Mem|T) ")
VALUE = re.compile(r"(?:Type|Bool|ℕ|ℤ|List|Option|Result|Ordering)\b")
DEFINITION = re.compile(r"^(?:(?:abbrev|unfoldable|opaque) )*(?:pub )?(?:(?:record|data) )?([A-Za-z]\w*)(?: [({].*[)}])? :(?!:)(.*)$")
FIELD = re.compile(r"^ +(?:pub )?([A-Za-z]\w*) :(?!:)(.*)$")


def sources():
    """The crates' files, without what the check made."""
    return [path for path in sorted(CRATES.rglob("*")) if path.suffix in (".antt", ".rt") and path.relative_to(CRATES).parts[1] != "out"]


def imports():
    """What the files of the crates import: module, and a name of it."""
    for path in sources():
        for module, names in IMPORT.findall(path.read_text(encoding="utf-8")):
            yield from ((module, name.split()[0]) for name in names.split(",") if name.split())


# ---- the library

@functools.lru_cache(maxsize=None)
def kit():
    """The folder of the installed kit's sources."""
    said = subprocess.run(["rt", "doc"], stdout=subprocess.PIPE, text=True, check=True).stdout.strip()
    return next(folder for folder in pathlib.Path(said).parents if (folder / "KIT-ID").exists()) / "rattle"


def project(folder):
    return json.loads((folder / "antt-project.json").read_text(encoding="utf-8"))


@functools.lru_cache(maxsize=None)
def own_place(module):
    """The module's own name and its file, through modules that pass it on whole; no file where the kit has no source of it."""
    top, *rest = module.split(".")
    mounts = project(kit() / "logic")["mounts"]
    if top == "Rattle" and len(rest) > 2:
        folder, rest = kit() / rest[0] / rest[1], rest[2:]
    elif top in mounts and rest:
        mounted = kit() / "logic" / mounts[top]
        folder = mounted / project(mounted).get("src", "src")
    else:
        return module, None
    path = folder.joinpath(*rest).with_suffix(".antt")
    if path.exists():
        return module, path
    above = own_place(module.rpartition(".")[0])[1] if len(rest) > 1 else folder / "Lib.antt"
    passed = PASSES_WHOLE.findall(above.read_text(encoding="utf-8")) if above and above.exists() else []
    found = next((other for other, name in passed if (name or other.rpartition(".")[2]) == rest[-1]), None)
    return own_place(found) if found else (module, None)


def is_word(marks, kind, kind_of):
    """Whether what is declared so is a word and no law: a law's type ends in a fact."""
    depth, at = 0, 0
    for k, sign in enumerate(kind_of):
        depth += (sign in "({") - (sign in ")}")
        if sign == "→" and not depth:
            at = k + 1
    ends = kind_of[at:].strip()
    return bool(kind) or not FACT.search(ends) and bool(marks.strip() or VALUE.match(ends))


@functools.lru_cache(maxsize=None)
def words(module):
    """The words that a module of the kit declares or passes on; None where the kit has no source of it."""
    _, path = own_place(module)
    if path is None:
        return None
    text = re.sub(r"(?:^|(?<= ))-- .*$", "", path.read_text(encoding="utf-8"), flags=re.M)
    found = {name for _, marks, kind, name, kind_of in DECLARED.findall(text) if is_word(marks, kind, kind_of)}
    for other, names in PASSES.findall(text):
        known = words(other)
        for name, _, renamed in (name.strip().partition(" as ") for name in names.split(",")):
            if re.fullmatch(r"[A-Za-z]\w*", renamed or name) and (known is None or name in known):
                found.add(renamed or name)
    return found


def is_of_numbers(module):
    return own_place(module)[0] in MODULES


def exported():
    """The library's words, each with a module that has it."""
    found = {}
    for module, name in imports():
        if is_of_numbers(module):
            here = words(module)
            found.update((word, module) for word in (here if here is not None else [name]) if re.fullmatch(r"[A-Za-z]\w*", word))
    for module in PASSED_ON:
        found.update((word, module) for word in words(module) if word not in found)
    for place in READS_AND_WRITES:
        for path in sorted(kit().glob(place)):
            module = "Rattle." + ".".join(path.relative_to(kit()).with_suffix("").parts)
            found.update((word, module) for word in words(module) if word not in found)
    return found


# ---- ours

def bare(path):
    """(line, text) of a file of definitions, without comments and imports."""
    for at, line in enumerate(path.read_text(encoding="utf-8").splitlines(), 1):
        if not re.match(r"(?:ghost )?use |unfolding ", line):
            yield at, re.sub(r"(?:^|(?<= ))-- .*$", "", line)


def is_function(kind):
    return "→" in kind or "∀" in kind


def spec_names(path):
    """(line, what, name) of the definitions, function fields and parameters of a file in specs or proofs."""
    in_module = in_record = False
    for at, line in bare(path):
        in_module = line.startswith("module ") or in_module and not line[:1].strip()
        in_record = " record " in f" {line}" or in_record and not line[:1].strip()
        head, field = DEFINITION.match(line.removeprefix("  " * in_module)), FIELD.match(line)
        if head and not (in_record and in_module and line.startswith("   ")):
            yield at, "definition", head[1]
        elif field and in_record and is_function(field[2]):
            yield at, "field", field[1]
        for group in re.findall(r"[({]([\w' ]+) : ", line):
            yield from ((at, "parameter", name) for name in group.split())


def code_names(path):
    """(line, what, name) of the parameters of a file's functions."""
    text = path.read_text(encoding="utf-8")
    for found in re.finditer(r"\bfn \w+(?:<[^>]*>)?\(([^)]*)\)", text):
        yield from ((text.count("\n", 0, found.start()) + 1, "parameter", name) for name in re.findall(r"(\w+):", found[1]))


def faults(library):
    imported = {name for module, name in imports() if is_of_numbers(module) or module in PASSED_ON} | CONNECTIVES | {"all", "any"}
    defined = set(library) | CONNECTIVES
    files = [(path, spec_names(path)) for path in CRATES.glob("*/specs/**/*.antt")] + [(path, code_names(path)) for path in CRATES.glob("*/src/*.rt")]
    files += [(path, (name for name in spec_names(path) if name[1] == "definition")) for path in CRATES.glob("*/proofs/*.antt")]
    for path, names in sorted(files, key=lambda file: file[0]):
        place = str(path.relative_to(CRATES))
        for at, what, name in names:
            if name in (defined if what == "definition" else imported) and (place, name) not in SAME:
                yield f"crates/{place}:{at}: the {what} {name} has a name of {library.get(name, 'the library')}"


def main():
    library = exported()
    if "--list" in sys.argv:
        print("\n".join(f"{module}: {name}" for name, module in sorted(library.items(), key=lambda pair: pair[::-1])))
        return 0
    found = list(faults(library))
    for fault in found:
        print("library names:", fault)
    print(f"library names: {len(library)} of the kit's words, {len(found)} faults")
    return 1 if found else 0


if __name__ == "__main__":
    sys.exit(main())
