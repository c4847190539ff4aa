#!/usr/bin/env python3
"""Every name in the backquotes of a comment must exist: exit status 1 and a line for each that does not.

Read are the comments of all `.rt` and `.antt` files of the crates, and the pages of the design, the decisions, the definitions and the
promises, which may name what is in any crate and what the scripts of the tests use. What stands in backquotes there is one of these:

- a path, `crate::module::function`, or `module::function` or `Type::function` of the same crate or of what its code uses: it is there;
- a file, `crate/File`, `crate/specs/File.antt`, or a must-fail edit, `crate/edit`: it is there;
- a module of the logic, `lib.IntN`: a file of the crates imports from it;
- text: each word of it that looks like a name, from two letters on, is declared in the crate itself or in one that it leans on (a module, a
  file, a function, a definition, a law, a set of rules, a clause, a field, a parameter or a local), or imported in the crate, or it is a crate,
  a word of the languages, or a word of the same file or of the module that the file proves.

    tools/names.py           check
    tools/names.py --list    print the names that were found, one line each
"""
import functools
import pathlib
import re
import sys

ROOT = pathlib.Path(__file__).resolve().parent.parent
CRATES = ROOT / "crates"
MARK = {".rt": "//", ".antt": "--"}
WORD = re.compile(r"[^\W\d_][\w'→-]*[\w']")
PATH = re.compile(r"\w+(?:::\w+)+")
FILE = re.compile(r"(?:\w+/)+\w+(?:\.\w+)?|\w+\.(?:antt|rt|py|md|txt)")
LANGUAGE = {"requires", "ensures", "unfolding", "omega"}
PAGES = ("docs/DESIGN.md", "docs/DECISIONS.md", "docs/DEFINITIONS.md", "docs/PROMISES.md")
FORM = re.compile(r"crate(::|/).*|crates/(crate|NAME)/.*")  # how such a name is written, and none itself
MODULE = re.compile(r"\w+(?:\.\+?\w+)+")
IMPORT = re.compile(r"^(?:ghost )?use [^;{]*\.\{([^}]*)\}", re.M)
LOGIC = (  # declarations, fields and locals; sets of rules; parameters; bound names
    re.compile(r"^ *(?:(?:abbrev|unfoldable|opaque|let) )*(?:pub )?(?:(?:record|data) )?([^\s:(){}=]+)(?: [({].*?[)}])* :(?= |$)", re.M),
    re.compile(r"^ *(?:pub )?ruleset (\S+) =", re.M), re.compile(r"[({]([\w' -]+) :"), re.compile(r"λ ([\w' ]+)\."),
)
CODE = (  # declarations and locals; clauses; fields; parameters
    re.compile(r"\b(?:fn|struct|enum|trait|const|mod|let mut|let) (\w+)"), re.compile(r"^ +(?:requires|ensures) (\w+) \{", re.M),
    re.compile(r"^ +(?:pub )?(\w+):", re.M), re.compile(r"[(,] ?(\w+): "),
)


def sources(crate):
    """The crate's files, without what the check made."""
    return sorted(path for path in (CRATES / crate).rglob("*") if path.suffix in MARK and path.relative_to(CRATES).parts[1] != "out")


def parted(path):
    """A source file's text without its comments, and the comments as (line, text), those on neighbouring lines put together."""
    code, comments, open_at = [], [], -1
    for at, line in enumerate(path.read_text(encoding="utf-8").splitlines(), 1):
        before, mark, after = line.partition(MARK[path.suffix])
        if path.suffix == ".antt" and mark and (before[-1:] not in ("", " ") or after[:1] not in ("", " ")):
            before, mark = line, ""
        code.append(before)
        if mark and open_at == at - 1 and not before.strip():
            comments[-1] = (comments[-1][0], f"{comments[-1][1]} {after.strip('/! ')}")
        elif mark:
            comments.append((at, after.strip("/! ")))
        open_at = at if mark else -1
    return "\n".join(code), comments


@functools.lru_cache(maxsize=None)
def leans():
    """Each crate with those that it leans on."""
    lines = (ROOT / "crates.txt").read_text(encoding="utf-8").splitlines()
    return {line.split(":")[0].split()[0]: line.partition(":")[2].split() for line in lines if ":" in line and not line.startswith("#")}


def words(path):
    """The words of a file that are in no comment."""
    return set(WORD.findall(parted(path)[0]))


@functools.lru_cache(maxsize=None)
def local(crate):
    """The names that a crate's sources declare."""
    found = {path.stem for path in sources(crate)}
    for path in sources(crate):
        for pattern in LOGIC if path.suffix == ".antt" else CODE:
            found |= {word for group in pattern.findall(parted(path)[0]) for word in group.split()}
    return found


@functools.lru_cache(maxsize=None)
def known(crate):
    """The words that any comment of a crate may use as a name."""
    imported = {word for path in sources(crate) for group in IMPORT.findall(parted(path)[0]) for word in WORD.findall(group)}
    imported |= {name for path in sources(crate) if path.suffix == ".rt" for _, _, name in uses(path)}
    near = {crate, *leans()[crate]} & set(leans())
    return set(leans()) | LANGUAGE | imported | {word for name in near for word in local(name)}


@functools.lru_cache(maxsize=None)
def beside(crate, path):
    """The words of a file, and of the module that it proves."""
    folder, module = path.relative_to(CRATES / crate).parts[:2]
    sources_of = [CRATES / crate / "src" / f"{name}.rt" for name in (module, "lib", "main")] if folder == "proofs" else []
    proved = next((source for source in sources_of if source.exists()), path)
    return words(path) | words(proved)


def uses(path):
    """What a source file uses: whether it passes it on, the path before it, and its name."""
    for marks, before, one, group in re.findall(r"^(pub )?use (\w+(?:::\w+)*)::(?:(\w+)|\{([^}]*)\});", parted(path)[0], re.M):
        yield from ((marks, before, name) for name in re.findall(r"\w+", one or group))


@functools.lru_cache(maxsize=None)
def declared(crate):
    """The paths of a crate's functions, types, constants and modules: (module or type, name), with "" for the root."""
    found = {("", "")}
    for path in sorted((CRATES / crate / "src").glob("*.rt")):
        module, owner = ("" if path.stem in ("lib", "main") else path.stem), ""
        found.add(("", module))
        for line in parted(path)[0].splitlines():
            owner = next(iter(re.findall(r"^(?:impl(?:<.*?>)? (?:.* for )?|(?:pub )?trait )(\w+)", line)), "" if line.startswith("}") else owner)
            for name in re.findall(r"^ *(?:pub )?(?:extern \"C\" )?(?:fn|struct|enum|trait|const) (\w+)", line):
                found |= {(owner or module, name), (module, name)}
        found |= {("", name) for marks, _, name in uses(path) if marks}
    return found


def is_in(crate, parts):
    """Whether a crate has a function, type, constant or module of that path."""
    owner, name = ([""] + parts)[-2:]
    return (owner, name) in declared(crate) and all(("", part) in declared(crate) for part in parts[:-2])


def is_path(crate, path):
    """Whether the path begins with a crate, stands in the crate itself, or begins with what its code uses of another."""
    parts = path.split("::")
    if parts[0] in leans() and is_in(parts[0], parts[1:]) or is_in(crate, parts):
        return True
    used = {before.split("::")[0] for source in sources(crate) if source.suffix == ".rt" for _, before, name in uses(source) if name == parts[0]}
    return any(is_in(other, parts) for other in used & set(leans()))


def is_file(crate, name):
    tail = name if re.search(r"\.\w+$", name) else f"{name}.*"
    places = (ROOT, CRATES, CRATES / crate, CRATES / crate / "specs", CRATES / crate / "proofs", CRATES / crate / "src")
    if any(any(place.glob(tail)) or (place / name).exists() for place in places) or any((CRATES / crate / "proofs").glob(f"**/{tail}")):
        return True
    head, _, rest = tail.partition("/")
    return head in leans() and any(any((CRATES / head / folder).glob(rest)) for folder in ("specs", "proofs", "src", "must-fail"))


@functools.lru_cache(maxsize=None)
def modules():
    """The modules of the logic that the crates import from."""
    files = [path for crate in leans() for path in sources(crate)]
    return {module for path in files for module in re.findall(r"^(?:ghost )?use ([\w.+]+?)(?:\.\{| as |;|$)", parted(path)[0], re.M)}


def unknown(crate, path, text):
    """The names in a comment's backquotes that do not exist."""
    if PATH.fullmatch(text):
        return [] if is_path(crate, text) else [text]
    if FILE.fullmatch(text):
        return [] if is_file(crate, text) else [text]
    if MODULE.fullmatch(text):
        return [] if text in modules() else [text]
    return [word for word in WORD.findall(text) if word not in known(crate) and word not in beside(crate, path)]


def unknown_on_page(text):
    """The names in a page's backquotes that no crate and no script has."""
    if PATH.fullmatch(text):
        return [] if any(is_path(crate, text) for crate in leans()) else [text]
    if FILE.fullmatch(text) or text.endswith("/"):
        return [] if any(is_file(crate, text.rstrip("/")) for crate in leans()) else [text]
    return [word for word in WORD.findall(text) if not any(word in known(crate) for crate in leans()) and word not in of_scripts()]


@functools.lru_cache(maxsize=None)
def of_scripts():
    """The words of the scripts, but for the one that knows the older spelling."""
    paths = [ROOT / "test", *(ROOT / "tools").glob("*.py"), *(ROOT / "tools").glob("*.sh"), *(ROOT / "bench").glob("*.py")]
    paths.remove(ROOT / "tools" / "respell.py")
    return {word for path in paths for word in WORD.findall(path.read_text(encoding="utf-8"))}


def of_pages():
    """(path, line, text) of each backquoted text of a page. A text may stand on two lines."""
    for page in PAGES:
        text = (ROOT / page).read_text(encoding="utf-8")
        for found in re.finditer(r"`([^`]+)`", text):
            if not FORM.fullmatch(found[1]):
                yield ROOT / page, text.count("\n", 0, found.start()) + 1, " ".join(found[1].split())


def quoted():
    """(crate, path, line, text) of each backquoted text of a comment."""
    for crate in leans():
        for path in sources(crate):
            for line, comment in parted(path)[1]:
                yield from ((crate, path, line, text) for text in re.findall(r"`([^`]+)`", comment))


def main():
    found = list(quoted())
    if "--list" in sys.argv:
        for _, path, line, text in found:
            print(f"{path.relative_to(ROOT)}:{line}: {text}")
        return 0
    paged = list(of_pages())
    faults = [(path, line, name) for crate, path, line, text in found for name in unknown(crate, path, text)]
    faults += [(path, line, name) for path, line, text in paged for name in unknown_on_page(text)]
    for path, line, name in faults:
        print(f"names: {path.relative_to(ROOT)}:{line}: there is no {name}")
    print(f"names: {len(found)} names in comments, {len(paged)} on pages, {len(faults)} faults")
    return 1 if faults else 0


if __name__ == "__main__":
    sys.exit(main())
