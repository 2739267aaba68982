"""Finds the pages, and where the definitions, the functions with their clauses, and the wrong bodies of the crates are."""
import collections
import functools
import importlib.machinery
import importlib.util
import pathlib
import re
import sys
import typing

ROOT = pathlib.Path(__file__).resolve().parent.parent.parent
DOCS = ROOT / "docs"
LAWS = ("cif_laws", "state_laws", "docker_laws")
# The line of a page that begins the part that docs/pages makes.
MARK = "<!-- From here on the page is made by docs/pages. -->\n"
DEFINITION = re.compile(r"(?:abbrev pub|unfoldable pub|pub record|pub data|pub) (?!mod |use )([^\s(]+) .*:")
CLAUSE = re.compile(r"^\s+ensures (\w+) \{")
USE = re.compile(r"^\s*(?:pub )?(?:ghost )?use Rattle\.(\w+)\.specs\.([\w.]+?)(?:\.\{([^}]*)\}|(?: as (\w+)))?;?$", re.M)
WORD = re.compile(r"[^\s(){}\[\],;→λ×⊎¬]+")


class Place(typing.NamedTuple):
    """A line of a file."""

    file: str
    line: int


class Definition(typing.NamedTuple):
    """A definition of `specs/`, with the comment above it."""

    crate: str
    file: pathlib.Path
    name: str
    place: Place
    meaning: str


class Function(typing.NamedTuple):
    """A function: its module, its type and trait, and its contract."""

    crate: str
    module: str
    owner: tuple
    name: str
    place: Place
    contract: str
    is_public: bool
    is_test: bool

    def path(self):
        """Its name, with its type if it has one."""
        return f"{self.owner[0]}::{self.name}" if self.owner[0] else self.name

    def clauses(self):
        """The place of each clause that has a name."""
        found = ((CLAUSE.match(line), number) for number, line in enumerate(self.contract.split("\n"), self.place.line))
        return {it.group(1): Place(self.place.file, number) for it, number in found if it}


class Fault(Exception):
    """Why a page can't be made: a line for each reason."""


@functools.cache
def read(path):
    return path.read_text(encoding="utf-8")


def at(path, line):
    return Place(str(path.relative_to(ROOT)), line)


def names(text):
    """The texts between backquotes, outside blocks of code. A text between double backquotes may have single ones."""
    plain = re.sub(r"^```.*?^```$", "", text, flags=re.M | re.S)
    return re.findall(r"`([^`]+)`", re.sub(r"``.*?``", "", plain, flags=re.S))


def by_hand(path, mark=MARK):
    """The part of a page before its mark, which is written by hand."""
    head, found, _ = read(path).partition(mark)
    if not found:
        raise Fault(f"{path.relative_to(ROOT)} has no line: {mark.strip()}")
    return head


def after_mark(path, head, lines):
    """A page that begins with what is written by hand, and has these lines after its mark."""
    return {path: head + MARK + "\n" + "\n".join(lines).rstrip() + "\n"}


@functools.cache
def crates():
    """The crates, lowest first, each with the crates and libraries that it cites."""
    lines = (line.partition(":") for line in read(ROOT / "crates.txt").splitlines() if line.strip() and not line.startswith("#"))
    return {head.split()[0]: listed.split() for head, _, listed in lines}


def is_for_tests(crate):
    return crate.endswith("_tests") or crate == "test_records"


@functools.cache
def bodies():
    """The script tests/bodies, which knows functions and wrong bodies."""
    loader = importlib.machinery.SourceFileLoader("bodies", str(ROOT / "tests" / "bodies"))
    module = importlib.util.module_from_spec(importlib.util.spec_from_loader("bodies", loader))
    sys.modules["bodies"] = module
    loader.exec_module(module)
    return module


@functools.cache
def wrong_bodies(crate):
    """The wrong bodies of a crate, by their file and name."""
    return bodies().bodies_of(crate)


def closure(found, next_of):
    """These things, those to which each of them leads, and so on."""
    seen, left = set(), list(found)
    while left:
        it = left.pop()
        if it not in seen:
            seen.add(it)
            left += next_of(it)
    return seen


# ---- Definitions


def sentence(text):
    """A comment as a sentence: it begins with a capital letter and ends with a full stop."""
    text = text.strip().replace("|", "\\|")
    text = text[:1].upper() + text[1:]
    return text if text.endswith(".") else text + "."


def first_sentence(text):
    """The first sentence of a comment. What follows it stands in the source."""
    return sentence(re.split(r"(?<=\.) (?=[A-Z`])", " ".join(text.split()))[0]) if text else ""


def with_comments(path, pattern, mark):
    """Each name of a file that the pattern finds, with its line and the comment lines above it."""
    above = []
    for number, line in enumerate(read(path).split("\n"), 1):
        found = pattern.match(line)
        if line.startswith(mark):
            above.append(line[len(mark) :].strip())
        elif not line.startswith("#["):
            if found:
                yield found.group(1), number, sentence(" ".join(above)) if above else ""
            above = []


def modules_of(folder, listing="Lib.antt"):
    """The files of a folder of definitions, in the order in which its list names them. A file that lists others stands for the folder of its name."""
    for line in read(folder / listing).splitlines():
        found = re.match(r"(?:pub )?mod (\w+)", line)
        if found and (folder / found.group(1)).is_dir():
            yield from (folder / found.group(1) / path.name for path in modules_of(folder / found.group(1), f"../{found.group(1)}.antt"))
        elif found:
            yield folder / (found.group(1) + ".antt")


@functools.cache
def definitions():
    """The definitions of all crates, in the order in which their files are listed."""
    found = []
    for crate in crates():
        folder = ROOT / "crates" / crate / "specs"
        for path in modules_of(folder) if (folder / "Lib.antt").is_file() else ():
            found += [Definition(crate, path, name, at(path, line), meaning) for name, line, meaning in with_comments(path, DEFINITION, "--")]
    return found


@functools.cache
def by_name():
    """The definitions by their names: bare, and after their crate."""
    found = collections.defaultdict(list)
    for it in definitions():
        found[it.name].append(it)
        found[f"{it.crate}::{it.name}"].append(it)
    return found


def in_rules():
    """The definitions that rows of RULES.md cite."""
    rows = (line.split(" | ") for line in read(DOCS / "RULES.md").splitlines() if line.startswith("| "))
    return {it for row in rows if len(row) > 1 for name in names(row[1]) for it in by_name().get(name, ())}


@functools.cache
def defined_in(path):
    return {it.name: it for it in definitions() if it.file == path}


@functools.cache
def constructors_in(path):
    """The constructors of a file's data types, each with the definition of its type."""
    found, of = {}, None
    for line in read(path).split("\n") if path.is_file() else ():
        if not line.startswith(" "):
            begins = re.match(r"pub data (\w+)", line)
            of = defined_in(path).get(begins.group(1)) if begins else None
        elif of and (listed := re.match(r"  (\w+(?: \w+)*) :", line)):
            found.update(dict.fromkeys(listed.group(1).split(), of))
    return found


def taken(text):
    """What a text imports by its `use` lines: names with their definitions, and names of files with the definitions in them."""
    names, files = {}, {}
    for crate, module, listed, other in USE.findall(text):
        path = ROOT / "crates" / crate / "specs" / f"{module.replace('.', '/')}.antt"
        known = constructors_in(path) | defined_in(path)
        for word in filter(None, map(str.strip, listed.split(","))):
            name, _, own = word.partition(" as ")
            if name in known:
                names[own or name] = known[name]
        if not listed:
            files[other or module.split(".")[-1]] = known
    return names, files


def cited_in(text, names, files):
    """The definitions that a text cites."""
    found = []
    for word in WORD.findall(text):
        first, _, rest = word.partition(".")
        if first in names:
            found.append(names[first])
        elif first in files and rest.split(".")[0] in files[first]:
            found.append(files[first][rest.split(".")[0]])
    return found


# ---- Functions


def contract_of(text, begin):
    """A function's head with its clauses: everything before its body."""
    lines, has_clause = [], False
    for line in text[begin:].split("\n"):
        if line.strip() == "{":
            break
        lines.append(line)
        has_clause = has_clause or bool(re.match(r"\s+(?:requires|ensures)\b", line))
        if line.endswith((";", "{}")) or (line.endswith("{") and not has_clause):
            break
    return "\n".join(lines)


def exported(crate):
    """The names that a crate's lib.rt exports, and its public modules."""
    path = ROOT / "crates" / crate / "src" / "lib.rt"
    text = read(path) if path.is_file() else ""
    uses = re.findall(r"^pub use (?:\w+::)*(?:(\w+)|\{([^}]*)\});", text, re.M)
    names = {name.strip().split(" as ")[-1] for one, more in uses for name in (one, *more.split(","))}
    return names - {""}, set(re.findall(r"^pub mod (\w+);", text, re.M))


@functools.cache
def functions():
    """The functions of all crates. One is public if its crate exports it, or the type or trait that it belongs to."""
    found = []
    for crate in crates():
        names, modules = exported(crate)
        for path in sorted((ROOT / "crates" / crate / "src").rglob("*.rt")):
            text = read(path)
            module = "::".join(path.relative_to(ROOT / "crates" / crate / "src").with_suffix("").parts)
            for begin, _, owner, name in bodies().functions_of(text):
                head = contract_of(text, begin)
                # A function of a trait can be called from outside its file if the trait is visible there.
                is_open = re.match(r"\s*pub (?:const )?fn ", head) or owner[0] and re.search(rf"^pub trait {owner[0]}\b", text, re.M)
                is_public = bool(is_open) and (module in modules or (owner[0] or name) in names)
                is_test = bool(re.search(r"#\[test\]\s*(?:#\[[^\]]*\]\s*)*$", text[:begin]))
                found.append(Function(crate, module, owner, name, at(path, text.count("\n", 0, begin) + 1), head, is_public, is_test))
    return found


def cited_by(function):
    """The definitions that a function's clauses cite."""
    names, files = taken(read(ROOT / function.place.file))
    return cited_in(function.contract, names, files)
