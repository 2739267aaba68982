"""Writes the tables of CONTRACTS.md from the sources: the files of each crate, and the public functions in each, with the first sentences of their comments. The laws of the
crates of laws are left out, because DEFINITIONS.md has them."""
import re

from making import sources
from making.sources import LAWS, ROOT, read

PAGE = ROOT / "docs" / "CONTRACTS.md"
IMPL = re.compile(r"^impl(?:<[^{]*?>)? ((?:\w+::)*\w+(?:<[^{]*?>)?) for (?:\w+::)*(\w+)[^{]*\{", re.M)


def comment_above(text, begin, mark="///"):
    """The comment above a place, skipping attributes."""
    found = []
    for line in reversed(text[:begin].split("\n")[:-1]):
        line = line.strip()
        if line.startswith(mark):
            found.append(line[len(mark) :].strip())
        elif not re.match(r"#\[.*\]$", line):
            break
    return " ".join(reversed(found))


def begin_of(function):
    """The position in its source at which a function begins."""
    return sum(len(line) + 1 for line in read(ROOT / function.place.file).split("\n")[: function.place.line - 1])


def rows_of(crate, path, functions):
    """The rows of a source: its file, its functions, and the implementations that promise the clauses of a trait."""
    names, _ = sources.exported(crate)
    own = [it for it in functions if it.is_public or it.owner[1] and it.owner[0] in names and re.search(r"^\s+(?:requires|ensures)\b", it.contract, re.M)]
    rows = [(f"`{it.path()}`", sources.first_sentence(comment_above(read(path), begin_of(it)))) for it in own]
    shown, others = {it.owner for it in own}, []
    for it in IMPL.finditer(read(path)):
        trait, owner = it.groups()
        if owner in names and re.search(r"\bfn \w+", read(path)[it.end() : read(path).find("\n}", it.end())]) and (owner, trait.partition("<")[0]) not in shown:
            others.append(f"`{trait} for {owner}`")
    rows += [(", ".join(others), "By the clauses of its trait.")] if others else []
    inside = path.relative_to(ROOT / "crates" / crate / "src")
    return [(f"[{inside}](../{path.relative_to(ROOT)})", "")] + rows if rows else []


def made():
    lines = []
    for crate in sources.crates():
        of = [it for it in sources.functions() if it.crate == crate and not it.is_test]
        paths = sorted((ROOT / "crates" / crate / "src").rglob("*.rt")) if crate not in LAWS and not sources.is_for_tests(crate) else ()
        rows = [row for path in paths for row in rows_of(crate, path, [it for it in of if ROOT / it.place.file == path])]
        if rows:
            lines += [f"## `{crate}`", "", "| Call | What it does |", "|---|---|", *(f"| {name} | {text} |" for name, text in rows), ""]
    return sources.after_mark(PAGE, sources.by_hand(PAGE), lines)
