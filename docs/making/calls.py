"""Finds what a function may call: functions, constants and types, by their names. A word of its body counts as a call if something in its crate, or in a crate
below, has this name. After `.` this has to be a method, and after `Type::` a function of this type or trait. Any other word means something without a type. A
method also uses its type."""
import collections
import functools
import re

from making import sources
from making.sources import ROOT, read

NAMED = re.compile(r"(?:\b(\w+)::(?:<[^<>]*>::)?|(\.))?\b([A-Za-z_]\w*)")
CONSTANT = re.compile(r"^\s*(?:pub(?:\(\w+\))? )?const (\w+):", re.M)
TYPE = re.compile(r"^(?:pub(?:\(\w+\))? )?struct (\w+)[^{;]*\{(.*?)^\}", re.M | re.S)


@functools.cache
def below(crate):
    """A crate and all crates below it."""
    cited = (below(it) for it in sources.crates().get(crate, ()) if it in sources.crates())
    return frozenset({crate}).union(*cited)


@functools.cache
def items():
    """The functions, constants and types of all crates, as (file, type and trait, name), each with its code."""
    found = collections.defaultdict(str)
    for crate in sources.crates():
        for path in sorted((ROOT / "crates" / crate / "src").rglob("*.rt")):
            text, file = read(path), str(path.relative_to(ROOT / "crates"))
            for begin, end, owner, name in sources.bodies().functions_of(text):
                found[file, owner, name] += text[begin + len(sources.contract_of(text, begin)) : end]
            for it in CONSTANT.finditer(text):
                found[file, ("", ""), it.group(1)] += text[it.end() : text.find("\n", it.end())]
            for it in TYPE.finditer(text):
                found[file, ("", ""), it.group(1)] += it.group(2)
    return found


@functools.cache
def by_name():
    found = collections.defaultdict(list)
    for it in items():
        found[it[2]].append(it)
    return found


def is_meant(item, of, dot, own):
    """Whether a word names this item, given what stands before the word: a dot, or the name of a type."""
    _, owner, _ = item
    if dot:
        return bool(owner[0])
    if of and (of == "Self" or of[0].isupper()):
        return (own[0] if of == "Self" else of) in owner
    return not owner[0]


@functools.cache
def called(item):
    """What an item may call."""
    file, own, _ = item
    code = "\n".join(line for line in items()[item].split("\n") if not line.lstrip().startswith("//"))
    near = below(file.split("/")[0])
    found = {it for of, dot, name in NAMED.findall(code) for it in by_name().get(name, ()) if is_meant(it, of, dot, own)}
    found.update(it for it in by_name().get(own[0], ()) if it[0] == file)
    return {it for it in found if it[0].split("/")[0] in near}


@functools.cache
def reached(item):
    """An item, what it may call, what these may call, and so on."""
    return frozenset(sources.closure([item], called))


def named(file, name):
    """The functions of a file with this name, which may be `Type::name`."""
    return [it for it in items() if it[0] == file and name == (f"{it[1][0]}::{it[2]}" if it[1][0] else it[2])]


def is_law(item):
    """Whether a function only states something: its body is empty."""
    return not items()[item].strip("{}; \n")


@functools.cache
def changed(body):
    """The functions and constants that a wrong body changes."""
    found = {(f"{body.crate}/{it.file}", it.owner, it.name) for it in body.functions - {None}}
    for file, old, _ in (it for it in body.pairs if it[0] in body.outside):
        text = read(ROOT / "crates" / body.crate / file)
        line = text[text.rfind("\n", 0, text.find(old)) + 1 :].split("\n")[0]
        found |= {(f"{body.crate}/{file}", ("", ""), it) for it in CONSTANT.findall(line)}
    return found
