"""Writes the tables of DEFINITIONS.md from the first sentence of the comment above each definition and each law. They have all definitions of docker_model, and all
laws."""
import itertools
import re

from making import sources
from making.sources import LAWS, ROOT, Fault, first_sentence, read

PAGE = ROOT / "docs" / "DEFINITIONS.md"
MODEL = "docker_model"
LAW = re.compile(r"pub fn (\w+)\(\)")


def file_row(path, folder, about):
    """The row of a file, with a link. The rows of its names follow."""
    return f"| [{path.relative_to(folder).with_suffix('')}](../{path.relative_to(ROOT)}) | {about} |"


def table(head, rows):
    return [f"| {head} | Meaning |", "|---|---|", *rows, ""]


def rows(crate, found):
    """The files of a crate that have any of these definitions, in their order, each with these definitions."""
    folder = ROOT / "crates" / crate / "specs"
    of = [it for it in found if it.crate == crate]
    for path in dict.fromkeys(it.file for it in of):
        head = itertools.takewhile(lambda line: line.startswith("--"), read(path).split("\n"))
        yield file_row(path, folder, first_sentence(" ".join(line[2:].strip() for line in head)))
        yield from (f"| `{it.name}` | {first_sentence(it.meaning)} |" for it in of if it.file == path)


def laws():
    page = ["## The laws", "", "The laws are in three crates: `cif_laws` has the laws of files, `state_laws` of states, and `docker_laws` of dockers, excerpts and runs. A law is the contract of a function with an empty body. It holds for all values of its variables.", ""]
    for crate in LAWS:
        source, found = ROOT / "crates" / crate / "src", []
        for module in re.findall(r"^pub mod (\w+);", read(source / "lib.rt"), re.M):
            path = source / f"{module}.rt"
            found += [file_row(path, source, ""), *(f"| `{name}` | {first_sentence(text)} |" for name, _, text in sources.with_comments(path, LAW, "///"))]
        page += [f"### `{crate}`", "", *table("Law", found)]
    return page


def made():
    # The definitions that RULES.md or a public clause cites have to have a meaning.
    calls = (it for it in sources.functions() if it.is_public and not sources.is_for_tests(it.crate))
    found = sources.in_rules().union(*(sources.cited_by(it) for it in calls))
    if bare := sorted(f"{it.place.file}:{it.place.line}: no line above {it.name} says what it means" for it in found if not it.meaning):
        raise Fault("\n".join(bare))
    about = "The definitions are in folders. A definition cites only definitions in its own folder and in the folders listed before that folder."
    model = ["## The definitions of `docker_model`", "", about, "", *table("Name", rows(MODEL, sources.definitions()))]
    return sources.after_mark(PAGE, sources.by_hand(PAGE), [*model, *laws()])
