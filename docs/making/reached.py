"""Lists each definition of docker_model on which no promise rests. A promise rests on a definition if a row of RULES.md or a public clause cites it, or cites
another definition that cites it, and so on. The clauses of laws don't count: what only laws cite belongs to the crates of laws. A word counts as a citation if the file defines or imports its name, even if the word is a variable, so not every needless definition is found."""
import functools

from making import sources
from making.sources import LAWS

MODEL = "docker_model"


def is_promise(function):
    """Whether callers rest on the function's clauses: it is public, or it implements a trait for an exported type."""
    of, trait = function.owner
    is_exported = function.is_public or (trait and of in sources.exported(function.crate)[0])
    return is_exported and function.crate not in LAWS and not sources.is_for_tests(function.crate)


def text_of(definition):
    """The lines of a definition, up to the next definition in its file, without comments."""
    lines = sources.read(definition.file).split("\n")
    later = (it.place.line for it in sources.defined_in(definition.file).values() if it.place.line > definition.place.line)
    until = min(later, default=len(lines) + 1)
    return "\n".join(line for line in lines[definition.place.line - 1 : until - 1] if not line.startswith("--"))


@functools.cache
def names_in(path):
    """What the words of a file of definitions may mean: its own definitions, and those that it imports."""
    names, files = sources.taken(sources.read(path))
    return sources.constructors_in(path) | sources.defined_in(path) | names, files


def lost():
    """A line for each definition on which no promise rests."""
    promised = sources.in_rules().union(*(sources.cited_by(it) for it in sources.functions() if is_promise(it)))
    found = sources.closure(promised, lambda it: filter(None, sources.cited_in(text_of(it), *names_in(it.file))))
    left = (it for it in sources.definitions() if it.crate == MODEL and it not in found)
    return [f"{it.place.file}:{it.place.line}: no rule and no public clause rests on {it.name}" for it in left]
