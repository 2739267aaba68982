"""Links the calls that PROOF.md names to their files, and lists at its end where each link leads. The clauses that it names have to exist.

A clause is in italics, after its call and a colon. A call with the same name in several crates is written `crate::name`."""
import re

from making import rules, sources

PAGE = sources.DOCS / "PROOF.md"
CALL = re.compile(r"`([\w:]+)`(?:: (\*[a-z_]+\*(?:, \*[a-z_]+\*)*))?")


def link(found, links):
    """A call with its link, and its clauses. Other names are unchanged."""
    name, listed = found.groups()
    it, *others = rules.places("call", name) or [None]
    if not it or others:
        links.faults += [f"no call `{name}`, or more than one"] if listed else []
        return found.group()
    for clause in re.findall(r"\*([a-z_]+)\*", listed or ""):
        rules.has_clause(name, it, clause, "PROOF", links)
    return links.named(name, rules.file_of(it)) + (f": {listed}" if listed else "")


def made():
    links = rules.Links()
    unlinked = re.sub(r"\[(`[^`\]]+`)\](?!\()", r"\1", sources.by_hand(PAGE))
    parts = re.split(r"(^```\n.*?^```$|^>[^\n]*$)", unlinked, flags=re.M | re.S)
    text = "".join(part if number % 2 else CALL.sub(lambda found: link(found, links), part) for number, part in enumerate(parts))
    links.stop_at_faults(PAGE)
    return sources.after_mark(PAGE, text, links.lines())
