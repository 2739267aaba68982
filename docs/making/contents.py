"""Writes two lists. DECISIONS.md has its decisions at its head, from its headings. CONTRIBUTING.md has the names of a struct, an enum or a trait that mean two
things: those that sources of two crates define, outside tests."""
import collections
import re

from making import sources
from making.sources import DOCS, ROOT, Fault, by_hand, read

DECISIONS, CONTRIBUTING = DOCS / "DECISIONS.md", DOCS / "CONTRIBUTING.md"
MARK = "<!-- docs/pages makes this list. -->\n"
LIST = re.compile(r"(<!-- docs/pages makes this list. -->).*?(<!-- end -->)", re.S)
TYPE = re.compile(r"^ *(?:pub(?:\(\w+\))? )?(?:struct|enum|trait) (\w+)", re.M)


def item(mark, heading):
    """A heading in the list, as a link to its anchor."""
    anchor = re.sub(r"[^\w\- ]", "", heading.lower()).replace(" ", "-")
    return f"- **[{heading}](#{anchor})**" if mark == "##" else f"  - [{heading}](#{anchor})"


def decisions():
    rest = read(DECISIONS).partition(MARK)[2]
    after = rest[rest.index("\n## ") + 1 :]
    listed = "\n".join(item(*found) for found in re.findall(r"^(##|###) (.*)$", after, re.M))
    return f"{by_hand(DECISIONS, MARK)}{MARK}\n{listed}\n\n{after}"


def of_two_things():
    found = collections.defaultdict(set)
    for crate in sources.crates():
        for path in (ROOT / "crates" / crate / "src").rglob("*.rt") if not sources.is_for_tests(crate) else ():
            for name in TYPE.findall(read(path)) if "tests" not in path.parts and path.stem != "tests" else ():
                found[name].add(crate)
    return sorted(name for name, of in found.items() if len(of) > 1)


def made():
    text, count = LIST.subn(lambda it: it[1] + ", ".join(f"`{name}`" for name in of_two_things()) + it[2], read(CONTRIBUTING))
    if count != 1:
        raise Fault("docs/CONTRIBUTING.md has no place for the names that mean two things")
    return {DECISIONS: decisions(), CONTRIBUTING: text}
