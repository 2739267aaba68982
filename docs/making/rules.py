"""Links the names in the tables of RULES.md: from a rule to its definitions, calls, code, tests and wrong bodies. Lists at the end of the page where each link
leads. A link leads to a file.

Names are written between backquotes; the clauses of a call follow it and a colon. A name that several crates have is written `crate::name`, and a definition
that several files of a crate have is written `crate::file::name`. In the column *Code*, the functions that keep the rule follow their file and a colon. For each of them, one of the row's wrong bodies has to change it, or something that it calls.
Each wrong body of the row has to be such a body. Laws have no code to change. Cases follow `tests/programs` and a colon, in italics: a
test, the row of a table, or both with a colon between them."""
import functools
import re

from making import calls, sources
from making.sources import DOCS, ROOT, Fault, at, names, read

PAGE = DOCS / "RULES.md"
HEAD = ("Rule", "Definition", "Promised by", "Code", "Test", "Wrong body")
TYPE = re.compile(r"^ *pub(?:\(\w+\))? (?:struct|enum|trait) (\w+)", re.M)
IMPL = re.compile(r"^impl(?:<[^{]*?>)? (\w+)(?:<[^{]*?>)? for (?:\w+::)*(\w+)", re.M)


# ---- The index of names


@functools.cache
def known():
    """The places of each kind of name, both with its crate and without."""
    found = {kind: {} for kind in ("definition", "call", "test", "wrong body")}

    def add(kind, crate, name, place):
        for it in (name, f"{crate}::{name}"):
            found[kind].setdefault(it, []).append(place)

    for it in sources.definitions():
        add("definition", it.crate, it.name, it.place)
        found["definition"].setdefault(f"{it.crate}::{it.file.stem}::{it.name}", []).append(it.place)
    for it in sources.functions():
        if it.is_test:
            add("test", it.crate, it.name, it)
            found["test"].setdefault(f"{it.crate}::{it.module}::{it.name}", []).append(it)
        elif not sources.is_for_tests(it.crate):
            add("call", it.crate, it.path(), it)
    for crate in sources.crates():
        for path in sorted((ROOT / "crates" / crate / "src").rglob("*.rt")) if not sources.is_for_tests(crate) else ():
            for pattern, name in ((TYPE, "{0}"), (IMPL, "{0} for {1}")):
                for it in pattern.finditer(read(path)):
                    place = at(path, read(path).count("\n", 0, it.start()) + 1)
                    add("call", crate, name.format(*it.groups()), place)
                    if pattern is TYPE:
                        add("definition", crate, it.group(1), place)
        for edit in sorted((ROOT / "crates" / crate / "must-fail").glob("*.edit")):
            begins = [(line[2:], number) for number, line in enumerate(read(edit).splitlines(), 1) if line.startswith("# ")]
            for name, number in begins or [(edit.stem, 1)]:
                add("wrong body", crate, name, at(edit, number))
    return found


def places(kind, name):
    """The places to which a name may lead. A definition is preferred to a type with its name, and a public call to a private one."""
    found = known()[kind].get(name, [])
    if kind == "definition":
        return [it for it in found if it.file.endswith(".antt")] or found
    return [it for it in found if kind == "call" and getattr(it, "is_public", True)] or found


def one(kind, name, row, links):
    """The only place to which a name leads."""
    found = places(kind, name)
    if len(found) == 1:
        return found[0]
    links.faults.append(f"{row}: {kind} `{name}`: there are {len(found) or 'none'} of the name")
    return None


def file_of(found):
    """The file of a function or a place."""
    return getattr(found, "place", found).file


# ---- The links of a row


class Links:
    """The labels of a page, each with the file to which it leads. And what is wrong on the page."""

    def __init__(self):
        self.by_label, self.faults = {}, []

    def named(self, name, file):
        """A name with its link. Markdown ignores the case of labels, so two that differ only in case must lead to the same file."""
        held = self.by_label.setdefault(name.lower(), (name, file))
        if held[1] != file:
            self.faults.append(f"`{name}` leads to {file} and, as `{held[0]}`, to {held[1]}")
        return f"[`{name}`]"

    def lines(self):
        """The list of labels at the end of the page."""
        return [f"[`{name}`]: ../{file}" for name, file in sorted(self.by_label.values())]

    def stop_at_faults(self, page):
        if self.faults:
            raise Fault("\n".join(f"docs/{page.name}: {it}" for it in dict.fromkeys(self.faults)))


def linked(cell, kind, row, links):
    """A cell with a link for each name."""
    def link(found):
        it = one(kind, found.group(1), row, links)
        return links.named(found.group(1), file_of(it)) if it else found.group()
    return re.sub(r"`([^`]+)`", link, cell)


def tests(cell, row, links):
    """The tests of a rule. Cases of pytest follow their folder and a colon, in italics."""
    def link(found):
        name, cases = found.groups()
        if not (ROOT / name).exists():
            return linked(found.group(), "test", row, links)
        each = (case_of(name, it, row, links) for it in re.findall(r"\*([^*]+)\*", cases or ""))
        return links.named(name, name) + (f": {', '.join(each)}" if cases else "")
    return re.sub(r"`([^`]+)`(?:: (\*[^*]+\*(?:, \*[^*]+\*)*))?", link, cell)


def words_of(name):
    return re.findall("[a-z0-9]+", name.lower().replace("'", ""))


def count_of(path, name):
    """How many tests or table rows of a file have this name. A row may follow its test and a colon."""
    test, _, row = name.partition(": ")
    functions = [words_of(it) for it in re.findall(r"^def test_(\w+)\(", read(path), re.M)]
    count = functions.count(words_of(name))
    return count if count or row and words_of(test) not in functions else read(path).count(f'"{row or name}"')


def case_of(folder, name, row, links):
    """The link to a case in a folder."""
    found = [path for path in sorted((ROOT / folder).rglob("test_*.py")) for _ in range(count_of(path, name))]
    if len(found) != 1:
        links.faults.append(f"{row}: {len(found)} cases *{name}* in `{folder}`")
        return f"*{name}*"
    return f"[*{name}*](../{found[0].relative_to(ROOT)})"


def promises(cell, row, links):
    """The calls of a rule, with their clauses."""
    def part(text):
        found = re.fullmatch(r"(.*`): ([a-z_]+(?:, [a-z_]+)*)", text)
        if not found:
            return linked(text, "call", row, links)
        of = [one("call", name, row, links) for name in names(text)]
        if len(of) != 1:
            links.faults.append(f"{row}: {text}: clauses of more than one call")
        for word in found.group(2).split(", "):
            has_clause(names(text)[0], of[0], word, row, links)
        return f"{linked(found.group(1), 'call', row, links)}: {found.group(2)}"
    return "; ".join(map(part, cell.split("; ")))


def has_clause(name, call, word, row, links):
    """Notes a fault if a call has no clause with this name."""
    if call and word not in (call.clauses() if isinstance(call, sources.Function) else ()):
        links.faults.append(f"{row}: `{name}` has no clause {word}")


def code(cell, bodies, row, links):
    """The files of a rule, each with its functions."""
    parts, items = [], []
    for part in cell.split("; "):
        found = re.fullmatch(r"`([^`]+)`: (`[\w:]+`(?:, `[\w:]+`)*)", part)
        if not found:
            links.faults.append(f"{row}: no file and functions: {part}")
            continue
        file, listed = found.groups()
        for name in names(listed):
            of = calls.named(file, name)
            items += of
            if not of:
                links.faults.append(f"{row}: no function {name} in {file}")
            elif bodies and not any(map(calls.is_law, of)) and not any(calls.reached(it) & calls.changed(body) for it in of for body in bodies):
                links.faults.append(f"{row}: no wrong body of the row changes {name} in {file}, or what it calls")
        parts.append(f"{links.named(file, f'crates/{file}')}: {listed}")
    lost = (it.name for it in bodies if not any(calls.reached(item) & calls.changed(it) for item in items))
    links.faults += [f"{row}: `{name}` changes none of the row's functions, and nothing that they call" for name in lost]
    return "; ".join(parts)


def linked_row(cells, links):
    """A row with its links. The links that it already has are left out."""
    row = cells[0]
    if len(cells) != len(HEAD):
        links.faults.append(f"{row}: {len(cells)} columns")
        return cells
    _, definition, promised, files, test, wrong = (re.sub(r"\[([^\]]+)\](?:\[[^\]]+\]|\([^)]+\))?", r"\1", it) for it in cells)
    where = [one("wrong body", name, row, links) for name in names(wrong)]
    bodies = [body_at(it) for it in where if it]
    return [row, linked(definition, "definition", row, links), promises(promised, row, links), code(files, bodies, row, links),
            tests(test, row, links), linked(wrong, "wrong body", row, links)]


def body_at(place):
    """The wrong body that begins at a place."""
    crate, file = place.file.split("/")[1], (ROOT / place.file).stem
    line = read(ROOT / place.file).splitlines()[place.line - 1]
    return sources.wrong_bodies(crate)[file, line[2:] if line.startswith("# ") else file]


def made():
    links, lines = Links(), []
    for line in sources.by_hand(PAGE).split("\n"):
        cells = [it.strip() for it in line.strip("|").split(" | ")]
        is_row = line.startswith("| ") and cells[0] != HEAD[0]
        lines.append(f"| {' | '.join(linked_row(cells, links))} |" if is_row else line)
    links.stop_at_faults(PAGE)
    return sources.after_mark(PAGE, "\n".join(lines), links.lines())
