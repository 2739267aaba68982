"""Reads the parts of a page: its sections, tables, paragraphs and blocks of code."""
import re

from making.sources import ROOT, Fault, read


def text(name):
    """A page without its marks."""
    path = ROOT / name
    if not path.is_file():
        raise Fault(f"there is no {name}")
    return read(path)


def section(name, heading, rank="##"):
    """A section of a page without its heading, up to the next heading of the same or a higher rank."""
    found = re.search(rf"^{rank} {re.escape(heading)}\n(.*?)(?=^#{{2,{len(rank)}}} |\Z)", text(name), re.M | re.S)
    if not found:
        raise Fault(f"{name} has no section {heading}")
    return found[1]


def marked(name, mark):
    """The passages of a page that a mark names, as paragraphs."""
    found = re.findall(rf"<!-- {mark} -->(.*?)<!-- end -->", text(name), re.S)
    if not found:
        raise Fault(f"{name} has no passage with the mark {mark}")
    return "\n\n".join(found)


def cells(line):
    return [cell.strip() for cell in re.split(r"(?<!\\)\|", line.removeprefix("|").removesuffix("|"))]


def table(page, *columns):
    """The rows of the first table that has these columns, with only the cells of these columns."""
    lines = page.splitlines()
    for number, line in enumerate(lines):
        if line.startswith("|") and set(columns) <= set(cells(line)):
            end = next((at for at in range(number, len(lines)) if not lines[at].startswith("|")), len(lines))
            left = list(enumerate(cells(line)))
            places = [left.pop(next(at for at, (_, it) in enumerate(left) if it == column))[0] for column in columns]
            return [[cells(row)[place] for place in places] for row in lines[number + 2 : end]]
    raise Fault(f"there is no table with the columns {', '.join(columns)}")


def paragraphs(page):
    """The paragraphs of prose, without marks, tables, lists, code and quotations."""
    plain = re.sub(r"^```.*?^```$", "\n", re.sub(r"<!--.*?-->\n?", "", page), flags=re.M | re.S)
    return [" ".join(found.split()) for found in re.split(r"\n{2,}", plain) if found.strip() and found.strip()[0] not in "|>#-"]


def codes(page):
    """The blocks of code, each as a list of lines."""
    return [found.splitlines() for found in re.findall(r"^```\n(.*?)^```$", page, re.M | re.S)]
