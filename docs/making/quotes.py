"""Fills the quotations of CALLING.md from the sources. A line `<!-- contract CRATE::NAME -->` stands above the head and the clauses of a function, and a line
`<!-- whole CRATE::NAME -->` above a function with its body. A quotation has at most thirty lines."""
import re
import textwrap

from making import contracts, sources
from making.sources import DOCS, ROOT, Fault, read

PAGE = DOCS / "CALLING.md"
QUOTE = re.compile(r"^(<!-- (contract|whole) (\w+)::([\w:]+) -->\n)(?:```\n.*?^```\n)?", re.M | re.S)
MOST = 30


def function(crate, name):
    """The only function of a crate with this name, which may be `Type::name`."""
    found = [it for it in sources.functions() if it.crate == crate and it.path() == name]
    if len(found) != 1:
        raise Fault(f"docs/CALLING.md: {len(found)} functions {crate}::{name}")
    return found[0]


def whole(found):
    """The text of a function."""
    text, begin = read(ROOT / found.place.file), contracts.begin_of(found)
    end = next(end for start, end, _, _ in sources.bodies().functions_of(text) if start == begin)
    return textwrap.dedent(text[begin:end])


def clauses(found):
    """The head of a function with its clauses."""
    return textwrap.dedent(found.contract).rstrip().rstrip(";").removesuffix("{}").removesuffix(" {").rstrip()


def quotation(it):
    found = function(it[3], it[4])
    text = whole(found) if it[2] == "whole" else clauses(found)
    if (size := text.count("\n") + 1) > MOST:
        raise Fault(f"docs/CALLING.md: {it[3]}::{it[4]} has {size} lines, and a quotation at most {MOST}")
    return f"{it[1]}```\n{text}\n```\n"


def made():
    return {PAGE: QUOTE.sub(quotation, read(PAGE))}
