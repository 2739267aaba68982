"""Draws docs/crates.svg, the graph of the crates, from crates.txt, by `tred` and `dot` of Graphviz. A crate is drawn above the crates that it cites. A line is
left out if other lines lead to the same crate.

Each release of Graphviz draws a little differently, so the picture is drawn again only if it lacks a crate or a line, or has one too many. Without Graphviz the
picture stays as it is, and a message says so."""
import html
import re
import shutil
import subprocess
import sys

from making.sources import DOCS, ROOT, crates, is_for_tests, read

PAGE = DOCS / "crates.svg"
KINDS = {"definitions and laws": "#fbe3b3", "code": "#d6e6fb", "tests": "#d8f0d8", "programs": "#ead9f7"}
HEAD = """digraph {
node [shape=box, style=filled, fontname=monospace, fontsize=13, height=0.35, margin="0.1,0.04"]
edge [color="#6b7280", arrowhead=none]
ranksep=0.35
nodesep=0.15
"""


def kind(crate):
    if crate == "docker_model" or crate.endswith("_laws"):
        return "definitions and laws"
    if is_for_tests(crate):
        return "tests"
    return "programs" if (ROOT / "crates" / crate / "src" / "main.rt").is_file() else "code"


def titles(svg):
    """The crates and lines of a picture."""
    return set(html.unescape(it) for it in re.findall(r"<title>(.*?)</title>", svg))


def made():
    if not (shutil.which("tred") and shutil.which("dot")):
        print("docs/crates.svg stays as it is: the package graphviz isn't installed", file=sys.stderr)
        return {}
    # The graph in the language of `dot`, with a line of boxes that explain the colours.
    lines = [f'"{name}" [fillcolor="{colour}", color=white]' for name, colour in KINDS.items()]
    for crate, cited in crates().items():
        lines += [f'{crate} [fillcolor="{KINDS[kind(crate)]}"]', *(f"{crate} -> {it}" for it in cited if it in crates())]
    described = HEAD + "\n".join(lines) + "\n}\n"
    drawn = subprocess.run(["bash", "-o", "pipefail", "-c", "tred | dot -Tsvg"], input=described, check=True, capture_output=True, text=True).stdout
    kept = read(PAGE) if PAGE.is_file() else ""
    return {PAGE: kept if titles(kept) == titles(drawn) else drawn}
