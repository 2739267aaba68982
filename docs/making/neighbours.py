"""Writes the section *Neighbours* in the README of each crate, from crates.txt. Also writes the table of crates in ARCHITECTURE.md, from the first sentence
of each README."""
from making.sources import DOCS, ROOT, by_hand, crates, read

PAGE = DOCS / "ARCHITECTURE.md"
HEADING = "## Neighbours"
MARK = "<!-- docs/pages makes this table. -->\n"


def listed(names):
    return ", ".join(f"`{name}`" for name in names)


def neighbours(crate, cited, contracts):
    """The section: the crates that this crate cites, the crates that cite it, and where its contracts are."""
    own, kit = ([it for it in cited[crate] if (it in cited) == ours] for ours in (True, False))
    above = [other for other, names in cited.items() if crate in names]
    lines = [f"- It cites {listed(own)}." if own else "- It cites no crate of this repository."]
    lines += [f"- From the kit it uses {listed(kit)}."] if kit else []
    lines += [f"- It is cited by {listed(above)}." if above else "- No crate cites it."]
    lines += [f"- [CONTRACTS](../../docs/CONTRACTS.md#{crate}) lists its calls, with the file in which each contract stands."] if f"## `{crate}`" in contracts else []
    return "\n".join([HEADING, "", *lines, ""])


def made():
    readmes, rows, contracts = {}, "", read(DOCS / "CONTRACTS.md").splitlines()
    for crate in crates():
        page = ROOT / "crates" / crate / "README.md"
        text = read(page) if page.is_file() else f"# `{crate}`\n"
        readmes[page] = f"{text.split(HEADING)[0].rstrip()}\n\n{neighbours(crate, crates(), contracts)}"
        # The first sentence of the README, after its title.
        sentence = readmes[page].split("\n\n")[1].split(". ")[0].rstrip(".\n")
        rows += f"| [`{crate}`](../crates/{crate}/README.md) | {sentence} |\n"
    after = read(PAGE).partition(MARK)[2].lstrip().split("\n\n", 1)[1]
    return readmes | {PAGE: f"{by_hand(PAGE, MARK)}{MARK}\n| Crate | What it is |\n|---|---|\n{rows}\n{after}"}
