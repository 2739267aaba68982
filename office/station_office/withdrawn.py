"""The files that this office has withdrawn. They are neither taken nor merged."""
import re

from .extracts import stamp_of
from .faults import Fault


def withdrawn(office):
    """The stamps of the withdrawn files. Each line has a date, a time and a reference."""
    path = office.folder / "withdrawn"
    try:
        lines = path.read_text(encoding="utf-8").splitlines()
    except FileNotFoundError:
        return set()
    found = [re.fullmatch(r"(\d{4}-\d\d-\d\d) (\d{4})(?: (.{1,7}))?", line.strip()) for line in lines if line.strip() and not line.startswith("#")]
    if None in found:
        raise Fault(4, path, "each line has a date, a time and a reference, as 2024-06-10 2100 DFROC1G, and one of these has not")
    return {(it[1], it[2], it[3] or "") for it in found}


def forbids(office, stamp):
    """Adds a file to the withdrawn files."""
    if stamp not in withdrawn(office):
        with open(office.folder / "withdrawn", "a", encoding="utf-8") as text:
            text.write(" ".join(stamp) + "\n")


def known_of(office, extracts):
    """The withdrawn files among these."""
    stamps = withdrawn(office)
    return [extract for extract in extracts if stamp_of(extract) in stamps]
