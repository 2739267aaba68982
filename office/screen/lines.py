"""Reads a docker's text into its heading and its lines, by the columns in docs/FORMATS.md."""
import operator
from typing import NamedTuple

KINDS = {"A": "arrives", "P": "passes", "D": "departs", "J": "is joined", "V": "divides", "N": "goes on"}
# The word between an association's kind and its partner: is joined by, divides into, goes on as.
LINKS = {"J": "by", "V": "into", "N": "as"}
# The columns of fields, by their names in docs/FORMATS.md: in a heading, in any line, in an event, and in an association. docs/check compares
# them with that page.
HEADING = {"TIPLOC": (8, 14), "date": (16, 25), "description of the TIPLOC": (27, 52)}
COLUMNS = {
    "time": (1, 5), "kind": (7, 7), "train identity": (9, 12), "UID": (14, 19), "STP indicator": (21, 21), "suffix": (23, 23), "platform": (25, 27),
    "line": (29, 31), "path": (33, 35), "public time": (37, 40),
}
ENDS = {"origin TIPLOC": (42, 48), "destination TIPLOC": (50, 56)}
PARTNER = {"associated UID": (42, 47), "its train identity": (50, 53)}


class Line(NamedTuple):
    """A line of a docker, with its fields in the order of COLUMNS. An event has an origin and a destination; an association has a partner."""
    time: str
    kind: str
    train: str
    uid: str
    stp: str
    suffix: str
    platform: str
    line: str
    path: str
    public: str
    origin: str
    destination: str
    partner: str
    partner_train: str

    @property
    def half_minutes(self):
        """The time in half minutes since midnight."""
        return int(self.time[:2]) * 120 + int(self.time[2:4]) * 2 + self.time.endswith("H")

    @property
    def clock(self):
        return f"{self.time[:2]}:{self.time[2:4]}{'½' if self.time.endswith('H') else ''}"

    @property
    def public_clock(self):
        return f"{self.public[:2]}:{self.public[2:]}" if self.public else ""

    @property
    def word(self):
        return KINDS.get(self.kind, self.kind)

    @property
    def link(self):
        """The partner of an association in words, such as `by 2B20 A10002`; empty for an event."""
        if self.kind not in LINKS:
            return ""
        train = f"{self.partner_train} {self.partner}" if self.partner_train != "????" else f"{self.partner}, which doesn't run"
        return f"{LINKS[self.kind]} {train}"


class Docker(NamedTuple):
    """A place's docker of a day. The description is empty if nobody knows the code."""
    tiploc: str
    date: str
    description: str
    lines: list


def cutter(*tables):
    """A function that cuts a text into the fields of these tables."""
    return operator.itemgetter(*(slice(first - 1, last) for columns in tables for first, last in columns.values()))


HEADING_FIELDS = cutter(HEADING)
EVENT_FIELDS = cutter(COLUMNS, ENDS)
LINK_FIELDS = cutter(COLUMNS, PARTNER)


def line_of(text):
    if text[6] in LINKS:
        *fields, partner, identity = map(str.strip, LINK_FIELDS(text))
        return Line(*fields, "", "", partner, identity)
    return Line(*map(str.strip, EVENT_FIELDS(text)), "", "")


def docker_of(text):
    """Reads a docker's text: a heading, lines and `END`, each of 56 columns."""
    heading, *lines, end, rest = text.decode("ascii").split("\n")
    if not heading.startswith("DOCKER ") or end.rstrip() != "END" or rest or any(len(line) != 56 or line.startswith("DOCKER ") for line in lines):
        raise ValueError("this is no docker")
    return Docker(*map(str.strip, HEADING_FIELDS(heading)), [line_of(line) for line in lines])
