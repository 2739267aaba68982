"""What the lines of a docker were made from: the start day of the train, and the records of its schedule and of the association, by the columns in docs/FORMATS.md."""
from typing import NamedTuple, Optional

import details
import lines

# The length of a line of a docker, and the first and the last column of each field after it in a detailed line.
LINE = 56
COLUMNS = {"start day": (58, 67), "event number": (69, 78), "basic schedule": (80, 159), "extra details": (161, 240), "change en route": (242, 321), "location": (323, 402), "association": (404, 483)}
FIELDS = lines.cutter(COLUMNS)
LENGTH = COLUMNS["association"][1] + 1
# The kind of train that a row doesn't name: most trains are of this kind.
USUAL = "passenger"


class Origin(NamedTuple):
    """What a line was made from. A record that there isn't is empty."""
    start: str
    number: int
    basic: str
    extra: str
    changed: str
    record: str
    association: str


class About(NamedTuple):
    """What a row says of its train that its line doesn't have: the operator's code, and in words what is unusual of the train and of its call there."""
    operator: str
    words: str


class Noted(NamedTuple):
    """What a row says of its train, and the operators of the train, now and in the permanent timetable. Each is None if it isn't known."""
    about: Optional[About] = None
    operators: Optional[frozenset] = None


class Abouts(NamedTuple):
    """What is known for each line of a docker, and for each permanent line that it lacks. Also the operators of all its trains."""
    own: list
    gone: list
    operators: list


def docker_in(text):
    """The docker in the text of a detailed docker."""
    if len(text) % LENGTH or text[LENGTH - 1::LENGTH].strip(b"\n"):
        raise ValueError("this is no detailed docker")
    return b"".join(text[at:at + LINE] + b"\n" for at in range(0, len(text), LENGTH))


def origin_of(line):
    start, number, *records = FIELDS(line)
    return Origin(start, int(number), *map(str.rstrip, records))


def origins_in(text):
    """What each line of a detailed docker was made from."""
    return [origin_of(line) for line in text.decode("ascii").split("\n")[1:-2]]


class Kinds:
    """Kinds of trains by their records. Many lines have the same records, or do the same at a place. `operators` has the names of operators."""

    def __init__(self, operators=None):
        self.operators, self.of, self.found = operators or {}, {}, {}

    def details(self, origin):
        """What kind of train it is, with the change en route that is in force."""
        key = origin.basic, origin.extra, origin.changed
        if key not in self.of:
            self.of[key] = details.details_in(origin.basic, origin.extra, self.operators).after(origin.changed)
        return self.of[key]

    def about(self, origin):
        """What the row of an event says."""
        first, last = details.ACTIVITIES[origin.record[:2]]
        key = origin.basic, origin.extra, origin.changed, origin.record[:2], origin.record[first - 1:last]
        if key not in self.found:
            now = self.details(origin)
            # A kind that has no word is shown by its codes.
            kind = now.vehicle or now.kind()
            words = [kind if kind != USUAL else "", *map(details.activity, details.activities_of(origin))]
            self.found[key] = About(now.of["operator"], ", ".join(filter(None, words)))
        return self.found[key]

    def of_train(self, line, origin):
        """What a line lacks, as `.json` has it: what the line was made from, and what kind of train it is there; None for an association."""
        return None if line.link else (origin, self.details(origin))


def abouts_of(docker, origins, permanent, permanent_origins, differing):
    """What the rows of a docker say, from what its lines and the permanent lines were made from, and from how they differ."""
    kinds = Kinds()
    # A permanent line is known by the start day of its train.
    before = {(line, origin.start): origin for line, origin in zip(permanent, permanent_origins)} if differing else {}

    def was(line, change):
        origin = before.get((line, change.start))
        return kinds.about(origin) if origin and not line.link else None

    def noted(about, others=()):
        return Noted(about, frozenset(it.operator for it in (about, *others) if it))

    own = [Noted() if line.link else noted(kinds.about(origin)) for line, origin in zip(docker.lines, origins)]
    for number, change in differing.of.items() if differing else ():
        if own[number].about:
            own[number] = noted(own[number].about, [was(line, change) for line in change.was])
    gone = [noted(about) if (about := was(line, change)) else Noted() for line, change in (differing.gone if differing else ())]
    return Abouts(own, gone, sorted({kinds.details(origin).of["operator"] for origin in origins} - {""}))
