"""How the dockers of the office's places differ from the permanent timetable."""
import contextlib
from typing import NamedTuple

import changes
import dockers
import lines

from . import covering, thinned
from .faults import Fault
from .places import listed_places
from .reporting import dockers_of, writing

LACKING = "what differs from the permanent timetable can't be said: this needs a program desk that knows what is permanent, and there is none, or one of an older version"


class Pair(NamedTuple):
    """The docker of a place on a day, and its permanent docker."""
    date: str
    text: bytes
    permanent: bytes

    def reduced(self):
        """Both dockers with only the lines of the trains that have to be compared."""
        rows = changes.apart(self.text, self.permanent)
        return Pair(self.date, *(b"\n".join([text.partition(b"\n")[0], *found, b"END", b""]) for text, found in zip((self.text, self.permanent), rows)))


def permanent_of(place, answer):
    """The permanent docker of a place, from the answer to a request for it."""
    if answer.status in dockers.LACKING:
        raise Fault(4, "desk", LACKING)
    if answer.status != 0:
        raise Fault(answer.status, place, answer.text.decode().strip())
    return answer.text


def prints_differences(office, reader, known, date):
    """For each place with changes, writes the heading of its docker, and each line that only one of its two dockers has."""
    is_same, is_covered = True, covering.warns(office, known, date)
    for place, text in dockers_of(office, reader, date):
        permanent = permanent_of(place, reader.permanent(place, date))
        if found := differences(text, permanent):
            is_same = False
            with writing():
                print(covering.head(office, known, date, place).decode("ascii"), end="")
                print(text.decode("ascii").split("\n")[0], *found, sep="\n", flush=True)
    if is_same and is_covered and office.status == 0 and thinned.is_sure(office, date):
        office.say(date, "nothing differs from the permanent timetable")


def differences(text, permanent):
    """The lines that only one of two dockers has, in their order. A line of the permanent docker has `-` before it, and a line of the day's docker has
    `+`."""
    found = [(mark, row.decode("ascii")) for mark, rows in zip("-+", changes.lone(permanent, text)) for row in rows]
    found.sort(key=lambda one: changes.place_in_day(lines.line_of(one[1])))
    return [f"{mark} {row}" for mark, row in found]


class Differences:
    """Which trains differ on a day from the permanent timetable, place by place, as long as STATE stays the same file."""

    def __init__(self, reader, date):
        self.reader, self.date = reader, date
        self.state = dockers.identity(reader.state)
        # A train that differs at several places is requested once.
        self.departures, self.answers = changes.Departures(reader), {}
        self.found = {}

    def at(self, place, text, permanent):
        """The trains that differ at a place, by kind, from its docker and the permanent one."""
        if (place, text, permanent) not in self.found:
            timetable = changes.Timetable(self.reader, place, Pair(self.date, text, permanent).reduced(), self.departures)
            timetable.answers = self.answers
            self.found[place, text, permanent] = changes.changes_of(timetable, self.date).trains
        return self.found[place, text, permanent]

    def is_for(self, reader, date):
        """Whether this is what a reader says now of a day."""
        return (self.reader, self.date, self.state) == (reader, date, dockers.identity(reader.state))


def compares_ahead(office, date):
    """Compares a place's dockers in each step, for `says_differences`. If one can't be had, it stops, and nothing is said of that here."""
    if not (office.desk and office.desk.is_running() and dockers.is_date(date)):
        return
    office.differences = Differences(office.desk, date)
    with contextlib.suppress(OSError, ValueError):
        for place in listed_places(office):
            day, permanent = office.desk.ask_all([(command, place, date) for command in ("print", "permanent")])
            if (day.status, permanent.status) != (0, 0):
                return
            yield office.differences.at(place, day.text, permanent.text)


def says_differences(office, reader, date, printed, is_covered):
    """Prints how many trains differ on a day at the places whose dockers were printed. If the day isn't covered, or a docker of it is thinned, it isn't said that nothing
    differs."""
    if reader.permanent(next(iter(printed)), date).status in dockers.LACKING:
        office.say(date, LACKING)
        return
    differences = office.differences if office.differences and office.differences.is_for(reader, date) else Differences(reader, date)
    found, number = {}, 0
    for (place, text), answer in zip(printed.items(), reader.dockers([(place, date) for place in printed], "permanent")):
        told = differences.at(place, text, permanent_of(place, answer))
        number += bool(told)
        for kind, those in told.items():
            found.setdefault(kind, set()).update(those)
    if found:
        at = f"at {number} of {len(printed)} {'place' if len(printed) == 1 else 'places'}"
        office.say(date, f"{changes.counted(found)} {at}; `station-office changes {office.state} {date}` prints them")
    elif is_covered and thinned.is_sure(office, date):
        office.say(date, "nothing differs from the permanent timetable")
