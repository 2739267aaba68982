"""The calls on a docker: an arrival and the departure that belongs to it, in one row.

A line doesn't say on which day its train started, and two trains of a UID may be on one docker. An arrival and a departure are one call if

- the departure is the UID's next event on the docker;
- all fields are the same that both events of a location record share: STP indicator, train identity, suffix, platform, line, path, origin and destination;
- the arrivals and departures of the UID take turns. If they don't, two of its trains are here at the same time;
- the train doesn't both start and end here. The departure could then be the next train's.

Any other line has a row of its own. So a row could only have the events of two trains if both had the same UID, started on different days, and were here at the
same time. Even then the order of the lines mostly shows it."""
import itertools
from typing import NamedTuple

import changes
import lines

# The fields that both events of a location record share.
SHARED = ("uid", "stp", "train", "suffix", "platform", "line", "path", "origin", "destination")
# The short words for the events of a call.
SHORT = {"A": "arr.", "D": "dep."}


class Call(NamedTuple):
    """A row of a list of calls: the row of an arrival and the row of its departure, or a single row of lines."""
    rows: tuple

    @property
    def lines(self):
        return [row.line for row in self.rows]

    @property
    def line(self):
        """The first line, whose time puts the call in its place."""
        return self.rows[0].line

    @property
    def end(self):
        """The half minutes from midnight to the last event of the call."""
        return self.rows[-1].line.half_minutes

    @property
    def is_gone(self):
        return self.rows[0].is_gone

    @property
    def is_new(self):
        return any(row.is_new for row in self.rows)

    @property
    def change(self):
        """The change of its first line that has one."""
        return next((row.change for row in self.rows if row.change), None)

    @property
    def about(self):
        """What its first row says of the train."""
        return self.rows[0].about

    @property
    def operators(self):
        """The operators of its train, now and in the permanent timetable; None if they aren't known."""
        found = [row.operators for row in self.rows]
        return None if None in found else frozenset().union(*found)

    def event(self, kind):
        """The line of this kind, or None."""
        return next((row.line for row in self.rows if row.line.kind == kind), None)

    def before(self):
        """The permanent lines that its lines replace."""
        return [was for row in self.rows if row.change and not row.is_gone for was in row.change.was]


def is_call(arrival, departure, tiploc):
    """Whether an arrival, and the next event of its UID, are one call."""
    is_same = all(getattr(arrival, name) == getattr(departure, name) for name in SHARED)
    return (arrival.kind, departure.kind) == ("A", "D") and is_same and not arrival.origin == arrival.destination == tiploc


def partners_of(found, tiploc):
    """The number of each row of an arrival that is in one call with a departure, with the number of the departure's row."""
    trains, partners = {}, {}
    for number, row in enumerate(found):
        if row.line.kind in changes.EVENTS:
            # The start day of a train that isn't here is known.
            trains.setdefault((row.line.uid, row.change.start if row.is_gone else ""), []).append(number)
    for numbers in trains.values():
        stops = "".join(found[number].line.kind for number in numbers).replace("P", "")
        if "AA" not in stops and "DD" not in stops:
            partners.update((at, after) for at, after in itertools.pairwise(numbers) if is_call(found[at].line, found[after].line, tiploc))
    return partners


def calls_of(found, tiploc):
    """The calls in the rows of a docker's lines, in the order of their first lines."""
    partners = partners_of(found, tiploc)
    departures = set(partners.values())
    return [Call((row, found[partners[number]]) if number in partners else (row,)) for number, row in enumerate(found) if number not in departures]


def worded(call, labels):
    """How a call differs from the permanent timetable, in words. What its arrival and its departure share is said once."""
    changed = [row for row in call.rows if row.change]
    texts = list(dict.fromkeys(changes.worded(row.line, row.change, labels) for row in changed))
    fields = [changes.fields_of(row.line, row.change, labels) for row in changed]
    if len(call.rows) == 1 or len(texts) == 1 and len(changed) == 2 or not all(fields):
        return "; ".join(texts)
    both = [field for field in fields[0] if all(field in others for others in fields)] if len(fields) == 2 else []
    own = [[field for field in those if field not in both] for those in fields]
    if len(own) == 2 and all(len(those) == 1 for those in own) and all(row.line.time != row.change.was[0].time for row in changed):
        return f"was {', '.join(['–'.join(those[0] for those in own), *both])}"
    return "was " + ", ".join([*(f"{SHORT[row.line.kind]} {', '.join(those)}" for row, those in zip(changed, own) if those), *both])


def chosen(calls, view):
    """The calls that a reader wants to see. An association is shown with its call."""
    if not view.is_filtered:
        return calls
    shown = {call for call in calls if call.line.kind in changes.EVENTS and is_wanted(call, view)}
    ours = {(line.uid, line.time, line.suffix) for call in shown for line in call.lines}
    return [call for call in calls if call in shown or call.line.kind in lines.LINKS and (call.line.uid, call.line.time, call.line.suffix) in ours]


def is_wanted(call, view):
    """Whether a call is one that a reader chose, now or in the permanent timetable: so a train that was moved to another platform is in both lists. If the operator
    of a train isn't known, the train is in the list of each operator."""
    both = [*call.lines, *call.before()]
    if view.operators and call.operators is not None and call.operators.isdisjoint(view.operators):
        return False
    return (
        (not view.is_stopping or any(line.kind != "P" for line in both)) and (not view.platforms or any(line.platform in view.platforms for line in both))
        and (not view.tracks or any(line.line in view.tracks for line in both))
    )
