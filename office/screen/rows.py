"""The rows of a docker's table as HTML. They are made without a template, because a busy place has thousands."""
import bisect
from html import escape
from typing import NamedTuple, Optional
import urllib.parse

import calls
import changes
import lines
import origins


def part(word):
    """A word as a part of an address, escaped."""
    return urllib.parse.quote(word, safe="")


# The columns of a table of lines, and of a table of calls: the class of their cells, their heads, and what an abbreviated head means.
LINES = (
    ("time", "Time", ""), ("kind", "Event", ""), ("train", "Train", ""), ("platform", "Plat.", "Platform"), ("path", "Path", ""), ("line", "Line", ""), ("public", "Public", ""),
    ("from", "From", ""), ("to", "To", ""), ("uid", "UID", ""), ("suffix", "Sfx", "Suffix"), ("stp", "STP", ""),
)
CALLS = (("arr", "Arr.", "Arrives"), ("dep", "Dep.", "Departs or passes"), *(column for column in LINES[2:] if column[0] != "suffix"))
# The columns that a table has if one of its rows has something there.
MORE = (("operator", "Op.", "Operator"), ("words", "Kind", "Kind of train, and what it does here"))


class Escaped(dict):
    """Texts escaped for HTML. Texts recur, so each is escaped only once."""

    def __missing__(self, text):
        self[text] = escape(text)
        return self[text]


class Row(NamedTuple):
    """A line of a docker, or a permanent line that isn't on it, with its change if there is one. `is_new` says whether the docker before the last morning had
    the row too. `operators` are the codes of the train's operators, now and in the permanent timetable; None if they aren't known."""
    line: lines.Line
    change: Optional[changes.Change]
    is_gone: bool
    is_new: bool = False
    about: Optional[origins.About] = None
    operators: Optional[frozenset] = None


def rows_of(docker, differing, news=None, abouts=None):
    """The lines of a docker in order, with the permanent lines that it lacks in their places. Without a comparison there are no changes."""
    found = []
    for number, line in enumerate(docker.lines):
        change = differing.of.get(number) if differing else None
        found.append(Row(line, change, False, news is not None and number in news.of, *(abouts.own[number] if abouts else ())))
    for number, (line, change) in enumerate(differing.gone if differing else ()):
        at = bisect.bisect_right(found, changes.place_in_day(line), key=lambda row: changes.place_in_day(row.line))
        found.insert(at, Row(line, change, True, news is not None and line._replace(stp="") in news.gone, *(abouts.gone[number] if abouts else ())))
    return found


def columns_of(those):
    """The columns of `MORE` in which one of these calls has something."""
    return tuple(column for column in MORE if any(call.about and getattr(call.about, column[0]) for call in those))


def once_here(docker):
    """The UIDs that have only one call on a docker. A link to the train of such a UID needs no time. An arrival and a departure are no single call if one train
    ends here and another train starts here."""
    events = {}
    for line in docker.lines:
        if line.kind in changes.EVENTS:
            events.setdefault(line.uid, []).append(line)
    return {
        uid for uid, found in events.items()
        if len(found) == 1 or [line.kind for line in found] == ["A", "D"] and found[0].suffix == found[1].suffix and docker.tiploc not in (found[0].destination, found[1].origin)
    }


class Rows:
    """Makes the rows of a docker, by line or by call. They link to their trains if single trains can be shown. They show codes if there is no list of names. If
    `has_notes`, each row has a cell for its change, and for whether it is new. `more` are columns of `MORE`."""

    def __init__(self, docker, labels, is_linked, has_notes=False, more=(), operators=None):
        self.docker = docker
        self.labels = labels
        self.is_linked = is_linked
        self.has_notes = has_notes
        self.more = [name for name, *_ in more]
        self.operators = operators or {}
        self.place = part(docker.tiploc)
        self.once = once_here(docker)
        self.cells = {}
        self.escaped = Escaped()

    def cell(self, tiploc):
        """The part after `<td class=..` in the cell of a place: its name with its code as a tooltip, or the other way round."""
        if tiploc not in self.cells:
            is_named = bool(self.labels.names)
            other = self.labels.other(tiploc) if is_named else ""
            tip = f' title="{escape(other)}"' if other else ""
            self.cells[tiploc] = f"{tip}>{escape(self.labels.of(tiploc) if is_named else tiploc)}</td>"
        return self.cells[tiploc]

    def linked(self, text, uid, time):
        """A link to the train that is here at this time."""
        return self.link(text, uid, f"{self.docker.date}?at={self.place}.{time}")

    def link(self, text, uid, address):
        if not self.is_linked or len(uid) != 6 or not text:
            return self.escaped[text]
        return f'<a href="/train/{part(uid)}/{address}">{self.escaped[text]}</a>'

    def train(self, call):
        """The identity of the call's train. A train that isn't here is found by its start day."""
        line = call.line
        if call.is_gone and call.change.start:
            return self.link(line.train, line.uid, call.change.start)
        return self.linked(line.train, line.uid, "" if line.uid in self.once else line.time)

    def note(self, call):
        """The cell with a row's change, and whether it is new, if the table has such a column."""
        if not self.has_notes:
            return ""
        text = self.escaped[calls.worded(call, self.labels)] if call.change else ""
        fresh = '<b class="fresh">new</b>' if call.is_new else ""
        return f'<td class="change">{text}{" " if text and fresh else ""}{fresh}</td>' if text or fresh else "<td></td>"

    def about(self, call):
        """The cells with the operator, and with what is unusual of the train, if the table has such columns."""
        cells = ""
        for name in self.more:
            text = getattr(call.about, name) if call.about else ""
            tip = f' title="{self.escaped[self.operators[text]]}"' if name == "operator" and text in self.operators else ""
            cells += f'<td class="{name}"{tip}>{self.escaped[text]}</td>'
        return cells

    def times(self, call):
        """The cells of a row of lines: the time and the event."""
        return f'<td class="time">{call.line.clock}</td><td class="kind">{self.escaped[call.line.word]}</td>'

    def both_times(self, call):
        """The cells of a row of calls: the arrival and the departure. A train that passes has only the second time. A word stands in for a missing time."""
        arrival, departure = call.event("A"), call.event("D")
        if call.line.link:
            return f'<td class="arr">{call.line.clock}</td><td class="dep"></td>'
        if passing := call.event("P"):
            return f'<td class="arr"><i>pass</i></td><td class="dep">{passing.clock}</td>'
        first = arrival.clock if arrival else "<i>starts</i>" if departure.origin == self.docker.tiploc else ""
        last = departure.clock if departure else "<i>ends</i>" if arrival.destination == self.docker.tiploc else ""
        return f'<td class="arr">{first}</td><td class="dep">{last}</td>'

    @staticmethod
    def public(call):
        """The public times. If a call has an arrival and a departure, both have their places beside the dash."""
        clocks = [line.public_clock for line in call.lines]
        return clocks[0] if len(clocks) == 1 or not any(clocks) else "–".join(clocks)

    def ends(self, call, is_lines):
        """The cells with the ends of the journey, or with the partner of an association."""
        line = call.line
        if not line.link:
            return f'<td class="from"{self.cell(line.origin)}<td class="to"{self.cell(line.destination)}'
        word = "" if is_lines else f"{self.escaped[line.word]} "
        return f'<td class="link" colspan="2">{word}{self.linked(line.link, line.partner, "")}</td>'

    def row(self, call, after, mark, is_lines):
        """A row of the table. `after` is the number of half minutes from the page's midnight to the docker's."""
        _, _, _, uid, stp, suffix, platform, track, path, *_ = map(self.escaped.__getitem__, call.line)
        last = f'<td class="suffix">{suffix}</td>' if is_lines else ""
        kind = f"{stp}{' gone' if call.is_gone else ''}{f' {call.change.kind}' if call.change else ''}"
        return (
            f'<tr{mark} class="{kind}" data-at="{call.end + after}">{self.times(call) if is_lines else self.both_times(call)}'
            f'<td class="train">{self.train(call)}</td><td class="platform">{platform}</td>'
            f'<td class="path">{path}</td><td class="line">{track}</td><td class="public">{self.public(call)}</td>{self.ends(call, is_lines)}'
            f'<td class="uid">{uid}</td>{last}<td class="stp">{stp}</td>{self.about(call)}{self.note(call)}</tr>\n'
        )

    def all(self, those, after=0, now=None, is_lines=False):
        """These rows. The first one that isn't past is marked."""
        first = next((number for number, call in enumerate(those) if now is not None and call.end >= now), None)
        return "".join(self.row(call, after, ' id="now"' if number == first else "", is_lines) for number, call in enumerate(those))
