"""How a place's docker of a day differs from the permanent timetable: the trains that are cancelled, altered or added.

Trains are matched by UID and start day, and the calls of a train by their order at the place. Lines that differ only in their STP indicator count as equal."""
import collections
import datetime
import itertools
from typing import NamedTuple

import lines
import trains

# The kinds of changed trains, in the order in which they are counted, and the words with which a page counts them. An absent train runs, but doesn't call here.
WORDS = {"cancelled": "cancelled", "absent": "not calling", "altered": "altered", "added": "added"}
# The fields of a line that are compared with its permanent line.
COMPARED = tuple(name for name in lines.Line._fields if name not in ("kind", "uid", "stp"))
# The number of days on which a train may be on its way: it passes midnight at most twice.
DAYS = 3
# The kinds of lines, in the order in which lines with the same time are shown.
ORDER = "APJVND"
# The word for a missing event of a call.
EVENTS = {"A": "arrival", "P": "pass", "D": "departure"}
# The columns of the UID in a line of a docker's text.
UID = slice(lines.COLUMNS["UID"][0] - 1, lines.COLUMNS["UID"][1])
# What a page says of a train that isn't here, or isn't here at a certain time: first for a train that stops, then for a train that passes.
NOT = ("doesn’t call", "doesn’t pass")


class Change(NamedTuple):
    """How a line differs, and the start day of its train. `was` has the permanent lines that it replaces. If they don't explain the change, `words` do."""
    kind: str
    start: str
    was: tuple = ()
    words: str = ""


class Gone(NamedTuple):
    """A permanent line that isn't on the docker of the day."""
    line: lines.Line
    change: Change


class Changes(NamedTuple):
    """How a docker differs: the changes of its lines, by the lines' numbers, and the permanent lines that it lacks, in their order. `trains` has the UID and
    the start day of each changed train, by kind of change."""
    of: dict
    gone: list
    trains: dict

    def counted(self):
        """The number of trains of each kind, in words; empty if there are none."""
        return counted(self.trains)


def counted(trains_of):
    """The number of trains of each kind, in words; empty if there are none."""
    return ", ".join(f"{len(trains_of[kind])} {word}" for kind, word in WORDS.items() if trains_of.get(kind))


def bare(line):
    """A line of a docker's text without its STP indicator."""
    first, last = lines.COLUMNS["STP indicator"]
    return line[:first - 1] + line[last:]


def apart(text, other):
    """For each of two dockers, its lines of the UIDs whose lines aren't the same on both, STP indicators included. The other trains needn't be compared."""
    if text == other:
        return [], []
    both = [docker.split(b"\n")[1:-2] for docker in (text, other)]
    one, two = map(collections.Counter, both)
    uids = {line[UID] for line, _ in one.items() ^ two.items()}
    return [[line for line in found if line[UID] in uids] for found in both]


def lone(text, other):
    """The lines that only the first of two dockers has, and the lines that only the other has, ignoring STP indicators."""
    both = apart(text, other)
    return [unmatched(*both), unmatched(*reversed(both))]


def unmatched(found, others):
    """The lines that have no counterpart among others."""
    left, alone = collections.Counter(map(bare, others)), []
    for line in found:
        if left[key := bare(line)]:
            left[key] -= 1
        else:
            alone.append(line)
    return alone


def uids_of(text, permanent):
    """The UIDs whose lines differ between two dockers."""
    return {line[UID].decode("ascii").strip() for line in itertools.chain(*lone(text, permanent))}


def rows_of(docker):
    """The rows of a docker's text with their numbers, by UID."""
    found = {}
    first, last = lines.COLUMNS["UID"]
    for number, row in enumerate(docker.decode("ascii").split("\n")[1:-2]):
        found.setdefault(row[first - 1:last].strip(), []).append((number, row))
    return found


def date_after(date, days):
    """The date that is this number of days after another."""
    return (datetime.date.fromisoformat(date) + datetime.timedelta(days)).isoformat()


def long(date):
    return f"{datetime.date.fromisoformat(date):%A %-d %B}"


def place_in_day(line):
    """The key by which lines are put in order for a reader."""
    return line.half_minutes, ORDER.find(line.kind), line.uid


def calls_of(events):
    """A train's events at a place, as calls: a departure belongs to the arrival before it."""
    calls = []
    for number, line in events:
        if calls and line.kind == "D" and calls[-1][-1][1].kind == "A" and calls[-1][-1][1].suffix == line.suffix:
            calls[-1].append((number, line))
        else:
            calls.append([(number, line)])
    return calls


def time_of(call):
    return call[0][1].half_minutes


def kept_of(calls, others):
    """The numbers of the calls that are matched with the others, which are fewer. The order is kept, and the differences of the times are as small as
    possible."""
    best = [(0, ())] + [None] * len(others)
    for number, call in enumerate(calls):
        for at in range(len(others), 0, -1):
            if best[at - 1] is not None:
                apart, numbers = best[at - 1]
                way = apart + abs(time_of(call) - time_of(others[at - 1])), (*numbers, number)
                best[at] = min(way, best[at] or way)
    return best[-1][1]


def paired(calls, others):
    """The calls of a train, each with the permanent call that it replaces, in their order. A call without a counterpart has None."""
    if len(calls) < len(others):
        return [(call, other) for other, call in paired(others, calls)]
    stands_for = dict(zip(kept_of(calls, others), others))
    return [(call, stands_for.get(number)) for number, call in enumerate(calls)]


def differs(line, was):
    """Whether a reader sees a difference between a line and its permanent line."""
    return any(getattr(line, name) != getattr(was, name) for name in COMPARED)


def departures_of(docker, origin):
    """When each UID that starts at a place departs, in half minutes, from the text of the place's docker. A train that comes back there has another suffix at
    its later call."""
    found = {}
    events = [lines.line_of(row) for row in docker.decode("ascii").split("\n")[1:-2] if row[6] in "AD"]
    arrives = {(line.uid, line.suffix) for line in events if line.kind == "A"}
    for line in events:
        if line.kind == "D" and line.origin == origin and (line.uid, line.suffix) not in arrives:
            found.setdefault(line.uid, line.half_minutes)
    return found


class Departures:
    """When permanent trains depart from their origins. Answers are kept."""

    def __init__(self, reader):
        self.reader = reader
        self.kept = {}

    def of(self, origin, date):
        if (origin, date) not in self.kept:
            answer = self.reader.permanent(origin, date)
            self.kept[origin, date] = departures_of(answer.text, origin) if answer.status == 0 else {}
        return self.kept[origin, date]


class Timetable:
    """The requests to a desk that are needed to compare the dockers of a place: trains, with their calls there, and permanent dockers. Answers are kept. A pair
    of dockers may be given, and so may the departures that another comparison asked for."""

    def __init__(self, reader, tiploc, pair=None, departures=None):
        self.reader, self.tiploc = reader, tiploc
        self.departures = departures or Departures(reader)
        self.answers = {}
        self.read = {}
        self.texts = {("print", pair.date): pair.text, ("permanent", pair.date): pair.permanent} if pair else {}
        self.rows = {}

    def fetches(self, wanted):
        """Asks for trains, each by its UID and its start day."""
        if new := [one for one in dict.fromkeys(wanted) if one not in self.answers]:
            self.answers.update(zip(new, self.reader.trains(new)))

    def indicator(self, uid, start):
        """The STP indicator of the schedule that is chosen for a train; empty if there is none."""
        self.fetches([(uid, start)])
        answer = self.answers[uid, start]
        return trains.indicator_of(answer.text) if answer.status == 0 else ""

    def train(self, uid, start):
        """The train with this UID that starts on this day, or None."""
        if (uid, start) not in self.read:
            self.fetches([(uid, start)])
            answer = self.answers[uid, start]
            self.read[uid, start] = trains.train_of(answer.text, self.tiploc) if answer.status == 0 else None
        return self.read[uid, start]

    def starts_of(self, docker):
        """The start day of each line's train; empty where it isn't known."""
        self.fetches((line.uid, date_after(docker.date, -before)) for line in docker.lines for before in range(DAYS))
        return trains.starts_of(docker, self.train)

    def text(self, command, date):
        """The docker of the place on a day, from `print` or `permanent`; empty if it is refused."""
        if (command, date) not in self.texts:
            answer = self.reader.print_docker(self.tiploc, date) if command == "print" else self.reader.permanent(self.tiploc, date)
            self.texts[command, date] = answer.text if answer.status == 0 else b""
        return self.texts[command, date]

    def lines(self, command, date, uid):
        """The lines of a UID on a docker, with the lines' numbers."""
        if (command, date) not in self.rows:
            self.rows[command, date] = rows_of(self.text(command, date))
        return [(number, lines.line_of(row)) for number, row in self.rows[command, date].get(uid, ())]


class Day:
    """A place on a day: the lines of some UIDs on its docker and on the permanent one, by train."""

    def __init__(self, timetable, date, uids):
        self.timetable, self.date = timetable, date
        self.starts = [date_after(date, -before) for before in range(DAYS)]
        timetable.fetches([(uid, start) for uid in sorted(uids) for start in self.starts])
        self.now, self.before = {}, {}
        for uid in sorted(uids):
            own, permanent = (timetable.lines(command, date, uid) for command in ("print", "permanent"))
            starts = self.starts_of(own)
            self.sort(self.now, own, starts)
            self.sort(self.before, permanent, self.permanent_starts(uid, own, starts, permanent))

    @staticmethod
    def sort(trains_there, numbered, starts):
        for (number, line), start in zip(numbered, starts):
            trains_there.setdefault((line.uid, start), []).append((number, line))

    def starts_of(self, numbered):
        """The start day of each line's train."""
        docker = lines.Docker(self.timetable.tiploc, self.date, "", [line for _, line in numbered])
        return [start or self.date for start in trains.starts_of(docker, self.timetable.train)]

    def permanent_starts(self, uid, own, starts, permanent):
        """The start day of each permanent line's train. If a train's permanent schedule is chosen, the train has the same events on both dockers. The remaining
        events belong to the trains that have another schedule chosen."""
        indicators = {start: self.timetable.indicator(uid, start) for start in self.starts}
        same = collections.defaultdict(list)
        for (_, line), start in zip(own, starts):
            if indicators.get(start) == "P":
                same[line].append(start)
        changed = [start for start in self.starts if indicators[start] not in ("", "P")] or [self.date]
        found = {}
        for number, line in permanent:
            if line.kind in EVENTS:
                found[number] = same[line].pop(0) if same[line] else self.changed_start(line, changed)
        events = [(line, found[number]) for number, line in permanent if number in found]
        for number, line in permanent:
            # An association belongs to a call, and has the call's time.
            at = (start for event, start in events if (event.time, event.suffix) == (line.time, line.suffix))
            found.setdefault(number, next(at, self.date))
        return [found[number] for number, _ in permanent]

    def changed_start(self, line, changed):
        """The start day of a permanent line's train, which is one of these days. If there are several, it is this day if the train departs from its origin
        earlier on this day, since no train takes a whole day to get here."""
        if len(changed) == 1:
            return changed[0]
        departs = self.timetable.departures.of(line.origin, self.date).get(line.uid)
        is_of_day = departs is not None and departs <= line.half_minutes
        return self.date if is_of_day and self.date in changed else next((start for start in changed if start < self.date), changed[0])


class Comparison:
    """Compares the docker of a place on a day with the permanent one."""

    def __init__(self, timetable, date):
        self.timetable, self.date = timetable, date
        self.day = Day(timetable, date, uids_of(*(timetable.text(command, date) for command in ("print", "permanent"))))
        self.changes = Changes({}, [], {})
        self.beside = {}

    def made(self):
        for train in sorted({*self.day.now, *self.day.before}):
            self.compares(train, self.day.now.get(train, []), self.day.before.get(train, []))
        self.changes.gone.sort(key=lambda gone: place_in_day(gone.line))
        return self.changes

    def compares(self, train, now, before):
        """Compares the lines of a train. Counts the train if they differ."""
        of, gone = len(self.changes.of), len(self.changes.gone)
        events, others = ([one for one in numbered if one[1].kind in EVENTS] for numbered in (now, before))
        kind = "altered"
        if not events and others:
            kind = self.loses(train, before)
        elif events and not others:
            kind = self.gains(train, now)
        else:
            for call, other in paired(calls_of(events), calls_of(others)):
                self.alters(train, call or [], other or [])
            self.links(train, *([one for one in numbered if one[1].kind not in EVENTS] for numbered in (now, before)))
        if (len(self.changes.of), len(self.changes.gone)) != (of, gone):
            self.changes.trains.setdefault(kind, []).append(train)

    def goes(self, train, kind, line, words):
        self.changes.gone.append(Gone(line, Change(kind, train[1], (line,), words)))

    def comes(self, train, kind, number, was=(), words=""):
        self.changes.of[number] = Change(kind, train[1], tuple(was), words)

    def loses(self, train, before):
        """A train that isn't here on this day. It is cancelled, or it is here on another day, or it isn't here at all."""
        if self.timetable.indicator(*train) == "C":
            kind, words = "cancelled", ("cancelled", "cancelled")
        elif elsewhen := self.elsewhen(train):
            kind, words = "altered", (f"calls here on {elsewhen}", f"passes here on {elsewhen}")
        else:
            kind, words = "absent", tuple(f"{word} here" for word in NOT)
        for _, line in before:
            self.goes(train, kind, line, words[line.kind == "P"])
        return kind

    def elsewhen(self, train):
        """The day and the time at which a train is first here, in words; empty if it never is."""
        found = self.timetable.train(*train)
        times = ((call.days[kind], time) for call in found.calls for kind, time in call.times.items()) if found else ()
        return next((f"{long(date_after(found.date, after))} at {trains.clock(time)}" for after, time in times), "")

    def gains(self, train, now):
        """A train that isn't here permanently on this day. It is added, or it is here permanently on the day before or after."""
        date, was = self.lines_beside(train)
        for number, _ in now:
            if was:
                self.comes(train, "altered", number, was, f"was on {long(date)} at {was[0].clock}")
            else:
                self.comes(train, "added", number, words="added")
        return "altered" if was else "added"

    def lines_beside(self, train):
        """If this day's schedule is an overlay: the day before or after on which the train is here permanently, and its lines on that day. Otherwise
        nothing."""
        if self.timetable.indicator(*train) == "O":
            for apart in (-1, 1):
                if found := self.day_beside(apart).before.get(train):
                    return self.day_beside(apart).date, [line for _, line in found]
        return "", []

    def day_beside(self, apart):
        """The day before or after, with the altered trains that aren't here permanently on this day."""
        if apart not in self.beside:
            uids = {uid for uid, start in self.day.now.keys() - self.day.before.keys() if self.timetable.indicator(uid, start) == "O"}
            self.beside[apart] = Day(self.timetable, date_after(self.date, apart), uids)
        return self.beside[apart]

    def alters(self, train, call, other):
        """Compares a call with the permanent call that it replaces. An event is compared with the event of the same kind. If the calls have no kind in common,
        as when a train stops where it would pass, each event is compared with the whole other call."""
        now, before = {line.kind: (number, line) for number, line in call}, {line.kind: line for _, line in other}
        is_same = bool(now.keys() & before.keys())
        for kind, (number, line) in now.items():
            if not other:
                self.comes(train, "added", number, words="added")
            elif kind not in before:
                self.comes(train, "altered", number, () if is_same else before.values(), f"was no {EVENTS[kind]}" if is_same else "")
            elif differs(line, before[kind]):
                self.comes(train, "altered", number, [before[kind]])
        for kind, line in before.items():
            if not call:
                self.goes(train, "altered", line, f"{NOT[kind == 'P']} at this time")
            elif kind not in now and is_same:
                self.goes(train, "altered", line, f"no {EVENTS[kind]}")

    def links(self, train, now, before):
        """The associations of a train. Two of the same kind with the same other train are matched."""
        others = [line for _, line in before]
        for number, line in now:
            was = next((other for other in others if (other.kind, other.partner, other.suffix) == (line.kind, line.partner, line.suffix)), None)
            if was is None:
                self.comes(train, "added", number, words="added")
                continue
            others.remove(was)
            if differs(line, was):
                self.comes(train, "altered", number, [was])
        for line in others:
            self.goes(train, "altered", line, "doesn’t take place")


def changes_of(timetable, date):
    """How a place's docker of a day differs from the permanent one."""
    return Comparison(timetable, date).made()


def was_of(line, name, labels):
    """A field of a permanent line in words."""
    value = getattr(line, name)
    match name:
        case "time":
            return line.clock
        case "public":
            return f"public {line.public_clock}" if value else "no public time"
        case "origin" | "destination":
            return f"{'from' if name == 'origin' else 'to'} {labels.of(value)}"
        case "partner" | "partner_train":
            return line.link
        case "train":
            return value or "no identity"
    return f"{name} {value}" if value else f"no {name}"


def fields_of(line, change, labels):
    """The fields in which a line differs from the permanent line that it replaces, in words. There are none if words explain the change, or if the line replaces
    events of other kinds."""
    if change.words or [was.kind for was in change.was] != [line.kind]:
        return []
    was = change.was[0]
    fields = [name for name in COMPARED if getattr(line, name) != getattr(was, name)]
    # If the public time equals the working time on both lines, it is left out.
    if "time" in fields and (line.public, was.public) == (line.time[:4], was.time[:4]):
        fields = [name for name in fields if name != "public"]
    return [was_of(was, name, labels) for name in fields]


def worded(line, change, labels):
    """A change in words, such as `was 09:00, platform 1`."""
    if change.words:
        return change.words
    if fields := fields_of(line, change, labels):
        return "was " + ", ".join(fields)
    place = change.was[0].platform
    return "was: " + ", ".join([*(f"{was.word} {was.clock}" for was in change.was), *([f"platform {place}"] if place != line.platform and place else [])])
