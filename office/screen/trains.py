"""Reads one train from the answer of `desk` to `train`, by the columns in docs/FORMATS.md."""
import datetime
from typing import NamedTuple

# The first and the last column of each field, by the names in docs/FORMATS.md.
HEADING = {
    "UID": (8, 13), "date": (16, 25), "STP indicator": (27, 27), "state": (29, 37), "date of extract": (39, 48), "time of extract": (50, 53),
    "current file reference": (55, 61), "record number": (63, 72),
}
BASIC = {"runs from": (10, 15), "runs to": (16, 21), "days": (22, 28), "train identity": (33, 36)}
# For each kind of location record: its times in their order, each with the kind of event, and its other fields.
TIMES = {"LO": (("D", (11, 15)),), "LI": (("A", (11, 15)), ("P", (21, 25)), ("D", (16, 20))), "LT": (("A", (11, 15)),)}
PUBLIC = {"LO": {"D": (16, 19)}, "LI": {"A": (26, 29), "D": (30, 33)}, "LT": {"A": (16, 19)}}
TRACKS = {"LO": ((20, 22), (23, 25), None), "LI": ((34, 36), (37, 39), (40, 42)), "LT": ((20, 22), None, (23, 25))}
INDICATORS = {"P": "permanent", "O": "altered on this day (overlay)", "N": "new on this day", "C": "cancelled on this day"}
# The date of a schedule that has no end.
NO_END = "999999"
WEEKDAYS = ("Mondays", "Tuesdays", "Wednesdays", "Thursdays", "Fridays", "Saturdays", "Sundays")


def part(record, columns):
    return record[columns[0] - 1:columns[1]].strip() if columns else ""


def half_minutes(time):
    """The half minutes since midnight of a time HHMM or HHMMH."""
    return int(time[:2]) * 120 + int(time[2:4]) * 2 + time.endswith("H")


def clock(time):
    """A time as a page shows it; empty if there is none."""
    return f"{time[:2]}:{time[2:4]}{'½' if time.endswith('H') else ''}" if time else ""


def public_clock(time):
    return "" if time == "0000" else clock(time)


class Call(NamedTuple):
    """A location record of a schedule. `times` has the time of each kind of event, and `days` how many days after the start it happens. `changed` is the record CR
    that comes right before it; empty if there is none."""
    tiploc: str
    suffix: str
    times: dict
    days: dict
    public: dict
    platform: str
    line: str
    path: str
    identity: str
    record: str
    changed: str

    @property
    def is_changed(self):
        return bool(self.changed)

    @property
    def day(self):
        """The number of days from the start to the first event; 0 if there is no event."""
        return next(iter(self.days.values()), 0)

    @property
    def first(self):
        return next(iter(self.times.values()), "")


class Train(NamedTuple):
    """The schedule of a UID on the day of its start, from the answer to `train`. `basic` and `extra` are its records BS and BX; empty if there is none."""
    uid: str
    date: str
    stp: str
    state: str
    extract_date: str
    extract_time: str
    reference: str
    number: str
    identity: str
    runs_from: str
    runs_to: str
    days: str
    calls: list
    basic: str = ""
    extra: str = ""

    @property
    def start(self):
        return datetime.date.fromisoformat(self.date)

    def runs_on(self, day):
        """Whether the schedule's dates and days include a day."""
        return self.runs_from <= day.isoformat() and (not self.runs_to or day.isoformat() <= self.runs_to) and self.days[day.weekday():day.weekday() + 1] == "1"

    def day_of(self, call):
        """The day of a call."""
        return self.start + datetime.timedelta(call.day)

    def events(self, tiploc, day):
        """The kinds and times of the train's events at a place on a day."""
        after = (day - self.start).days
        return [(kind, time) for call in self.calls if call.tiploc == tiploc for kind, time in call.times.items() if call.days[kind] == after]

    def first_call(self, tiploc, suffix):
        """The first call at a place with this suffix, to which associations belong."""
        return next((call for call in self.calls if (call.tiploc, call.suffix) == (tiploc, suffix) and call.times), None)


def date_of(digits):
    """The date YYMMDD, in the years 1960 to 2059. It is empty for 999999, which means that there is no end."""
    if not digits.isdigit() or digits == NO_END:
        return ""
    year = int(digits[:2])
    return f"{1900 + year if year >= 60 else 2000 + year}-{digits[2:4]}-{digits[4:]}"


def calls_of(records, only):
    """The calls of a schedule; if a place is given, only the calls there."""
    calls, identity, changed, before, day = [], part(records[0], BASIC["train identity"]), "", "", 0
    for record in records:
        kind = record[:2]
        if kind == "CR":
            identity, changed = part(record, (13, 16)), record
        if kind not in TIMES:
            continue
        times, days, is_here = {}, {}, only in (None, record[2:9].rstrip())
        for what, (first, last) in TIMES[kind]:
            time = record[first - 1:last]
            if time.isspace():
                continue
            # A time that is earlier than the one before it is on the next day. An H, which is half a minute, is above a space.
            day, before = day + (time < before), time
            if is_here:
                times[what], days[what] = time.rstrip(), day
        if is_here:
            public = {what: part(record, columns) for what, columns in PUBLIC[kind].items()}
            platform, line, path = (part(record, columns) for columns in TRACKS[kind])
            calls.append(Call(part(record, (3, 9)), part(record, (10, 10)), times, days, public, platform, line, path, identity, record, changed))
        changed = ""
    return calls


def train_of(text, only=None):
    """Reads the text of a train: a heading, records and `END`, each of 80 columns. If a place is given, the train has only its calls
    there."""
    heading, *records, end, rest = text.decode("ascii").split("\n")
    if not heading.startswith("TRAIN ") or end.rstrip() != "END" or rest or any(len(record) != 80 for record in records):
        raise ValueError("this is no train")
    fields = [part(heading, columns) for columns in HEADING.values()]
    if not records:
        return Train(*fields, "", "", "", "", [])
    basic = records[0]
    runs_from, runs_to = (date_of(part(basic, BASIC[name])) for name in ("runs from", "runs to"))
    return Train(*fields, part(basic, BASIC["train identity"]), runs_from, runs_to, part(basic, BASIC["days"]), calls_of(records, only), basic, next((record for record in records[1:2] if record.startswith("BX")), ""))


def indicator_of(text):
    """The STP indicator of the chosen schedule, from the heading of a text of `train`; empty if there is none."""
    first, last = HEADING["STP indicator"]
    return text[first - 1:last].decode("ascii").strip()


def weekdays(days):
    """Days run, such as `1111100`, in words."""
    marked = [name for name, mark in zip(WEEKDAYS, days) if mark == "1"]
    return "each day" if len(marked) == 7 else ", ".join(marked)


def starts_of(docker, ask):
    """The start day of each line's train; empty where it isn't clear. `ask` returns the train of a UID on a day, or None."""
    day = datetime.date.fromisoformat(docker.date)
    numbers = {}
    for number, line in enumerate(docker.lines):
        numbers.setdefault((line.uid, line.kind, line.time, line.suffix if line.partner else None), []).append(number)
    starts = [""] * len(docker.lines)
    for (uid, kind, time, suffix), those in numbers.items():
        found = []
        # A journey passes midnight at most twice. On the docker, the train that started first comes first.
        for before in range(3):
            start = day - datetime.timedelta(before)
            train = ask(uid, start.isoformat())
            if train is None:
                continue
            if suffix is None:
                found = [start.isoformat()] * train.events(docker.tiploc, day).count((kind, time)) + found
            elif (call := train.first_call(docker.tiploc, suffix)) and call.first == time and call.day == before:
                found = [start.isoformat()] * len(those) + found
            if suffix is None and len(found) >= len(those):
                break
        if len(found) == len(those):
            for number, start in zip(those, found):
                starts[number] = start
    return starts
