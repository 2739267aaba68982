"""Writes the calls of the office's places as a database of SQLite, for whoever asks with SQL: a row for each call, with what kind of train it is."""
import sqlite3
import sys

import calls
import changes
import details
import dockers
import lines
import names
import rows

from . import covering
from .faults import Fault
from .places import listed_places
from .reporting import dockers_of, writing

# The columns of the table `calls`: what a docker has, what the train does, its allowances, and what kind of train it is. Times are HH:MM:SS, and allowances are in
# minutes.
PLAIN = (
    "date", "place", "place_name", "uid", "start", "stp", "train", "suffix", "arrives", "passes", "departs", "public_arrival", "public_departure", "platform", "path", "line", "origin",
    "origin_name", "destination", "destination_name",
)
CODES = ("status", "category", "operator")
KINDS = tuple(details.ALLOWANCES["LI"])
CALLS = (*PLAIN, "activities", "activities_in_words", *KINDS, "vehicle", *(f"{name}_code" for name in CODES), *details.SHOWN)
LINKS = ("date", "place", "time", "kind", "uid", "train", "other_uid", "other_train")
DAYS = ("date", "made", "known_up_to", "cover", "gaps")
TABLES = {"calls": CALLS, "associations": LINKS, "days": DAYS}


def clock(time):
    """A working time as SQL compares it; None if there is none."""
    return f"{time[:2]}:{time[2:4]}:{'30' if time.endswith('H') else '00'}" if time else None


def minutes(code):
    """An allowance as a number of minutes. Another code stays as it is."""
    whole = code.removesuffix("H")
    return int(whole or 0) + code.endswith("H") / 2 if code and (whole.isdigit() or not whole) else code or None


class Table:
    """The database, and what was read of the trains."""

    def __init__(self, reader, operators, places):
        self.reader, self.names = reader, names.names_of(reader.places().text)
        self.answers = {}
        self.schedules = details.Schedules(self.answers, operators, places)
        self.base = sqlite3.connect(":memory:")
        for name, columns in TABLES.items():
            self.base.execute(f"CREATE TABLE {name} ({', '.join(columns)})")

    def adds(self, table, found):
        self.base.executemany(f"INSERT INTO {table} VALUES ({', '.join('?' * len(TABLES[table]))})", found)

    def adds_docker(self, text):
        """Adds the calls and the associations of a docker."""
        docker = lines.docker_of(text)
        timetable = changes.Timetable(self.reader, docker.tiploc)
        # A train that calls at several places is requested once.
        timetable.answers = self.answers
        # Two trains of a UID may have equal lines.
        starts = {id(line): start for line, start in zip(docker.lines, timetable.starts_of(docker))}
        those = calls.calls_of(rows.rows_of(docker, None), docker.tiploc)
        self.adds("calls", [self.call(docker, call, starts[id(call.line)]) for call in those if not call.line.link])
        self.adds("associations", [
            (docker.date, docker.tiploc, clock(line.time), line.word, line.uid, line.train, line.partner, line.partner_train) for line in docker.lines if line.link
        ])

    def call(self, docker, call, start):
        """The row of a call."""
        first, of = call.line, {kind: call.event(kind) for kind in "APD"}
        times = [clock(of[kind].time) if of[kind] else None for kind in "APD"]
        public = [of[kind].public_clock or None if of[kind] else None for kind in "AD"]
        ends = [word for place in (first.origin, first.destination) for word in (place, self.names.known(place))]
        plain = [docker.date, docker.tiploc, self.names.known(docker.tiploc), first.uid, start or None, first.stp, first.train, first.suffix, *times, *public, first.platform, first.path, first.line, *ends]
        return [*plain, *self.more(first, docker, start)]

    def more(self, line, docker, start):
        """What a docker doesn't have, from the train's schedule; nothing if it isn't clear on which day the train started."""
        there = self.schedules.of(line, start, docker)
        if there is None:
            return [None] * (len(CALLS) - len(PLAIN))
        call, now = there
        codes, allowances = details.activities_of(call), details.allowances_of(call)
        words = ", ".join(filter(None, map(details.activity, codes)))
        found = [" ".join(codes), words, *(minutes(allowances.get(kind, "")) for kind in KINDS), now.vehicle, *(now.of[name] for name in CODES)]
        return [*found, *(now.words(name) for name in details.SHOWN)]


def writes(office, reader, dates):
    """Writes the database to standard output."""
    if sys.stdout.isatty():
        raise Fault(2, "standard output", "it is a terminal; write the table into a file: >FILE.sqlite")
    if not reader.has_trains:
        raise Fault(4, "desk", "a table needs the program desk, and there is none")
    for date in dates:
        if refused := dockers.wrong_day(date):
            raise office.fault_of("table", refused.status, refused.text)
    known, table = covering.days_known(reader), Table(reader, details.operators_in(office.folder), listed_places(office))
    for date in dates:
        covering.warns(office, known, date)
        for _, text in dockers_of(office, reader, date):
            table.adds_docker(text)
        gaps = " ".join(known.warnings(date))
        table.adds("days", [(date, f"{office.settings.now:%Y-%m-%d %H:%M}", known.newest.name if known.newest else None, known.cover(date), gaps)])
    table.base.commit()
    with writing():
        sys.stdout.buffer.write(table.base.serialize())
        sys.stdout.flush()
