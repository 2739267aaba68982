"""Dockers with their details, by an independent reading of extracts: the answers to `detail` and `permanent-detail`.

It follows docs/FORMATS.md and shares nothing with the program. Files are a tuple of their texts, and a day is a date."""
import collections
import datetime
import functools
import typing

import lists

WIDTH, DETAILED_WIDTH = 56, 483
ORDER = "APJVND"
CATEGORIES = {"JJ": "J", "VV": "V", "NP": "N"}
BLANK = " " * 80
ONE_DAY = datetime.timedelta(1)


class Event(typing.NamedTuple):
    """An event of a train: its number, the index of its record, its kind, its time in half minutes, and how often the train has passed midnight."""

    number: int
    at: int
    kind: str
    time: int
    midnights: int


class Plan(typing.NamedTuple):
    """The schedules of each UID and the associations of each group, as records by their keys. Also the descriptions of timing points."""

    schedules: dict
    groups: dict
    names: dict


def half_minutes(field):
    """The time in a field of five characters; None if it is blank."""
    return 2 * (60 * int(field[:2]) + int(field[2:4])) + (field[4] == "H") if field.strip() else None


def times_of(line):
    """The kinds and times of the events at a location record."""
    fields = {"LO": (("D", 10),), "LI": (("A", 10), ("P", 20), ("D", 15)), "LT": (("A", 10),)}.get(line[:2], ())
    times = ((kind, half_minutes(line[column:column + 5])) for kind, column in fields)
    return [(kind, time) for kind, time in times if time is not None]


@functools.cache
def events_of(lines):
    """The events of a schedule, numbered from 1."""
    events, before, midnights = [], 0, 0
    for at, line in enumerate(lines):
        for kind, time in times_of(line):
            midnights += time < before
            before = time
            events.append(Event(len(events) + 1, at, kind, time, midnights))
    return events


@functools.cache
def plan_of(files, is_permanent):
    """What these files say, without short-term entries if `is_permanent`."""
    plan = Plan(collections.defaultdict(dict), collections.defaultdict(dict), {})
    for key, (first, *others) in lists.live_of(files).items():
        if key[0] == "1":
            plan.names[key[1]] = first[18:44]
        elif is_permanent and key[-1] != "P":
            continue
        elif key[0] == "3":
            plan.schedules[key[1]][key] = ("BSN" + first[3:], *others)
        else:
            plan.groups[key[1], key[2], key[4], key[5]][key] = ("AAN" + first[3:],)
    return plan


def counting(entries, day):
    """The STP indicator and the records of the schedule or association that counts on a day; None if there is none, or if it cancels."""
    key = lists.chosen(entries, day)
    return (key[-1], entries[key]) if key and key[-1] != "C" else None


def train_on(plan, uid, day):
    """The STP indicator and the records of the train of a UID that starts on a day; None if there is none."""
    return counting(plan.schedules.get(uid, {}), day)


def last_change(lines, event):
    """The CR record that is in force at an event; None if there is none."""
    return next((line for line in reversed(lines[:event.at]) if line[:2] == "CR"), None)


def identity_at(lines, event):
    change = last_change(lines, event)
    return change[12:16] if change else lines[0][32:36]


def first_of(lines, identity):
    return next((line for line in lines if line[:2] == identity), BLANK)


def columns_at(line, kind):
    """The platform, line, path and public time of an event at a location record."""
    match line[:2]:
        case "LO":
            return line[19:22], line[22:25], "", line[15:19]
        case "LI":
            public = {"A": line[25:29], "D": line[29:33]}.get(kind, "")
            return line[33:36], line[36:39], line[39:42], public
        case _:
            return line[19:22], "", line[22:25], line[15:19]


def front(time, kind, identity, uid, stp, at):
    """The first columns of a docker line: those before the platform."""
    clock = f"{time // 120:02}{time // 2 % 60:02}{'H' if time % 2 else ' '}"
    return f"{clock} {kind} {identity} {uid} {stp} {at[9]} "


def origin(start, event, lines, association):
    """The columns of a line after the docker's own: what the line came from."""
    records = lines[0], first_of(lines, "BX"), last_change(lines, event) or BLANK, lines[event.at], association or BLANK
    return f" {start.isoformat()} {event.number:10} {' '.join(records)}"


def rows_of_train(plan, place, day, uid, start):
    """The lines of a train's events at the place on the day, each with what it is sorted by."""
    train = train_on(plan, uid, start)
    if not train:
        return
    stp, lines = train
    ends = f"{first_of(lines, 'LO')[2:9]} {first_of(lines, 'LT')[2:9]}"
    for event in events_of(lines):
        at = lines[event.at]
        if at[2:9] != place or start + event.midnights * ONE_DAY != day:
            continue
        platform, track, path, public = columns_at(at, event.kind)
        text = front(event.time, event.kind, identity_at(lines, event), uid, stp, at)
        text += f"{platform:3} {track:3} {path:3} {public if public != '0000' else '':4} {ends}"
        rank = (event.time, ORDER.index(event.kind), uid, start, event.number, "")
        yield rank, text + origin(start, event, lines, None)


def rows_of_group(plan, day, group, start):
    """The line of a group of associations for a start day of the base train, if there is one."""
    base, partner, place, suffix = group
    found, train = counting(plan.groups[group], start), train_on(plan, base, start)
    if not found or not train:
        return
    association = found[1][0]
    kind, lines = CATEGORIES.get(association[34:36]), train[1]
    event = next((it for it in events_of(lines) if lines[it.at][2:10] == place + suffix), None)
    if not kind or association[36] not in "S NP" or not event or start + event.midnights * ONE_DAY != day:
        return
    at, of_partner = lines[event.at], train_on(plan, partner, start + {"N": 1, "P": -1}.get(association[36], 0) * ONE_DAY)
    identity = of_partner[1][0][32:36] if of_partner else "????"
    text = front(event.time, kind, identity_at(lines, event), base, association[79], at)
    text += f"{columns_at(at, event.kind)[0]:3}{'':14}{partner}  {identity}   "
    rank = (event.time, ORDER.index(kind), base, start, event.number, partner)
    yield rank, text + origin(start, event, lines, association)


def rows_of(files, place, day, is_permanent=False):
    """The lines of a timing point on a day, in their order. Each follows what it is sorted by, which begins with its time, its kind, its UID and its start day."""
    plan, rows = plan_of(files, is_permanent), []
    for start in (day, day - ONE_DAY, day - 2 * ONE_DAY):
        for uid in plan.schedules:
            rows += rows_of_train(plan, f"{place:7}", day, uid, start)
        for group in plan.groups:
            if group[2] == f"{place:7}":
                rows += rows_of_group(plan, day, group, start)
    return sorted(rows)


def detailed_text(files, place, date, is_permanent=False):
    """The detailed docker of a timing point on a date YYYY-MM-DD."""
    rows = rows_of(files, place, datetime.date.fromisoformat(date), is_permanent)
    heading = f"DOCKER {place:7} {date} {plan_of(files, is_permanent).names.get(f'{place:7}', ''):26}"
    return "".join(f"{text:{DETAILED_WIDTH}}\n" for text in [heading, *(text for _, text in rows), "END"]).encode()


def docker_part(text):
    """The first 56 columns of each line, as `cut -c1-56` prints them."""
    return b"".join(line[:WIDTH] + b"\n" for line in text.split(b"\n")[:-1])
