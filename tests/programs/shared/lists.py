"""The answers to `places`, `known` and `train`, by an independent reading of extracts. They have the timing points with the number of schedules that call at each.
They also have the counts of everything that is live, and the schedule of a UID that runs on a day.

It follows docs/FORMATS.md and shares nothing with the program. Files are a tuple of their texts, and a horizon is a date."""
import collections
import datetime
import functools
import typing

NO_END = "999999"
LOCATIONS = ("LO", "LI", "LT")
# A horizon on the first day has no effect.
FIRST_DAY = datetime.date(1960, 1, 1)


class Stamp(typing.NamedTuple):
    """What orders files: the date and time of the extract, and its current file reference."""

    day: datetime.date
    minute: str
    reference: str


class Put(typing.NamedTuple):
    """What a file puts under a key. A deletion puts no lines."""

    stamp: Stamp
    number: int
    lines: tuple


def day_of(text):
    """The day of a date YYMMDD."""
    year = int(text[0:2])
    return datetime.date(year + (1900 if year >= 60 else 2000), int(text[2:4]), int(text[4:6]))


def records_of(text):
    return [line.removesuffix("\r") for line in text.split("\n") if line]


def stamp_of(lines):
    date = lines[0][22:28]
    return Stamp(day_of(date[4:6] + date[2:4] + date[0:2]), lines[0][28:32], lines[0][32:39])


def is_full(lines):
    return lines[0][46] == "F"


def acts_of(line, following):
    """The keys that a record changes, each with the lines that the record puts there."""
    match line[:2]:
        case "TI":
            return [(("1", line[2:9]), (line,))]
        case "TD":
            return [(("1", line[2:9]), ())]
        case "TA":
            new = line[72:79] if line[72:79].strip() else line[2:9]
            gone = [(("1", line[2:9]), ())] if new != line[2:9] else []
            return [*gone, (("1", new), (line,))]
        case "AA":
            key = "2", line[3:9], line[9:15], day_of(line[15:21]), line[37:44], line[44], line[79]
            return [(key, () if line[2] == "D" else (line,))]
        case "BS":
            key = "3", line[3:9], day_of(line[9:15]), line[79]
            return [(key, () if line[2] == "D" else (line, *following))]
    return []


@functools.cache
def puts_of(text):
    """The changes in a file, each a key and a put."""
    lines = records_of(text)
    stamp, found = stamp_of(lines), []
    for number, line in enumerate(lines, 1):
        end = number
        while line[:2] == "BS" and lines[end][:2] in ("BX", "CR", *LOCATIONS):
            end += 1
        for key, kept in acts_of(line, lines[number:end]):
            found.append((key, Put(stamp, number, kept)))
    return found


def newest_full(files):
    """The stamp of the newest full extract; None if there is none."""
    split = [records_of(text) for text in files]
    return max((stamp_of(lines) for lines in split if is_full(lines)), default=None)


def end_of(key, lines):
    """The last day of an association or a schedule; None if it has no end."""
    field = {"2": lines[0][21:27], "3": lines[0][15:21]}.get(key[0], NO_END)
    return None if field == NO_END else day_of(field)


@functools.cache
def latest_of(files):
    """The greatest put under each key. Files before the newest full extract don't count."""
    floor, latest = newest_full(files), {}
    for text in files:
        for key, put in puts_of(text):
            if floor is not None and put.stamp < floor:
                break
            if key not in latest or latest[key][:2] < put[:2]:
                latest[key] = put
    return latest


def live_of(files, horizon=FIRST_DAY):
    """Each live key with its lines, for these files and this horizon."""
    ends = {key: end_of(key, put.lines) for key, put in latest_of(files).items() if put.lines}
    return {key: latest_of(files)[key].lines for key, end in ends.items() if not end or end >= horizon}


def counts_of(live):
    """For each TIPLOC, the number of live schedules that have a location record there."""
    calls = ({line[2:9] for line in lines if line[:2] in LOCATIONS} for key, lines in live.items() if key[0] == "3")
    return collections.Counter(code for codes in calls for code in codes)


@functools.cache
def places_text(files, horizon=FIRST_DAY):
    """The answer to `places` for these files and this horizon."""
    live = live_of(files, horizon)
    counts = counts_of(live)
    text = ""
    for key in sorted(key for key in live if key[0] == "1"):
        code, line = key[1], live[key][0]
        text += f"{code} {line[53:56]} {line[44:49]} {line[18:44]} {counts[code]:10}\n"
    return text.encode()


@functools.cache
def known_text(files, horizon=FIRST_DAY):
    """The answer to `known` for these files and this horizon."""
    live, full = live_of(files, horizon), newest_full(files)
    ends = [end_of(key, lines) for key, lines in live.items() if key[0] == "3"]
    rows = [("HORIZON", "NONE" if horizon == FIRST_DAY else horizon.isoformat())]
    if full:
        rows.append(("FULL", f"{full.day.isoformat()} {full.minute} {full.reference}"))
    if any(ends):
        rows.append(("LAST", max(end for end in ends if end).isoformat()))
    for name, kind in (("SCHEDULES", "3"), ("ASSOCIATIONS", "2"), ("PLACES", "1")):
        rows.append((name, str(sum(key[0] == kind for key in live))))
    return "".join(f"{name:12} {value}\n" for name, value in rows).encode()


def first_day(line):
    """The first day of a schedule or an association, by its first record."""
    return day_of(line[9:15] if line[:2] == "BS" else line[15:21])


def runs(line, day):
    """Whether a schedule or an association with this first record runs on a day."""
    last, days = (line[15:21], line[21:28]) if line[:2] == "BS" else (line[21:27], line[27:34])
    return first_day(line) <= day and (last == NO_END or day <= day_of(last)) and days[day.weekday()] == "1"


def chosen(entries, day):
    """Of the schedules of a UID, or of the associations of a group, the key of the one that counts on a day; None if none runs. Entries are lines by their
    keys, and a key ends in its STP indicator."""
    found = [key for key, lines in entries.items() if runs(lines[0], day)]
    return min(found, key=lambda key: (key[-1], -first_day(entries[key][0]).toordinal()), default=None)


@functools.cache
def schedules_of(files, uid):
    """The schedules of a UID: the lines of each by its key."""
    return {key: put.lines for key, put in latest_of(files).items() if key[:2] == ("3", uid) and put.lines}


def train_text(files, uid, date):
    """The answer to `train` for a UID and a date YYYY-MM-DD, as in *The schedule of a UID on a day* of docs/FORMATS.md."""
    files = tuple(sorted(files))
    key = chosen(schedules_of(files, uid), datetime.date.fromisoformat(date))
    head, lines = f"{'TRAIN':7}{uid:8}{date:10}   NONE", ()
    if key:
        stp, (stamp, number, (basic, *rest)) = key[-1], latest_of(files)[key]
        what = "CANCELLED" if stp == "C" else "RUNS"
        head = f"{'TRAIN':7}{uid:8}{date:10} {stp} {what:10}{stamp.day.isoformat():11}{stamp.minute:5}{stamp.reference:8}{number:10}"
        lines = ["BSN" + basic[3:], *rest]
    return "".join(f"{line:80}\n" for line in [head, *lines, "END"]).encode()
