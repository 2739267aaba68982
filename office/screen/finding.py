"""The search: places by name, CRS or TIPLOC, and trains by UID or by train identity."""
import datetime
import re
from typing import NamedTuple

import dockers
import rows
import trains

# A UID and a train identity as people type them.
UID, IDENTITY = re.compile(r"[A-Z][0-9]{5}"), re.compile(r"[0-9][A-Z][0-9]{2}")
# The first and the last column of a field in a list of trains, by its name in docs/FORMATS.md.
LISTED = {"UID": (1, 6)}
# The greatest length of a search text, and the greatest number of places that are shown.
LONGEST, SHOWN = 60, 50
# The greatest number of places whose dockers are looked through for a train identity, and the greatest number of trains whose journeys are read for it.
LOOKED_THROUGH, READ = 300, 300
# The number of days on which a train may be on its way: it passes midnight at most twice.
DAYS = 3


class Found(NamedTuple):
    """A train that was found: its identity and UID, the ends of its journey, and the day on which it starts. If a place and a time are given, the train is there at this
    time. If it was found on the docker of this place, `date` is the docker's day, and the train may have started earlier. `note` says what is unusual."""
    identity: str
    uid: str
    origin: str
    destination: str
    date: str
    place: str = ""
    time: str = ""
    note: str = ""
    is_from_docker: bool = False

    @property
    def clock(self):
        return trains.clock(self.time)

    @property
    def address(self):
        """The address of the train's page, at the place that is given."""
        page, place = f"/train/{rows.part(self.uid)}/{self.date}", rows.part(self.place)
        return f"{page}?at={place}.{self.time}" if self.is_from_docker else f"{page}#{place}" if place else page


class Sought(NamedTuple):
    """What a search for trains found. `way` says how they were looked for: `uid`, `identity` among all trains of a day, or identity on the dockers of some `places`. It
    is empty if the text is neither a UID nor a train identity. `is_whole` says whether all that were found are here. If the day is refused, `refused` says why."""
    way: str = ""
    trains: tuple = ()
    is_whole: bool = True
    refused: str = ""


def refusal(answer):
    """What the line of a refused request says, and what to do."""
    line = answer.text.decode("utf-8", "replace").strip()
    return ": ".join(filter(None, [line, dockers.advice(line)]))


def ends_of(train):
    return (train.calls[0].tiploc, train.calls[-1].tiploc) if train.calls else ("", "")


def by_uid(reader, uid, date):
    """The train with a UID that starts on a day."""
    answer = reader.train(uid, date)
    if answer.status != 0:
        return Sought("uid", refused=refusal(answer))
    train = trains.train_of(answer.text)
    found = Found(train.identity, uid, *ends_of(train), date, note="cancelled on this day" if train.state == "CANCELLED" else "")
    return Sought("uid", (found,) if train.state != "NONE" else ())


def starts_of(reader, identity, day):
    """The UIDs of the trains with this identity that started on the days before a day, and may still be on their way, each with its start day. A day before the horizon
    has no list."""
    days = [(day - datetime.timedelta(before)).isoformat() for before in range(1, DAYS)]
    lists = [(start, reader.listed(identity, start)) for start in days if dockers.is_date(start)]
    return [(uid, start) for start, answer in lists if answer.status == 0 for uid in uids_in(answer)]


def uids_in(answer):
    """The UIDs on a list of trains."""
    first, last = LISTED["UID"]
    return [line[first - 1:last] for line in answer.text.decode("ascii").splitlines()]


def found_at(train, identity, day, near):
    """A train that is on its way on a day, with its time at a place. If it isn't there on that day, it is shown where it is first on that day. None if it isn't on its way
    then."""
    after = (day - train.start).days
    today = [(call, time) for call in train.calls for kind, time in call.times.items() if call.days[kind] == after]
    if not today:
        return None
    call, time = next((one for one in today if one[0].tiploc == near), today[0])
    notes = [f"{train.identity} at first"] * (train.identity != identity) + [f"started on {train.start:%A %-d %B}"] * bool(after)
    return after, time, Found(identity, train.uid, *ends_of(train), train.date, call.tiploc, time, ", ".join(notes))


def by_identity(reader, identity, date, near):
    """The trains with this identity that are on their way on a day, by the time at which they are shown. None if the reader can't list trains."""
    day, listed = datetime.date.fromisoformat(date), reader.listed(identity, date)
    if listed.status != 0:
        return None if listed.status in dockers.LACKING else Sought("identity", refused=refusal(listed))
    starts = [*((uid, date) for uid in uids_in(listed)), *starts_of(reader, identity, day)]
    answers = reader.trains(starts[:READ])
    running = [trains.train_of(answer.text) for answer in answers if answer.status == 0]
    found = sorted(filter(None, (found_at(train, identity, day, near) for train in running)), key=lambda one: (one[1], one[2].uid, one[0]))
    return Sought("identity", tuple(one for *_, one in found), len(starts) <= READ)


def on_dockers(reader, identity, date, places):
    """The trains with this identity on the dockers of these places on a day."""
    found = {}
    wanted = re.compile(rb"^(.{5}) [APD] %s (.{6}) .{20} (.{7}) (.{7})$" % identity.encode("ascii"), re.M)
    for place in list(dict.fromkeys(places))[:LOOKED_THROUGH]:
        answer = reader.print_docker(place, date)
        for fields in wanted.findall(answer.text) if answer.status == 0 else ():
            time, uid, origin, destination = (field.decode("ascii").strip() for field in fields)
            found.setdefault((uid, origin, destination), Found(identity, uid, origin, destination, date, place, time, is_from_docker=True))
    return tuple(sorted(found.values()))


def trains_of(reader, text, date, near, places):
    """The trains that a search text means on a day. They are looked for in the whole STATE. A desk of an older version can't list the trains with an identity, and neither
    can `docker`. Then an identity is looked for on the dockers of a place and of the office's places."""
    word = text.upper()
    if UID.fullmatch(word):
        return by_uid(reader, word, date)
    if not IDENTITY.fullmatch(word):
        return Sought()
    return by_identity(reader, word, date, near) or Sought("places", on_dockers(reader, word, date, filter(dockers.is_tiploc, (near, *places))))
