"""The journey of a train: what joins it and divides from it, the permanent journey that it replaces or would have had, and where it calls, in a sentence."""
import datetime
import difflib
import re
from typing import NamedTuple, Optional

import details
import lines
import trains

# The words with which the page of an associated train reports the association, by the kind of the
# docker line.
SEEN_FROM_OTHER = {"J": "joins", "V": "divides from", "N": "comes from"}
# Another schedule of the same UID is looked for at these numbers of days before and after a day.
# They are each day of five weeks, and then the same weekday for a year.
NEAR = (*range(1, 36), *range(42, 372, 7))
# What the sentence adds to a place for an activity there, and the vehicles that it doesn't call a train.
ALOUD = {"U": "to pick up only", "D": "to set down only", "R": "on request"}
VEHICLES = ("bus", "ship")


def start_of(reader, uid, date, tiploc, time):
    """The start day of the train with this UID that is at a place on this day; if a time is given, at this time. If there is no such train, returns this day."""
    day = datetime.date.fromisoformat(date)
    for before in (0, 1, 2, -1):
        start = (day - datetime.timedelta(before)).isoformat()
        answer = reader.train(uid, start)
        train = trains.train_of(answer.text) if answer.status == 0 else None
        if train is not None and any(time in ("", at) for _, at in train.events(tiploc, day)):
            return start
    return date


def lines_with(text, uid):
    """The text of a docker with only the lines of this UID."""
    heading, *rest = text.split(b"\n")
    return b"\n".join([heading, *(line for line in rest[:-2] if uid.encode() in line), *rest[-2:]])


def dockers_along(reader, train):
    """The dockers of a train's calls, by place and day. For the train's first and last place there is also the docker of the day before or after. That docker
    may have the train that this train was before or becomes."""
    found = {}
    for number, call in enumerate(train.calls):
        day = train.day_of(call)
        near = [day]
        if number in (0, len(train.calls) - 1) and call.first:
            near.append(day + datetime.timedelta(-1 if trains.half_minutes(call.first) < 1440 else 1))
        for one in near:
            if (call.tiploc, one) not in found:
                answer = reader.print_docker(call.tiploc, one.isoformat())
                if answer.status == 0:
                    found[call.tiploc, one] = lines.docker_of(lines_with(answer.text, train.uid))
    return found


def links_of(train, call, along):
    """What joins and divides at a call, from the dockers of its place. Each result has words, the other train, and the day of the docker line."""
    own = train.first_call(call.tiploc, call.suffix) is call
    at = call.day * 2880 + trains.half_minutes(call.first) if call.first else None
    for (tiploc, day), docker in along.items():
        for line in docker.lines if tiploc == call.tiploc and at is not None else ():
            apart = (day - train.start).days * 2880 + line.half_minutes - at
            if line.kind in lines.LINKS and line.uid == train.uid and own and apart == 0 and line.suffix == call.suffix:
                yield f"{line.word} {lines.LINKS[line.kind]}", line.partner_train, line.partner, day
            if line.kind in lines.LINKS and line.partner == train.uid and abs(apart) < 1440:
                yield SEEN_FROM_OTHER[line.kind], line.train, line.uid, day


def planned_of(reader, train):
    """The permanent train of this UID and day; None if it isn't known. A desk gives only the schedule that is chosen for a day. So the permanent one is looked for
    on other days on which it is chosen. It must run on this day too, and each of its events must be on the permanent docker of its place. If there is no such
    train and this one is cancelled, the result is a train that was added for several days, such as this one."""
    near = [train.start + datetime.timedelta(sign * apart) for apart in NEAR for sign in (-1, 1)]
    answers = reader.trains([(train.uid, day.isoformat()) for day in near if 1960 <= day.year <= 2059])
    found = {}
    for answer in answers:
        if answer.status == 0 and trains.indicator_of(answer.text) in ("P", "N"):
            other = trains.train_of(answer.text)._replace(date=train.date)
            if other.runs_on(train.start):
                found.setdefault((other.stp, other.runs_from), other)
    permanent = [other for (stp, _), other in sorted(found.items(), reverse=True) if stp == "P" and is_permanent(reader, other)]
    added = [other for (stp, _), other in sorted(found.items(), reverse=True) if stp == "N" and train.state == "CANCELLED"]
    return next(iter(permanent + added), None)


def is_permanent(reader, train):
    """Whether each event of a train is on the permanent docker of its place."""
    for call in train.calls:
        for kind, time in call.times.items():
            day = train.start + datetime.timedelta(call.days[kind])
            answer = reader.permanent(call.tiploc, day.isoformat())
            line = re.compile(rb"^%-5s %s .{4} %s P " % tuple(map(re.escape, (f"{time:<5}".encode(), kind.encode(), train.uid.encode()))), re.M)
            if answer.status != 0 or not line.search(answer.text):
                return False
    return True


class Stop(NamedTuple):
    """A row of a journey: a call of the train, and the planned call that it replaces. A planned call that the train doesn't have stands by itself."""
    call: Optional[trains.Call]
    was: Optional[trains.Call]

    @property
    def shown(self):
        return self.call or self.was

    def words(self):
        """What the train does there, and its allowances, with what was planned; each in words."""
        return tuple(", ".join(details.words_of(call)) if call else "" for call in (self.shown, self.was or self.call))

    @property
    def kind(self):
        """How it differs from the plan, as a class of its row."""
        return "gone" if self.call is None else "added" if self.was is None else ""


def stops_of(train, planned):
    """The calls of a train beside those that were planned, in their order. Calls at the same place belong together. Without a plan nothing differs."""
    if planned is None or not train.calls:
        return [Stop(call, call) for call in train.calls or (planned.calls if planned else ())]
    now, before = ([(call.tiploc, call.suffix) for call in one.calls] for one in (train, planned))
    found = []
    for tag, first, last, own_first, own_last in difflib.SequenceMatcher(None, before, now, autojunk=False).get_opcodes():
        if tag == "equal":
            found += [Stop(call, was) for call, was in zip(train.calls[own_first:own_last], planned.calls[first:last])]
        else:
            found += [Stop(None, was) for was in planned.calls[first:last]] + [Stop(call, None) for call in train.calls[own_first:own_last]]
    return found


class Journey(NamedTuple):
    """A train on the day of its start: the answer to `train`, and what was read from it. `planned` is the train that it replaces, or would have been."""
    text: bytes
    train: trains.Train
    planned: Optional[trains.Train]
    operators: dict

    @property
    def is_cancelled(self):
        return self.train.state == "CANCELLED"

    @property
    def shown(self):
        """The train whose journey a page shows: if this one is cancelled, the planned one."""
        return self.planned if self.is_cancelled and self.planned else self.train

    @property
    def vehicle(self):
        return details.details_of(self.shown, self.operators).vehicle

    def facts(self):
        """What kind of train it is: each field's name on the page, its words, and the words that were planned."""
        now = details.details_of(self.shown, self.operators)
        was = details.details_of(self.planned, self.operators) if self.planned else now
        both = [(label, now.words(name), was.words(name)) for name, label in details.SHOWN.items()]
        return [fact for fact in both if any(fact[1:])] if self.shown.basic else []

    def changes(self):
        """What changes at each call of the shown train with a record CR, in words, by the number of the call."""
        kinds = [details.details_of(self.shown, self.operators), *details.along(self.shown, self.operators)]
        return {number: found for number, call in enumerate(self.shown.calls) if call.changed and (found := details.changes_at(*kinds[number:number + 2]))}


def is_public(call):
    """Whether passengers may use a call: it has a public time, and isn't one that isn't advertised."""
    return any(time not in ("", "0000") for time in call.public.values()) and "N" not in details.activities_of(call)


def named(call, labels):
    """The name of a call's place, with what a passenger has to know of the call."""
    more = [words for code, words in ALOUD.items() if code in details.activities_of(call)]
    return f"{labels.of(call.tiploc)}{f' ({more[0]})' if more else ''}"


def sentence(train, labels, vehicle="", is_cancelled=False):
    """Where a train calls, in one sentence that can be read aloud. If it has public times, only the places with public times count."""
    if len(train.calls) < 2:
        return ""
    first, *others = train.calls
    public = [call for call in others if is_public(call)]
    stops = public or [call for call in others if {"A", "D"} & call.times.keys()]
    at = [named(call, labels) for call in stops]
    where = f"{', '.join(at[:-1])} and {at[-1]}" if len(at) > 1 else f"{at[0]} only" if at else "no place"
    leaves = trains.public_clock(first.public.get("D", "")) or trains.clock(first.first).rstrip("½")
    kind = f" {vehicle}" if vehicle in VEHICLES else ""
    verb = "would have called" if is_cancelled else "calls"
    rest = "" if public else ", without public times"
    return f"The {leaves}{kind} from {labels.of(first.tiploc)} to {labels.of(train.calls[-1].tiploc)} {verb} at {where}{rest}."
