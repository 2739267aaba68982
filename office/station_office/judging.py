"""Judges a change of STATE by what it leaves: how much of STATE, and how much of the dockers of the office's places."""
import datetime
from typing import NamedTuple

import dockers
import names

from .faults import Fault
from .places import listed_places

# The number of days whose dockers are counted, from today on.
DAYS = 3
# How many places are named, if too little would be left at several.
NAMED = 3
# Why nothing can be judged without the program desk.
NO_DESK = "STATE is changed by the program desk, which can say what a change leaves: there is none, or one of an older version. Install it, or name it in DESK"


class Counts(NamedTuple):
    """What a state has. `parts` has the numbers of its schedules, associations and timing points. For each of the office's places, `calls` has the number of
    schedules that call there; a place without a TIPLOC record isn't in it. `lines` has the number of lines of each docker, by its place and day."""
    parts: dict
    calls: dict
    lines: dict

    def greatest(self, other):
        """For each number, the greater one of the two."""
        return Counts(*({key: max(one.get(key, 0), two.get(key, 0)) for key in {**one, **two}} for one, two in zip(self, other)))


def desk_program():
    """The path of the program desk."""
    if program := dockers.programs()[1]:
        return program
    raise Fault(4, "desk", NO_DESK)


def counts_of(office, state):
    """What a state in a file has."""
    reader = dockers.Desk(desk_program(), state)
    try:
        return counts(office, reader)
    finally:
        reader.close()


def counts(office, reader):
    """What the state of a reader has."""
    known, listed = (answered(office, answer) for answer in (reader.known(), reader.places()))
    values = dict(line.split(maxsplit=1) for line in known.decode("ascii").splitlines())
    called = {place.tiploc: place.schedules for place in map(names.place_of, listed.decode("ascii").splitlines())}
    places = listed_places(office)
    return Counts(
        {name: int(values[name.upper()]) for name in ("schedules", "associations", "places")}, {place: called[place] for place in places if place in called},
        lines_of(office, reader, places),
    )


def lines_of(office, reader, places):
    """How many lines the dockers of these places have, today and on the next days. A day that STATE's horizon refuses has no number."""
    days = [(office.settings.now.date() + datetime.timedelta(number)).isoformat() for number in range(DAYS)]
    wanted = [(place, day) for place in places for day in days if dockers.is_date(day)]
    answers = reader.ask_all([("print", *one) for one in wanted])
    return {one: answer.text.count(b"\n") - 2 for one, answer in zip(wanted, answers) if answer.status == 0}


def answered(office, answer):
    """The text of an answer."""
    if answer.status in dockers.LACKING:
        raise Fault(4, "desk", NO_DESK)
    if answer.status != 0:
        raise office.fault_of(office.state, answer.status, answer.text)
    return answer.text


def losses(office, before, after):
    """Why a change is held back: a line for each part of STATE, and one for the office's places, if too little of it would be left."""
    share, found = office.settings.held_below, []
    for name, number in before.parts.items():
        if after.parts[name] < share * number:
            found.append(f"it would leave {after.parts[name]} of {number} {name}")
    deleted = [place for place, number in before.calls.items() if number >= office.settings.calls_from and place not in after.calls]
    found += [f"it would delete {place}, where {before.calls[place]} schedules call" for place in deleted[:NAMED]]
    fewer = [place for place, number in before.calls.items() if number >= office.settings.calls_from and after.calls.get(place, number) < share * number]
    if fewer:
        at = ", ".join(f"{after.calls[place]} of {before.calls[place]} at {place}" for place in fewer[:NAMED])
        more = f", and too few at {len(fewer) - NAMED} more places" if len(fewer) > NAMED else ""
        found.append(f"of the schedules that call at a place it would leave {at}{more}")
    return found
