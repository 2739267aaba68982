"""Says in words what kind of train it is and for whom it runs, by the fields of the records BS, BX and CR that a docker doesn't have. Also says what a train does at
each location, and lists its allowances there. The columns and codes come from the CIF End User Specification."""
import datetime
import pathlib
from typing import NamedTuple

import codes
import trains

# For each field its columns in the records BS, BX and CR. The operator, the train status and the bank holidays don't change en route.
FIELDS = {
    "bank_holidays": ((29, 29), None, None), "status": ((30, 30), None, None), "category": ((31, 32), None, (11, 12)), "headcode": ((37, 40), None, (17, 20)),
    "service_code": ((42, 49), None, (22, 29)), "power": ((51, 53), None, (31, 33)), "load": ((54, 57), None, (34, 37)), "speed": ((58, 60), None, (38, 40)),
    "characteristics": ((61, 66), None, (41, 46)), "seating": ((67, 67), None, (47, 47)), "sleepers": ((68, 68), None, (48, 48)), "reservations": ((69, 69), None, (49, 49)),
    "catering": ((71, 74), None, (51, 54)), "branding": ((75, 78), None, (55, 58)), "uic_code": (None, (7, 11), (63, 67)), "operator": (None, (12, 13), None),
    "retail_service": (None, (15, 22), (68, 75)),
}
# The fields in the order in which a page shows them, each with its name there. The kind comes from the status and the category.
SHOWN = {
    "kind": "Kind", "operator": "Operator", "service_code": "Service code", "retail_service": "Retail service", "headcode": "Headcode", "power": "Power", "load": "Timing load", "speed": "Speed",
    "characteristics": "Characteristics", "seating": "Seats", "sleepers": "Sleepers", "reservations": "Reservations", "catering": "Catering", "branding": "Branding", "uic_code": "UIC code",
    "bank_holidays": "Bank holidays",
}
# The fields in which each sign is a code.
SIGNS = {"characteristics": codes.CHARACTERISTICS, "catering": codes.CATERING, "branding": codes.BRANDINGS}
TABLES = {
    "power": codes.POWERS, "seating": codes.CLASSES, "sleepers": codes.SLEEPERS, "reservations": codes.RESERVATIONS, "bank_holidays": codes.BANK_HOLIDAYS,
}
# The columns of the activities, each of which has two, and of the allowances.
ACTIVITIES = {"LO": (30, 41), "LI": (43, 54), "LT": (26, 37)}
ALLOWANCES = {
    "LO": {"engineering": (26, 27), "pathing": (28, 29), "performance": (42, 43)}, "LI": {"engineering": (55, 56), "pathing": (57, 58), "performance": (59, 60)}, "LT": {},
}


def cut(record, columns):
    return record[columns[0] - 1:columns[1]].strip() if columns else ""


def operators_in(folder):
    """The names of operators by their codes, from the office's file `operators`. Each line has a code and a name."""
    try:
        lines = (pathlib.Path(folder) / "operators").read_text(encoding="utf-8", errors="replace").splitlines()
    except OSError:
        return {}
    found = (line.strip().partition(" ") for line in lines if line.strip() and not line.startswith("#"))
    return {code: name.strip() for code, _, name in found if name.strip()}


class Details(NamedTuple):
    """The codes of a train's fields, by their names in FIELDS; and the names of operators."""
    of: dict
    operators: dict

    def words(self, name):
        """A field in words. A code without words is shown as it is."""
        code = self.of.get(name, "")
        if name == "kind":
            return self.kind()
        if name == "load":
            return self.load()
        if name == "speed":
            return f"{int(code)} mph" if code.isdigit() else code
        if name == "seating" and not code and self.vehicle == "passenger":
            # The Specification gives a blank the meaning of B.
            return codes.CLASSES["B"]
        if name == "operator":
            return f"{self.operators[code]} ({code})" if code in self.operators else code
        if name in SIGNS:
            return ", ".join(SIGNS[name].get(sign, sign) for sign in code.replace(" ", ""))
        return TABLES.get(name, {}).get(code, code)

    @property
    def vehicle(self):
        """The kind in one word. It comes from the category, unless the status says bus, ship or freight."""
        by_status, (by_category, _) = codes.STATUSES.get(self.of["status"], ""), codes.CATEGORIES.get(self.of["category"], ("", ""))
        return by_status if by_status and by_status != "passenger" and by_category in ("", "passenger") else by_category or by_status

    def kind(self):
        """The kind of train with what its category says. Codes that have no words are shown."""
        status, category = self.of["status"], self.of["category"]
        more = codes.CATEGORIES[category][1] if category in codes.CATEGORIES else category
        kind = self.vehicle or status
        return f"{kind}: {more}" if kind and more else kind or more

    def load(self):
        """The timing load. Its meaning depends on the power."""
        power, load = self.of["power"], self.of["load"]
        if found := codes.LOADS.get(power, {}).get(load):
            return found
        if power in codes.LOCOMOTIVES and load.isdigit():
            return f"{int(load)} tonnes"
        return f"class {load}" if power in codes.UNITS and load.isdigit() and len(load) >= 3 else load

    def shown(self):
        """The fields that a page shows, in their order, each with its words."""
        return {name: words for name in SHOWN if (words := self.words(name))}

    def after(self, record):
        """The details from a record CR on, which has all its fields anew."""
        return self._replace(of=self.of | {name: cut(record, columns) for name, (*_, columns) in FIELDS.items() if columns}) if record else self


def details_in(basic, extra, operators):
    """The details in the records BS and BX of a train."""
    return Details({name: cut(basic, columns) or cut(extra, others) for name, (columns, others, _) in FIELDS.items()}, operators)


def details_of(train, operators):
    """The details of a train at its start."""
    return details_in(train.basic, train.extra, operators)


def along(train, operators):
    """The details of a train at each of its calls."""
    now = details_of(train, operators)
    for call in train.calls:
        now = now.after(call.changed)
        yield now


class Schedules:
    """What the lines of some places' dockers lack, from the answers to `train`, by UID and start day."""

    def __init__(self, answers, operators, places):
        self.answers, self.operators, self.places = answers, operators, frozenset(places)
        self.events = {}

    def of(self, line, start, docker):
        """The call to which a line of a docker belongs, and what kind of train it is there; None if it isn't clear on which day the train started."""
        if not start or line.link:
            return None
        if (line.uid, start) not in self.events:
            self.events[line.uid, start] = events_of(trains.train_of(self.answers[line.uid, start].text), self.operators, self.places)
        return self.events[line.uid, start].get((docker.tiploc, line.suffix, docker.date, line.kind, line.time))


def events_of(train, operators, places):
    """The events of a train at some places, by place, suffix, day, kind and time: each with its call, and with what kind of train it is there."""
    found = {}
    for call, now in zip(train.calls, along(train, operators)):
        for kind, time in call.times.items() if call.tiploc in places else ():
            found.setdefault((call.tiploc, call.suffix, (train.start + datetime.timedelta(call.days[kind])).isoformat(), kind, time), (call, now))
    return found


def activities_of(call):
    """The codes of what a train does at a location."""
    first, last = ACTIVITIES[call.record[:2]]
    found = (call.record[at - 1:at + 1].strip() for at in range(first, last, 2))
    return [code for code in found if code]


def allowances_of(call):
    """The allowances at a location, by their kind, as the record has them."""
    found = {kind: cut(call.record, columns) for kind, columns in ALLOWANCES[call.record[:2]].items()}
    return {kind: code for kind, code in found.items() if code and code.strip("0")}


def here(call):
    """What a train does at a location, and its allowances, each with its code and its words."""
    return {
        "activities": [{"code": code, "words": activity(code)} for code in activities_of(call)],
        "allowances": {kind: {"code": code, "words": minutes(code)} for kind, code in allowances_of(call).items()},
    }


def minutes(code):
    """An allowance in minutes: `H` is half a minute, and `1H` one and a half. Another code is shown as it is."""
    whole = code.removesuffix("H")
    return f"{whole.lstrip('0')}{'½' if code.endswith('H') else ''} min" if code and (whole.isdigit() or not whole) else code


def activity(code):
    """An activity in words."""
    return codes.ACTIVITIES.get(code, code)


def words_of(call):
    """What a train does at a location, and its allowances there, in words."""
    found = map(activity, activities_of(call))
    return [*filter(None, found), *(f"{minutes(code)} {kind}" for kind, code in allowances_of(call).items())]


def changes_at(before, now):
    """What changes at a location where a record CR comes, in words: the fields with other words than before."""
    return [f"{SHOWN[name].lower()} {words or 'none'}" for name in SHOWN if (words := now.words(name)) != before.words(name)]
