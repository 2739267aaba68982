"""A train as CSV and as JSON: its calls, what it does at each, and what kind of train it is."""
import csv
import datetime
import io
import json

import bank_holidays
import details
import forms
import trains

# The times of a call in both forms: its name there, and the kind of its event.
TIMES = {"arrives": "A", "passes": "P", "departs": "D"}
PUBLIC = {"public_arrival": "A", "public_departure": "D"}
PLACE = ("platform", "path", "line", "identity")


def call_of(train, call, named):
    """The fields of a call that both forms have."""
    times = {name: trains.clock(call.times.get(kind, "")) for name, kind in TIMES.items()}
    public = {name: trains.public_clock(call.public.get(kind, "")) for name, kind in PUBLIC.items()}
    return {
        "date": train.day_of(call).isoformat(), "tiploc": call.tiploc, "name": named.known(call.tiploc), "suffix": call.suffix, **times, **public, **{name: getattr(call, name) for name in PLACE},
    }


def csv_of(journey, named):
    """A row for each call. A train that is cancelled has none."""
    text, train = io.StringIO(), journey.train
    kinds = tuple(details.ALLOWANCES["LI"])
    table = csv.writer(text, lineterminator="\n")
    table.writerow(["uid", "start", "date", "tiploc", "name", "suffix", *TIMES, *PUBLIC, *PLACE, "activities", "activities_in_words", *kinds, *details.SHOWN])
    for call, now in zip(train.calls, details.along(train, journey.operators)) if not journey.is_cancelled else ():
        allowances, activities = details.allowances_of(call), details.activities_of(call)
        words = ", ".join(filter(None, map(details.activity, activities)))
        cells = [train.uid, train.date, *call_of(train, call, named).values(), " ".join(activities), words, *(details.minutes(allowances.get(kind, "")) for kind in kinds)]
        table.writerow(map(forms.harmless, [*cells, *map(now.words, details.SHOWN)]))
    return text.getvalue()


def coded(now):
    """The fields of a train with their codes and words. A field that is blank is left out."""
    of = {name: {"code": code, "words": now.words(name)} for name, code in now.of.items() if code}
    return {"kind": now.kind(), **of}


def calls_of(train, operators, named):
    """The calls of a train, each with what the train does there and with what changes there."""
    found, before = [], details.details_of(train, operators)
    for call, now in zip(train.calls, details.along(train, operators)):
        found.append(call_of(train, call, named) | details.here(call) | {"changes": details.changes_at(before, now)})
        before = now
    return found


def json_of(journey, known, named, now):
    """Everything that the train's page says."""
    train, planned = journey.train, journey.planned

    def described(it):
        return {"train": it.identity, "details": coded(details.details_of(it, journey.operators)), "calls": calls_of(it, journey.operators, named)} if it and it.basic else None

    heading = {
        "made": now.isoformat(timespec="minutes"), "is_covered": not known.gaps(train.date) if known.coverage else None, "uid": train.uid, "date": train.date,
        "state": train.state, "stp": train.stp, "known_up_to": known.newest._asdict() if known.newest else None, "warnings": known.warnings(train.date),
        "runs": {"from": train.runs_from, "to": train.runs_to, "days": train.days},
        "came_with": {"reference": train.reference, "date": train.extract_date, "time": train.extract_time, "record": train.number},
        "bank_holiday_in": bank_holidays.regions(datetime.date.fromisoformat(train.date)),
    }
    runs = None if journey.is_cancelled else described(train)
    return json.dumps(heading | {"runs_as": runs, "planned": described(planned)}, indent=1) + "\n"
