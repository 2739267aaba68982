"""A docker as CSV and as JSON. If it is known what differs from the permanent timetable, both forms have it.

In CSV, a permanent line that isn't on the docker has only its UID and start; its fields are in columns of their own. So nobody takes it for a train that
runs."""
import csv
import io
import json

import changes
import details
import dockers
import lines
import names
import rows

# The fields that a line has in CSV but not on a docker. If it is known how the docker differs from
# the permanent timetable, the fields of the permanent line follow them.
MORE = ("start", "origin_name", "destination_name")
# A spreadsheet takes a cell that begins with one of these signs for a formula.
FORMULA = ("=", "+", "-", "@")
WAS = tuple(name for name in lines.Line._fields if name not in ("uid", "stp"))


def csv_of(docker, starts, named, differing):
    """The lines of a docker, with the permanent lines that it lacks in their places."""
    text = io.StringIO()
    table = csv.writer(text, lineterminator="\n")
    table.writerow([*lines.Line._fields, *MORE, *(("change", *(f"was_{name}" for name in WAS)) if differing else ())])
    start_of = iter(starts)
    for row in rows.rows_of(docker, differing):
        start = row.change.start if row.is_gone else next(start_of)
        table.writerow(map(harmless, [*fields_of(row, start, named), *(changed_fields(row) if differing else ())]))
    return text.getvalue()


def harmless(cell):
    """A cell that no spreadsheet takes for a formula: an apostrophe is put before the signs with which a formula begins."""
    return f"'{cell}" if cell.startswith(FORMULA) else cell


def fields_of(row, start, named):
    """The fields of a line. A line that isn't on the docker has only the UID and the start day of its train."""
    line = row.line
    if row.is_gone:
        return [*(line.uid if name == "uid" else "" for name in line._fields), start, "", ""]
    return [*line, start, named.known(line.origin), named.known(line.destination)]


def changed_fields(row):
    """How a line differs, and the fields of the first permanent line that it replaces."""
    if row.change is None:
        return [""] * (1 + len(WAS))
    was = row.change.was[0] if row.change.was else None
    return [row.change.kind, *(getattr(was, name) if was else "" for name in WAS)]


def json_of(docker, starts, known, named, differing, news, few, of_lines, now):
    """The lines of a docker, with everything that its page says. If it is known what is new since the last morning, each line says whether it is. `few` has the
    docker, if a change left it with few lines. `of_lines` has the call of each line and what kind of train it is there, or None."""
    place = named.places.get(docker.tiploc)
    heading = {
        "made": now.isoformat(timespec="minutes"), "is_covered": not known.gaps(docker.date) if known.coverage else None,
        "tiploc": docker.tiploc, "date": docker.date, "description": docker.description, "is_known": bool(docker.description), "name": names.readable(docker.description),
        "crs": place.crs if place else "", "stanox": place.stanox if place else "", "known_up_to": known.newest._asdict() if known.newest else None,
        "covers": known.coverage._asdict() if known.coverage else None, "warnings": [*known.warnings(docker.date), *(it.told("This docker") + "." for it in few)],
        "thinned": [{"file": it.cause, "place": it.place, "date": it.day, "before": it.before, "after": it.after} for it in few],
        "missing": [{"reference": reference, "before": extract._asdict()} for reference, extract in dockers.missing(known.extracts)],
    }
    told = [described(line, start, named) | {"of_train": of_train(found)} for line, start, found in zip(docker.lines, starts, of_lines)]
    if differing:
        heading["changes"] = {kind: len(differing.trains.get(kind, ())) for kind in changes.WORDS}
        heading["not_here"] = [described(line, change.start, named) | {"change": change.kind, "words": change.words} for line, change in differing.gone]
        told = [line | change_of(differing.of.get(number)) for number, line in enumerate(told)]
    if news is not None:
        heading["news"] = {"since": news.moment.isoformat(), "new": len(news.of), "lost": [line._asdict() for line in news.lost]}
        told = [line | {"is_new": number in news.of} for number, line in enumerate(told)]
    return json.dumps(heading | {"lines": told}, indent=1) + "\n"


def described(line, start, named):
    """A line with its names."""
    return line._asdict() | {"start": start, "origin_name": named.known(line.origin), "destination_name": named.known(line.destination)}


def of_train(found):
    """What a line lacks, from its call and from what kind of train it is; None if that isn't known."""
    if found is None:
        return None
    call, now = found
    return {"vehicle": now.vehicle, "kind": now.kind(), "operator": {"code": now.of["operator"], "words": now.words("operator")}, **details.here(call)}


def change_of(change):
    """How a line differs, and the permanent lines that it replaces."""
    return {"change": change.kind if change else None, "was": [was._asdict() for was in change.was] if change else []}
