"""When dockers were made, up to when extracts are known, whether a day is covered, and whether a docker is thinned. Each docker that is printed says so above its
heading, and a day that isn't covered is reported."""
import datetime

import days
import dockers

from .faults import REPORTED, Fault
from .thinned import thinned

# The sign at the beginning of a line that isn't part of a docker.
REMARK = "# "


def days_known(reader):
    """What is known about days, from a reader of STATE."""
    files, coverage = reader.files(), reader.known()
    if files.status != 0:
        raise Fault(files.status, reader.state, files.text.decode().strip())
    return days.Days(dockers.extracts_of(files.text), dockers.coverage_of(coverage.text) if coverage.status == 0 else None)


def head(office, known, date, place):
    """The lines above the docker of a place on a day, as bytes."""
    newest = f"Known up to {known.newest.name}." if known.newest else "Nothing is known."
    lost = [it.told("This docker") + "." for it in thinned(office) if (it.place, it.day) == (place, date)]
    found = [f"Made {office.settings.now:%Y-%m-%d %H:%M}. {newest}", f"{known.cover(date)}.", *known.gaps(date), *known.missing(), *lost]
    return "".join(f"{REMARK}{line}\n" for line in found).replace("’", "'").encode("ascii", "backslashreplace")


def is_refused(known, date):
    """Whether a day is too close to the horizon: docker prints no docker of a day before the third day after it."""
    horizon = known.coverage and known.coverage.horizon
    return bool(horizon) and date < (datetime.date.fromisoformat(horizon) + datetime.timedelta(3)).isoformat()


def warns(office, known, date):
    """Reports a day that isn't covered. Returns whether it is covered, as far as that is known. A day that docker refuses isn't reported twice."""
    if not dockers.is_date(date) or is_refused(known, date):
        return False
    gaps = known.gaps(date)
    for gap in gaps:
        office.say(date, f"it isn't covered. {gap.replace('’', chr(39))}")
        office.counts(REPORTED, "uncovered")
    return not gaps
