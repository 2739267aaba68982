"""The settings in the words and in the environment."""
import datetime
import os
import zoneinfo
from typing import NamedTuple, Optional

from .faults import Fault

WAIT = 600
MAX_AGE = 36
KEEP_DAYS = 35
DOCKER_DAYS = 14
# The least number of days before today to which the horizon may be moved each morning.
LEAST_HORIZON = 7
# The number of seconds after which a file in in/ counts as complete.
STILL = 60
# Below these percentages of what there was, a change is held back, or the loss is reported.
HELD_BELOW = 50
REPORTED_BELOW = 50
# The number of schedules at a place from which on a loss of them counts.
CALLS_FROM = 20


class Settings(NamedTuple):
    """The clock, whether --force was given, and the settings in the environment. Shares are from 0 to 1."""
    now: datetime.datetime
    is_forced: bool
    wait: float
    max_age: datetime.timedelta
    keep: datetime.timedelta
    docker_days: int
    horizon_days: Optional[int]
    still: float
    held_below: float
    reported_below: float
    calls_from: float


def number(name, default, most=999999):
    """The value of an environment variable, which has to be a number."""
    word = os.environ.get(name) or str(default)
    try:
        value = float(word)
    except ValueError:
        value = -1
    if not 0 <= value <= most:
        raise Fault(2, name, f"{word!r} is no number from 0 to {most}")
    return value


def horizon_days():
    """The value of HORIZON_DAYS; None if it isn't set."""
    if not os.environ.get("HORIZON_DAYS"):
        return None
    days = int(number("HORIZON_DAYS", ""))
    if days < LEAST_HORIZON:
        raise Fault(2, "HORIZON_DAYS", f"{days} is less than {LEAST_HORIZON}, and no horizon can be taken back")
    return days


def clock(word=None):
    """The British time, as in extracts; or the time that a word of --now gives."""
    if word is not None:
        try:
            return datetime.datetime.fromisoformat(word).replace(tzinfo=None)
        except ValueError:
            raise Fault(2, "--now", f"{word!r} is no time: write YYYY-MM-DDTHH:MM") from None
    try:
        zone = zoneinfo.ZoneInfo("Europe/London")
    except zoneinfo.ZoneInfoNotFoundError:
        zone = None
    return datetime.datetime.now(zone).replace(tzinfo=None)


def settings(now=None, is_forced=False):
    """The settings of this run."""
    return Settings(
        clock(now), is_forced, number("WAIT", WAIT), datetime.timedelta(hours=number("MAX_AGE", MAX_AGE)), datetime.timedelta(days=number("KEEP_DAYS", KEEP_DAYS)),
        int(number("DOCKER_DAYS", DOCKER_DAYS)), horizon_days(),
        number("STILL", STILL), number("HELD_BELOW", HELD_BELOW, 100) / 100, number("REPORTED_BELOW", REPORTED_BELOW, 100) / 100, number("CALLS_FROM", CALLS_FROM),
    )
