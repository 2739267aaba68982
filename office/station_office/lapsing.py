"""Moves the horizon on, so that STATE doesn't grow for ever."""
import datetime

from .extracts import FIRST_DAY, day_of, horizon_of

# The horizon moves by at least this many days at once. Each move makes another STATE, which the office sends.
STEP = 7


def due_horizon(office):
    """The day to which the horizon has to move: HORIZON_DAYS ago. None if that isn't set, or if the horizon is there already or soon will be."""
    if office.settings.horizon_days is None:
        return None
    number = (office.settings.now.date() - FIRST_DAY - datetime.timedelta(office.settings.horizon_days)).days
    return day_of(number) if number - horizon_of(office.state) >= STEP else None
