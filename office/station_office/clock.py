"""Extracts that are far from the clock. Either the extract has a wrong date, or the clock is wrong."""
from .extracts import DAY, moment_of


def is_ahead(office, extract):
    """Whether an extract was made more than a day after the time of the clock."""
    return moment_of(extract) > office.settings.now + DAY


# A clock that is further than this from the newest file may be wrong.
FAR = 7 * DAY


def clock_text(office):
    """The time of the clock."""
    return f"{office.settings.now:%Y-%m-%d %H:%M}"


def far_text(office, extract):
    """The time of the clock, and that it may be wrong if it is far from an extract."""
    return f"{clock_text(office)}{' and may be wrong' if abs(office.settings.now - moment_of(extract)) > FAR else ''}"


def ahead_text(office):
    """What is said of an extract that is ahead."""
    return f"lies more than a day ahead of the clock, which says {clock_text(office)} and may be wrong"
