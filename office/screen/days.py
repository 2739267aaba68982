"""What a page says about its day: how old the office's knowledge is, and what is missing for the day."""
import datetime
from typing import NamedTuple, Optional

import dockers

# The number of days after which what is known is old.
OLD = 1.5


class Days(NamedTuple):
    """What is known about days: the list of files, and the answer to `known`, if there is a desk that knows it."""
    extracts: list
    coverage: Optional[dockers.Coverage]

    @property
    def newest(self):
        return self.extracts[-1] if self.extracts else None

    @property
    def full(self):
        """The newest full extract that counts, if there is one."""
        return next((extract for extract in reversed(self.extracts) if extract.indicator == "F"), None)

    @property
    def last(self):
        """The last day of the schedules, if it is known."""
        return self.coverage and self.coverage.last

    def age(self, now):
        """The age of what is known, if it is more than a day and a half."""
        if self.newest is None:
            return ""
        made = datetime.datetime.fromisoformat(f"{self.newest.date}T{self.newest.time[:2]}:{self.newest.time[2:]}")
        days = (now.replace(tzinfo=None) - made) / datetime.timedelta(1)
        return f"{int(days)} {'day' if days < 2 else 'days'} old" if days > OLD else ""

    def missing(self):
        """The updates that are missing, in words."""
        return [f"Missing: {reference}, which comes before the {extract.name}. Trains may be wrong until it is taken." for reference, extract in dockers.missing(self.extracts)]

    def is_early(self, date):
        """Whether a day is before the newest full extract, or there is none."""
        return self.newest is not None and (self.full is None or date < self.full.date)

    def is_late(self, date):
        """Whether a day is after the last day of the schedules, or there are no schedules."""
        if self.coverage is None or self.newest is None:
            return False
        return self.coverage.schedules == 0 or self.last is not None and date > self.last

    def early(self, date):
        """What is missing for a day before the newest full extract; empty for any other day."""
        if not self.is_early(date):
            return ""
        if self.full is None:
            return "No full extract was taken: most trains are missing here."
        return f"This day lies before the {self.full.name}. Trains that ran for the last time before it are missing here."

    def late(self, date):
        """What is missing for a day after the last day of the schedules; empty for any other day."""
        if not self.is_late(date):
            return ""
        if self.last is None:
            return "No schedule is known, so no train is: those that were taken ended before the horizon, or there were none."
        return f"This day lies after {self.last}, the last day of the schedules that were taken. Most of its trains aren’t known yet."

    def short(self):
        """Up to when extracts are known, in a short sentence."""
        return f"Known up to {self.newest.date} {self.newest.time[:2]}:{self.newest.time[2:]}." if self.newest else "Nothing is known."

    def gaps(self, date):
        """Why a day isn't covered, in words; empty if it is, as far as that is known."""
        if self.newest is None:
            return ["Nothing is known: no extract was taken."]
        return [gap for gap in (self.early(date), self.late(date)) if gap]

    def warnings(self, date):
        """Everything that is missing for a day, in words."""
        return [*(self.gaps(date) if self.newest else []), *self.missing()]

    def cover(self, date):
        """Whether a day is covered, in words."""
        if self.gaps(date):
            return "This day isn’t covered"
        return "This day is covered" if self.coverage else "Whether this day is covered isn’t known: that needs the program desk"

    def is_sure(self, date, now):
        """Whether it may be said that nothing differs on a day: the day is covered, no update is missing, and what is known isn't old."""
        return not self.gaps(date) and not self.missing() and not self.age(now)
