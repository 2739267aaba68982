"""The dockers that a change left with few lines. A strike, a closed line and Christmas Day look like that, and so does a mistake. They are reported until their day is
over, and the lines above such a docker say so too."""
import os
import re
from typing import NamedTuple

from .faults import REPORTED, Fault


class Thinned(NamedTuple):
    """A docker that lost lines: its day and its place, how many lines it had before and has now, and the file that took them away."""
    day: str
    place: str
    before: int
    after: int
    cause: str

    def line(self):
        return f"{self.day} {self.place} {self.before} {self.after} {self.cause}\n"

    def told(self, docker):
        """What is said of the docker."""
        return f"{docker} has {self.after} of {self.before} lines since the {self.cause}"


def path_in(folder):
    return folder / "thinned"


def thinned_in(folder, today):
    """The dockers in the file `thinned` of an office's folder whose day isn't over, in their order there."""
    try:
        lines = path_in(folder).read_text(encoding="utf-8", errors="surrogateescape").splitlines()
    except FileNotFoundError:
        return []
    found = (re.fullmatch(r"(\d{4}-\d\d-\d\d) (\S+) (\d+) (\d+) (.+)", line) for line in lines)
    return [Thinned(it[1], it[2], int(it[3]), int(it[4]), it[5]) for it in found if it and it[1] >= today.isoformat()]


def thinned(office):
    """The thinned dockers of an office whose day isn't over."""
    return thinned_in(office.folder, office.settings.now.date())


def is_sure(office, date):
    """Whether it may be said that nothing differs on a day: none of its dockers is thinned."""
    return all(it.day != date for it in thinned(office))


def after_change(office, before, after, cause):
    """The dockers that stay thinned after a change, and those that the change thins. A docker that has enough lines again isn't thinned any more."""
    share, kept = office.settings.reported_below, {}
    for it in thinned(office):
        now = after.lines.get((it.place, it.day), it.after)
        if now < share * it.before:
            kept[it.place, it.day] = it._replace(after=now)
    fewer = [key for key, number in before.lines.items() if after.lines.get(key, number) < share * number and key not in kept]
    new = [Thinned(day, place, before.lines[place, day], after.lines[place, day], cause) for place, day in fewer]
    return list(kept.values()), new


def reports(office, subject, before, after, cause):
    """Keeps in mind which dockers a change thins, and says so. What is forced isn't reported."""
    kept, new = after_change(office, before, after, cause)
    if office.settings.is_forced:
        new = []
    writes(office, [*kept, *new])
    if new:
        first, more = new[0], f", and so little at {len(new) - 1} more places and days" if len(new) > 1 else ""
        office.report(Fault(REPORTED, subject, f"of the docker of {first.place} on {first.day} it leaves {first.after} of {first.before} lines{more}"))


def writes(office, found):
    """Writes the file `thinned` anew, or removes it if nothing is thinned."""
    path = path_in(office.folder)
    if not found:
        path.unlink(missing_ok=True)
        return
    draft = office.work / "thinned"
    draft.write_text("".join(it.line() for it in sorted(found)), encoding="utf-8", errors="surrogateescape")
    os.replace(draft, path)
