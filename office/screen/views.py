"""What a reader chose in the address of a page: which rows the page shows, and from what time on."""
import re
import urllib.parse
from typing import NamedTuple

# The lists of a docker's page: only what differs from the permanent timetable, and only what is new since the last morning.
LISTS = ("changes", "new")
# The greatest number of platforms or lines that an address may name.
MOST = 60
TIME = re.compile(r"([01]\d|2[0-3]):?([0-5]\d)")


class View(NamedTuple):
    """A reader's choice. `only` is one of `LISTS`, or empty. `is_lines` asks for the docker's own lines instead of calls. `at` is a time HH:MM, or empty."""
    is_codes: bool = False
    is_lines: bool = False
    only: str = ""
    is_stopping: bool = False
    platforms: tuple = ()
    tracks: tuple = ()
    at: str = ""
    operators: tuple = ()

    @property
    def is_filtered(self):
        return bool(self.is_stopping or self.platforms or self.tracks or self.operators)

    @property
    def half_minutes(self):
        """The half minutes from midnight to the chosen time; None if there is none."""
        return int(self.at[:2]) * 120 + int(self.at[3:]) * 2 if self.at else None

    def query(self, **other):
        """The part of an address that makes this choice, with other choices instead of some. It is empty if nothing was chosen."""
        view = self._replace(**other)
        words = [("rows", "lines")] * view.is_lines + [("stops", "1")] * view.is_stopping
        words += [("platform", platform) for platform in view.platforms] + [("line", track) for track in view.tracks]
        words += [("operator", code) for code in view.operators] + [("at", view.at)] * bool(view.at)
        return f"?{urllib.parse.urlencode(words)}" if words else ""


def several(words):
    """The different words among these, in order. A word may have several parts with commas between them."""
    parts = (part.strip() for word in words[:MOST] for part in word.split(","))
    return tuple(sorted({part for part in parts if part}))[:MOST]


def view_of(words, is_codes, only=""):
    """The choice that the words after `?` make. Words without a meaning are ignored."""
    time = TIME.fullmatch(words.get("at", ""))
    platforms, tracks, operators = (several(words.getlist(name)) for name in ("platform", "line", "operator"))
    return View(is_codes, words.get("rows") == "lines", only, words.get("stops") == "1", platforms, tracks, ":".join(time.groups()) if time else "", operators)
