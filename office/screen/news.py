"""What is new on a docker since the morning before the last one, which the office kept. So a page shows what the last morning's updates changed, even if they
changed the permanent timetable."""
import collections
import datetime
from typing import NamedTuple

import changes
import lines
import rows

# The kind of a row that only the earlier docker has, and its words.
LOST, LOST_WORDS = "lost", "no longer"


class News(NamedTuple):
    """How a docker differs from the one of an earlier moment: the numbers of its new lines, and the lines that it has lost. `gone` has the lines that were lost
    because they are no longer in force on this day: they are still in the permanent timetable."""
    moment: datetime.datetime
    of: frozenset
    lost: tuple
    gone: frozenset

    @property
    def since(self):
        return f"{self.moment:%A %-d %B, %H:%M}"

    def counted(self):
        """The numbers of lines, in words."""
        return f"{len(self.of)} new and {len(self.lost)} lost {'line' if len(self.of) + len(self.lost) == 1 else 'lines'}"

    def __bool__(self):
        return bool(self.of or self.lost)


def bare_of(text):
    """The lines of a docker's text without STP indicators."""
    return [changes.bare(line) for line in text.split(b"\n")[1:-2]]


def news_of(moment, earlier, text, differing):
    """What is new on a docker since an earlier moment. Lines that differ only in their STP indicator count as equal."""
    left = collections.Counter(bare_of(earlier))
    new = set()
    for number, line in enumerate(bare_of(text)):
        if left[line]:
            left[line] -= 1
        else:
            new.add(number)
    lost = tuple(lines.line_of(line.decode("ascii")) for line in changes.lone(earlier, text)[0])
    gone = {line._replace(stp="") for line, _ in (differing.gone if differing else ())}
    return News(moment, frozenset(new), lost, frozenset(gone & {line._replace(stp="") for line in lost}))


def rows_of(news):
    """A row for each line that was lost. A line that the permanent timetable still has is left out: the docker has a row for it."""
    return [rows.Row(line, changes.Change(LOST, "", (), LOST_WORDS), True) for line in news.lost if line._replace(stp="") not in news.gone]
