"""What changed on the dockers of the office's places since an earlier time, even if the permanent timetable itself changed."""
import collections
import contextlib
import datetime
import pathlib
import shutil
import zoneinfo

import changes
import dockers

from . import copying, covering, locking, packing, printed
from .differing import differences
from .faults import Fault
from .office import UNPACKED, size_of
from .reporting import dockers_of, writing

# The command, and the earlier time that means what this office last printed for a day.
COMMAND, PRINT = "changes --since", "print"
# On how many days, from the morning's day on, a morning says what changed.
SAID = 2
ZONE = zoneinfo.ZoneInfo("Europe/London")


class Printed:
    """The dockers as this office last printed them."""

    def __init__(self, office):
        self.folder = office.folder

    def since(self, date):
        """When the dockers of a day were printed, in words."""
        return f"{self.kept(date).moment:%Y-%m-%d %H:%M}, when it was last printed"

    def docker(self, place, date):
        text = self.kept(date).docker(place, date)
        if text is None:
            raise Fault(1, place, f"its docker of {date} wasn't printed here")
        return text

    def kept(self, date):
        kept = printed.last_printed(self.folder, date)
        if kept is None:
            raise Fault(1, date, "no docker of this day was printed here: name a copy or a time")
        return kept


class Copy:
    """The dockers of an earlier STATE."""

    def __init__(self, reader, words):
        self.reader, self.words = reader, words

    def since(self, _date):
        return self.words

    def docker(self, place, date):
        answer = self.reader.print_docker(place, date)
        if answer.status != 0:
            raise Fault(answer.status, place, f"in the earlier STATE: {answer.text.decode().strip()}")
        return answer.text


def in_order(words):
    """The words of a command, with its name, STATE and then the rest. In `changes --since [WHEN] STATE DATE..`, WHEN comes before STATE, and is `print` if it is
    left out: then the word after STATE is a day."""
    if words[:2] != ["changes", "--since"]:
        return words
    when, rest = (words[2], words[3:]) if len(words) > 3 and not dockers.is_date(words[3]) else (PRINT, words[2:])
    return [COMMAND, *rest[:1], when, *rest[1:]]


def time_of(word):
    """The time in a word; None if the word is no time."""
    try:
        return datetime.datetime.fromisoformat(word).replace(tzinfo=None) if "T" in word else None
    except ValueError:
        return None


@contextlib.contextmanager
def earlier_of(office, when):
    """The dockers of an earlier time: what was printed last, a copy of STATE, or STATE as it was at a time."""
    if when == PRINT:
        yield Printed(office)
        return
    time = time_of(when)
    copy = copy_at(office, time) if time else pathlib.Path(when)
    with emptied(office) as folder:
        state = folder / "STATE"
        unpacks(office, copy, state)
        reader = dockers.reader_of(str(state))
        try:
            yield Copy(reader, f"{when}, by {copy}" if time else str(copy))
        finally:
            reader.close()


@contextlib.contextmanager
def emptied(office):
    """An empty folder beside STATE. Only one command has it at a time. What an earlier one left there is removed."""
    folder = office.beside("since")
    with locking.locked(office, "since-lock"):
        shutil.rmtree(folder, ignore_errors=True)
        folder.mkdir()
        try:
            yield folder
        finally:
            shutil.rmtree(folder, ignore_errors=True)


def unpacks(office, copy, target):
    """Writes the unpacked content of a copy to a file."""
    try:
        with packing.stream_of(copy) as stream, open(target, "wb") as file:
            while part := stream.read(1 << 20):
                file.write(part)
    except FileNotFoundError:
        raise Fault(4, copy, "there is no such file; a time is written YYYY-MM-DDTHH:MM") from None
    except OSError as error:
        raise Fault(4, copy, error.strerror or str(error), *office.shortage(UNPACKED * size_of(copy))) from None


def written_at(copy):
    """When the STATE in a copy was written: the copy's name ends with this time, by the clock of this machine."""
    *_, moment, nanoseconds, _ = copy.name.split(".")
    return datetime.datetime.strptime(moment, "%Y%m%d-%H%M%S").timestamp() + int(nanoseconds) / 1e9


def copy_at(office, time):
    """The file that has STATE as it was at a British time: STATE itself, if it wasn't written since, or the newest copy of a STATE that was written before."""
    at = time.replace(tzinfo=ZONE).timestamp()
    written = [(office.state.stat().st_mtime, office.state), *((written_at(copy), copy) for copy in copying.copies(office))]
    for moment, path in written:
        if moment <= at:
            return path
    oldest = datetime.datetime.fromtimestamp(written[-1][0], ZONE)
    raise Fault(1, f"{time:%Y-%m-%dT%H:%M}", f"no copy of STATE is that old: the oldest is of {oldest:%Y-%m-%dT%H:%M}")


def prints_changes(office, reader, when, dates):
    """Prints what changed on some days since an earlier time."""
    known = covering.days_known(reader)
    with earlier_of(office, when) as earlier:
        for date in dates:
            with office.reporting():
                prints_day(office, reader, known, earlier, date)


def prints_day(office, reader, known, earlier, date):
    """For each place with changes, writes the heading of its docker, the number of lines that are gone and new, and each of these lines."""
    is_covered, since, number = covering.warns(office, known, date), earlier.since(date), 0
    for place, text in dockers_of(office, reader, date):
        with office.reporting():
            if found := differences(text, earlier.docker(place, date)):
                number += 1
                gone, new = (sum(line.startswith(mark) for line in found) for mark in "-+")
                counted = f"{covering.REMARK}{gone} {'line' if gone == 1 else 'lines'} gone and {new} new since {since}"
                with writing():
                    print(covering.head(office, known, date, place).decode("ascii"), end="")
                    print(counted, text.decode("ascii").split("\n")[0], *found, sep="\n", flush=True)
    if not number and is_covered and office.status == 0:
        office.say(date, f"nothing changed since {since}")


def draft_of(date, today):
    """The file of what a morning knows, with the dockers of today. They are packed while others are read."""
    draft = printed.Draft()
    collections.deque(draft.adding(date, today.items()), maxlen=0)
    return draft


def says_news(office, reader, known, date, today, draft):
    """Prints how many lines are gone and new today and tomorrow since an earlier morning, at the places whose dockers of today were printed. Keeps what this morning
    knows for the next one, and for the screen."""
    kept = [it for it in printed.mornings(office.folder) if it.moment.date() < office.settings.now.date()]
    says_day(office, known, kept, date, today.items())
    for number, (day, found) in enumerate(following(reader, date, today), 1):
        found = draft.adding(day, found)
        if number < SAID:
            says_day(office, known, kept, day, found)
        else:
            collections.deque(found, maxlen=0)
    printed.keeps_morning(office, draft)


def following(reader, date, places):
    """The days after a day of which a morning keeps dockers, each with its dockers by place. The dockers are read one by one, and the next days after them. Without a desk there
    are none, because each docker would take a second."""
    first = datetime.date.fromisoformat(date)
    days = [(first + datetime.timedelta(after)).isoformat() for after in range(1, printed.AHEAD if reader.has_trains else 1)]
    answers = reader.dockers([(place, day) for day in days for place in places])
    for day in days:
        yield day, ((place, answer.text) for place, answer in zip(places, answers) if answer.status == 0)


def says_day(office, known, kept, day, found):
    """Prints what changed on a day, of which these are the dockers by place."""
    number, before, changed = 0, [], []
    for number, (place, text) in enumerate(found, 1):
        if earlier := printed.before(kept, place, day):
            before.append(earlier[0])
            changed.append([len(rows) for rows in changes.lone(earlier[1], text)])
    if not number:
        return
    if not before:
        office.say(day, "no earlier morning kept its dockers, so what changed since then isn't known")
        return
    oldest = min(before, key=lambda kept: kept.moment)
    moment, copy = oldest.moment, office.folder / "copies" / oldest.copy
    gone, new = map(sum, zip(*changed))
    if gone or new:
        at = f"at {sum(map(any, changed))} of {number} {'place' if number == 1 else 'places'}"
        prints = f"; `station-office changes --since {copy} {office.state} {day}` prints them" if copy.exists() else ""
        office.say(day, f"{gone} {'line' if gone == 1 else 'lines'} gone and {new} new {at} since {moment:%Y-%m-%d %H:%M}{prints}")
    elif not known.gaps(day):
        office.say(day, f"nothing changed since {moment:%Y-%m-%d %H:%M}")
