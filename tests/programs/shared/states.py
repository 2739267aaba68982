"""Makes the text of a state part by part, as in docs/FORMATS.md. It shares nothing with the program."""
import datetime

FIRST_DAY = datetime.date(1960, 1, 1)
# The mark of a state's text, and the mark of the older format.
MARK, OLD_MARK = b"DKS2", b"DKS1"
# The op of a deleted entry and the op of a lapsed one. Neither has a body.
DELETED, LAPSED = b"\0", b"\2"


def number(value, size):
    return value.to_bytes(size, "big")


def day(date):
    """The day number of a date YYYY-MM-DD, in two bytes."""
    return number((datetime.date.fromisoformat(date) - FIRST_DAY).days, 2)


def minute(time):
    """The number of a minute of the day HHMM, in two bytes."""
    return number(int(time[:2]) * 60 + int(time[2:]), 2)


class File:
    """A file that a state knows: its moment, and the rest of its header."""

    def __init__(self, date, reference, indicator="U", last="DFROC1Z", time="2100"):
        self.moment = day(date) + minute(time) + reference.encode()
        self.item = self.moment + indicator.encode() + last.encode()

    def put(self, key, body, record=2):
        """An entry that this file made: its key, the number of its record, and its body."""
        return key + self.moment + number(record, 4) + body


def schedule(uid, first="2024-06-10", stp="P"):
    """The key of a schedule."""
    return b"\3" + uid.encode() + day(first) + stp.encode()


def tiploc(code):
    """The key of a TIPLOC."""
    return b"\1" + code.encode()


def lines(text):
    """The body of a schedule: its records."""
    return b"\1" + number(text.count("\n"), 4) + text.replace("\n", "").encode()


def description(place):
    """The body of a TIPLOC: columns 10 to 72 of its record."""
    return b"\1" + place[9:72].encode()


def state(files=(), entries=(), horizon=None, mark=MARK):
    """The text of a state with these files and entries, in this order."""
    text = mark + (day(horizon) if horizon else number(0, 2))
    text += number(len(files), 8) + b"".join(file.item for file in files)
    return text + number(len(entries), 8) + b"".join(entries)


def ledger(numbers):
    """The text of a state that knows old files with these numbers, and has no entries."""
    return state([File("2005-09-26", f"{it:07}", last="LASTREF", time="0105") for it in numbers])


def under(horizon, text):
    """The text of a state, changed to another horizon."""
    return text[:4] + day(horizon) + text[6:]


def older(text):
    """The text of a state, changed to the older format, which has no horizon."""
    return OLD_MARK + text[6:]
