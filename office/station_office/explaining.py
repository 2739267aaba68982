"""Explains why docker refuses a file. Shows the record at fault under a ruler of columns, names the field there, and says what would be good."""
import itertools
import pathlib
import re
import tempfile
from typing import NamedTuple

import dockers

from . import packing, reporting
from .faults import Fault

# The names and columns of records and fields. docs/pages makes this file from docs/FORMATS.md.
TABLE = pathlib.Path(dockers.__file__).with_name("records")
WIDTH = 80
# How much of a line is kept. A file that isn't an extract may have one line.
KEPT = 4096
RULER = "".join(f"{ten:>10}" for ten in range(1, 9)) + "\n" + "1234567890" * 8
# The order of the times of a journey, by the record.
TIMES = {"LO": ("scheduled departure",), "LI": ("scheduled arrival", "scheduled departure", "scheduled pass"), "LT": ("scheduled arrival",)}


class Record(NamedTuple):
    """A line of a file: its number, its first bytes without the line end, and its length."""

    number: int
    text: bytes
    length: int

    @property
    def identity(self):
        return shown(self.text[:2])

    def columns(self, first, last):
        return self.text[first - 1:last]


class Field(NamedTuple):
    """A field of a record: its columns, its name, and what a good field contains, which is empty if the field isn't checked."""

    first: int
    last: int
    name: str
    good: str


def tables():
    """The records by their identities, each with its name and what may follow it. Then their fields."""
    records, fields = {}, {}
    for row in TABLE.read_text(encoding="utf-8").splitlines():
        identity, *rest = row.split("\t")
        if len(rest) == 2:
            records[identity] = tuple(rest)
        else:
            fields.setdefault(identity, []).append(Field(int(rest[0]), int(rest[1]), *rest[2:]))
    return records, fields


RECORDS, FIELDS = tables()


def shown(text):
    """Bytes as text. A byte that can't be printed becomes a question mark."""
    return "".join(chr(byte) if 0x20 <= byte <= 0x7E else "?" for byte in text)


def called(record):
    """A record's identity, with its name."""
    name = RECORDS.get(record.identity, ("no kind of record",))[0]
    return f"{record.identity}, {name}"


def lines_of(path):
    """The records of a file, as docker numbers them."""
    with open(path, "rb") as file:
        for number in itertools.count(1):
            text = line = file.readline(KEPT)
            length = len(text)
            while line and not line.endswith(b"\n"):
                line = file.readline(KEPT)
                length += len(line)
            if not length:
                return
            ends = line.endswith(b"\n")
            length -= ends
            text = text[:length]
            if text.endswith(b"\r") and len(text) == length:
                text, length = text[:-1], length - 1
            yield Record(number, text, length)


def records_to(path, number):
    """The record with this number, the record before it, and all records from the last basic schedule on. The first two are None if they don't exist."""
    before, schedule = None, []
    for record in lines_of(path):
        schedule = [record] if record.identity == "BS" else [*schedule, record]
        if record.number == number:
            return record, before, schedule
        if record.identity not in TIMES and record.identity not in ("BS", "BX", "CR"):
            schedule = []
        before = record
    return None, before, schedule


def fields_at(record, column):
    """The fields of a record that have this column, the narrowest first."""
    return sorted((it for it in FIELDS.get(record.identity, ()) if it.first <= column <= it.last), key=lambda it: it.last - it.first)


def place_text(first, last):
    return f"column {first}" if first == last else f"columns {first} to {last}"


def picture(record, first, last):
    """A record under a ruler, with marks under these columns."""
    return [*RULER.split("\n"), shown(record.text[:WIDTH]).rstrip(), " " * (first - 1) + "^" * (last - first + 1)]


def with_record_before(before):
    return [f"Record {before.number}, before it:", shown(before.text[:WIDTH]).rstrip()] if before else []


def of_field(record, column, *_):
    """A checked field that isn't good."""
    found = next((it for it in fields_at(record, column) if it.good), Field(column, column, "field", ""))
    yield from picture(record, found.first, found.last)
    yield f"{place_text(found.first, found.last).capitalize()} of {called(record)}: {found.name}."
    yield f"It holds {shown(record.columns(found.first, found.last))!r}. A good one holds {found.good}."


def of_byte(record, column, *_):
    """A byte that isn't printable."""
    yield from picture(record, column, column)
    yield f"Column {column} holds the byte 0x{record.text[column - 1]:02X}. A good one is from 0x20, a space, to 0x7E, a tilde."
    yield from (f"It belongs to the field in {place_text(it.first, it.last)} of {called(record)}: {it.name}." for it in fields_at(record, column)[:1])


def of_length(record, _, before, *__):
    """A record that doesn't have 80 bytes."""
    if record.length < WIDTH:
        yield from picture(record, record.length + 1, WIDTH)
        yield f"It has {record.length} bytes and not {WIDTH}, so the marked columns are missing. If they are only blank, they were cut off at the end of the line."
    else:
        yield from picture(record, 1, WIDTH)
        yield f"It has {record.length} bytes and not {WIDTH}. Only the first {WIDTH} are shown."
    if record.number == 1 and record.text.startswith(b"\xef\xbb\xbf"):
        yield "It begins with a byte order mark, which is three bytes that no extract has."
    elif record.number == 1 and (kind := packing.kind_of(record.text)):
        yield f"The file isn't an extract: {kind}."
    yield from with_record_before(before)


def of_kind(record, *_):
    """A record of an unknown kind."""
    yield from picture(record, 1, 2)
    yield f"Columns 1 to 2 hold {record.identity!r}. Good ones are: {'; '.join(f'{identity}, {name}' for identity, (name, _) in RECORDS.items())}."


def of_place(record, _, before, *__):
    """A record that can't follow the records before it."""
    yield from with_record_before(before)
    yield f"Record {record.number}:"
    yield from picture(record, 1, 2)
    if before:
        yield f"It is {called(record)}. After {called(before)}, may come: {RECORDS[before.identity][1]}."
    else:
        yield f"It is {called(record)}. The first record has to be HD, {RECORDS['HD'][0]}."


def of_after(record, _, before, *__):
    """A record after the trailer."""
    yield from picture(record, 1, WIDTH)
    yield f"It comes after record {before.number}, {called(before)}, which ends the file. After it comes {RECORDS['ZZ'][1]}."


def of_midnights(record, _, __, schedule):
    """A journey that passes midnight for the third time."""
    times = [(it.number, shown(it.columns(field.first, field.last)), field) for it in schedule for name in TIMES.get(it.identity, ()) for field in FIELDS[it.identity] if field.name == name]
    times = [it for it in times if it[1].strip()]
    falls = [(one, other) for one, other in zip(times, times[1:]) if other[1] < one[1]][:3]
    last = falls[-1][1][2] if falls else Field(11, 15, "", "")
    yield from picture(record, last.first, last.last)
    yield f"The train of the basic schedule in record {schedule[0].number} passes midnight where a time is earlier than the time before it:"
    yield from (f"from {one[1].strip()} in record {one[0]} to {other[1].strip()} in record {other[0]}" for one, other in falls)
    yield "A good journey passes midnight at most twice."


def of_no_end(_, __, before, *___):
    """A file without a trailer."""
    if before is None:
        yield "The file is empty."
    else:
        yield f"The last record is record {before.number}, {called(before)}:"
        yield from picture(before, 1, 2)
    yield f"The last record has to be ZZ, {RECORDS['ZZ'][0]}."


def of_too_many(*_):
    """A file with more records than docker can number."""
    yield "No record is shown. A good file has fewer records."


CAUSES = {
    "TooMany": of_too_many, "After": of_after, "Length": of_length, "Byte": of_byte, "Kind": of_kind, "Place": of_place, "Field": of_field,
    "Midnights": of_midnights, "NoEnd": of_no_end,
}


def explanation(path, line):
    """The lines that explain a refused file, from docker's line. None if the line isn't about a refused file."""
    found = re.fullmatch(r"docker: file refused: record (\d+): ([A-Za-z]+)(?: (\d+))?", line)
    if not found or found[2] not in CAUSES:
        return None
    number, column = int(found[1]), int(found[3] or 0)
    record, before, schedule = (None, None, []) if found[2] == "TooMany" else records_to(path, number)
    advice = dockers.advice(line).partition(". ")[2]
    return [line.removeprefix("docker: "), *CAUSES[found[2]](record, column, before, schedule), advice]


def explains(office):
    """Explains why docker refuses a file, or prints what `docker check` says of a good one. STATE stands here for the file."""
    with tempfile.TemporaryDirectory() as folder:
        office.work = pathlib.Path(folder)
        plain = office.unpacked(office.state)
        try:
            lines = [office.docker(office.state, "check", plain).decode("ascii").strip()]
        except Fault as fault:
            lines = explanation(plain, fault.lines[0])
            if lines is None:
                raise
            office.status = max(office.status, fault.status)
    with reporting.writing():
        print("\n".join(lines), flush=True)
