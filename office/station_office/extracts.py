"""Reads extracts by their headers, and states by their heads and entries, as in docs/FORMATS.md."""
import collections
import contextlib
import datetime
import itertools
import mmap
import re
from typing import NamedTuple

import dockers

DAY = datetime.timedelta(days=1)
# Day number 0 of a state.
FIRST_DAY = datetime.date(1960, 1, 1)
MARK = b"DKS2"
# The lengths in bytes in a state's text: of what precedes the ledger items, of each item, and of
# the number of entries.
HEAD, ITEM, COUNT = 14, 19, 8
STAMP = 15
FILE_OF_STAMP = 11
DELETED, PUT, LAPSED = range(3)
PLACE = 1
CANCELLATION = b"C"
# The lengths in bytes of an entry's key for each tag, and of the bodies of timing points and
# associations. The body of a schedule is the number of its lines, followed by these lines. Each
# line has 80 bytes.
KEYS = {1: 7, 2: 23, 3: 9}
BODIES = {1: 63, 2: 80}


def moment_of(extract):
    """The time at which an extract was made."""
    return datetime.datetime.strptime(extract.date + extract.time, "%Y-%m-%d%H%M")


def stamp_of(extract):
    """The key by which extracts are ordered: their moment, then their reference."""
    return extract.date, extract.time, extract.reference


def header_of(record):
    """The extract with this first record; None if that isn't a header."""
    text = record.decode("ascii", "replace")
    found = re.match(r"HD.{20}(\d\d)(\d\d)(\d\d)([0-2]\d[0-5]\d)(.{7})(.{7})([FU])", text)
    if found is None:
        return None
    day, month, year, time, reference, last, indicator = found.groups()
    return dockers.Extract(f"{'19' if int(year) >= 60 else '20'}{year}-{month}-{day}", time, reference.strip(), indicator, last.strip())


def bytes_of(extract):
    """The stamp of an extract, encoded as in the entries of a state."""
    day = (datetime.date.fromisoformat(extract.date) - FIRST_DAY).days
    minute = int(extract.time[:2]) * 60 + int(extract.time[2:])
    return day.to_bytes(2, "big") + minute.to_bytes(2, "big") + extract.reference.ljust(7).encode("ascii")


def day_of(number):
    """The date with this day number."""
    return (FIRST_DAY + datetime.timedelta(number)).isoformat()


def horizon_of(path):
    """The horizon of a state as a day number; 0 if it has none, or if the file isn't a state."""
    known = dockers.knowledge(path)
    return known.horizon if known else 0


def knowledge_in(stream):
    """What a state knows, from the beginning of its text; None if it isn't a state's."""
    head = stream.read(HEAD)
    if head[:4] != MARK:
        return None
    items = (stream.read(ITEM) for _ in range(int.from_bytes(head[6:], "big")))
    return dockers.Knowledge(int.from_bytes(head[4:6], "big"), tuple(itertools.takewhile(len, items)))


def extracts_in(knowledge):
    """The extracts of ledger items."""
    return [extract_of(item) for item in knowledge.items]


def extract_of(item):
    """The extract of a ledger item."""
    minute, text = int.from_bytes(item[2:4], "big"), item.decode("latin-1")
    return dockers.Extract(day_of(int.from_bytes(item[:2], "big")), f"{minute // 60:02}{minute % 60:02}", text[4:11].strip(), text[11], text[12:].strip())


class Entry(NamedTuple):
    """An entry of a state: its key with its tag, the file of its stamp and all of the stamp, whether it is put, deleted or lapsed, and its body."""
    key: bytes
    file: bytes
    stamp: bytes
    op: int
    body: bytes


@contextlib.contextmanager
def mapped(path):
    """The text of a state, and where its first entry begins and how many entries it has."""
    with open(path, "rb") as file, mmap.mmap(file.fileno(), 0, access=mmap.ACCESS_READ) as text:
        at = HEAD + ITEM * int.from_bytes(text[6:HEAD], "big")
        yield text, at + COUNT, int.from_bytes(text[at:at + COUNT], "big")


def end_of(text, at):
    """Where the entry ends that begins here in a state's text."""
    tag = text[at]
    end = at + KEYS[tag] + STAMP + 2
    if text[end - 1] != PUT:
        return end
    return end + (BODIES.get(tag) or 4 + 80 * int.from_bytes(text[end:end + 4], "big"))


def entry_at(text, at):
    """The entry that begins here in a state's text."""
    stamp = at + 1 + KEYS[text[at]]
    op = stamp + STAMP
    return Entry(text[at:stamp], text[stamp:stamp + FILE_OF_STAMP], text[stamp:op], text[op], text[op + 1:end_of(text, at)])


def entries_of(path):
    """The entries of a state, in the order of their keys."""
    with mapped(path) as (text, at, count):
        for _ in range(count):
            yield entry_at(text, at)
            at = end_of(text, at)


def deletions(path, extracts):
    """How many entries of a state each of these extracts deletes or cancels."""
    files = {bytes_of(extract): extract for extract in extracts}
    found = dict.fromkeys(extracts, 0)
    for entry in entries_of(path):
        if entry.file in files and (entry.op == DELETED or entry.key[-1:] == CANCELLATION and entry.key[0] != PLACE):
            found[files[entry.file]] += 1
    return found


def differing(ours, theirs):
    """The entries in which two states differ, key by key. If only one state has a key, the other entry is None. Most entries of two states are the same, and they are
    compared as bytes."""
    with mapped(ours) as (one, at, left), mapped(theirs) as (other, its, rest):
        while left or rest:
            end = end_of(one, at) if left else at
            if left and rest and one[at:end] == other[its:its + end - at]:
                at, its, left, rest = end, its + end - at, left - 1, rest - 1
                continue
            first, second = entry_at(one, at) if left else None, entry_at(other, its) if rest else None
            if first and second:
                first, second = first if first.key <= second.key else None, second if second.key <= first.key else None
            yield first, second
            if first:
                at, left = end, left - 1
            if second:
                its, rest = end_of(other, its), rest - 1


def contradicted(ours, theirs):
    """The files that two states know with different content, each with the number of entries in which it differs. Of two entries with one key the newer one counts,
    so a state that knows its file has to have it. Whether an entry has lapsed depends on the horizon, not on the file."""
    known = [{item[:FILE_OF_STAMP] for item in dockers.knowledge(path).items} for path in (ours, theirs)]
    floor = max(min(files, default=b"") for files in known)
    both, found = {file for file in known[0] & known[1] if file >= floor}, collections.Counter()
    for one, other in differing(ours, theirs):
        newer = max(filter(None, (one, other)), key=lambda entry: entry.stamp)
        has_lapsed = one and other and one.stamp == other.stamp and LAPSED in (one.op, other.op)
        if newer.file in both and not has_lapsed:
            found[newer.file] += 1
    return found
