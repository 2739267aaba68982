"""The folders that extracts go through, and the list of extracts that were taken."""
import contextlib
import filecmp
import itertools
import os
import re
import shutil
import tempfile
import time
from typing import NamedTuple

import dockers

from . import packing
from .extracts import header_of, stamp_of
from .faults import Fault

# The folders whose files are kept for KEEP_DAYS.
KEPT = ("taken", "refused", "held")
# The list of extracts that were taken. It is in the folder with these extracts.
LIST = "list"


class Taken(NamedTuple):
    """A line of taken/list: an extract that was taken, its number of changes, its digest, and its file."""
    extract: dockers.Extract
    changes: int
    digest: str
    name: str


def list_of_taken(office):
    """The lines of taken/list, in the order in which the extracts were taken. An incomplete line is skipped."""
    try:
        lines = (office.folder / "taken" / LIST).read_text(encoding="utf-8", errors="surrogateescape").splitlines()
    except FileNotFoundError:
        return []
    found = (re.fullmatch(r"(.{33}) (\d+) ([0-9a-f]{32}) (.+)", line) for line in lines)
    return [Taken(dockers.extracts_of(f"{it[1]}\n".encode())[0], int(it[2]), it[3], it[4]) for it in found if it]


def lists(office, taken):
    """Adds a line to taken/list. It begins like a line of `docker files`, and ends with the file's name."""
    of = taken.extract
    with open(office.folder / "taken" / LIST, "a", encoding="utf-8", errors="surrogateescape") as text:
        text.write(f"{of.date} {of.time} {of.reference:7} {of.indicator} {of.last:7} {taken.changes} {taken.digest} {taken.name}\n")


def kept(office):
    """The extracts of the list that are still in taken/, each with its file."""
    found = ((it.extract, office.folder / "taken" / it.name) for it in list_of_taken(office))
    return [(extract, path) for extract, path in found if path.exists()]


def contents_of(folder):
    """The files in a folder, and what else is in it, by name. Hidden files are left out. There are none if there is no folder."""
    try:
        found = sorted(path for path in folder.iterdir() if not path.name.startswith("."))
    except FileNotFoundError:
        return [], []
    return [path for path in found if path.is_file()], [path for path in found if not path.is_file()]


def readable(office, name):
    """A folder of the office that other programs put files into. If it isn't there or can't be read, that is a fault."""
    path = office.folder / name
    try:
        os.listdir(path)
    except OSError as error:
        raise Fault(4, path, f"it can't be read: {error.strerror}") from None
    return path


def writable(office, name):
    """A folder of the office that this script also writes to. If it can't, that is a fault."""
    path = readable(office, name)
    try:
        tempfile.TemporaryFile(dir=path).close()
    except OSError as error:
        raise Fault(4, path, f"it can't be written: {error.strerror}", *office.shortage(1, path)) from None
    return path


def archived(office):
    """The extracts in taken/, each with its file. A file that can't be read is reported and skipped."""
    found = []
    for path in contents_of(office.folder / "taken")[0]:
        with office.reporting():
            if path.name != LIST and (extract := header_of(packing.head_of(path, 80))):
                found.append((extract, path))
    return found


def free_name(folder, name):
    """This name, or, if a file in the folder has the name, packed or not, a similar name that no file has."""
    name = re.sub(r"[\x00-\x1f\x7f]", "_", name)
    numbers = itertools.chain([""], (f".{number}" for number in itertools.count(2)))
    return next(name + number for number in numbers if not any((folder / f"{name}{number}{end}").exists() for end in ("", ".zst", ".why")))


@contextlib.contextmanager
def packs_ahead(office, path):
    """Packs a file that will be moved, while the statements inside the block look at it. If that can't be done, it is packed when it is moved."""
    with contextlib.ExitStack() as stack:
        with contextlib.suppress(Fault, OSError):
            if packing.packing_of(path) is None and not office.shortage(office.needed(path)):
                office.packing = stack.enter_context(packing.Packing(path, office.work / "packed"))
        try:
            yield
        finally:
            office.packing = None


def stores(office, path, name, folder, is_moved):
    """Puts a file into another folder, packed with zstd if it isn't packed yet. If the disk is full, a file that is moved goes there as it is. Returns
    the new file."""
    into = office.folder / folder
    into.mkdir(exist_ok=True)
    target, packed = into / free_name(into, name), office.work / "packed"
    try:
        if packing.packing_of(path) is None:
            if office.packing and office.packing.path == path:
                office.packing.ends()
            else:
                packing.pack(path, packed)
            target = target.with_name(f"{target.name}.zst")
        else:
            shutil.copyfile(path, packed)
        shutil.move(packed, target)
    except OSError:
        if not is_moved:
            raise
        shutil.move(path, target)
    if is_moved:
        path.unlink(missing_ok=True)
    os.utime(target)
    return target


def puts_aside(office, path, folder, reason):
    """Moves a file to another folder, with the reason beside it. Returns the new file."""
    target = stores(office, path, path.name, folder, is_moved=True)
    target.with_name(f"{target.name.removesuffix('.zst')}.why").write_text(reason, encoding="utf-8", errors="surrogateescape")
    return target


def removes(path):
    """Removes a file that was put aside, with its reason."""
    path.unlink(missing_ok=True)
    path.with_name(f"{path.name.removesuffix('.zst')}.why").unlink(missing_ok=True)


def forgets(office):
    """Removes files that were put aside more than KEEP_DAYS ago, except those that came after the newest full extract and those that count in STATE."""
    counting = {stamp_of(extract): extract for extract in office.files()}
    kept = {path: counting[stamp_of(extract)] for extract, path in archived(office) if stamp_of(extract) in counting}
    came = [os.stat(path).st_mtime for path, extract in kept.items() if extract.indicator == "F"]
    floor = min([time.time() - office.settings.keep.total_seconds(), *came])
    for folder in KEPT:
        for path in contents_of(office.folder / folder)[0]:
            if os.stat(path).st_mtime < floor and path.name != LIST and path not in kept:
                path.unlink()


def is_same(one, other):
    """Whether two files have the same bytes."""
    return filecmp.cmp(one, other, shallow=False)
