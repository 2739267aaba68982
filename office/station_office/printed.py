"""The dockers that this office has printed, and those that it knew at the end of each morning. Each is kept in a zip file, from which a single docker can be read.

`printed/DATE.zip` has the dockers of a day as they were last printed. `mornings/DATE.zip` has what the morning of that day knew of three days: that day and the two
days after it. So the next morning, and the screen, can compare today and tomorrow with it."""
import datetime
import functools
import itertools
import os
import pathlib
import urllib.parse
import zipfile
from typing import NamedTuple

from .copying import copy_of

PRINTED, MORNINGS = "printed", "mornings"
# The number of days of which a morning keeps dockers, and the number of files that each folder keeps.
AHEAD, MOST = 3, 10


class Kept(NamedTuple):
    """A file of dockers, with the moment at which they were printed, and the name that a copy of the STATE of that moment has."""
    path: pathlib.Path
    moment: datetime.datetime
    copy: str

    def docker(self, place, date):
        """The docker of a place on a day; None if the file doesn't have it."""
        try:
            return open_file(self.path).read(entry(place, date))
        except (KeyError, OSError, zipfile.BadZipFile):
            return None


def open_file(path):
    """A zip file, opened once as long as no other file takes its place. All files of both folders stay open, since a docker may be looked for in each of them."""
    found = os.stat(path)
    return opened(path, found.st_ino, found.st_mtime_ns)


@functools.lru_cache(maxsize=2 * MOST)
def opened(path, *_):
    return zipfile.ZipFile(path)


def entry(place, date):
    """The name of a docker in a file. A code may have characters that no file name has."""
    return f"{date}/{urllib.parse.quote(place, safe='')}"


def kept_in(path):
    """The file of dockers at a path; None if there is none."""
    try:
        moment, _, copy = open_file(path).comment.decode("utf-8", "replace").partition(" ")
        return Kept(path, datetime.datetime.fromisoformat(moment), copy)
    except (OSError, ValueError, zipfile.BadZipFile):
        return None


class Draft:
    """A file of dockers that is made in memory. A process of its own packs them, while others are read. It ends when nobody can send it dockers any more."""

    def __init__(self):
        self.names = set()
        # The texts of the dockers, and the file that is made of them.
        self.texts, self.file = (open(os.memfd_create("dockers"), "w+b") for _ in range(2))
        source, target = os.pipe()
        self.child = os.fork()
        if self.child == 0:
            packs(source, self.texts.fileno(), self.file.fileno())
        os.close(source)
        self.lines = open(target, "w", encoding="ascii")

    def adds(self, date, place, text):
        """Adds the docker of a place on a day, unless the file has it."""
        if (name := entry(place, date)) not in self.names:
            self.names.add(name)
            self.sends(name, text)

    def adding(self, date, found):
        """Gives the dockers of a day by place, and adds each."""
        for place, text in found:
            self.adds(date, place, text)
            yield place, text

    def sends(self, name, text):
        """Has the process pack a text. Without a name, the text is the comment of the file."""
        print(name, self.texts.tell(), len(text), sep=" ", file=self.lines)
        self.texts.write(text)
        self.texts.flush()
        self.lines.flush()

    def made(self, comment):
        """The content of the file, with a comment."""
        self.sends("", comment.encode("utf-8"))
        self.lines.close()
        if os.waitpid(self.child, 0)[1] != 0:
            raise OSError("the dockers can't be packed")
        self.file.seek(0)
        return self.file.read()


def packs(lines, texts, target):
    """Packs the texts that lines from a pipe name, in a process of its own, and ends it. Nothing else stays open there, such as the pipe to a desk."""
    status = 1
    try:
        for first, last in itertools.pairwise(sorted([-1, lines, texts, target, os.sysconf("SC_OPEN_MAX")])):
            os.closerange(first + 1, last)
        with open(target, "w+b") as made, zipfile.ZipFile(made, "w", zipfile.ZIP_DEFLATED, compresslevel=1) as file:
            for line in open(lines, encoding="ascii"):
                name, at, length = line.rsplit(" ", 2)
                text = os.pread(texts, int(length), int(at))
                if name:
                    file.writestr(name, text)
                else:
                    file.comment = text
        status = 0
    finally:
        os._exit(status)


def keeps(office, path, draft):
    """Writes a file of dockers, and removes the oldest files if there are too many."""
    path.parent.mkdir(exist_ok=True)
    new = path.with_name(f".{path.name}.{os.getpid()}")
    try:
        new.write_bytes(draft.made(f"{office.settings.now.isoformat(timespec='seconds')} {copy_of(office).name}"))
        os.replace(new, path)
    finally:
        new.unlink(missing_ok=True)
    for old in names_in(path.parent)[:-MOST]:
        old.unlink()


def names_in(folder):
    """The files of dockers in a folder, the earliest day first."""
    return sorted(folder.glob("[0-9]*.zip"))


def keeps_printed(office, date, draft):
    """Keeps the dockers of a day that were just printed. Dockers of other places stay as they were last printed."""
    path = office.folder / PRINTED / f"{date}.zip"
    for (day, place), text in all_in(path):
        draft.adds(day, place, text)
    keeps(office, path, draft)


def all_in(path):
    """The dockers in a file, each with its date and place."""
    try:
        with zipfile.ZipFile(path) as file:
            for name in file.namelist():
                date, place = name.split("/")
                yield (date, urllib.parse.unquote(place)), file.read(name)
    except (OSError, ValueError, zipfile.BadZipFile):
        return


def last_printed(folder, date):
    """The dockers of a day as they were last printed; None if they weren't."""
    return kept_in(folder / PRINTED / f"{date}.zip")


def keeps_morning(office, draft):
    """Keeps what a morning knew."""
    keeps(office, office.folder / MORNINGS / f"{office.settings.now:%Y-%m-%d}.zip", draft)


def mornings(folder):
    """What the mornings knew, the newest first."""
    return [kept for path in reversed(names_in(folder / MORNINGS)) if (kept := kept_in(path))]


def before(kept, place, date):
    """The newest of these files that has the docker of a place on a day, and that docker; None if no file has it."""
    return next(((it, text) for it in kept if (text := it.docker(place, date)) is not None), None)
