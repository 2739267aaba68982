"""Waits for files that come into in/ or swap/."""
import os
import time

from . import archive, locking, swap

# Folders that never come to rest are looked at after this many pauses.
PAUSES = 60


def arrived(office):
    """Waits until nothing changes in in/ and swap/ for a while. Returns what is there then; nothing if all of it was noted before."""
    before = None
    for _ in range(PAUSES):
        found = present(office)
        if found == before:
            break
        before = found
        time.sleep(office.settings.still)
    return set() if found <= noted(office) else found


def present(office):
    """The files in in/, and the states of other offices in swap/. A file that changed is another one. A folder that can't be read is reported, once."""
    paths = []
    with locking.at_work(office):
        with office.reporting():
            paths += archive.contents_of(archive.readable(office, "in"))[0]
        with office.reporting():
            paths += swap.others(office)
    return {identity(path) for path in paths} - {None}


def identity(path):
    """A line that changes whenever a file does; None if the file is gone."""
    try:
        found = os.stat(path)
    except FileNotFoundError:
        return None
    return f"{path.parent.name} {found.st_dev} {found.st_ino} {found.st_size} {found.st_mtime_ns} {found.st_ctime_ns}"


def notes(office, found):
    """Notes what was there when the office last took and merged."""
    office.beside("arrived").write_text("".join(f"{line}\n" for line in sorted(found)), encoding="utf-8")


def noted(office):
    """What was noted last."""
    try:
        return set(office.beside("arrived").read_text(encoding="utf-8", errors="replace").splitlines())
    except FileNotFoundError:
        return set()
