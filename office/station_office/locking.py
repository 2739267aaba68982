"""Keeps two station-offices from working on one STATE at once, and gives each a folder to work in."""
import contextlib
import fcntl
import shutil
import time

from .faults import Fault


def locks(office, file):
    """Waits until no other station-office has the lock."""
    end = time.monotonic() + office.settings.wait
    waits = False
    while True:
        try:
            return fcntl.flock(file, fcntl.LOCK_EX | fcntl.LOCK_NB)
        except BlockingIOError:
            if time.monotonic() >= end:
                raise Fault(4, office.state, "another station-office is at work on it") from None
        if not waits:
            office.say(office.state, f"another station-office is at work on it; this one waits up to {office.settings.wait:.0f} seconds")
            waits = True
        time.sleep(0.1)


@contextlib.contextmanager
def locked(office, ending="lock"):
    """Takes a lock of STATE. Locks whose files have different endings can be held at the same time."""
    with open(office.beside(ending), "ab") as file:
        locks(office, file)
        yield


@contextlib.contextmanager
def at_work(office):
    """Takes the lock of STATE, and makes an empty folder for packing and unpacking. Removes what an earlier run left there."""
    with locked(office):
        shutil.rmtree(office.work, ignore_errors=True)
        office.work.mkdir()
        # A desk reads files by names in the folder. One that an earlier lock left is in a folder that is gone.
        office.ends_desk()
        try:
            yield
        finally:
            shutil.rmtree(office.work, ignore_errors=True)
