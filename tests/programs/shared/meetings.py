"""Runs something else just before one of a program's calls of the file system (tests/device).

So the work of another program is tried between any two calls, and doesn't depend on luck."""
import contextlib
import fcntl
import itertools
import os
import typing

from checks import named
from programs import Ended, give, held, preloading, run


class Met(typing.NamedTuple):
    """How a program ended, its calls before and after the meeting, and the status of the line that ran."""

    ended: Ended
    before: list
    after: list
    status: int

    def looks(self, name):
        """How often the program looked at a file before the meeting."""
        return self.before.count(f"statx {name}")

    def has_placed(self, draft):
        """Whether the program had put its draft in place before the meeting: by a rename, or by a hard link if no file was there."""
        ways = (f"rename {draft} ", f"link {draft} ")
        return any(call.startswith(ways) for call in self.before)


def met(library, number, line, command, given=b""):
    """Runs a program, and this line of the shell just before its call with this number. Returns None if the program makes fewer calls."""
    ended = run(["timeout", "10", *preloading(library, CALLS="calls", MEET_AT=number, MEET=line), *command], given)
    # The program names some files by their absolute paths.
    noted = held("calls").decode().replace(f"{os.path.realpath('.')}/", "")
    os.remove("calls")
    calls = [call.strip() for call in noted.splitlines()]
    for place, call in enumerate(calls):
        if call.startswith("met "):
            return Met(ended, calls[:place], calls[place + 1:], int(call.split()[1]))
    return None


def calls_of(library, command, given=b""):
    """The calls of a program when nothing else runs."""
    return met(library, 1, "true", command, given).after


def at_each_call(trial):
    """Calls `trial` with 1, 2, 3 and so on, until it returns None. Returns all that it returned before."""
    def named_trial(number):
        with named(f"at call {number}"):
            return trial(number)

    return list(itertools.takewhile(lambda outcome: outcome is not None, map(named_trial, itertools.count(1))))


def all_that_is_there():
    """The content of the folder, by name: the target of a link, the text of a file, or the mode of anything else."""
    return {it.name: os.readlink(it) if it.is_symlink() else held(it) if it.is_file() else it.stat().st_mode for it in os.scandir()}


# Files that may have the name of a draft: whether a running command has locked the file, and its mode. A draft has a mark until it is in place.
DRAFTS = {
    "a draft of a command at work": (True, 0o1640),
    "a draft that is left over": (False, 0o1640),
    "a state of that name": (False, 0o640),
}


class Draft(contextlib.AbstractContextManager):
    """The file `draft`, which will get the name of a draft."""

    TEXT = b"DKS2 a draft"

    def __init__(self, is_locked, mode):
        give(self.TEXT, "draft")
        os.chmod("draft", mode)
        self.file = os.open("draft", os.O_RDONLY)
        if is_locked:
            fcntl.flock(self.file, fcntl.LOCK_EX)
        self.seen = os.fstat(self.file)

    def __exit__(self, *_):
        os.close(self.file)

    def is_under(self, name):
        """Checks that the file has this name and is unchanged."""
        now = os.lstat(name)
        assert (now.st_ino, now.st_mode, held(name)) == (self.seen.st_ino, self.seen.st_mode, self.TEXT)


def replaces_a_new_draft(device, state, draft, command, given, wanted):
    """Another draft takes the place of a program's draft, at each call from the making of the draft to its last look or lock. Each time the program has to end as
    `wanted` says, and leave the state and the other draft as they are."""
    before, new = held(state), f"{state}.new"
    calls = calls_of(device, command, given)
    last = max(at for at, call in enumerate(calls) if call in ("flock", f"statx {new}"))
    for number in range(calls.index(f"create {new}") + 2, last + 2):
        give(before, state)
        with Draft(*draft) as other:
            found = met(device, number, f"mv -f draft {new}", command, given)
            assert (found.ended, found.status, held(state)) == (wanted, 0, before)
            other.is_under(new)
        os.remove(new)
