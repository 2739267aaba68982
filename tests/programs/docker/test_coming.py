"""Tests `docker new` when another file replaces the pipe that it writes to, and when hard links aren't possible. In test_whatever_comes.py something else takes
the place of a file, or takes a name that was free."""
import os
import pathlib
import stat
import time

import pytest
from comings import open_pipe, taken_from
from given import STATES
from meetings import at_each_call, calls_of, met
from outcomes import DEVICE, DONE, holds_only
from programs import DOCKER, docker, give, held, in_turn, preloading, run
from tables import each

NO_FILES = STATES["no_files"]
COME = b"DKS2 by another program"


def make_pipes():
    """Makes two named pipes, `pipe` and `other`, and nothing else."""
    for name in ("pipe", "other", "came", "got"):
        pathlib.Path(name).unlink(missing_ok=True)
    os.mkfifo("pipe")
    os.mkfifo("other")


def instead_at(device, number, line):
    """Something takes the place of a pipe at this call. Returns what happened."""
    make_pipes()
    give(COME, "came")
    with open_pipe() as pipe, open_pipe("other") as other:
        found = met(device, number, line, [DOCKER, "new", "pipe"])
        if found is None:
            return None
        assert found.status == 0
        is_other = stat.S_ISFIFO(os.lstat("pipe").st_mode)
        there = taken_from(other) if is_other else held("pipe")
        assert not os.path.lexists("pipe.new"), "a draft is left"
        if not found.looks("pipe"):
            assert (found.ended, taken_from(pipe), there) == (DONE, b"", NO_FILES)
            return "came first"
        assert there == (b"" if is_other else COME), "what came is changed"
        is_open = "open pipe" in found.before
        assert found.ended == (DONE if is_open else DEVICE)
        assert taken_from(pipe) == (NO_FILES if is_open else b"")
        return "came last" if is_open else "refused"


@pytest.mark.timeout(120)
@each("line", {"another pipe": "mv -f other pipe", "a text": "mv -f came pipe"})
def test_what_takes_the_place_of_a_pipe(device, line):
    """A command writes only to the pipe that it saw."""
    assert set(at_each_call(lambda number: instead_at(device, number, line))) == {"came first", "refused", "came last"}


# Makes a pipe in the place of the pipe, with the number of the old one if the file system gives it to one of fifty pipes. Reads from the new pipe.
NEW_PIPE = (
    "old=$(stat -c %i pipe); rm pipe; n=0;"
    ' until mkfifo "anew$n"; [ "$(stat -c %i "anew$n")" = "$old" ] || [ "$n" = 50 ];'
    ' do n=$((n + 1)); done; mv "anew$n" pipe; rm -f anew*; timeout 5 cat pipe >got 2>&1 &'
)


def test_a_new_pipe_with_the_number_of_the_old_one(device):
    """The new pipe is made just before the command opens the pipe that it saw. The command doesn't write to it."""
    command = [DOCKER, "new", "pipe"]
    make_pipes()
    with open_pipe():
        number = calls_of(device, command).index("open pipe") + 1
    make_pipes()
    # The times when the two pipes are made have to differ.
    time.sleep(0.05)
    found = met(device, number, NEW_PIPE, command)
    assert (found.ended, found.status) == (DEVICE, 0)
    assert held("got") == b"", "the new pipe got something"


def test_another_pipe_that_has_no_name(device):
    """Pipes without names are all on one device, and no time says when one was made. The command writes only to the pipe that it saw."""
    (seen, to_seen), (other, to_other) = os.pipe(), os.pipe()
    for pipe in (seen, other):
        os.set_blocking(pipe, False)
    under = f"/proc/{os.getpid()}/fd"
    os.symlink(f"{under}/{to_seen}", "pipe")
    command = [DOCKER, "new", "pipe"]
    number = calls_of(device, command).index("open pipe") + 1
    assert taken_from(seen) == NO_FILES
    found = met(device, number, f"ln -fns {under}/{to_other} pipe", command)
    assert (found.ended, found.status) == (DEVICE, 0)
    assert (taken_from(seen), taken_from(other)) == (b"", b"")
    for pipe in (seen, to_seen, other, to_other):
        os.close(pipe)


def test_a_pipe_at_which_a_look_fails(device):
    """A command looks at a pipe before it opens the pipe and afterwards. If either look fails, it writes nothing."""
    make_pipes()
    with open_pipe() as pipe:
        def trial(number):
            return docker("new", "pipe", before=preloading(device, CALL="statx", FAIL_AT=number, TOLD="met"))

        assert [ended for _, ended, met in in_turn(trial) if met] == [DEVICE, DEVICE]
        # In the last trial no look failed.
        assert taken_from(pipe) == NO_FILES


# Some file systems have no hard links. There a draft is renamed, if nothing has come until then.


@each("name", {"a name": "office", "a link to nothing": "leading"})
def test_new_without_hard_links(device, name):
    os.symlink("office", "leading")
    before = preloading(device, CALL="link", FAIL_AT=1, TOLD="met")
    assert (run([*before, DOCKER, "new", name]), held("met")) == (DONE, b"link")
    holds_only("office", NO_FILES)
