"""Several commands on one STATE at the same time, and a STATE that changes while a `take` waits for its file."""
import os
import subprocess
import time

import pytest
from given import STATE_OF_BOTH, STATE_OF_ONE, STATE_OF_REVISED, many_trips
from outcomes import DEVICE, DONE, holds_only, takes_more
from programs import DOCKER, Ended, docker, ended_on_disk, give, held
from tables import alone, each

pytestmark = [alone, pytest.mark.timeout(600)]
PIPES = {"stdout": subprocess.PIPE, "stderr": subprocess.PIPE}


def ends_of(processes):
    """How these commands of `docker` end, which run at the same time."""
    return [Ended(process.returncode, *output) for process, output in [(it, it.communicate()) for it in processes]]


@pytest.fixture
def eight_files(large):
    for day in range(8):
        uids = range(40000 + 1000 * day, 40500 + 1000 * day)
        give(many_trips("DFROC2A", "DFROC1Z", f"24061{day}", uids).encode(), f"of_day_{day}")


def test_eight_takes_at_once_again_and_again(eight_files):
    """The state knows the files of all commands that succeeded. The others were refused."""
    names = [f"of_day_{day}" for day in range(8)]
    for number in range(1, 51):
        give(STATE_OF_BOTH, "office")
        give(STATE_OF_BOTH, "wanted_state")
        # In every fifth round, there is a draft such as a killed command leaves.
        assert number % 5 or docker("take", "office", "large", before=ended_on_disk(8)).status < 0
        ends = ends_of([subprocess.Popen([DOCKER, "take", "office", name], stdin=subprocess.DEVNULL, **PIPES) for name in names])
        assert set(ends) <= {DONE, DEVICE}, f"round {number}"
        done = [name for name, end in zip(names, ends) if end == DONE]
        wanted = takes_more("wanted_state", *done)
        assert wanted != STATE_OF_BOTH, f"no command succeeded in round {number}"
        holds_only("office", wanted)


# If no lock holds, a command may take the draft of a running command for left over, and remove it. The running command notices this and is refused. So these
# cases pass even then, and don't show that the locks hold. The cases in test_meetings.py show it: while a draft is there, any other command is refused.


def meanwhile(change):
    """A `take` that has read its state waits for its file, while `change` changes what is in the folder. Returns how the `take` ends."""
    os.mkfifo("queue")
    with subprocess.Popen([DOCKER, "take", "office", "queue"], stdin=subprocess.DEVNULL, **PIPES) as taking:
        with open("queue", "wb") as queue:
            time.sleep(0.2)
            change()
            queue.write(held("one"))
        return ends_of([taking])[0]


def test_a_take_that_was_overtaken():
    """The state that the other command stored stays."""
    give(STATE_OF_ONE, "office")
    assert meanwhile(lambda: takes_more("office", "revised")) == DEVICE
    holds_only("office", STATE_OF_BOTH)


# The times of STATE, in nanoseconds. The first is the time of the file that the `take` read.
THEN = 1718010000_500000000
SECOND = 1000000000


def in_place(text, at):
    """Writes the text in place. The file gets this time."""
    give(text, "office")
    os.utime("office", ns=(at, at))


# The states of a file and of its revision have the same size. In test_whatever_comes.py other programs change STATE in more ways, at each call of a take.
@each("text, at", {
    "is written in place within the second": (STATE_OF_REVISED, THEN + 1),
    "is written in place, and nanoseconds are equal": (STATE_OF_REVISED, THEN + SECOND),
    "differs only in size": (STATE_OF_BOTH, THEN),
})
def test_a_take_whose_state(text, at):
    """The `take` is refused, and the changed state stays."""
    in_place(STATE_OF_ONE, THEN)
    assert meanwhile(lambda: in_place(text, at)) == DEVICE
    holds_only("office", text)
