"""The ways in which a command of `docker` may end, and what it prints."""
import os
import re

from checks import same
from programs import DAY_LINE, DEVICE_LINE, FORMATS, MEMORY_LINE, Ended, docker, held

# The line of FORMATS, whose table has a backslash before each bar.
USAGE_LINE = re.search(r"`(docker: usage: .*?)`", FORMATS)[1].replace("\\|", "|").encode() + b"\n"
DONE = Ended(0, b"", b"")
USAGE = Ended(2, b"", USAGE_LINE)
MEMORY = Ended(3, b"", MEMORY_LINE)
DEVICE = Ended(4, b"", DEVICE_LINE)
DAY_REFUSED = Ended(1, b"", DAY_LINE)


def done(output):
    return Ended(0, output, b"")


def file_refused(fault):
    """The end of a command that refuses a file with this fault, written RECORD: CAUSE."""
    return Ended(1, b"", f"docker: file refused: record {fault}\n".encode())


def state_refused(offset, cause):
    return Ended(1, b"", f"docker: state refused: offset {offset}: {cause}\n".encode())


def accepted(records, changes):
    return done(f"accepted: {records} records, {changes} changes\n".encode())


def docker_text(place, date, *lines, name=""):
    """The text of a docker. Each line has 56 characters and a line feed."""
    return "".join(f"{text:56}\n" for text in [f"DOCKER {place:7} {date} {name:26}", *lines, "END"]).encode()


def prints(place, date, *lines, name=""):
    return done(docker_text(place, date, *lines, name=name))


def holds_only(name, text):
    """Checks that a file has this text, and that no draft is beside it."""
    # If a comparison failed, pytest would show both texts, which takes minutes for states of a megabyte.
    is_held = held(name) == text
    assert is_held, f"{name} has another text"
    assert not os.path.lexists(f"{name}.new"), "a draft is left"


def stores(wanted, *words, state="office", **options):
    """Checks that the command writes to no stream, and leaves this text as the state."""
    assert docker(*words, **options) == DONE
    holds_only(state, wanted)


def keeps(outcome, *words, state="office", **options):
    """Checks that the command ends in this way, and leaves the state unchanged."""
    before = held(state)
    assert docker(*words, **options) == outcome
    holds_only(state, before)


def ran_out(ended, before, whole, stored):
    """Whether memory ran out in a command. If it did, the command printed nothing, and STATE still has the text that it had before. Otherwise the command
    printed the whole answer, and stored this text in STATE."""
    is_out = ended.status == MEMORY.status
    same("the end", ended, MEMORY if is_out else whole)
    holds_only("STATE", before if is_out else stored)
    return is_out


def takes_more(state, *files):
    """Takes these files into a state, one after another. Returns its text."""
    for file in files:
        assert docker("take", state, file) == DONE
    return held(state)


def takes(state, *files):
    """Makes a new state, and takes these files into it. Returns its text."""
    assert docker("new", state) == DONE
    return takes_more(state, *files)
