"""The program with a library that wraps its system calls (tests/device). In turn, each call fails,
or the program is killed at the call. No state is ever lost."""
import os
import pathlib
import signal
import stat

import pytest
from checks import named
from docker_lines import LINES
from given import FILES_LINE, ONE, REVISED_FILES_LINE, STATE_OF_BOTH, STATE_OF_ONE, STATE_OF_REVISED, STATES
from outcomes import DEVICE, DONE, MEMORY, accepted, done, file_refused, prints, stores
from programs import DOCKER, docker, give, held, in_turn, preloading, untried
from tables import each

ACCEPTED = accepted(5, 1)
ASHFELD = prints("ASHFELD", "2024-06-10", LINES["LEAVES_0900"])
TO_JUNE = STATES["state_of_both_to_june"]
# Only these calls, by which the program looks at a file or opens it, may say that memory ran out.
MAY_WANT_MEMORY = {"open", "statx", "realpath", "readlink", "fchmod"}


def test_each_call_of_the_system_that_the_program_makes_is_tried(device):
    assert untried(DOCKER, device) == []


def put_back(before):
    """Makes the state that a command finds: one with this text, or none."""
    for name in ("office", "office.new", "met"):
        pathlib.Path(name).unlink(missing_ok=True)
    if before is not None:
        give(before, "office")
        os.chmod("office", 0o640)


def is_as(text):
    return held("office") == text if os.path.lexists("office") else text is None


class Tried:
    """A command that is run once for each of its calls. That call fails, or the command is killed at it. The fields are STATE before and after the command,
    and how the command ends if no call fails."""

    def __init__(self, words, before, after, wanted):
        self.words, self.before, self.after, self.wanted = words.split(), before, after, wanted
        # How many drafts were left because a look at them had failed.
        self.drafts = 0

    def look_at_failure(self, ended, error, call):
        """Checks a command in which one call failed with an error."""
        if ended == self.wanted:
            assert is_as(self.after)
            # A draft that got a hard link keeps its own name if a look at this name fails, or the removal. The next command removes the name.
            assert not os.path.lexists("office.new") or call in ("statx", "unlink")
            return
        wanted = [DEVICE]
        if error == "ENOMEM" and call in MAY_WANT_MEMORY:
            wanted.append(MEMORY)
        assert ended._replace(output=b"") in wanted
        assert self.wanted.output.startswith(ended.output), "other output"
        assert is_as(self.before), "another state"
        # A command looks twice whether the draft is its own. If one of these looks fails, the draft stays, and the next command removes it.
        if os.path.lexists("office.new"):
            assert call == "statx", "a draft is left"
            self.drafts += 1
            assert self.drafts <= 2

    def look_afterwards(self):
        """The same command succeeds when it is run again; but what is migrated can't be migrated again."""
        if self.words[0] == "migrate" and is_as(self.after):
            return
        assert docker(*self.words) == self.wanted
        assert is_as(self.after)
        assert not os.path.lexists("office.new")
        if self.before is not None:
            assert stat.S_IMODE(os.stat("office").st_mode) == 0o640

    def at_each_call(self, device, how, error="EIO"):
        """Runs the command once for each of its calls, and returns the number of calls."""
        def trial(number):
            put_back(self.before)
            return docker(*self.words, before=preloading(device, **{how: number}, ERROR=error, TOLD="met", WRONG="wrong"))

        for number, ended, call in in_turn(trial):
            assert not os.path.exists("wrong"), f"at call {number}, what may not be"
            if call is None:
                return number - 1
            with named(f"call {number}, {call}"):
                if how == "END_AT":
                    assert ended.status == -signal.SIGKILL
                    assert is_as(self.before) or is_as(self.after)
                else:
                    self.look_at_failure(ended, error, call)
                self.look_afterwards()


ENDED = {
    "take": ("take office large", STATE_OF_BOTH, "wanted_large"),
    "merge": ("merge office large_state", STATE_OF_BOTH, "wanted_large"),
    "new": ("new office", None, "no_files"),
    "horizon": ("horizon office 2024-06-14", STATE_OF_BOTH, "state_of_both_to_june"),
    "migrate": ("migrate office", STATES["old_state_of_both"], "state_of_both"),
}


@pytest.mark.timeout(600)
@each("how, words, before, after", {
    **{f"{name}, ended": ("END_AT", *row) for name, row in ENDED.items()},
    **{f"{name}, failing": ("FAIL_AT", *ENDED[name]) for name in ("take", "merge")},
})
def test_large_states_at_each_call(device, large, how, words, before, after):
    assert Tried(words, before, held(after), DONE).at_each_call(device, how) > 9


@each("words, before, after, wanted", {
    "a small take": ("take office revised", STATE_OF_ONE, STATE_OF_BOTH, DONE),
    "a small merge": ("merge office state_of_revised", STATE_OF_ONE, STATE_OF_BOTH, DONE),
    "a new": ("new office", None, STATES["no_files"], DONE),
    "a horizon": ("horizon office 2024-06-14", STATE_OF_BOTH, TO_JUNE, DONE),
    "a migrate": ("migrate office", STATES["old_state_of_both"], STATE_OF_BOTH, DONE),
    "a print": ("print office ASHFELD 2024-06-10", STATE_OF_BOTH, STATE_OF_BOTH, prints("ASHFELD", "2024-06-10", LINES["LEAVES_0905"])),
    "a files": ("files office", STATE_OF_BOTH, STATE_OF_BOTH, done(FILES_LINE + REVISED_FILES_LINE)),
    "a check": ("check one", None, None, ACCEPTED),
    "a day": ("day one ASHFELD 2024-06-10", None, None, ASHFELD),
})
@each("error", ["EIO", "ENOSPC", "ENOMEM"])
def test_each_call_fails(device, words, before, after, wanted, error):
    assert Tried(words, before, after, wanted).at_each_call(device, "FAIL_AT", error) > 9


# The program first looks for each standard stream, then opens STATE, the file and the draft. The draft gets its permissions before it is put in place. Its mark
# is removed last; if that fails, the state is stored all the same.
@each("call, error, before, words, wanted", {
    "take, if a file that it opens wants memory": ("open", "ENOMEM", STATE_OF_ONE, "take office revised", [0, 0, 0, 3, 3, 3]),
    "take, if a file that it opens fails": ("open", "EIO", STATE_OF_ONE, "take office revised", [0, 0, 0, 4, 4, 4]),
    "new, if its draft wants memory": ("open", "ENOMEM", None, "new office", [0, 0, 0, 3]),
    "check, if its file wants memory": ("open", "ENOMEM", None, "check one", [0, 0, 0, 3]),
    "take, if its draft is not flushed": ("fsync", "EIO", STATE_OF_ONE, "take office revised", [4]),
    "merge, if its draft is not flushed": ("fsync", "EIO", STATE_OF_ONE, "merge office state_of_revised", [4]),
    "new, if its draft is not flushed": ("fsync", "ENOSPC", None, "new office", [4]),
    "take, if its draft is not put in place": ("rename", "EIO", STATE_OF_ONE, "take office revised", [4]),
    "new, if its draft gets no hard link": ("link", "EIO", None, "new office", [0]),
    "new, if its draft keeps its own name": ("unlink", "EIO", None, "new office", [0]),
    "take, if permissions are not given": ("fchmod", "EIO", STATE_OF_ONE, "take office revised", [4, 0]),
})
def test_statuses_as_one_call_fails(device, call, error, before, words, wanted):
    """How a command ends if the first call with this name fails, if the second one fails, and so on."""
    def trial(number):
        put_back(before)
        return docker(*words.split(), before=preloading(device, CALL=call, FAIL_AT=number, ERROR=error, TOLD="met")).status

    assert [status for _, status, met in in_turn(trial) if met] == wanted


# A read or a write that a signal interrupts is repeated: each is interrupted once. What a write doesn't write is written by the next one: each write of more
# than one byte writes only half of them.


@pytest.fixture
def disturbed(device, setting):
    """The words that disturb the program. Something has to be disturbed."""
    yield preloading(device, **{setting: 1}, TOLD="met")
    assert os.path.exists("met"), "nothing was disturbed"


@each("setting, words, text, wanted", {
    "a file whose reads are interrupted": ("INTERRUPT", "check one", "", ACCEPTED),
    "standard input whose reads are interrupted": ("INTERRUPT", "", "day stdin ASHFELD 2024-06-10\n" + ONE, ASHFELD),
    "a docker whose writes are interrupted": ("INTERRUPT", "print state_of_one ASHFELD 2024-06-10", "", ASHFELD),
    "a docker that is written partly": ("PARTLY", "print state_of_one ASHFELD 2024-06-10", "", ASHFELD),
    "the line of a fault that is written partly": ("PARTLY", "check short", "", file_refused("2: Length")),
})
def test_interrupted(disturbed, words, text, wanted):
    assert docker(*words.split(), before=disturbed, given=text.encode()) == wanted


@each("setting, words, text, before, after", {
    "a take whose reads and writes are interrupted": ("INTERRUPT", "take office large", b"", STATE_OF_BOTH, "wanted_large"),
    "a merge whose reads and writes are interrupted": ("INTERRUPT", "merge office stdin", STATE_OF_REVISED, STATE_OF_ONE, "state_of_both"),
    "a state that is written partly": ("PARTLY", "merge office stdin", STATE_OF_REVISED, STATE_OF_ONE, "state_of_both"),
})
def test_stores_what_is_disturbed(disturbed, large, words, text, before, after):
    give(before, "office")
    stores(held(after), *words.split(), before=disturbed, given=text)
