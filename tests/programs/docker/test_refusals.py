"""Files and states that are refused, and good ones that are cut at each byte. STATE stays unchanged. Also the order of the work: all files are opened before
any is read, and the state is read first."""
import os

from given import BAD_STATES, FAULTS, ONE, STATES, STATE_OF_ONE, STATE_OF_REVISED
from outcomes import DEVICE, file_refused, holds_only, keeps, state_refused
from programs import docker, give
from tables import each

BAD_FILES = ("short", "no_trailer", "empty", "headless", "late", "midnights", "after")
MARK_REFUSED, SHORT_REFUSED = state_refused(0, "Mark"), state_refused(41, "Short")
OLD, CUT = STATES["old_state"], STATE_OF_ONE[:100]


def test_take_of_each_cut_of_a_file():
    give(STATE_OF_ONE, "office")
    for size in range(404):
        line, column = divmod(size, 81)
        fault = {0: f"{line + 1}: NoEnd", 80: f"{line + 2}: NoEnd"}.get(column, f"{line + 1}: Length")
        assert docker("take", "office", "stdin", given=ONE[:size].encode()) == file_refused(fault), f"cut to {size}"
    holds_only("office", STATE_OF_ONE)


def test_merge_print_and_files_of_each_cut_of_a_state():
    give(STATE_OF_REVISED, "office")
    for size in range(311):
        # It is too short at the last part that begins before the cut.
        wanted = state_refused(max(part for part in (0, 4, 6, 14, 33, 41) if part <= size), "Short")
        for words in ("merge office stdin", "print stdin NOWHERE 2024-06-10", "files stdin"):
            assert docker(*words.split(), given=STATE_OF_ONE[:size]) == wanted, f"{words}, cut to {size}"
    holds_only("office", STATE_OF_REVISED)


@each("text, offset, cause", BAD_STATES)
def test_merge_of(text, offset, cause):
    give(STATE_OF_REVISED, "office")
    give(text, "bad")
    keeps(state_refused(offset, cause), "merge", "office", "bad")


@each("text, offset, cause", BAD_STATES)
@each("words", ["print bad NOWHERE 2024-06-10", "files bad"])
def test_read_of(words, text, offset, cause):
    give(text, "bad")
    assert docker(*words.split()) == state_refused(offset, cause)


@each("before, words, wanted", {
    **{file: (STATE_OF_ONE, f"take office {file}", file_refused(FAULTS[file])) for file in BAD_FILES},
    "take of a file that is not there": (STATE_OF_ONE, "take office missing", DEVICE),
    "merge of a state that is not there": (STATE_OF_ONE, "merge office missing", DEVICE),
    "a second file that is missing, after a bad state": (OLD, "take office missing", DEVICE),
    "a folder after a bad state": (OLD, "take office folder", MARK_REFUSED),
    "take of a folder": (STATE_OF_ONE, "take office folder", DEVICE),
    "a bad file after a bad state": (CUT, "take office short", SHORT_REFUSED),
    "a bad state after a bad state": (CUT, "merge office one", SHORT_REFUSED),
    "take into a file": (ONE.encode(), "take office one", MARK_REFUSED),
    "horizon of a file": (ONE.encode(), "horizon office 2024-06-10", MARK_REFUSED),
})
def test_a_source_that_fails_keeps_the_state(before, words, wanted):
    give(before, "office")
    keeps(wanted, *words.split())


@each("words", {
    "take into a state that is not there": "take missing one",
    "horizon missing 2024-06-10": "horizon missing 2024-06-10",
    "migrate missing": "migrate missing",
    "print missing ASHFELD 2024-06-10": "print missing ASHFELD 2024-06-10",
    "files missing": "files missing",
})
def test_a_state_that_is_missing(words):
    assert docker(*words.split()) == DEVICE
    assert not os.path.lexists("missing")
