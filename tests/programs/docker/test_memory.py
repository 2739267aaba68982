"""Sources of any size, in little memory."""
import os

from given import FILES, HEADER, STATE_OF_BOTH
from outcomes import DONE, MEMORY, USAGE, file_refused, holds_only, keeps, state_refused
from programs import docker, give, in_memory, piped
from records import place
from tables import each

# The words that limit a program to 64 MB of memory.
LITTLE = in_memory(65536)
LENGTH = file_refused("1: Length")
PLACE = place("TI", "ASHFELD", "PLACE")
BLANK = place("TI", "ASHFELD")[:-1]
# Shell commands that write without end.
LINES = "exec yes"
RECORDS = f"printf '%s' '{HEADER}{PLACE}'; exec yes '{PLACE[:-1]}'"


@each("text, fault", {"of zeros": (b"", "1: Length"), "without a header": (FILES["headless"].encode(), "1: Place")})
def test_a_file_of_100_gb(text, fault):
    give(text, "huge")
    os.truncate("huge", 100 * 2**30)
    assert docker("check", "huge", before=LITTLE) == file_refused(fault)


def test_zeros_without_end():
    assert docker("check", "/dev/zero", before=LITTLE) == LENGTH


@each("words, wanted", {"zeros without end on standard input": (["check", "stdin"], LENGTH), "zeros without end in place of the job line": ([], USAGE)})
def test_endless_zeros(words, wanted):
    with open("/dev/zero", "rb") as zeros:
        assert docker(*words, before=LITTLE, stdin=zeros) == wanted


@each("line, words, wanted", {
    "lines without end": (LINES, "check stdin", LENGTH),
    "lines without end in place of the job line": (LINES, "", USAGE),
    "a line without end in place of the job line": ("tr '\\0' a </dev/zero", "", USAGE),
    "good records without end": (RECORDS, "day stdin ASHFELD 2024-06-10", MEMORY),
})
def test_an_endless_pipe(line, words, wanted):
    assert piped(line, *words.split(), before=LITTLE) == wanted


def test_zeros_without_end_as_a_state():
    give(STATE_OF_BOTH, "office")
    keeps(state_refused(0, "Mark"), "merge", "office", "/dev/zero", before=LITTLE)


@each("line, words, wanted", {
    "a mark and zeros without end": ("printf DKS2; exec cat /dev/zero", "merge office stdin", state_refused(22, "Tail")),
    "a mark and bytes 0xFF without end": ("printf DKS2; tr '\\0' '\\377' </dev/zero", "merge office stdin", state_refused(4, "Horizon")),
    "take of good records without end": (RECORDS, "take office stdin", MEMORY),
    "take of blank places without end": (f"printf '%s' '{HEADER}'; exec yes '{BLANK}'", "take office stdin", MEMORY),
    "take of blank places without end or header": (f"exec yes '{BLANK}'", "take office stdin", file_refused("1: Place")),
    "take of headers without end": (f"exec yes '{HEADER[:-1]}'", "take office stdin", file_refused("2: Place")),
})
def test_an_endless_pipe_keeps_the_state(line, words, wanted):
    give(STATE_OF_BOTH, "office")
    assert piped(line, *words.split(), before=LITTLE) == wanted
    holds_only("office", STATE_OF_BOTH)


# Sizes in KiB: 4 MiB, and then a quarter more each time.
SIZES = [int(4096 * 1.25 ** step) for step in range(19)]


@each("words, is_changed", {
    "take in little memory": ("take office large", True),
    "merge in little memory": ("merge office large_state", True),
    "print in little memory": ("print large_state ASHFELD 2024-06-10", False),
    "check in little memory": ("check large", False),
})
def test_until_it_is_enough(large, words, is_changed):
    """With each size, either the status is 3 and nothing is written, or the whole command is done. `check` keeps nothing of a file, so the smallest size may be
    enough for it."""
    wanted, refused = docker(*words.split()) if not is_changed else DONE, 0
    for size in SIZES:
        give(STATE_OF_BOTH, "office")
        ended = docker(*words.split(), before=in_memory(size))
        if ended.status == 0:
            break
        assert ended == MEMORY, f"in {size} KiB"
        holds_only("office", STATE_OF_BOTH)
        refused += 1
    assert ended == wanted
    assert refused or words == "check large", "memory never ran out"
    holds_only("office", large.wanted_large if is_changed else STATE_OF_BOTH)
