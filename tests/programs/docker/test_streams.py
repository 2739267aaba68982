"""The words, the job line, standard input, pipes, file names, and outputs that fail."""
import os
import subprocess

import pytest
from docker_lines import LINES
from given import FILES_LINE, ONE, STATES, STATE_OF_BOTH, STATE_OF_ONE
from outcomes import DEVICE, DONE, USAGE, accepted, done, file_refused, keeps, prints, state_refused, stores
from programs import Ended, docker, give, held, in_seconds, on_disk, piped, redirected
from states import under
from tables import alone, each

ACCEPTED = accepted(5, 1)
ASHFELD = prints("ASHFELD", "2024-06-10", LINES["LEAVES_0900"])
FILE = ONE.encode()
DAY_OF_STDIN = b"day stdin ASHFELD 2024-06-10"
NO_END = file_refused("1: NoEnd")


@each("words, text, wanted", {
    "a job line before its file": ("", DAY_OF_STDIN + b"\n" + FILE, ASHFELD),
    "a job line with more spaces": ("", b"  check   stdin \n" + FILE, ACCEPTED),
    "a job line that names a file": ("", b"check one\n", ACCEPTED),
    "a job line of 255 bytes": ("", DAY_OF_STDIN.ljust(255) + b"\n" + FILE, ASHFELD),
    "a job line of print": ("", b"print stdin ASHFELD 2024-06-10\n" + STATE_OF_ONE, ASHFELD),
    "a job line of files": ("", b"files stdin\n" + STATE_OF_ONE, done(FILES_LINE)),
    "nothing on standard input": ("check stdin", b"", NO_END),
    "print of standard input": ("print stdin ASHFELD 2024-06-10", STATE_OF_ONE, ASHFELD),
    "files of standard input": ("files stdin", STATE_OF_ONE, done(FILES_LINE)),
    "a file through a pipe": ("day stdin ASHFELD 2024-06-10", FILE, ASHFELD),
    "a job line of 256 bytes": ("", DAY_OF_STDIN.ljust(256) + b"\n" + FILE, USAGE),
    "no job line": ("", b"", USAGE),
    "a job line without its line feed": ("", b"check one", USAGE),
    "a job line with a carriage return": ("", b"check one\r\n", USAGE),
    "a job line with a byte above 0x7E": ("", b"check on\xe9\n", USAGE),
    "a file where the job line should be": ("", FILE, USAGE),
})
def test_standard_input(words, text, wanted):
    assert docker(*words.split(), given=text) == wanted


@each("before, words, text, wanted", {
    "a job line of new": (b"", "", b"new office\n" + FILE, STATES["no_files"]),
    "a job line of take": (STATES["no_files"], "", b"take office stdin\n" + FILE, STATE_OF_ONE),
    "a job line of merge": (STATE_OF_ONE, "", b"merge office stdin\n" + STATES["state_of_revised"], STATE_OF_BOTH),
    "a job line of horizon": (STATE_OF_ONE, "", b"horizon office 2024-06-14\n", under("2024-06-14", STATE_OF_ONE)),
    "a job line of migrate": (STATES["old_state"], "", b"migrate office\n", STATE_OF_ONE),
    "take of standard input": (STATES["no_files"], "take office stdin", FILE, STATE_OF_ONE),
    "merge of standard input": (STATE_OF_ONE, "merge office stdin", STATES["state_of_revised"], STATE_OF_BOTH),
})
def test_stores_from_standard_input(before, words, text, wanted):
    give(before, "office")
    stores(wanted, *words.split(), given=text)


def test_a_job_line_that_stores_to_standard_input():
    give(STATE_OF_ONE, "office")
    keeps(USAGE, given=b"take stdin office\n" + FILE)


def test_a_file_from_standard_input():
    with open("one", "rb") as source:
        assert docker("check", "stdin", stdin=source) == ACCEPTED


BY_BYTES = "exec dd if=one bs=1 status=none"


def test_a_file_through_a_pipe_byte_by_byte():
    assert piped(BY_BYTES, "check", "stdin") == ACCEPTED


@each("line", {"a file through a pipe byte by byte": BY_BYTES, "a compressed file": "gzip -c one | gzip -dc"})
def test_take_of(line):
    give(STATES["no_files"], "office")
    assert (piped(line, "take", "office", "stdin"), held("office")) == (DONE, STATE_OF_ONE)


@pytest.fixture
def full_pipe():
    """The end of a pipe to which a program may write. The pipe is full, and a write doesn't wait for room."""
    reading, writing = os.pipe()
    os.set_blocking(writing, False)
    try:
        while os.write(writing, bytes(4096)):
            pass
    except BlockingIOError:
        yield writing
    os.close(reading)
    os.close(writing)


@each("stream, words, wanted", {
    "output": ("stdout", "print state_of_one ASHFELD 2024-06-10", Ended(4, None, DEVICE.errors)),
    "standard error": ("stderr", "check short", Ended(1, b"", None)),
})
def test_a_stream_that_is_full_and_does_not_block(full_pipe, stream, words, wanted):
    """The command ends. It doesn't repeat the write."""
    assert docker(*words.split(), before=in_seconds(5), **{stream: full_pipe}) == wanted


@alone
def test_a_file_through_a_pipe_that_pauses():
    line = "head -c 100 one; sleep 0.2; tail -c +101 one"
    assert piped(line, "check", "stdin") == ACCEPTED


def test_a_named_pipe():
    os.mkfifo("queue")
    with subprocess.Popen("cat one >queue", shell=True):
        assert docker("check", "queue") == ACCEPTED


@each("name, wanted", {
    "stdin is standard input, though a file has that name": ("stdin", NO_END),
    "stdin in a folder is the file of that name": ("./stdin", ACCEPTED),
    "a path with spaces": ("folder/a name with spaces", ACCEPTED),
})
def test_the_name(name, wanted):
    for there in ("stdin", "folder/a name with spaces"):
        give(FILE, there)
    assert docker("check", name, given=b"") == wanted


def test_stdin_in_a_folder_is_a_state_of_that_name():
    give(STATE_OF_ONE, "stdin")
    stores(STATE_OF_BOTH, "take", "./stdin", "revised", state="stdin")


@each("words", {
    "a file that is not there": ["check", "missing"],
    "day of a file that is not there": ["day", "missing", "ASHFELD", "2024-06-10"],
    "a folder": ["check", "folder"],
    "day of a folder": ["day", "folder", "ASHFELD", "2024-06-10"],
    "a name that is too long": ["check", "0" * 5000],
})
def test_unreadable(words):
    assert docker(*words) == DEVICE


@each("words, stream, wanted", {
    "a full device under check": ("check one", ">/dev/full", DEVICE),
    "a full device under day": ("day one ASHFELD 2024-06-10", ">/dev/full", DEVICE),
    "a full device, and a file that is refused": ("check short", ">/dev/full", file_refused("2: Length")),
    "a full device under print": ("print state_of_both ASHFELD 2024-06-10", ">/dev/full", DEVICE),
    "a full device under files": ("files state_of_both", ">/dev/full", DEVICE),
    "nor does files of no file": ("files no_files", ">/dev/full", DONE),
    "a full standard error": ("check short", "2>/dev/full", Ended(1, b"", b"")),
    "a folder as standard input": ("check stdin", "<folder", DEVICE),
    "a folder in place of the job line": ("", "<folder", DEVICE),
    "standard input that is closed": ("check stdin", "<&-", DEVICE),
    "no job line, for standard input is closed": ("", "<&-", DEVICE),
    "standard output that is closed": ("check one", ">&-", DEVICE),
    "print with standard output closed": ("print state_of_one ASHFELD 2024-06-10", ">&-", DEVICE),
})
def test_a_stream_that_is_full_or_closed(words, stream, wanted):
    """Commands that read from the stream or write to it fail; other commands don't. A full standard error doesn't change how a command ends."""
    assert docker(*words.split(), before=redirected(stream)) == wanted


def test_take_writes_nothing_to_standard_output():
    give(STATE_OF_ONE, "office")
    stores(STATE_OF_BOTH, "take", "office", "revised", before=redirected(">/dev/full"))


@each("words", {"a reader that went away": "check one", "a reader that went away, under day": "day one ASHFELD 2024-06-10"})
def test_no_reader(words):
    """The only reader of the pipe ends before the program starts."""
    reader, writer = os.pipe()
    os.close(reader)
    with open(writer, "wb") as output:
        assert docker(*words.split(), stdout=output) == DEVICE._replace(output=None)


def test_an_output_that_is_taken_in_part():
    """A file may grow to 1,024 bytes, so only the first 24 bytes of the docker fit. The write of the rest fails."""
    give(bytes(1000), "grown")
    assert docker("day", "one", "ASHFELD", "2024-06-10", before=(*redirected(">>grown"), *on_disk(1))) == DEVICE
    assert held("grown") == bytes(1000) + ASHFELD.output[:24]


# How much of standard input the program leaves unread.


def left_of(source, *words):
    """Returns how a command ended, and what it left unread of the file on its standard input."""
    with open(source, "rb") as file:
        return docker(*words, stdin=file), file.read()


@pytest.fixture
def two_files(given):
    give(STATE_OF_ONE[:100], "bad")
    return give(held("one") + held("revised"), "two_files")


@each("words, wanted", {
    "standard input is not read for a file": ("check one", ACCEPTED),
    "standard input is not read if the state is missing": ("merge missing stdin", DEVICE),
    "nor if the state is bad": ("take bad stdin", state_refused(41, "Short")),
    "nor if the words are a usage error": ("take stdin stdin", USAGE),
})
def test_input_stays(two_files, words, wanted):
    assert left_of("two_files", *words.split()) == (wanted, two_files)


def test_only_the_job_line_is_read_from_standard_input():
    give(b"check one\n" + FILE, "job_and_more")
    assert left_of("job_and_more") == (ACCEPTED, FILE)


NO_JOBS = [
    "day one ASHFELD 2024-02-30", "day one ASHFELDX 2024-06-10", "day one", "take stdin one", "frobnicate", "check", "check one one",
    "day one ASHFELD 2024-06-10 one", "day one ASHFELD 20240610", "CHECK", "help", "--help", "-h", "--version", "check -", "check --file", "help check", "new",
    "new stdin", "new state one", "new -", "take", "take one", "take one one one", "merge", "merge one", "merge stdin one", "merge stdin stdin", "print",
    "print one", "print one ASHFELD", "print one ASHFELD 2024-13-01", "print one ASH%FELDS 2024-06-10", "print one ASHFELD 2024-6-10",
    "print one ASHFELD 1959-12-31", "print one ASHFELD 2060-01-01", "files", "files one one", "horizon", "horizon one", "horizon stdin 2024-06-10",
    "horizon one 2024-06-31", "horizon one 10/06/2024", "migrate", "migrate stdin", "migrate one one", "new --state",
]
ODD_WORDS = {
    "an empty word": ("check", ""),
    "one empty word": ("",),
    "a word that is no text": ("check", b"\xff\xfe"),
    "a further word that is no text": ("check", "one", b"on\xe9"),
    "a timing point that is no ASCII": ("day", "one", b"\xc3\x84SCH", "2024-06-10"),
}


@each("words", {line: line.split() for line in NO_JOBS} | ODD_WORDS)
def test_usage(words):
    assert docker(*words) == USAGE
