"""How a desk starts: its words, a STATE that is refused, and streams that are closed. Also what `desk --help` and `desk --version` print, and that they do
nothing else."""
import os

from desks import DONE, HELP, USAGE, VERSION, Answer, Desk, desk, docker, written
from given import BAD_STATES
from lists import train_text
from mirror import Mirror, state_of
from outcomes import state_refused
from programs import CLOSED, DESK, DEVICE_LINE, Ended, give, held, preloading, redirected, run
from tables import each

REFUSED_WORDS = [
    (), ("--write",), ("STATE", "STATE"), ("STATE", "--write"), ("--write", "STATE", "more"), ("--write", "--write"), ("--write", "--write", "STATE"),
    ("--read", "STATE"), ("-w", "STATE"), ("--Write", "STATE"), ("-h",), ("--help", "STATE"), ("--version", "--help"), ("--Help",), ("--", "STATE"),
    ("-",), ("-STATE",), ("",), ("--write", ""), ("stdin",), ("--write", "stdin"), ("--write=yes", "STATE"), ("print", "STATE"), ("--write", "-STATE"), (b"STATE\xff",), (b"--write", b"\xff\xfe"), ("--write STATE",),
]
SAVING = b"files\nrenew\nsave\n"


def unread_by(*words):
    """Gives a desk a file of three lines. Returns how the desk ends, and how much it leaves unread."""
    give(SAVING, "lines")
    with open("lines", "rb") as source:
        return desk(*words, stdin=source), source.read()


@each("words", {str(words): words for words in REFUSED_WORDS})
def test_words_that_are_refused(words):
    before = give(state_of("full"))
    assert (*unread_by(*words), held()) == (Ended(2, b"", USAGE), SAVING, before)


@each("name", ["./stdin", "a state", "write", "print", "Fröhlich", "./-x", " "])
def test_a_state_by_any_name_that_is_a_plain_word(name):
    mirror = Mirror("full")
    give(mirror.stored, name)
    wanted = [mirror.answer("files"), mirror.answer("take", "monday"), mirror.answer("save")]
    assert desk("--write", name, given=b"files\ntake monday\nsave\n") == Ended(0, written(wanted), b"")
    assert held(name) == mirror.stored


@each("text, offset, cause", BAD_STATES)
def test_a_state_that_is_refused(text, offset, cause):
    give(text)
    for words in (("STATE",), ("--write", "STATE")):
        assert unread_by(*words) == (state_refused(offset, cause), SAVING)
    assert held() == text


@each("name", {
    "a file that isn't there": "missing",
    "a folder": "folder",
    "a link to nothing": "link",
    "a file in a file": "full/STATE",
    "a name that is too long": "d" * 5000,
})
def test_a_state_that_cannot_be_read(name):
    os.mkdir("folder")
    os.symlink("missing", "link")
    wanted = docker("files", name)
    assert wanted.status == 4
    for words in ((name,), ("--write", name)):
        assert unread_by(*words) == (Ended(4, b"", wanted.text), SAVING)
    assert not os.path.exists("missing"), "a STATE was made"


def test_a_state_that_is_there_but_empty_of_files():
    assert docker("new", "STATE") == DONE
    wanted = [DONE, docker("print", "STATE", "ASHFELD", "2024-06-12"), Answer(0, train_text((), "A00001", "2024-06-12"))]
    assert desk("STATE", given=b"files\nprint ASHFELD 2024-06-12\ntrain A00001 2024-06-12\n") == Ended(0, written(wanted), b"")


LINES = b"take monday\nsave\nfiles\n"


def without(streams, *words, given=b""):
    """How a desk ends that is started with these streams closed."""
    return run([*redirected(streams), DESK, *words], given)


def test_standard_input_that_is_closed():
    before = give(state_of("full"))
    assert (without("<&-", "--write", "STATE"), held()) == (Ended(4, b"", DEVICE_LINE), before)


def test_standard_output_that_is_closed():
    give(state_of("full"))
    assert without(">&-", "STATE", given=LINES) == Ended(4, b"", DEVICE_LINE)
    assert without(">&-", "STATE") == Ended(0, b"", b"")


def test_standard_error_that_is_closed():
    mirror = Mirror("full")
    give(mirror.stored)
    wanted = [mirror.answer("take", "monday"), mirror.answer("save"), mirror.answer("files")]
    assert without("2>&-", "--write", "STATE", given=LINES) == Ended(0, written(wanted), b"")
    assert held() == mirror.stored
    assert without("2>&-", "--write", "STATE", given=b"take night\n").status == 1
    for words, status in (((), 2), (("missing",), 4), (("full",), 1)):
        assert without("2>&-", *words) == Ended(status, b"", b""), f"the end of {words}"


@each("streams", CLOSED)
def test_state_is_not_opened_under_the_number_of_a_stream_that_is_closed(device, streams):
    before = give(state_of("full"))
    ended = run([*redirected(streams), *preloading(device, WRONG="wrong"), DESK, "--write", "STATE"], b"take full\nfiles\nsave\n")
    assert ended.status == (0 if streams == "2>&-" else 4)
    assert held() == before
    assert not os.path.exists("wrong"), "a file has the number of a stream"


def test_a_desk_leaves_the_folder_as_it_was_if_it_only_reads():
    give(state_of("full"))
    before = sorted(os.listdir())
    with Desk("STATE") as asked:
        asked.ask("files")
        assert sorted(os.listdir()) == before
        asked.closed()
    assert sorted(os.listdir()) == before


ANSWERS = {"--help": HELP, "--version": VERSION}


@each("word", [*ANSWERS])
def test_the_text_to_the_letter(word):
    before = give(state_of("full"))
    give(SAVING, "lines")
    names = sorted(os.listdir())
    assert unread_by(word) == (Ended(0, ANSWERS[word], b""), SAVING)
    assert (held(), sorted(os.listdir())) == (before, names)


@each("word", [*ANSWERS])
def test_a_file_of_that_name_is_not_opened(word):
    os.mkfifo(word)
    assert desk(word) == Ended(0, ANSWERS[word], b"")


@each("word", [*ANSWERS])
def test_an_output_that_is_full(word):
    assert run([*redirected(">/dev/full"), DESK, word]) == Ended(4, b"", DEVICE_LINE)
