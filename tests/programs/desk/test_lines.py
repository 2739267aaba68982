"""How lines are read: which lines aren't requests, their bytes and lengths, and the pieces in which they come."""
import fcntl
import os
import random
import re
import sys
import termios

import desk_extracts as extracts
from checks import soon
from desks import NOTHING, Desk, desk, docker, ends_well, written
from mirror import WRITING_LINES, give_large, mirrored, reading, state_of, writing
from programs import DESK, DEVICE_LINE, Ended, give, held, redirected, run
from tables import each

GOOD_LINE = "print ASHFELD 2024-06-12"
# Lines that aren't requests, for a desk that may write.
NOT_ASKED = [
    "", " ", "   ", "print", "print ASHFELD", "print 2024-06-12", "print ASHFELD 2024-06-12 more", "print 2024-06-12 ASHFELD", "print ASHFELDS 2024-06-12",
    "print -SHFELD 2024-06-12", "print ASHFELD 2024-06-31", "print ASHFELD 2023-02-29", "print ASHFELD 24-06-12", "print ASHFELD 2024-6-12",
    "print ASHFELD 20240612", "print ASHFELD 2024/06/12", "print ASHFELD 1959-12-31", "print ASHFELD 2060-01-01", "print ASHFELD 2024-06-12x",
    "print STATE ASHFELD 2024-06-12", "PRINT ASHFELD 2024-06-12", "Print ASHFELD 2024-06-12", "printASHFELD 2024-06-12", "print,ASHFELD,2024-06-12",
    "prints ASHFELD 2024-06-12", "train", "train A00001", "train 2024-06-12", "train A00001 2024-06-12 more", "train A0001 2024-06-12",
    "train A000001 2024-06-12", "train A00001 2024-13-12", "train ASHFELD 2024-06-12", "files all", "files STATE", "file", "FILES", "renew now", "renews",
    "take", "take ", "take   ", "merge", "merge  ", "horizon", "horizon 2024-06-31", "horizon 2024-06-12 2024-06-13", "horizon ASHFELD", "save STATE",
    "save now", "new STATE", "check full", "day full ASHFELD 2024-06-12", "migrate STATE", "take stdin", "merge stdin", "take -x", "take --write", "--write",
    "-", "help", "quit", "exit", "0 0 0", "desk: usage:", "#files", "files;files", "files|files", "files>out",
]


def test_lines_that_ask_for_nothing():
    with writing("full") as asked:
        asked.gives(NOTHING, *NOT_ASKED)
        assert asked.ask("files") == docker("files", "STATE")
    assert held() == state_of("full")


BYTES = (0x00, 0x01, 0x09, 0x0D, 0x1B, 0x1F, 0x7F, 0x80, 0xA0, 0xC3, 0xFF)


@each("at", {"before": 0, "within": 7, "after": len(GOOD_LINE)})
@each("byte", {f"0x{byte:02x}": byte for byte in BYTES})
def test_a_byte_that_is_not_printable(byte, at):
    give(state_of("full"))
    line = GOOD_LINE.encode()
    line = line[:at] + bytes([byte]) + line[at:] + b"\n"
    assert desk("STATE", given=line + b"files\n" + line) == Ended(0, written([NOTHING, docker("files", "STATE"), NOTHING]), b"")


def test_each_other_byte_is_read_as_a_words():
    give(state_of("full"))
    words = [bytes([byte]) for byte in range(0x21, 0x7F) if byte != 0x2D]
    lines = b"".join(b"print %b 2024-06-12\n" % word for word in words)
    wanted = [docker("print", "STATE", word, "2024-06-12") for word in words]
    assert all(answer.status == 0 for answer in wanted), "docker prints each"
    assert desk("STATE", given=lines) == Ended(0, written(wanted), b"")


@each("size", {f"{size} bytes": size for size in (254, 255, 256, 257, 4096, 70000)})
def test_a_line_of(size):
    spaces = " " * (size - len(GOOD_LINE))
    with reading("full") as asked:
        wanted = docker("print", "STATE", *GOOD_LINE.split()[1:])
        for line in (GOOD_LINE + spaces, spaces + GOOD_LINE, f"print{spaces}{GOOD_LINE[5:]}"):
            assert len(line) == size
            assert asked.ask(line) == (wanted if size <= 255 else NOTHING)
            assert asked.ask(GOOD_LINE) == wanted


def test_a_files_name_up_to_the_lines_last_byte():
    folder = "/".join(["d" * 60] * 3)
    os.makedirs(folder)
    name = f"{folder}/".ljust(250, "f")
    give(extracts.GOOD["monday"].encode(), name)
    with mirrored() as (asked, mirror):
        assert asked.ask(f"take {name}") == mirror.answer("take", "monday")
        assert asked.ask(f"take  {name}") == NOTHING
        mirror.agrees(asked, "files")


def memory(process):
    """The greatest amount of memory that a process has used, in KB."""
    return int(re.search(rb"^VmHWM:\s*(\d+)", held(f"/proc/{process.pid}/status"), re.M)[1])


def test_a_line_of_100_mb_in_no_more_memory():
    with reading("full") as asked:
        files = asked.ask("files")
        before = memory(asked.process)
        piece = b"files " * 17476
        for _ in range(1000):
            asked.say(piece)
        asked.say(b"\n")
        assert asked.answer() == NOTHING
        grown = memory(asked.process) - before
        assert grown < 256, f"it took {grown} KB more"
        assert asked.ask("files") == files


CUT = ["files", GOOD_LINE, "save", "take monday", "x", " ", "x" * 255, "x" * 300, "\x7f"]


@each("line", {repr(line) if len(line) < 255 else f"{len(line)} bytes": line for line in CUT})
def test_a_last_line_without_its_line_feed_asks_for_nothing(line):
    before = give(state_of("full"))
    assert desk("--write", "STATE", given=b"files\n" + line.encode()) == Ended(0, written([docker("files", "STATE"), NOTHING]), b"")
    assert held() == before
    assert desk("--write", "STATE", given=line.encode()) == Ended(0, NOTHING.written(), b"")


def test_no_line():
    give(state_of("full"))
    assert desk("STATE") == desk("--write", "STATE") == Ended(0, b"", b"")


# One line of each kind. The tests below mix them.
KINDS = [
    b"print ASHFELD 2024-06-12\n", b"print  BRAYTON   2024-06-13 \n", b"train A00001 2024-06-10\n", b"train Z00000 2024-06-10\n", b"files\n", b" files \n",
    b"renew\n", b"save\n", b"\n", b"no\n", b"x" * 255 + b"\n", b"x" * 256 + b"\n", b"x" * 5000 + b"\n", b"\x80files\n", b"files\r\n", b"files\0\n",
    b"print ASHFELD 2024-06-31\n",
]


def answers_by_line(*words):
    """The answer of a desk to each of these lines, asked one by one."""
    with Desk(*words) as asked:
        answers = {line: asked.say(line) or asked.answer() for line in KINDS}
        ends_well(asked)
    return answers


def mixed(seed, count):
    return random.Random(seed).choices(KINDS, k=count)


def test_10000_requests_at_once():
    give(state_of("full", "monday"))
    answers = answers_by_line("STATE")
    assert answers[KINDS[0]] == docker("print", "STATE", "ASHFELD", "2024-06-12")
    lines = mixed("at once", 10000)
    wanted = written([answers[line] for line in lines])
    assert desk("STATE", given=b"".join(lines)) == Ended(0, wanted, b"")
    give(b"".join(lines), "lines")
    with open("lines", "rb") as source:
        assert desk("STATE", stdin=source) == Ended(0, wanted, b"")


def test_no_memory_is_kept_between_requests():
    give_large(800)
    grown = []
    with Desk("STATE") as asked:
        for count in (300, 3000):
            for line in mixed("memory", count):
                asked.say(line)
                asked.answer()
            grown.append(memory(asked.process))
        ends_well(asked)
    assert grown[1] - grown[0] < 128, f"{grown} KB after 300 and after 3,000"


def unread(process):
    """The number of bytes of its input that a program hasn't read yet."""
    return int.from_bytes(fcntl.ioctl(process.stdin, termios.FIONREAD, bytes(4)), sys.byteorder)


def test_requests_by_one_byte_at_a_time():
    give(state_of("full", "monday"))
    answers = answers_by_line("STATE")
    with reading("full", "monday") as asked:
        for line in [it for it in KINDS + mixed("bytes", 5) if len(it) < 1000]:
            for byte in line:
                asked.say(bytes([byte]))
                soon("a byte isn't read", lambda: unread(asked.process) == 0)
            assert asked.answer() == answers[line], f"{line[:40]!r}"


def test_requests_in_pieces_of_every_size():
    give(state_of("full", "monday"))
    answers = answers_by_line("STATE")
    lines = mixed("pieces", 60)
    text, wanted = b"".join(lines), written([answers[line] for line in lines])
    numbers = random.Random("sizes")
    for _ in range(20):
        with Desk("STATE") as asked:
            rest = text
            while rest:
                size = numbers.choice((1, 2, 3, 17, 255, 256, 257, 4095, 4096, 4097))
                asked.say(rest[:size])
                rest = rest[size:]
            ended = asked.closed()
        assert ended == Ended(0, wanted, b"")


def test_an_answer_comes_before_the_next_line_is_there():
    with mirrored("full") as (asked, mirror):
        for line in WRITING_LINES + ("files", "renew", GOOD_LINE, "train A00001 2024-06-15", "no"):
            wanted = mirror.answer(*line.split()) if line != "no" else NOTHING
            assert asked.ask(line) == wanted, line
            assert asked.held == b""


def test_no_answer_to_half_a_line():
    with reading("full") as asked:
        asked.say(b"files\nfil")
        assert asked.answer() == docker("files", "STATE")
        soon("the half isn't read", lambda: unread(asked.process) == 0)
        assert asked.held == b""
        assert asked.ask("es") == docker("files", "STATE")


def test_a_folder_as_standard_input():
    give(state_of("full"))
    assert run([*redirected("<."), DESK, "STATE"]) == Ended(4, b"", DEVICE_LINE)
