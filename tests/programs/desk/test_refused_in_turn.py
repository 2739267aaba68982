"""Each memory growth of a session is refused in turn. Each of its system calls fails in turn, or the session is killed there."""
import copy
import os
import pathlib
import shutil
import signal
import stat

import pytest
from checks import named
from desks import DEVICE, MEMORY, NOT_SAVED, answers_in, desk
from mirror import Mirror, give_large, given
from programs import DESK, DEVICE_LINE, MEMORY_LINE, Ended, give, held, in_memory, in_turn, preloading, run, untried
from tables import each

# A session with every request. It saves its changes before it ends, and requests no day that its horizon excludes. So the same session can be run again.
REQUESTS = [
    ("files",), ("print", "ASHFELD", "2024-06-14"), ("train", "A00001", "2024-06-12"), ("places",), ("known",), ("take", "monday"),
    ("print", "ASHFELD", "2024-06-14"), ("merge", "second.state"), ("train", "A00001", "2024-06-16"), ("horizon", "2024-06-11"), ("save",), ("renew",),
    ("take", "short"), ("nothing",), ("take", "last"), ("files",), ("print", "BRAYTON", "2024-06-17"), ("save",),
]


def lines_of(requests):
    return "".join(f"{' '.join(words)}\n" for words in requests).encode()


LINES = lines_of(REQUESTS)
# A session over a large file, for small address spaces.
LARGE_REQUESTS = [
    ("files",), ("print", "ASHFELD", "2024-06-14"), ("take", "large"), ("save",), ("files",),
    ("print", "ASHFELD", "2024-06-14"), ("renew",), ("save",), ("print", "BRAYTON", "2024-06-14"),
]


def desk_on(library, **settings):
    """Runs a session from a file, with this library preloaded."""
    with open("lines", "rb") as lines:
        return run([*preloading(library, **settings), DESK, "--write", "STATE"], stdin=lines)


class Followed:
    """The states and the texts of STATE that a session goes through if its refused requests are left out."""

    def __init__(self, requests, answers, refusals):
        self.mirror, self.refused = Mirror("full"), []
        self.stored = [self.mirror.stored]
        assert len(answers) == len(requests)
        for number, (request, got) in enumerate(zip(requests, answers)):
            if got in refusals and got != self.tried(request):
                self.refused.append(number)
                continue
            assert got == self.mirror.answer(*request), f"the answer to {' '.join(request)}"
            self.stored.append(self.mirror.stored)

    def tried(self, request):
        """The answer that a request would get now. The request isn't carried out."""
        return copy.copy(self.mirror).answer(*request)


def start():
    pathlib.Path("lines").write_bytes(LINES)
    for name in ("refused", "met", "wrong", "STATE.new"):
        pathlib.Path(name).unlink(missing_ok=True)
    return give(Mirror("full").stored)


def follow(ended, refusals, requests=REQUESTS, most=1):
    """Follows a session to its end. At most `most` requests may be refused with these answers."""
    followed = Followed(requests, answers_in(ended.output), refusals)
    assert len(followed.refused) <= most, f"requests {followed.refused} were refused"
    assert (ended.status, ended.errors, held()) == (*followed.mirror.end(), followed.mirror.stored)
    return followed


def is_refused_start(ended, before):
    """Whether memory ran out before the first request was read."""
    assert not os.path.lexists("STATE.new"), "a draft is left"
    if ended.output:
        return False
    assert (ended, held()) == (Ended(3, b"", MEMORY_LINE), before)
    return True


@pytest.mark.timeout(600)
def test_each_growth_of_a_session_is_refused_in_turn(refusing):
    def trial(growth):
        return start(), desk_on(refusing, GROWTH=growth, REFUSED="refused")

    met = set()
    for growth, (before, ended), told in in_turn(trial, "refused"):
        with named(f"growth {growth}"):
            if told is not None:
                refused = [None] if is_refused_start(ended, before) else follow(ended, (MEMORY,)).refused
                met.update("start" if number is None else REQUESTS[number][0] for number in refused)
    assert follow(ended, ()).refused == []
    for verb in ("start", "print", "train", "files", "take", "merge", "renew", "save"):
        assert verb in met, f"no growth of {verb} was refused"


def ran_out(room):
    """How often memory ran out in a session whose address space has this many KB."""
    before = start()
    ended = run([*in_memory(room), DESK, "--write", "STATE"], lines_of(LARGE_REQUESTS))
    with named(f"{room} KB"):
        if is_refused_start(ended, before):
            return 1
        return len(follow(ended, (MEMORY,), LARGE_REQUESTS, len(LARGE_REQUESTS)).refused)


@pytest.mark.timeout(600)
def test_small_address_spaces_an_eighth_of_a_megabyte_apart():
    counts, room = [], 4096
    give_large(8000)
    shutil.copy("large", given("large"))
    try:
        # The loop ends once eight address spaces in a row have been large enough.
        while len(counts) < 8 or any(counts[-8:]):
            counts.append(ran_out(room))
            room += 128
    finally:
        os.remove(given("large"))
    assert any(counts), "memory never ran out"


def test_each_call_of_the_system_that_the_desk_makes_is_tried(device):
    assert untried(DESK, device) == []


def whole_session():
    """The session without any fault: its output, and the texts of STATE in their order."""
    start()
    ended = desk("--write", "STATE", given=LINES)
    followed = follow(ended, ())
    assert followed.refused == []
    return ended.output, followed.stored


def fault_of(line, error, call):
    """Whether this line may report a call that failed with this error. Only a call that looks at a file or opens it can say that memory ran out."""
    can_want = error == "ENOMEM" and call in ("open", "statx", "realpath", "fchmod")
    return line == DEVICE_LINE or (line == MEMORY_LINE and can_want)


def unsaved_at(output, whole):
    """Whether there were unsaved changes when the output failed. `output` is what it had gained of
    the whole session's output. The request whose answer couldn't be written was done."""
    mirror, length = Mirror("full"), 0
    for request, answer in zip(REQUESTS, answers_in(whole)):
        mirror.answer(*request)
        length += len(answer.written())
        if length > len(output):
            break
    return mirror.is_unsaved


def failed_call(ended, error, call, whole):
    """Checks a session in which this call failed. The session was refused at its start, was ended by a stream that failed, or had one request refused."""
    output, stored = whole
    if ended.status in (3, 4):
        line = ended.errors.removesuffix(NOT_SAVED)
        assert fault_of(line, error, call), f"the line {ended.errors}"
        if call == "write" and ended.output:
            assert (line != ended.errors) == unsaved_at(ended.output, output), "what is unsaved"
        assert ended.status == (3 if line == MEMORY_LINE else 4)
        assert ended.status == 4 or not ended.output, "answers of a start that is refused"
        assert output.startswith(ended.output), "the output isn't a beginning"
        assert held() in stored, "STATE is another"
        return
    followed = follow(ended, (DEVICE, MEMORY))
    for number in followed.refused:
        line = answers_in(ended.output)[number].text
        assert fault_of(line, error, call), f"the line {line}"


def draft_of(call):
    """A draft may be left only if the program was killed, or if a look at the draft failed. It then still has its mark."""
    if os.path.lexists("STATE.new"):
        assert call in ("end", "statx"), "a draft is left"
        mode = os.lstat("STATE.new").st_mode
        assert stat.S_ISREG(mode) and mode & stat.S_ISVTX, "a draft without its mark"


def afterwards(stored):
    """The same session over what is left has the same result, and leaves no draft."""
    ended = desk("--write", "STATE", given=LINES)
    assert [answer.status for answer in answers_in(ended.output)] == [0] * 12 + [1, 2] + [0] * 4
    assert (ended.status, ended.errors, held()) == (0, b"", stored[-1])
    assert not os.path.lexists("STATE.new"), "a draft is left afterwards"


def at_each_call(device, look, how, **settings):
    """Runs the session once for each of its calls, at which this happens, and checks how it ended."""
    def trial(number):
        start()
        return desk_on(device, TOLD="met", WRONG="wrong", **{how: number}, **settings)

    whole = whole_session()
    for number, ended, call in in_turn(trial):
        assert not os.path.exists("wrong"), f"at call {number}, what may not be"
        with named(f"call {number}, {call}"):
            if call is not None:
                look(ended, call, whole)
                afterwards(whole[1])
    assert number > 40, "no call was met"
    assert ended == Ended(0, whole[0], b"")


@pytest.mark.timeout(600)
@each("error", ["EIO", "ENOSPC", "ENOMEM"])
def test_each_call_of_the_system_fails_in_turn(device, error):
    def look(ended, call, whole):
        draft_of(call)
        failed_call(ended, error, call, whole)

    at_each_call(device, look, "FAIL_AT", ERROR=error)


@pytest.mark.timeout(600)
def test_a_desk_is_ended_at_each_call_of_the_system_in_turn(device):
    def look(ended, _call, whole):
        output, stored = whole
        assert ended.status == -signal.SIGKILL
        assert output.startswith(ended.output), "the output isn't a beginning"
        assert held() in stored, "STATE is another"
        draft_of("end")

    at_each_call(device, look, "END_AT")


@each("text", {
    "no line": b"",
    "a line": b"files\n",
    "a line that is cut": b"files\nfil",
    "a long line that is cut": b"x" * 300,
    "a line of 4,096 bytes that is cut": b"x" * 4096,
    "4,096 lines": b"\n" * 4096,
    "a cut line after as many bytes": b"\n" * 4096 + b"files",
})
def test_nothing_is_read_after_the_end_of_the_input(device, text):
    start()
    pathlib.Path("lines").write_bytes(text)
    ended = desk_on(device, WRONG="wrong")
    assert not os.path.exists("wrong"), "what may not be"
    assert (ended.status, ended.errors) == (0, b"")
    lines = text.count(b"\n") + (not text.endswith(b"\n") and text != b"")
    assert len(answers_in(ended.output)) == lines


def test_each_read_and_each_write_is_interrupted_once(device):
    whole = whole_session()
    start()
    ended = desk_on(device, INTERRUPT=1, TOLD="met", WRONG="wrong")
    assert os.path.exists("met"), "nothing was interrupted"
    assert not os.path.exists("wrong"), "what may not be"
    assert (ended, held()) == (Ended(0, whole[0], b""), whole[1][-1])
