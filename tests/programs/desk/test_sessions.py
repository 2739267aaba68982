"""Random sessions: each answer has to be the answer of a `docker` command on a state file. Also the session in the manual page of `desk`, which
`examples/office/desk-session` contains."""
import itertools
import os
import random
import shlex

import desk_extracts as extracts
import pytest
from checks import named, same
from desks import DONE, Desk, desk, docker, written
from mirror import STATES, Mirror
from outcomes import done, takes
from programs import ROOT, Ended, give, held

SESSIONS = 1000
DATES = [f"2024-06-{day:02}" for day in range(1, 22)] + ["2024-05-20", "1960-01-01", "2059-12-31"]
PLACES = ["ASHFELD", "BRAYTON", "CORHAM", "NOWHERE"]
NO_REQUESTS = ["", "no", "print ASHFELD", "take stdin", "files " + "x" * 250, "save\t", "horizon 2024", "places ASHFELD", "known 2024-06-12"]
# The refusals that have to occur among the answers: a request and its status.
REFUSALS = [
    ("print", 1), ("train", 1), ("take", 1), ("take", 2), ("take", 4), ("merge", 1), ("merge", 4), ("horizon", 2), ("save", 2), ("save", 4), ("nothing", 2),
]
# How often each request is asked, in percent.
WEIGHTS = {"print": 18, "train": 18, "files": 7, "places": 5, "known": 5, "renew": 9, "take": 14, "merge": 7, "horizon": 4, "save": 8, "nothing": 5}


class Numbers(random.Random):
    """The random choices of the session with this seed."""

    def request(self):
        """A verb and its words."""
        verb = self.choices(list(WEIGHTS), WEIGHTS.values())[0]
        match verb:
            case "print":
                return verb, self.choice(PLACES), self.choice(DATES)
            case "train":
                return verb, self.choice(extracts.UIDS), self.choice(DATES)
            case "take":
                return verb, self.choice([*extracts.GOOD, *extracts.BAD, "missing"])
            case "merge":
                return verb, self.choice([*STATES, "full", "missing"])
            case "horizon":
                return verb, self.choice(DATES[:15])
        return (verb,)

    def line_of(self, verb, *words):
        """A line that makes this request."""
        if verb == "nothing":
            return self.choice(NO_REQUESTS)
        line = verb + "".join(" " * self.choice((1, 1, 1, 2, 5)) + word for word in words)
        end = 0 if verb in ("take", "merge") else self.choice((0, 0, 2))
        return " " * self.choice((0, 0, 3)) + line + " " * end

    def mirror(self):
        names = self.sample(sorted(extracts.GOOD), self.randrange(4))
        horizon = self.choice(["", "", "", "2024-06-05"])
        return Mirror(*names, horizon=horizon, may_write=self.random() < 0.8)


# The times of copies, in seconds. All are different, so that no copy looks like another.
COPY_TIMES = itertools.count(1)


def put_back(asked, mirror, number):
    """A text that STATE held before is put back in its place, like a copy that somebody kept."""
    assert asked.held == b""
    mirror.put_back(number)
    give(mirror.stored, "copy")
    os.utime("copy", (next(COPY_TIMES),) * 2)
    os.replace("copy", "STATE")


def session(seed, seen, older=0):
    """The session with this seed. Notes each request with the status of its answer. Earlier texts of STATE are put back with this probability."""
    numbers = Numbers(seed)
    mirror = numbers.mirror()
    give(mirror.stored)
    words = ["--write", "STATE"] if mirror.may_write else ["STATE"]
    with Desk(*words) as asked:
        # The desk has read STATE when its first answer comes.
        mirror.agrees(asked, "files")
        for _ in range(numbers.randrange(1, 15)):
            if numbers.random() < 0.06:
                # Another `docker take` changes STATE. The desk has just answered, so it waits for the next line.
                name = numbers.choice(sorted(extracts.GOOD))
                assert (asked.held, docker("take", "STATE", name)) == (b"", DONE)
                mirror.take_beside(name)
            if older and numbers.random() < older:
                put_back(asked, mirror, numbers.randrange(len(mirror.past)))
            request = numbers.request()
            line = numbers.line_of(*request)
            wanted = mirror.answer(*request)
            assert asked.ask(line) == wanted, f"the answer to {line!r}"
            seen.add((request[0], wanted.status))
        status, errors = mirror.end()
        assert asked.closed() == Ended(status, b"", errors)
    assert held() == mirror.stored


@pytest.mark.timeout(600)
def test_1000_random_sessions():
    seen = set()
    for seed in range(SESSIONS):
        with named(f"session {seed}"):
            session(seed, seen)
    assert not {*REFUSALS, *((verb, 0) for verb in WEIGHTS if verb != "nothing")} - seen


def test_200_random_sessions_in_which_older_states_come_back():
    for seed in range(200):
        with named(f"session {seed}"):
            session(f"older {seed}", set(), 0.2)


def test_100_random_sessions_each_asked_at_once():
    for seed in range(100):
        numbers = Numbers(f"at once {seed}")
        mirror = numbers.mirror()
        give(mirror.stored)
        requests = [numbers.request() for _ in range(40)]
        lines = "".join(f"{numbers.line_of(*request)}\n" for request in requests)
        wanted = written([mirror.answer(*request) for request in requests])
        words = ["--write", "STATE"] if mirror.may_write else ["STATE"]
        status, errors = mirror.end()
        assert desk(*words, given=lines.encode()) == Ended(status, wanted, errors), f"session {seed}"
        assert held() == mirror.stored, f"STATE of session {seed}"


OFFICE = ROOT / "examples" / "office"


def test_the_session_in_the_manual_page():
    """The session has the words of the command, and each request with its answer. An answer's header has the number of lines that follow it."""
    lines = (OFFICE / "desk-session").read_text(encoding="ascii").splitlines(keepends=True)
    command, requests, answers = lines.pop(0), "", ""
    while lines:
        end = 2 + int(lines[1].split()[1])
        requests += lines[0]
        answers += "".join(lines[1:end])
        lines = lines[end:]
    words = shlex.split(command)[2:]
    takes(words[-1], *(OFFICE / f"{name}.cif" for name in ("full", "monday", "tuesday")))
    same("the end", desk(*words, given=requests.encode()), done(answers.encode()))
