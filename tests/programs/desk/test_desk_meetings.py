"""A desk that may write, when something else happens just before one of its calls of the file system. This may be another command, another text of STATE, or
the draft of another program. No text is lost unread, and the session continues."""
import os
import typing

import pytest
from comings import TEXTS, TO_DRAFT, TO_STATE, WITH_THIRD, Coming, Subject, make_room
from desks import DEVICE, DONE, NOT_SAVED, answers_in, written
from given import STATE_OF_BOTH, STATE_OF_ONE
from meetings import DRAFTS, at_each_call, calls_of, met, replaces_a_new_draft
from mirror import by_docker, given, state_of
from programs import DESK, DOCKER, Ended, give, held
from tables import each

COMMAND = [DESK, "--write", "STATE"]
LOOK = "statx STATE"
# How a case with another command may end.
ENDS = ("both done", "refused", "other refused")


def parts_of(calls):
    """The calls before each successful save, and those after the last save."""
    parts = [[]]
    for call in calls:
        if call == "rename STATE.new STATE":
            parts.append([])
        else:
            parts[-1].append(call)
    return parts


class Session(typing.NamedTuple):
    """The requests of a session. `looks` has, for each save but the last, the number of the look on which this save relies. The looks are counted from the
    save before it, or from the start; 0 is the look of the save before it. `refused` has the numbers of the requests that are refused if STATE changes after
    that look."""

    requests: tuple
    looks: tuple
    refused: tuple

    def lines(self):
        return "".join(f"{request}\n" for request in self.requests).encode()


CHANGES = ("take tuesday", "merge monday.state")
# A save itself also makes looks, but after the look on which it relies. So these looks don't change the numbers here.
SESSIONS = {
    "that saves what it read": Session((*CHANGES, "save", "renew", "save", "renew", "save"), (1, 1), ((2,), (4,))),
    "that renews before it saves, and saves twice": Session(
        (*CHANGES, "renew", "save", "save", "renew", "save", "renew", "save"), (2, 0, 1),
        ((3, 4), (4,), (6,)),
    ),
}


class Part(typing.NamedTuple):
    """Where in a session something else happens: the number of saves done before, and the calls since the last of them. `all_looks` counts the looks at
    STATE from there to the end of the next save."""

    session: Session
    saves: int
    calls: list
    all_looks: int

    def is_late(self):
        """Whether the next save has already locked its draft and made its last look at STATE."""
        return "flock" in self.calls and self.calls.count(LOOK) == self.all_looks

    def refused(self):
        """The numbers of the requests that are refused if STATE changes now."""
        is_early = self.calls.count(LOOK) < self.session.looks[self.saves]
        return () if is_early or self.is_late() else self.session.refused[self.saves]


class Beside:
    """A session, and the expected STATE at its end: without and with another command's change."""

    def __init__(self, device, session):
        self.device, self.session = device, session
        give(state_of("full"))
        self.all_looks = [part.count(LOOK) for part in parts_of(calls_of(device, COMMAND, session.lines()))]
        self.own = held("STATE")
        assert self.own == state_of("full", "tuesday", "monday", "night")
        self.both = by_docker(self.own, "take", given("last"))[1]

    def at(self, number, line):
        """Runs the session, and just before the call with this number a line of the shell. Returns how the session ended, and where in the session the call
        was. Returns None if all saves but the last were done before the call."""
        give(state_of("full"))
        found = met(self.device, number, line, COMMAND, self.session.lines())
        assert found is not None, "there is no such call"
        parts = parts_of(found.before)
        saves = len(parts) - 1
        if saves == len(self.session.looks):
            return None
        return found, Part(self.session, saves, parts[-1], self.all_looks[saves])

    def goes_on(self, found, refused, wanted):
        """Only the requests with these numbers are refused, and STATE is as expected."""
        answers = [DONE] * len(self.session.requests)
        for number in refused:
            answers[number] = DEVICE
        assert answers_in(found.ended.output) == answers
        assert found.ended == Ended(0, found.ended.output, b"")
        assert held("STATE") == wanted
        assert not os.path.lexists("STATE.new"), "a draft is left"


@pytest.mark.timeout(120)
@each("session", SESSIONS)
def test_another_command_meets_a_session(device, session):
    """The other command may be refused only while the desk has a draft. Otherwise STATE has both changes at the end."""
    beside = Beside(device, session)

    def trial(number):
        meets = beside.at(number, f"{DOCKER} take STATE last </dev/null 2>/dev/null")
        if meets is None:
            return None
        found, part = meets
        if found.status:
            assert found.status == 4
            assert "create STATE.new" in part.calls, "it was refused, and no draft is there"
            beside.goes_on(found, (), beside.own)
            return part.saves, "other refused"
        assert not part.is_late(), "both were done at once"
        beside.goes_on(found, part.refused(), beside.both)
        return part.saves, "refused" if part.refused() else "both done"

    wanted = {(saves, end) for saves in range(len(session.looks)) for end in ENDS}
    # A save may rely on the look that the previous save made. It is then refused at each of its calls.
    wanted -= {(saves, "both done") for saves, looks in enumerate(session.looks) if looks == 0}
    assert set(at_each_call(trial)) == wanted


@pytest.mark.timeout(120)
@each("session", SESSIONS)
def test_a_text_meets_a_session(device, session):
    """A program that ignores drafts puts a text in STATE's place. If it does so before a save's last look, the desk notices it, and STATE has both at the
    end. A text that comes after the last look isn't noticed."""
    beside = Beside(device, session)

    def trial(number):
        give(state_of("full", "last"), "came")
        meets = beside.at(number, "mv -f came STATE")
        if meets is None:
            return None
        found, part = meets
        beside.goes_on(found, part.refused(), beside.own if part.is_late() else beside.both)
        return part.saves, part.refused() != ()

    assert set(at_each_call(trial)) == {(part, end) for part in range(len(session.looks)) for end in (False, True)}


def just_after_a_save(device, line, came, *requests):
    """Runs a session, and this line of the shell at each call between the rename of its first save and the next read. Yields how the session ends."""
    lines = "".join(f"{request}\n" for request in requests).encode()
    give(state_of("full"))
    calls = calls_of(device, COMMAND, lines)
    placed = calls.index("rename STATE.new STATE")
    for number in range(placed + 2, calls.index("read", placed) + 2):
        give(state_of("full"))
        give(came, "came")
        found = met(device, number, line, COMMAND, lines)
        assert (found.status, os.path.lexists("STATE.new")) == (0, False), f"before {found.after[:3]}"
        yield found.ended


def test_a_text_of_the_same_length_is_written_just_after_a_save(device):
    """The next save notices it."""
    came = b"?" * len(state_of("full", "tuesday"))
    for ended in just_after_a_save(device, "cat came >STATE", came, "take tuesday", "save", "take night", "save"):
        assert ended == Ended(1, written([DONE, DONE, DONE, DEVICE]), NOT_SAVED)
        assert held("STATE") == came


def test_another_state_takes_its_place_just_after_a_save(device):
    """The next save notices it. After a renewal, STATE has both at the end."""
    requests = ("take night", "save", "take monday", "save", "renew", "save")
    for ended in just_after_a_save(device, "mv -f came STATE", state_of("full", "tuesday"), *requests):
        assert ended == Ended(0, written([DONE, DONE, DONE, DEVICE, DONE, DONE]), b"")
        assert held("STATE") == state_of("full", "night", "monday", "tuesday")


def test_a_text_that_is_written_just_after_a_save_in_which_a_look_fails(device, monkeypatch):
    """Whichever look of the first save fails, the second save doesn't replace the text."""
    lines = b"take tuesday\nsave\ntake night\nsave\n"
    came = give(b"?" * len(state_of("full", "tuesday")), "came")
    give(state_of("full"))
    calls = calls_of(device, COMMAND, lines)
    made, placed = calls.index("create STATE.new"), calls.index("rename STATE.new STATE")
    looks = [at for at, call in enumerate(calls[:placed]) if call.startswith("statx")]
    monkeypatch.setenv("CALL", "statx")
    monkeypatch.setenv("TOLD", "failed")
    for number, at in enumerate(looks, 1):
        if at < made:
            continue
        monkeypatch.setenv("FAIL_AT", str(number))
        give(state_of("full"))
        found = met(device, placed + 2, "cat came >STATE", COMMAND, lines)
        what = f"look {number} of {len(looks)}, before {found.after[:3]}"
        assert (found.status, held("failed"), held("STATE")) == (0, b"statx", came), what
        os.remove("failed")
        assert (found.ended.status, answers_in(found.ended.output)[-1], found.ended.errors) == (1, DEVICE, NOT_SAVED), what


@each("is_locked, mode", DRAFTS)
def test_what_takes_the_place_of_a_draft_that_is_just_made(device, is_locked, mode):
    """Before the draft was locked, another command removed it as left over by a killed command. The save is refused."""
    give(state_of("full"))
    wanted = Ended(1, written([DONE, DEVICE]), NOT_SAVED)
    replaces_a_new_draft(device, "STATE", (is_locked, mode), COMMAND, b"take monday\nsave\n", wanted)


def told(ended):
    """How a desk ends, and its answer to `save`. What it answers to `renew` depends on the text that it finds."""
    answers = answers_in(ended.output)
    return ended.status, answers[-1] if answers else None, ended.errors


SAVE = Subject(
    [DESK, "--write", "office"], TEXTS, WITH_THIRD, given=b"take ../third\nsave\n",
    done=Ended(0, written([DONE, DONE]), b""), told=told,
    refused=Ended(1, written([DONE, DEVICE]), NOT_SAVED),
)
# A desk that renews also knows what it read at its start.
RENEWED = {text: WITH_THIRD[STATE_OF_BOTH] for text in TEXTS} | {STATE_OF_ONE: WITH_THIRD[STATE_OF_ONE]}
BY_LINK = SAVE._replace(command=[DESK, "--write", "leading"], name="leading", links={"leading": "office"})
SUBJECTS = {
    "that saves": SAVE,
    "that saves by a link": BY_LINK,
    "that saves by a link that changes": BY_LINK._replace(at="leading"),
    "that renews and saves": SAVE._replace(given=b"take ../third\nrenew\nsave\n", renews=RENEWED),
}


@pytest.mark.usefixtures("given")
@each("act", TO_STATE | TO_DRAFT)
@each("subject", SUBJECTS)
def test_another_program_comes_to_a_desk(device, subject, act):
    make_room()
    Coming(device, subject, act).is_as_promised()
