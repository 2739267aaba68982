"""A command that writes STATE, when something else happens just before one of its calls of the file system. This may be another command, another text of
STATE, or the draft of another program. No text is lost unread."""
import os
import stat

import pytest
from comings import PLACED, TEXTS, THIRD, TO_STATE, WITH_THIRD, Coming, Subject, make_room
from given import FIRST, STATE_OF_BOTH, STATE_OF_ONE, STATE_OF_REVISED, STATES, trip
from meetings import DRAFTS, Draft, at_each_call, calls_of, met, replaces_a_new_draft
from outcomes import DEVICE, DONE, holds_only
from programs import DOCKER, docker, give, held
from states import lines, schedule, state
from tables import each

LOOK = "statx office"


def command_of(words):
    return [DOCKER, *words.split()]


def one_by_one(before, *commands):
    """Runs these commands one after another. Returns how the last one ends, and the state after it."""
    give(before, "office")
    return [docker(*words.split()) for words in commands][-1], held("office")


# Before its first look at STATE a command has read nothing. So a change of STATE before this look has the same effect as a change before the command.


class Beside:
    """A command, and another command that runs on the same STATE in the middle of it."""

    def __init__(self, before, words, other):
        self.before, self.words, self.other = before, words, other
        self.alone = one_by_one(before, words)
        self.other_alone = one_by_one(before, other)
        self.other_first = one_by_one(before, other, words)
        self.other_last = one_by_one(before, words, other)

    def at(self, device, number):
        """Runs the other command at this call. Returns which command was refused; if neither was, which of them counts as the first."""
        give(self.before, "office")
        found = met(device, number, f"{DOCKER} {self.other} </dev/null 2>/dev/null", command_of(self.words))
        if found is None:
            return None
        assert not os.path.lexists("office.new"), "a draft is left"
        return self.outcome(found, (found.ended, held("office")))

    def outcome(self, found, now):
        if not found.looks("office"):
            assert (found.status, now) == (0, self.other_first)
            return "other first"
        if found.has_placed("office.new"):
            assert (found.ended, found.status, now[1]) == (DONE, 0, self.other_last[1])
            return "other last"
        if found.status:
            assert (found.status, now) == (4, self.alone)
            return "other refused"
        # What the other command stored may be a text that this command refuses.
        assert found.ended == DEVICE or found.ended == self.other_first[0] != DONE
        assert now[1] == self.other_alone[1]
        return "refused"


COMMANDS = {
    "take": (STATE_OF_ONE, "take office revised", "take office places"),
    "merge": (STATE_OF_ONE, "merge office state_of_revised", "take office places"),
    "horizon": (STATE_OF_ONE, "horizon office 2024-06-12", "take office places"),
    "new": (STATE_OF_ONE, "new office", "take office revised"),
    "migrate": (STATES["old_state"], "migrate office", "new office"),
}


@pytest.mark.timeout(120)
@each("before, words, other", COMMANDS)
def test_another_command_meets(device, before, words, other):
    """One of the two commands is refused, or the result is as if they ran one after the other."""
    beside = Beside(before, words, other)
    assert set(at_each_call(lambda number: beside.at(device, number))) == {"other first", "refused", "other refused", "other last"}


def state_of_many(hour, files=(FIRST,), entries=()):
    """The text of a state of 1,000 trains that leave at this hour, and of these entries. It is read and written in pieces."""
    uids = [f"C{number}" for number in range(20000, 21000)]
    return state(files, [*entries, *(FIRST.put(schedule(uid), lines(trip(hour).replace("C10001", uid))) for uid in uids)])


LARGE = {state_of_many(hour): state_of_many(hour, (FIRST, THIRD), (PLACED,)) for hour in ("09", "10")}
TAKES = Subject(command_of("take office ../third"), TEXTS, WITH_THIRD)


@pytest.mark.usefixtures("given")
@each("act", {"renamed into its place": TO_STATE["mv"], "written in place": TO_STATE["cp"]})
@each("subject", {"take": TAKES, "take into a large state": TAKES._replace(texts=(*LARGE, STATE_OF_BOTH), stores=WITH_THIRD | LARGE)})
def test_a_text_that_comes_is_seen_until_the_last_look(device, subject, act):
    """The last look comes after the draft is locked. test_whatever_comes.py has other commands and other acts."""
    make_room()
    Coming(device, subject, act).is_as_promised()


# The drafts of other programs. The first look at the draft's name is for a draft that a killed command left.
#
# These cases were themselves tested, with programs that make the calls of `docker` in the same order but leave one out. The call left out was one of the two
# locks, the last look at STATE, or one of the three looks at a locked file. These three looks are at the draft's name, at the name of the left-over draft, and
# at its mark. The cases were also run with the last look at STATE before the draft is made, and with the first look after STATE is read. Each time some cases
# failed.

DRAFT_LOOK = "statx office.new"
TAKE = command_of("take office revised")


def stays(draft):
    """The draft is still beside STATE, and neither has changed."""
    draft.is_under("office.new")
    assert held("office") == STATE_OF_ONE


def last_of(calls, *wanted):
    """The position, in the list, of the last call that is one of the wanted calls."""
    return max(at for at, call in enumerate(calls) if call in wanted)


def left_over():
    """Makes a state, and beside it a draft such as a killed command leaves."""
    give(STATE_OF_ONE, "office")
    give(b"DKS2 left", "office.new")
    os.chmod("office.new", 0o1640)


def test_a_draft_of_a_command_at_work():
    give(STATE_OF_ONE, "office")
    with Draft(*DRAFTS["a draft of a command at work"]) as draft:
        os.rename("draft", "office.new")
        assert docker("take", "office", "revised") == DEVICE
        stays(draft)


@each("is_locked, mode", DRAFTS)
def test_what_takes_the_place_of_a_draft_that_is_just_made(device, is_locked, mode):
    """Before this draft was locked, another command removed it as left over by a killed command."""
    give(STATE_OF_ONE, "office")
    replaces_a_new_draft(device, "office", (is_locked, mode), TAKE, b"", DEVICE)


def calls_with_left_over(device):
    """The calls of a command that finds a left-over draft, up to the call that removes it."""
    left_over()
    calls = calls_of(device, TAKE)
    return calls[:calls.index("unlink office.new") + 1]


@each("is_locked, mode", DRAFTS)
def test_what_takes_the_place_of_a_draft_that_is_left_over(device, is_locked, mode):
    """The file is removed only if it is also a left-over draft, and if the command opened it and not the first draft."""
    calls = calls_with_left_over(device)
    opened = calls.index("open office.new")
    for number in range(1, last_of(calls, "flock", DRAFT_LOOK) + 2):
        left_over()
        with Draft(is_locked, mode) as draft:
            found = met(device, number, "mv -f draft office.new", TAKE)
            assert found.status == 0
            if number <= opened + 1 and (is_locked, mode) == DRAFTS["a draft that is left over"]:
                assert found.ended == DONE
                holds_only("office", STATE_OF_BOTH)
                continue
            assert found.ended == DEVICE
            stays(draft)


def test_a_link_to_a_draft_that_takes_the_place_of_what_is_left_over(device):
    """The link stays, and so does the draft to which it leads."""
    calls = calls_with_left_over(device)
    for number in range(1, last_of(calls, "flock", DRAFT_LOOK) + 2):
        left_over()
        with Draft(*DRAFTS["a draft that is left over"]) as draft:
            found = met(device, number, "ln -fs draft office.new", TAKE)
            assert (found.ended, found.status) == (DEVICE, 0)
            draft.is_under("draft")
        assert (os.readlink("office.new"), held("office")) == ("draft", STATE_OF_ONE)
        os.remove("office.new")


def test_a_draft_that_is_put_in_place_while_it_is_taken_for_a_left_over(device):
    """The command that made the draft puts it in place at that moment. What it stored stays."""
    calls = calls_with_left_over(device)
    first = calls.index(LOOK)
    for number in range(first + 2, len(calls)):
        left_over()
        give(STATE_OF_REVISED, "office.new")
        found = met(device, number, "mv -f office.new office && chmod 0640 office", TAKE)
        assert (found.ended, found.status) == (DEVICE, 0)
        holds_only("office", STATE_OF_REVISED)
        assert stat.S_IMODE(os.stat("office").st_mode) == 0o640
