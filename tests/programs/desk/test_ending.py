"""How a desk ends: at the end of its input, on a terminal, and if its output is gone."""
import os
import pty

import pytest
from checks import soon
from desks import DEVICE, DONE, NOTHING, NOT_SAVED, Desk, desk, docker, written
from mirror import give_large, reading, state_of
from programs import DESK, DEVICE_LINE, Ended, give, held, in_turn, preloading, redirected, renames, run
from tables import each

# The words that run a desk whose output is a full device.
FULL = redirected(">/dev/full")
WELL, UNSAVED_END = Ended(0, b"", b""), Ended(1, b"", NOT_SAVED)
CHANGES = ("take monday", "merge second.state", "horizon 2024-06-12")
# The requests, and whether there are unsaved changes at the end.
UNSAVED = {
    **{f"only {change}": ([change], True) for change in CHANGES},
    **{f"{change}, saved": ([change, "save"], False) for change in CHANGES},
    **{f"{change} after a save": (["take night", "save", change], True) for change in CHANGES},
    **{f"{change}, refused after it": ([change, "take missing"], True) for change in CHANGES},
    "nothing": ([], False),
    "only requests that read": (["files", "renew", "print ASHFELD 2024-06-12"], False),
    "only refused changes": (["take missing", "merge full", "horizon 2024-06-31"], False),
    "a save of nothing": (["save"], False),
    "renew after a take": (["take monday", "renew"], True),
    "two saves": (["take monday", "save", "save"], False),
}


@each("lines, is_unsaved", UNSAVED)
def test_the_end_of_input_after(lines, is_unsaved):
    text = "".join(f"{line}\n" for line in lines)
    for cut in ("", "save"):
        before = give(state_of("full"))
        ended = desk("--write", "STATE", given=(text + cut).encode())
        assert (ended.status, ended.errors) == ((1, NOT_SAVED) if is_unsaved else (0, b"")), f"the end after {text + cut!r}"
        assert "save" in lines or held() == before


def test_changes_whose_save_was_refused_are_unsaved():
    give(state_of("full"))
    with Desk("--write", "STATE") as asked:
        asked.does("take monday")
        assert docker("take", "STATE", "night") == DONE
        assert (asked.ask("save"), asked.closed()) == (DEVICE, UNSAVED_END)


# A renewal finds out whether STATE holds everything that the desk knows.


@each("lines, end, names", {
    "and is renewed leaves changes unsaved": (["renew"], UNSAVED_END, ["full"]),
    "may be saved over": (["renew", "save"], WELL, ["full", "monday"]),
})
def test_an_older_state_that_comes_after_a_save(lines, end, names):
    before = give(state_of("full"))
    with Desk("--write", "STATE") as asked:
        asked.does("take monday", "save")
        give(before)
        asked.does(*lines)
        assert asked.ask("files").text.count(b"\n") == 2
        assert asked.closed() == end
    assert held() == state_of(*names)


@each("names, is_unsaved", {
    "all that the desk knows": (("full", "monday"), False),
    "more than the desk knows": (("full", "monday", "night"), False),
    "less than the desk knows": (("full",), True),
    "other files": (("full", "night"), True),
})
def test_a_renewal_of_a_state_that_holds(names, is_unsaved):
    give(state_of("full"))
    with Desk("--write", "STATE") as asked:
        asked.does("take monday", "save")
        renames(state_of(*names))
        asked.does("renew")
        assert asked.closed() == (UNSAVED_END if is_unsaved else WELL)


def test_a_renewal_of_an_older_state_by_a_desk_that_only_reads():
    with reading("full", "monday") as asked:
        # After this answer the desk has read STATE, so it doesn't read the next one half written.
        assert asked.ask("files").status == 0
        give(state_of("full"))
        asked.does("renew")


# If a stream fails while there are unsaved changes, standard error gets two lines: one for the failure, and one for the unsaved changes.

BOTH_LINES = DEVICE_LINE + NOT_SAVED


def test_an_output_that_fails_while_changes_are_unsaved():
    before = give(state_of("full"))
    assert run([*FULL, DESK, "--write", "STATE"], b"take monday\nsave\n") == Ended(4, b"", BOTH_LINES)
    assert held() == before


@each("lines, errors", {
    "changes are unsaved": (b"take monday\n", BOTH_LINES),
    "all is saved": (b"take monday\nsave\n", DEVICE_LINE),
    "nothing was changed": (b"files\n", DEVICE_LINE),
})
def test_an_input_that_fails_while(device, lines, errors):
    """The last read of a session is a read of its input."""
    def trial(number):
        give(state_of("full"))
        return run([*preloading(device, CALL="read", FAIL_AT=number, TOLD="met"), DESK, "--write", "STATE"], lines)

    *_, (_, last, _), (_, ended, _) = in_turn(trial)
    assert ended.status == (1 if errors == BOTH_LINES else 0)
    assert last == Ended(4, ended.output, errors)


@each("first, lines, errors", {
    "before the first answer": ([], b"files\n", DEVICE_LINE),
    "while changes are unsaved": (["take monday"], b"files\n", BOTH_LINES),
    "and leaves the rest undone": ([], b"take monday\nsave\n", BOTH_LINES),
})
def test_a_reader_that_goes_away(first, lines, errors):
    before = give(state_of("full"))
    with Desk("--write", "STATE") as asked:
        asked.does(*first)
        asked.loses_its_reader()
        asked.say(lines)
        assert asked.ended() == Ended(4, b"", errors)
    assert held() == before


def test_a_reader_that_goes_away_within_an_answer():
    give_large(3000)
    with Desk("STATE") as asked:
        asked.say(b"print ASHFELD 2024-06-12\n")
        assert asked.more(100), "an answer begins"
        asked.held = b""
        asked.loses_its_reader()
        assert asked.ended() == Ended(4, b"", DEVICE_LINE)


def test_a_full_device_as_output():
    give(state_of("full"))
    assert run([*FULL, DESK, "STATE"], b"files\nfiles\n") == Ended(4, b"", DEVICE_LINE)
    assert run([*FULL, DESK, "STATE"]) == WELL


@each("size", {f"of {size} bytes": size for size in (1, 5, 6, 7, 40, 100)})
def test_an_output_that_takes_a_part(size):
    give(state_of("full"))
    wanted = written([docker("files", "STATE"), docker("print", "STATE", "ASHFELD", "2024-06-12")])
    with open("output", "wb") as output:
        ended = run(["prlimit", f"--fsize={size}", DESK, "STATE"], b"files\nprint ASHFELD 2024-06-12\n", stdout=output, restore_signals=False)
    assert (ended, held("output")) == (Ended(4, None, DEVICE_LINE), wanted[:size])


@pytest.fixture
def terminal():
    """Both ends of a terminal."""
    ours, theirs = pty.openpty()
    yield ours, theirs
    os.close(ours)
    os.close(theirs)


END_KEY = b"\x04"


# Each row has the words, what is typed at first, its answer, what is typed then, and the end. Of a line that is cut, the first END_KEY only sends what was typed.
@each("words, first, wanted, typed, end", {
    "one Ctrl-D ends it": (["STATE"], b"files\n", None, [END_KEY], WELL),
    "Ctrl-D at once": (["STATE"], b"", None, [END_KEY], WELL),
    "a line that is cut, and then one Ctrl-D for it and one for the end": (
        ["--write", "STATE"], b"take monday\n", DONE, [b"save" + END_KEY, END_KEY], Ended(1, NOTHING.written(), NOT_SAVED),
    ),
    "a line that is too long and is cut": (["STATE"], b"", None, [b"x" * 300 + END_KEY, END_KEY], Ended(0, NOTHING.written(), b"")),
})
def test_a_terminal(terminal, words, first, wanted, typed, end):
    ours, theirs = terminal
    give(state_of("full"))
    with Desk(*words, stdin=theirs) as asked:
        os.write(ours, first)
        assert not first or asked.answer() == (wanted or docker("files", "STATE"))
        for text in typed:
            os.write(ours, text)
        assert asked.ended() == end


def test_a_terminal_that_hangs_up():
    give(state_of("full"))
    ours, theirs = pty.openpty()
    with Desk("STATE", stdin=theirs) as asked:
        os.close(theirs)
        os.write(ours, b"files\n")
        assert asked.answer() == docker("files", "STATE")
        os.close(ours)
        assert asked.ended() in (Ended(4, b"", DEVICE_LINE), WELL)


def test_an_input_that_goes_on_of_a_desk_that_ended():
    give(state_of("full"))
    with Desk("STATE", program=FULL) as asked:
        asked.say(b"files\n")
        soon("it goes on", lambda: asked.process.poll() is not None)
        assert asked.process.returncode == 4
