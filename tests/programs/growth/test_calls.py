"""Calls of the crates, with one memory growth after another refused.

Some rows of crates/hostile_tests/stdin begin with the word `growth`, and make a call in which a growth can be refused. Each of them is run with the first
growth of its call refused, then the second, and so on, until a run has no growth to refuse. A refused run has to print that it is out of memory, and then
what its call promises for this. After that it makes the call again, and prints the answer that crates/hostile_tests/stdout has for the row. A call may also
manage with less memory and print that answer at once. But in each row, at least one growth has to make the call fail. The calls in MANAGING are the exception:
at least one growth is refused, and every run prints the answer of stdout."""
import fcntl
import os
import re
import subprocess
import sys
import textwrap

import pytest
from checks import holds, same
from programs import CALLS, ROOT, in_turn, preloading, run
from tables import each

CRATE = ROOT / "crates" / "hostile_tests"
RECORD = re.compile(r"^  out of memory at record (\d+)$", re.M)
# The limit is for the calls. It doesn't include the time for building their program.
pytestmark = pytest.mark.timeout(120, func_only=True)

# What calls promise if they run out of memory: the lines that are printed after the failed call and before the answer of the second call, with the calls. A
# call may have several promises. N is any number.
PROMISES = {
    "out of memory at record N": "FileParser read_pieces",
    "each later call answers the same": "FileParser::feed StateParser::feed",
    "the file is handed back": "State::of_file",
    "both states are handed back": "State::join",
    "the parts are as they were": "Parts::item Parts::entry",
    "what was staged is as it was\nthe state is as it was": "Staging::offer",
    "one entry was staged\nthe state is as it was": "State::commit",
    "the state is as it was": "join_state docker",
    "the office is as it was": "Office::take Office::receive Office::reload Office::reload_under Office::migrate",
    "the office is as it was\nnothing is written": "Office::print",
    "nothing is written": "PlaceOffice::print",
    "status 3": "job job_line",
    "status 3\nthe job of these words": "prepare",
    "status 3\nnothing is written": "emit",
    "before the first event": "run",
    "one reply wants memory\noffices, messages and dockers are those that the replies leave": "run",
}

# Calls whose answer is the same without the memory.
MANAGING = {
    "FileParser::finish",  # each row's file lacks its trailer: the answer is `NoEnd`, even if memory runs out at the last line
}


def rows():
    """The rows that begin with the word `growth`, each under the rest of the row."""
    lines = (CRATE / "stdin").read_text(encoding="ascii").splitlines()
    return {line.removeprefix("growth "): line for line in lines if line.startswith("growth ")}


def whole_text(row):
    """The row and its answer, as `stdout` has them. The lines of an answer begin with spaces."""
    text = (CRATE / "stdout").read_text(encoding="ascii")
    return re.search(rf"^{re.escape(row)}\n(?: .*\n)*", text, re.M).group()


def call_of(row):
    return row.split()[1]


def refused_texts(row):
    """What may be printed for a row if a growth is refused: a text for each promise of its call."""
    first, _, *rest = whole_text(row).splitlines()
    for promise in [it for it, calls in PROMISES.items() if call_of(row) in calls.split()] or [""]:
        yield "".join(f"{line}\n" for line in (first, textwrap.indent(f"want of memory\n{promise}".rstrip(), "  "), *rest))


@pytest.fixture(scope="session")
def calls():
    """The program that makes the calls. The launchers' script builds it if needed, unless HOSTILE_TESTS names another program. One process builds it, while
    others wait."""
    if not os.environ.get("HOSTILE_TESTS"):
        with open(CRATE / "stdin", "rb") as locked:
            fcntl.flock(locked, fcntl.LOCK_EX)
            subprocess.run([sys.executable, ROOT / "lib" / "launch.py", CRATE.name], stdin=subprocess.DEVNULL, check=True)
    return CALLS


def refused_in_turn(calls, library, row):
    """What is printed for a row if the first growth of its call is refused, then if the second is,
    and so on. The last text is from a run that had no growth to refuse."""
    def trial(growth):
        refusing = preloading(library, CALL=1, GROWTH=growth, REFUSED=os.path.abspath("refused"))
        ended = run([*refusing, calls], f"{row}\n".encode(), cwd=CRATE / "data")
        same(f"the status at growth {growth}", ended.status, 0)
        return ended.output.decode()

    return [text for _, text, _ in in_turn(trial, "refused")]


@each("row", rows())
def test_each_growth_of_a_call_is_refused_in_turn(calls, refusing, row):
    whole, manages = whole_text(row), call_of(row) in MANAGING
    allowed = [] if manages else list(refused_texts(row))
    *texts, last = refused_in_turn(calls, refusing, row)
    same("the answer if nothing is refused", last, whole)
    for growth, text in enumerate(texts, 1):
        is_refused = RECORD.sub("  out of memory at record N", text) in allowed
        holds(f"growth {growth} is refused, and it prints {text}", text == whole or is_refused)
    assert any(manages or text != whole for text in texts), "no growth was refused"
    print(f"{len(texts)} growths were refused")


def records_of(calls, library, call):
    """For each row of a call without the call, the growths at which a record was named, each with this record."""
    found = {}
    for row in rows().values():
        if call_of(row) == call:
            numbers = enumerate((RECORD.search(text) for text in refused_in_turn(calls, library, row)), 1)
            found[row.split(" ", 2)[2]] = {growth: it.group(1) for growth, it in numbers if it}
    return found


def test_read_pieces_names_the_same_record_as_a_parser(calls, refusing):
    """A parser that is fed the same pieces runs out of memory at the same record."""
    found = records_of(calls, refusing, "FileParser")
    same("the records", records_of(calls, refusing, "read_pieces"), found)
    named = {record for records in found.values() for record in records.values()}
    assert len(named) > 1, "each growth is at the same record"
