"""The requests `places`, `known` and `trains`, compared with an independent reading of extracts."""
import datetime
import itertools

import desk_extracts as extracts
import lists
import plans
import pytest
import records
from desks import DAY_REFUSED, Answer, Desk, desk, written
from mirror import give_taken, given, mirrored, reading, state_of
from programs import DESK, Ended, give, in_seconds, run
from tables import by_itself, each


def listed(files, horizon=lists.FIRST_DAY):
    """The expected answers to both requests, for these files and this horizon."""
    files = tuple(files)
    return [Answer(0, text(files, horizon)) for text in (lists.places_text, lists.known_text)]


def asked(*lines):
    """The answers of a desk to both requests, after these lines."""
    with Desk("--write", "STATE") as now:
        now.does(*lines)
        return [now.ask("places"), now.ask("known")]


def test_the_lists_to_the_letter():
    places = (
        b"ASHFELD           ASHFELD JUNCTION                    4\n"
        b"BRAYTON           BRAYTON                             4\n"
        b"CORHAM            CORHAM CENTRAL                      4\n"
    )
    known = b"HORIZON      2024-06-10\nFULL         2024-06-09 2100 DFROC1B\nLAST         2024-06-30\nSCHEDULES    4\nASSOCIATIONS 2\nPLACES       3\n"
    with reading("full", "tuesday", horizon="2024-06-10") as now:
        got = [now.ask("places"), now.ask("known")]
    assert got == listed((extracts.GOOD["full"], extracts.GOOD["tuesday"]), day("2024-06-10"))
    assert got == [Answer(0, places), Answer(0, known)]


def day(date):
    return datetime.date.fromisoformat(date)


@each("names", {"no file": (), "an update": ["monday"], "a full extract": ["full"], "a later full extract": ["full", "second"], "all files": [*extracts.GOOD]})
def test_the_lists_of_files(names):
    give(state_of(*names))
    assert asked() == listed(extracts.GOOD[name] for name in names)


def test_what_is_taken_merged_and_lapses_is_seen_at_once():
    with mirrored("full") as (now, mirror):
        for change in ("take monday", "take night", "merge second.state", "horizon 2024-06-20"):
            verb, word = change.split()
            line = change if verb == "horizon" else f"{verb} {given(word)}"
            assert now.ask(line) == mirror.answer(verb, word), change
            mirror.agrees(now, "places", "known")


@pytest.mark.timeout(120)
def test_random_extracts_with_updates():
    seen = set()
    for seed in range(60):
        plan = plans.Plan(f"lists {seed}")
        texts = [
            plan.extract("240601", "DFROC1A", plan.choice("FU")),
            plan.extract("240602", "DFROC1B", plan.choice("UUF"), size=15),
            plan.extract("240603", "DFROC1C", "U", size=15),
        ]
        horizon = plan.choice([lists.FIRST_DAY, day("2024-06-12"), day("2024-11-01")])
        for number, text in enumerate(texts):
            give(text.encode(), f"file{number}")
        give(state_of())
        lines = [f"take file{number}" for number in plan.sample(range(3), 3)]
        if horizon != lists.FIRST_DAY:
            lines.insert(plan.randrange(4), f"horizon {horizon}")
        wanted = listed(texts, horizon)
        assert asked(*lines) == wanted, f"extracts {seed}"
        seen.update(line[:12] for line in wanted[1].text.splitlines())
        assert wanted[0].text.count(b"\n") > 2, f"places of {seed}"
    assert len(seen) == 6, f"each line of `known` was there: {seen}"


@by_itself
def test_known_again_and_again():
    """Only the first answer takes the time that it takes to count all entries."""
    text = records.extract(records.header("240612"), *(extracts.trip(f"L{n:05}", "1L00") for n in range(20000)))
    give_taken(text)
    assert run([*in_seconds(2), DESK, "STATE"], b"known\n" * 10000) == Ended(0, written(listed([text])[1:] * 10000), b"")


def test_a_list_that_no_pipe_holds_at_once():
    places = "".join(records.place("TI", f"P{n:05}", f"PLACE P{n:05}") for n in range(5000))
    trips = "".join(extracts.trip(f"L{n:05}", "1L00") for n in range(12))
    text = records.extract(records.header("240612"), places, trips)
    give_taken(text)
    wanted = listed([text])
    assert desk("STATE", given=b"places\nknown\nplaces\n") == Ended(0, written([*wanted, wanted[0]]), b"")


def trains_text(files, identity, day):
    """The expected answer for these files."""
    text = ""
    for uid in sorted({line[3:9] for text in files for line in text.split("\n") if line[:2] == "BS"}):
        schedules = lists.schedules_of(files, uid)
        key = lists.chosen(schedules, datetime.date.fromisoformat(day))
        columns = {"BS": slice(32, 36), "CR": slice(12, 16)}
        if key and key[-1] != "C" and any(identity == line[columns[line[:2]]] for line in schedules[key] if line[:2] in columns):
            text += f"{uid} {day} {key[-1]}\n"
    return text.encode()


def schedule(uid, dates, days, train, stp="P", changed=""):
    """A schedule that calls at three places. Its train gets the identity `changed`, if there is one, at the second place. A cancellation has only its basic
    schedule."""
    basic = records.basic("N", uid, *dates, days, train, stp)
    if stp == "C":
        return basic
    middle = records.change("BRAYTON", changed) if changed else ""
    calls = records.calls("BRAYTON", "0910", "0912"), records.terminus("CORHAM", "0930")
    return basic + records.origin("ASHFELD", "0900") + middle + "".join(calls)


WEEK = ("240610", "240616")
WEEK_OF_TRAINS = records.extract(
    records.header("240609", indicator="F"),
    schedule("C10003", WEEK, records.ALWAYS, "1A10"),
    schedule("C10002", WEEK, "1100000", "1A11", changed="1A10"),
    schedule("C10001", WEEK, records.ALWAYS, "1A10"),
    schedule("C10001", ("240611", "240611"), "0100000", "1A12", "O"),
    schedule("C10003", ("240612", "240612"), "0010000", "", "C"),
    schedule("C10004", WEEK, records.ALWAYS, "1A1"),
)


def test_the_list_to_the_letter():
    give_taken(WEEK_OF_TRAINS)
    with Desk("STATE") as now:
        now.gives(Answer(0, b"C10001 2024-06-10 P\nC10002 2024-06-10 P\nC10003 2024-06-10 P\n"), "trains 1A10 2024-06-10")
        now.gives(Answer(0, b"C10002 2024-06-11 P\nC10003 2024-06-11 P\n"), "trains 1A10 2024-06-11")
        now.gives(Answer(0, b"C10001 2024-06-12 P\n"), "trains 1A10 2024-06-12")
        now.gives(Answer(0, b""), "trains 1A10 2024-06-17")
        now.gives(Answer(0, b"C10001 2024-06-11 O\n"), "trains 1A12 2024-06-11")


def test_a_day_before_the_horizon():
    give_taken(WEEK_OF_TRAINS)
    with Desk("--write", "STATE") as now:
        now.does("horizon 2024-06-12")
        assert now.ask("trains 1A10 2024-06-11") == DAY_REFUSED
        assert now.ask("trains 1A10 2024-06-12") == Answer(0, b"C10001 2024-06-12 P\n")


@pytest.mark.parametrize("seed", range(6))
def test_random_extracts(seed):
    files = plans.Plan(f"trains {seed}").files()
    give_taken(*files)
    with Desk("STATE") as now:
        for identity, date in itertools.product([*plans.IDENTITIES, "9Z99"], plans.DAYS):
            now.gives(Answer(0, trains_text(files, identity, date)), f"trains {identity} {date}")
