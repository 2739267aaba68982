"""Files and states of hostile shapes, all of which are valid. Each answer has to be right, and has to take less than a second of processor time.

An answer takes some hundredths of a second if the work grows in proportion to the input. It would take many seconds if the work grew with the square of the
input. `bench/run-growth` has more shapes, and all commands."""
import signal

import pytest
from checks import same
from desks import Answer, answers_in
from details import docker_part
from docker_lines import event, works_on
from outcomes import DONE, done, holds_only, prints, takes
from programs import DESK, Ended, docker, give, in_seconds, run
from records import ALWAYS, NO_END, association, basic, extract, header, origin, record, terminus
from states import ledger
from tables import by_itself, each

pytestmark = [by_itself, pytest.mark.timeout(60)]

# This many schedules or associations have 4,667 first days, and up to three STP indicators for each of these days.
ROWS = 14_000
FILES = 100_000
DAY = "2024-06-12"


def first_day(number):
    """One of 4,704 days from 2010 to 2023, with 28 days in each month. They all come before the day of the dockers."""
    return f"{10 + number // 336 % 14}{1 + number // 28 % 12:02}{1 + number % 28:02}"


def schedule(uid, number, stp, *journey):
    return basic("N", uid, first_day(number), NO_END, ALWAYS, "1A10", stp) + "".join(journey)


def leaves(uid, number, stp):
    """A schedule from Meeting to Beyond."""
    return schedule(uid, number, stp, origin("MEETING", "0900"), terminus("BEYOND", "0930"))


def link(base, other, number=0, stp="P"):
    return association(base, other, first_day(number), NO_END, "MEETING", stp=stp)


def stp_of(row):
    return "PNO"[row % 3]


def uids(letter):
    return [f"{letter}{row:05}" for row in range(ROWS)]


def of_one_uid():
    """Schedules of one UID. Of those that run on the docker's day, the one whose STP indicator is first in the alphabet is chosen. If several have this
    indicator, the one with the latest first day is chosen."""
    return [leaves("A00001", row // 3, stp_of(row)) for row in range(ROWS)]


def of_one_group():
    """Associations of the same two trains."""
    links = [link("A00001", "B00001", row // 3, stp_of(row)) for row in range(ROWS)]
    return [*links, leaves("A00001", 0, "P"), leaves("B00001", 0, "P")]


def of_one_partner():
    """Base trains of one partner, which has as many schedules."""
    links = [link(uid, "B00001") for uid in uids("A")]
    comes = origin("BEFORE", "0800"), terminus("MEETING", "0830")
    bases = [schedule(uid, 0, "P", *comes) for uid in uids("A")]
    return [*links, *bases, *(leaves("B00001", row // 3, stp_of(row)) for row in range(ROWS))]


def after_many_lines():
    """Partners of a base train that calls after as many lines."""
    links = [link("A00001", uid) for uid in uids("B")]
    between = ROWS * record("LIBETWEEN           0800 00000000")
    journey = origin("BEFORE", "0800"), between, terminus("MEETING", "0830")
    return [*links, schedule("A00001", 0, "P", *journey)]


def in_a_ring():
    """TIPLOCs that are renamed: each to the next, and the last to the first. The last record puts
    the first place. Before it, every other place was put and then deleted."""
    names = [f"P{row:06}" for row in range(ROWS)]
    return [record(f"TA{old}{'':9}{'A PLACE':54}{new}") for old, new in zip(names, [*names[1:], names[0]])]


COMES = [event("0830", "A", uid, "BEFORE", "MEETING", "0830") for uid in uids("A")]
WORKS_ON = [works_on("0830", uid, "B00001") for uid in uids("A")]
UNKNOWN = [works_on("0830", "A00001", uid, identity="????") for uid in uids("B")]


def leaves_meeting(uid, stp="P"):
    """The line of a train that leaves Meeting for Beyond."""
    return event("0900", "D", uid, "MEETING", "BEYOND", "0900", stp)


def dockers(*lines):
    return prints("MEETING", DAY, *lines)


def answers(wanted, *words):
    """Checks that a command has this end and this output, and takes less than a second of processor time."""
    ended = docker(*words, before=in_seconds(1))
    killed = -signal.SIGKILL, -signal.SIGXCPU
    assert ended.status not in killed, "it needs more than a second of processor time"
    same("the end", ended[::2], wanted[::2])
    same("the output", ended.output, wanted.output)


@each("units, place, wanted", {
    "schedules of one UID": (of_one_uid, "MEETING", dockers(leaves_meeting("A00001", "N"))),
    "associations of one group": (
        of_one_group, "MEETING",
        dockers(works_on("0900", "A00001", "B00001", stp="N"), leaves_meeting("A00001"), leaves_meeting("B00001")),
    ),
    "bases of one partner of as many schedules": (of_one_partner, "MEETING", dockers(*COMES, *WORKS_ON, leaves_meeting("B00001", "N"))),
    "partners of a base whose call comes after as many lines": (
        after_many_lines, "MEETING",
        dockers(event("0830", "A", "A00001", "BEFORE", "MEETING", "0830"), *UNKNOWN),
    ),
    "TIPLOCs renamed in a ring": (in_a_ring, "P000000", prints("P000000", DAY, name="A PLACE")),
})
def test_day_of_a_hostile_file(units, place, wanted):
    give(extract(header("240609", indicator="F"), *units()).encode(), "hostile")
    answers(wanted, "day", "hostile", place, DAY)


def test_trains_of_one_uid_with_many_schedules():
    """All schedules of the UID run on the day and have the train identity."""
    give(extract(header("240609", indicator="F"), *of_one_uid()).encode(), "hostile")
    takes("STATE", "hostile")
    ended = run([*in_seconds(1), DESK, "STATE"], f"trains 1A10 {DAY}\n".encode())
    same("the answer", ended, Ended(0, Answer(0, f"A00001 {DAY} N\n".encode()).written(), b""))


def calls_often():
    """A train that calls at Meeting this often, with an arrival and a departure at each call."""
    calls = (ROWS // 2) * record("LIMEETING 0900 0900      00000000")
    return [schedule("A00001", 0, "P", origin("BEFORE", "0800"), calls, terminus("BEYOND", "0930"))]


@each("units", {
    "schedules of one UID": of_one_uid,
    "associations of one group": of_one_group,
    "bases of one partner of as many schedules": of_one_partner,
    "partners of a base whose call comes after as many lines": after_many_lines,
    "a train that calls often": calls_often,
})
def test_details_of_a_hostile_file(units):
    """The detailed docker has the same lines as the docker. Each has the records of its own train, and
    its own association."""
    give(extract(header("240609", indicator="F"), *units()).encode(), "hostile")
    takes("STATE", "hostile")
    requests = f"print MEETING {DAY}\ndetail MEETING {DAY}\n"
    ended = run([*in_seconds(2), DESK, "STATE"], requests.encode())
    plain, detailed = answers_in(ended.output)
    same("the end", ended[::2], (0, b""))
    assert docker_part(detailed.text) == plain.text
    numbers = set()
    for line in detailed.text.decode().split("\n")[1:-2]:
        kind, uid, at = line[6], line[13:19], line[322:402]
        numbers.add((uid, int(line[68:78]), kind))
        assert line[82:88] == uid and at[2:9] == "MEETING", line
        assert line[403:].strip() == "" if kind in "AD" else line[406:418] == uid + line[41:47], line
    assert len([it for it in numbers if it[2] in "AD"]) == sum(line[6:7] in (b"A", b"D") for line in plain.text.split(b"\n")[1:-2])


def test_merge_of_two_ledgers_of_100_000_files():
    give(ledger(range(0, 2 * FILES, 2)), "even")
    give(ledger(range(1, 2 * FILES, 2)), "odd")
    answers(DONE, "merge", "even", "odd")
    holds_only("even", ledger(range(2 * FILES)))


def test_files_of_a_ledger_of_200_000_files():
    give(ledger(range(2 * FILES)), "both")
    answers(done("".join(f"2005-09-26 0105 {it:07} U LASTREF\n" for it in range(2 * FILES)).encode()), "files", "both")
