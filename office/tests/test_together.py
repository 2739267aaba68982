"""Tests that many dockers can be asked for together: the answers are the same as for one request each, in the same order, whatever happens to the process. DOCKER names the
program. A stand-in speaks the protocol of the program `desk`."""
import fcntl
import os
import pathlib
import sys

import pytest
from offices import EXAMPLES, OFFICE, docker

sys.path.append(str(OFFICE))
import dockers  # noqa: E402

STAND_IN = pathlib.Path(__file__).resolve().parent / "desk-of-docker"
# Among them a place that nobody knows, a word that is no place, a day that isn't one, and a pair that comes twice.
WANTED = [
    ("ASHFELD", "2024-06-12"), ("BRAYTON", "2024-06-12"), ("NOWHERE", "2024-06-12"), ("-A", "2024-06-12"), ("ASHFELD", "2024-06-31"), ("CORHAM", "2024-06-13"), ("ASHFELD", "2024-06-12"),
]

DAYS = [(place, f"2024-06-{day}") for place in ("ASHFELD", "BRAYTON", "CORHAM") for day in range(10, 18)]
TRAINS = [(f"A1000{number}", "2024-06-12") for number in range(1, 6)]


@pytest.fixture
def state(tmp_path):
    path = tmp_path / "STATE"
    docker("new", path)
    docker("take", path, EXAMPLES / "full.cif")
    return path


@pytest.fixture
def reader_of(state):
    """Makes a reader whose process has some troubles."""
    readers = []

    def made(**environment):
        os.environ.update(environment)
        readers.append(dockers.Desk(str(STAND_IN), str(state)))
        return readers[-1]

    before = dict(os.environ)
    yield made
    for reader in readers:
        reader.close()
    os.environ.clear()
    os.environ.update(before)


def asked(tmp_path):
    return (tmp_path / "asked").read_text().splitlines()


@pytest.mark.parametrize("command", ["print", "permanent"])
def test_the_same_answers(reader_of, command):
    reader = reader_of()
    one = [reader.print_docker(*it) if command == "print" else reader.permanent(*it) for it in WANTED]
    assert list(reader.dockers(WANTED, command)) == one
    assert [answer.status for answer in one] == [0, 0, 0, 2, 2, 0, 0]
    assert one[0].text != one[1].text


def test_commands_give_the_same(reader_of, state):
    commands = dockers.Commands(os.environ["DOCKER"], str(state))
    assert list(commands.dockers(WANTED)) == list(reader_of().dockers(WANTED))
    assert [answer.status for answer in commands.dockers(WANTED[:1], "permanent")] == [dockers.UNKNOWN]


def test_none():
    assert list(dockers.Desk("/nonexistent", "/nonexistent").dockers([("-A", "2024-06-12")])) == [dockers.wrong_place("-A")]


def test_what_is_at_hand_is_not_asked_for(reader_of, tmp_path):
    """Answers that were kept are given again, and stand in their places."""
    reader = reader_of(ASKED=str(tmp_path / "asked"))
    kept = dockers.Answer(0, b"kept\n")
    list(reader.dockers(WANTED[:1]))
    reader.lists["print", "BRAYTON", "2024-06-12"] = kept
    found = list(reader.dockers(WANTED))
    assert found[1] == kept and found[0] == found[6] != kept and found[5].text.startswith(b"DOCKER CORHAM")
    assert asked(tmp_path)[1:] == ["print ASHFELD 2024-06-12", "print NOWHERE 2024-06-12", "print CORHAM 2024-06-13", "print ASHFELD 2024-06-12"]


@pytest.mark.parametrize("trouble, statuses", [("ends 1", [4, 4, 4, 2, 2, 4, 4]), ("ends 3", [0, 0, 0, 2, 2, 0, 4]), ("short 2", [0, 0, 4, 2, 2, 4, 4]), ("babbles 2", [0, 0, 4, 2, 2, 4, 4])])
def test_a_process_that_fails(reader_of, tmp_path, trouble, statuses):
    """Each process fails at the same answer. The second one is asked for all that is left, and after its end every answer is the fault."""
    sound = list(reader_of().dockers(WANTED))
    reader = reader_of(TROUBLE=trouble, STARTS=str(tmp_path / "starts"))
    found = list(reader.dockers(WANTED))
    assert [answer.status for answer in found] == statuses
    assert [answer for answer in found if answer.status == 0] == [answer for answer, status in zip(sound, statuses) if status == 0]
    assert len({answer.text for answer in found if answer.status == 4}) == 1
    assert len((tmp_path / "starts").read_text().splitlines()) == 2


@pytest.mark.parametrize("trouble", ["ends 2", "short 4", "counts 5", "babbles 7"])
def test_a_process_that_ends_among_several_requests(reader_of, tmp_path, trouble):
    """The first process fails, with requests whose answers nobody has read. The second one answers them, and no other request has to be sent again."""
    sound = list(reader_of().dockers(DAYS))
    reader = reader_of(TROUBLE=trouble, ASKED=str(tmp_path / "asked"))
    answers = reader.dockers(DAYS)
    found = [next(answers)]
    os.environ["TROUBLE"] = ""
    assert found + list(answers) == sound
    left = [f"print {place} {day}" for place, day in DAYS[int(trouble.split()[1]) - 1:]]
    assert asked(tmp_path)[-len(left):] == left


def test_a_process_that_refuses_one_of_several(reader_of):
    """Only the docker that was refused is lacking."""
    sound = list(reader_of().dockers(DAYS))
    found = list(reader_of(TROUBLE="refuses 5").dockers(DAYS))
    assert found == [*sound[:4], dockers.Answer(3, b"docker: want of memory\n"), *sound[5:]]


def test_other_requests_between(reader_of, tmp_path):
    """While the next dockers are asked for ahead, other requests get their own answers, even the same ones. Nothing is asked for twice."""
    calm = reader_of()
    sound, trains = list(calm.dockers(DAYS)), [calm.train(uid, day) for uid, day in TRAINS]
    reader = reader_of(ASKED=str(tmp_path / "asked"))
    for number, answer in enumerate(reader.dockers(DAYS)):
        assert answer == sound[number]
        assert reader.train(*TRAINS[number % len(TRAINS)]) == trains[number % len(TRAINS)]
        if number == 3:
            assert reader.trains(TRAINS) == trains
            assert reader.print_docker(*DAYS[5]) == sound[5]
    assert sorted(line for line in asked(tmp_path) if line.startswith("print")) == sorted([*(f"print {place} {day}" for place, day in DAYS), f"print {DAYS[5][0]} {DAYS[5][1]}"])


def test_no_answer_is_given_of_an_earlier_state(reader_of, state):
    """A docker that was asked for ahead isn't given after STATE has changed, and after that all dockers are new."""
    reader = reader_of()
    wanted = [("ASHFELD", f"2024-06-{day}") for day in range(10, 20)]
    answers = reader.dockers(wanted)
    before = next(answers)
    docker("take", state, EXAMPLES / "monday.cif")
    docker("take", state, EXAMPLES / "tuesday.cif")
    place, day = wanted[2]
    assert reader.print_docker(place, day).text == docker("print", state, place, day)
    assert [answer.text for answer in answers] == [docker("print", state, *one) for one in wanted[1:]]
    assert before.status == 0


def test_the_dockers_of_one_call_are_of_one_state(reader_of, state):
    """If STATE changes while they are read, only the next call sees the new one."""
    sound = list(reader_of().dockers(DAYS))
    reader = reader_of()
    answers = reader.dockers(DAYS)
    found = [next(answers)]
    docker("take", state, EXAMPLES / "monday.cif")
    docker("take", state, EXAMPLES / "tuesday.cif")
    assert found + list(answers) == sound
    assert list(reader.dockers(DAYS)) != sound


def test_pipes_of_one_page(reader_of, monkeypatch):
    """Neither side waits for the other for ever if pipes have little room: many requests are sent while the dockers that were asked for ahead don't fit."""
    monkeypatch.setattr(dockers, "ROOM", 4096)
    calm = reader_of()
    sound, trains = list(calm.dockers(DAYS)), calm.trains(TRAINS * 100)
    reader = reader_of()
    reader.begins()
    fcntl.fcntl(reader.process.stdin, fcntl.F_SETPIPE_SZ, 4096)
    found = []
    for answer in reader.dockers(DAYS):
        found.append(answer)
        assert len(found) > 2 or reader.trains(TRAINS * 100) == trains
    assert found == sound


def test_a_state_that_changes(reader_of, state):
    """What was kept of another STATE isn't given."""
    reader = reader_of()
    before = list(reader.dockers(WANTED))
    reader.lists["print", "ASHFELD", "2024-06-12"] = dockers.Answer(0, b"old\n")
    docker("take", state, EXAMPLES / "monday.cif")
    docker("take", state, EXAMPLES / "tuesday.cif")
    after = list(reader.dockers(WANTED))
    assert after[0].text == docker("print", state, "ASHFELD", "2024-06-12")
    assert after[0] != before[0]


def test_many(reader_of):
    """More requests than a pipe has room for."""
    wanted = [("ASHFELD", f"2024-06-{day:02}") for day in range(10, 30)] * 12
    found = list(reader_of().dockers(wanted))
    assert len(found) == 240 and found[:20] == found[220:]
