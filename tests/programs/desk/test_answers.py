"""Each request, and each way in which it can be refused."""
import os
import subprocess

import desk_extracts as extracts
import records
from desks import DAY_REFUSED, DEVICE, DONE, MEMORY, NOTHING, Answer, Desk, desk, docker, ends_well
from given import BAD_STATES
from lists import train_text
from mirror import WRITING_LINES, give_large, mirrored, reading, state_of, writing
from outcomes import state_refused
from programs import give, held, in_memory, renames
from tables import each

PLACE_DAYS = [
    ("ASHFELD", "2024-06-12"), ("BRAYTON", "2024-06-13"), ("CORHAM", "2024-06-10"), ("NOWHERE", "2024-06-12"), ("ASHFELD", "2024-06-30"),
    ("ASHFELD", "1960-01-01"), ("ASHFELD", "2059-12-31"),
]


def test_print_answers_as_docker_print_does():
    with reading("full", "monday") as asked:
        for place, date in PLACE_DAYS:
            wanted = docker("print", "STATE", place, date)
            assert wanted.status == 0, f"status for {place} {date}"
            asked.gives(wanted, f"print {place} {date}")


@each("uid, date, wanted", {
    "an overlay": ("A00001", "2024-06-10", "O RUNS "),
    "a cancellation": ("A00002", "2024-06-12", "C CANCELLED "),
    "a new schedule": ("A00005", "2024-06-14", "N RUNS "),
    "the later of two permanent ones": ("A00001", "2024-06-20", "P RUNS "),
    "a permanent one": ("A00001", "2024-06-09", "P RUNS "),
    "a day on which it doesn't run": ("A00002", "2024-06-15", "  NONE "),
    "a UID that is unknown": ("Z00000", "2024-06-12", "  NONE "),
    "a train past midnight": ("A00003", "2024-06-20", "P RUNS "),
    "a UID of other characters": ("-~!#$%", "2024-06-12", "  NONE "),
})
def test_train_answers_by_formats(uid, date, wanted):
    text = train_text((extracts.GOOD["full"], extracts.GOOD["monday"]), uid, date)
    assert text[26:26 + len(wanted)] == wanted.encode()
    with reading("full", "monday") as asked:
        asked.gives(Answer(0, text), f"train {uid} {date}")


def test_train_to_the_letter():
    lines = [
        "TRAIN  A00002  2024-06-14 P RUNS      2024-06-09 2100 DFROC1B         15        ",
        "BSNA000022401019999991111100 POO2B20                                           P",
        "LOASHFELD 1000 10001  SL                                                        ",
        "LICORHAM            1014H00000000                                               ",
        "LTBRAYTON 1030 10302                                                            ",
        "END                                                                             ",
    ]
    with reading("full") as asked:
        assert asked.ask("train A00002 2024-06-14") == Answer(0, "".join(f"{line}\n" for line in lines).encode())


def test_a_revision_is_kept_as_a_new_schedule():
    text = train_text((extracts.GOOD["full"], extracts.GOOD["tuesday"]), "A00002", "2024-06-14")
    assert text[81:90] == b"BSNA00002"
    with reading("full", "tuesday") as asked:
        assert asked.ask("train A00002 2024-06-14") == Answer(0, text)


@each("names", {"no file": (), "one file": ("full",), "three files": ("full", "monday", "night")})
def test_files_answers_as_docker_files_does(names):
    with reading(*names) as asked:
        assert asked.ask("files") == docker("files", "STATE")


def test_each_change_is_seen_at_once_is_in_state_after_save_and_not_before():
    with mirrored("full") as (asked, mirror):
        for change in ("take monday", "merge second.state", "horizon 2024-06-11"):
            mirror.agrees(asked, change, "files", "print ASHFELD 2024-06-16", "train A00001 2024-06-16")
        assert held() == mirror.stored
        mirror.agrees(asked, "save")
        assert held() == mirror.stored != state_of("full"), "the changes changed something"


def test_renew_joins_what_state_holds_and_loses_nothing():
    with mirrored("full") as (asked, mirror):
        mirror.agrees(asked, "take night")
        assert docker("take", "STATE", "monday") == DONE
        mirror.take_beside("monday")
        mirror.agrees(asked, "files", "renew", "files", "print ASHFELD 2024-06-12")
        assert asked.ask("files").text.count(b"\n") == 3


def test_renew_of_a_desk_that_only_reads():
    with reading("full") as asked:
        before = asked.ask("files")
        assert docker("take", "STATE", "monday") == DONE
        asked.gives(before, "files")
        asked.does("renew")
        asked.gives(docker("files", "STATE"), "files")


def changes_nothing(asked, wanted, line):
    """A request that is refused with this answer changes nothing."""
    before = asked.ask("files"), asked.ask("print ASHFELD 2024-06-12")
    asked.gives(wanted, line)
    assert (asked.ask("files"), asked.ask("print ASHFELD 2024-06-12")) == before


@each("name", list(extracts.BAD))
def test_a_file_that_is_refused_changes_nothing(name):
    wanted = Answer(1, f"docker: file refused: {extracts.BAD[name][1]}\n".encode())
    with writing("full", "monday") as asked:
        changes_nothing(asked, wanted, f"take {name}")
        assert docker("take", "STATE", name) == wanted


@each("text, offset, cause", BAD_STATES)
def test_a_state_that_is_refused_is_not_merged(text, offset, cause):
    give(text, "other")
    with writing("monday") as asked:
        changes_nothing(asked, Answer(1, state_refused(offset, cause).errors), "merge other")


@each("bad, offset, cause", BAD_STATES)
def test_renew_refuses_a_state_that_is_none_now(bad, offset, cause):
    with writing("full") as asked:
        # After this answer the desk has read STATE, so it doesn't begin with the bad one.
        assert asked.ask("files").status == 0
        good = held()
        give(bad)
        changes_nothing(asked, Answer(1, state_refused(offset, cause).errors), "renew")
        asked.gives(DEVICE, "save")
        assert held() == bad
        give(good)
        asked.does("renew", "save")


def test_files_that_cannot_be_opened_or_read():
    os.mkdir("folder")
    with writing("full") as asked:
        for verb, name in (("take", "missing"), ("take", "folder"), ("merge", "missing"), ("merge", "folder"), ("take", "full/")):
            asked.gives(DEVICE, f"{verb} {name}")
            assert docker(verb, "STATE", name) == DEVICE, f"{verb} {name}, by docker"
        asked.gives(docker("files", "STATE"), "files")
        os.remove("STATE")
        asked.gives(DEVICE, "renew", "save")
        assert not os.path.exists("STATE"), "save made a STATE"


def test_days_before_the_horizon_are_refused():
    with reading("full", horizon="2024-06-10") as asked:
        for date in ("2024-06-09", "2024-06-10", "2024-06-11", "2024-06-12"):
            asked.gives(DAY_REFUSED, f"print ASHFELD {date}")
            assert docker("print", "STATE", "ASHFELD", date) == DAY_REFUSED
        assert asked.ask("print ASHFELD 2024-06-13").status == 0
        asked.gives(DAY_REFUSED, "train A00001 2024-06-09")
        asked.gives(Answer(0, train_text((extracts.GOOD["full"],), "A00001", "2024-06-10")), "train A00001 2024-06-10")


def test_a_lower_horizon_changes_nothing():
    with mirrored("full", horizon="2024-06-10") as (asked, mirror):
        mirror.agrees(asked, "horizon 2024-06-01", "print ASHFELD 2024-06-12", "save")
        assert held() == state_of("full", horizon="2024-06-10")


def test_a_desk_without_write_writes_nothing():
    with reading("full") as asked:
        stamp = os.stat("STATE")
        asked.gives(NOTHING, *WRITING_LINES)
        assert asked.ask("files") == docker("files", "STATE")
    assert held() == state_of("full")
    now = os.stat("STATE")
    assert (now.st_ino, now.st_mtime_ns) == (stamp.st_ino, stamp.st_mtime_ns)


def test_files_are_named_by_all_that_follows_spaces_too():
    lines = {"take my file": "my file", "  take   my file ": "my file ", "take    full": "full", "take ./monday": "monday"}
    with mirrored() as (asked, mirror):
        for line, name in lines.items():
            asked.gives(mirror.answer("take", name), line)
            mirror.agrees(asked, "files")
        asked.gives(DEVICE, "take my  file", "take full ", "merge monday.state ", "take 'my file'")
        mirror.agrees(asked, "merge  second.state", "files")


def test_a_file_named_stdin_or_with_a_hyphen_is_named_by_its_folder():
    for name in ("stdin", "-x"):
        give(held("monday"), name)
    with mirrored() as (asked, mirror):
        asked.gives(NOTHING, "take stdin", "take -x", "merge stdin", "merge -x", "take  stdin")
        asked.gives(mirror.answer("take", "monday"), "take ./stdin", "take ./-x")
        mirror.agrees(asked, "files")


def test_a_file_from_a_pipe():
    os.mkfifo("queue")
    with mirrored() as (asked, mirror):
        asked.say(b"take queue\n")
        give(held("monday"), "queue")
        assert asked.answer() == mirror.answer("take", "monday")
        mirror.agrees(asked, "files")


HEADER, BLANK = records.header("240612")[:-1], records.place("TI", "ASHFELD")[:-1]


@each("first, again, wanted", {
    "places behind a header": (HEADER, BLANK, MEMORY),
    "places alone": (BLANK, BLANK, Answer(1, b"docker: file refused: record 1: Place\n")),
    "headers": (HEADER, HEADER, Answer(1, b"docker: file refused: record 2: Place\n")),
})
def test_a_file_without_end_of(first, again, wanted):
    """In 64 MB of memory the file is refused, and the session continues."""
    os.mkfifo("queue")
    line = f"exec >queue; echo '{first}'; exec yes '{again}'"
    with mirrored("full", program=in_memory(65536)) as (asked, mirror):
        with subprocess.Popen(["sh", "-c", line]) as source:
            try:
                assert asked.ask("take queue") == wanted
            finally:
                source.terminate()
        mirror.agrees(asked, "files", "take monday", "files", "save")
        assert held() == mirror.stored


@each("comes", {"written in place": lambda text: give(text, "extract"), "renamed into its place": lambda text: renames(text, "extract")})
def test_a_file_that_changes_between_two_takes_of_its_name(comes):
    """Each `take` takes what the file holds when that `take` opens it."""
    with mirrored("full") as (asked, mirror):
        for name in ("monday", "night", "no_day", "tuesday", "cut", "last", "monday"):
            comes(held(name))
            asked.gives(mirror.answer("take", name), "take extract")
            mirror.agrees(asked, "files", "print ASHFELD 2024-06-12", "print CORHAM 2024-06-18")
        os.remove("extract")
        asked.gives(DEVICE, "take extract")
        mirror.agrees(asked, "save")
        assert held() == mirror.stored == state_of("full", "monday", "night", "tuesday", "last")


def test_a_docker_that_no_pipe_holds_at_once_of_a_reader_that_reads_little():
    give_large(3000)
    wanted = docker("print", "STATE", "ASHFELD", "2024-06-12")
    assert len(wanted.text) > 2 * 65536, "the docker is large"
    with Desk("STATE") as asked:
        asked.say(b"print ASHFELD 2024-06-12\nfiles\n")
        output = wanted.written() + docker("files", "STATE").written()
        while len(asked.held) < len(output):
            assert asked.more(1000), "it ended"
        assert asked.held == output
        asked.held = b""
        ends_well(asked)


def test_a_docker_of_more_than_a_million_bytes():
    give_large(18000)
    wanted = docker("print", "STATE", "ASHFELD", "2024-06-12")
    assert (wanted.status, len(wanted.text)) == (0, 57 * 18002)
    is_same = desk("STATE", given=b"print ASHFELD 2024-06-12\n").output == wanted.written()
    assert is_same, "another answer"
