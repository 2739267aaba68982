"""Files that are still being written, folders that are gone, and what is written where."""
import importlib
import os
import shutil
import subprocess
import time

import pytest
from offices import NOW, OFFICE, STATION, extract

FULL = extract("DFROC1F", "2024-06-10T21:00", "DFROC1E", schedules=20)
MONDAY = extract("DFROC1G", "2024-06-11T21:00", "DFROC1F", kind="U", schedules=2, departs="0905")


@pytest.fixture
def north(offices):
    return offices.office("north")


def aged(path, seconds):
    os.utime(path, (time.time() - seconds,) * 2)


def test_a_program_that_ends_while_it_is_looked_at(monkeypatch, tmp_path):
    """A program that has ended doesn't keep the other programs from being looked at."""
    monkeypatch.syspath_prepend(OFFICE)
    waiting = importlib.import_module("station_office.waiting")
    with subprocess.Popen(["true"]) as ended:
        pass
    programs = [f"/proc/{number}" for number in (ended.pid, os.getpid())]
    monkeypatch.setattr(waiting.glob, "glob", lambda *_: programs)
    with open(tmp_path / "file", "wb"):
        assert waiting.being_written([tmp_path / "file"]) == {tmp_path / "file"}


@pytest.mark.parametrize(("age", "waits"), [(3, True), (500, True), (700, False), (-3, True), (-700, False), (86400, False)])
def test_a_file_waits_until_it_is_still(offices, north, age, waits):
    """In this test a file has to be still for ten minutes. A file whose time is far in the future is taken at once, since it would wait too long."""
    aged(north.put("full.cif", FULL), age)
    said = north.run("take", STILL="600")[1]
    assert (north.list("in"), north.known()) == ((["full.cif"], []) if waits else ([], ["DFROC1F"]))
    assert ("full.cif: it changed" in said) == waits
    assert "status" not in said


def test_a_slow_copy_is_taken_whole(offices, north):
    """The first run comes in the middle of the copy."""
    path = north.put("full.cif", FULL[:1000])
    offices.says(north.run("take", STILL="")[1], "full.cif: it changed", "so it waits for the next run")
    path.write_bytes(FULL)
    aged(path, 61)
    north.run("take", STILL="")
    assert (north.known(), north.list("refused")) == (["DFROC1F"], [])


def test_an_open_file_waits(offices, north):
    """A program that writes the file has paused for longer than a minute."""
    path = north.folder / "in" / "full.cif"
    with open(path, "wb") as file:
        file.write(FULL[:1000])
        file.flush()
        aged(path, 3600)
        offices.says(north.run("take")[1], "full.cif: a program is writing it, so it waits for the next run")
        assert north.list("in") == ["full.cif"]
        file.write(FULL[1000:])
    with open(path, "rb"):
        north.run("take")
    assert north.known() == ["DFROC1F"]


def test_a_named_file_does_not_wait(offices, north):
    path = offices.root / "full.cif"
    path.write_bytes(FULL)
    north.run("take", path, STILL="60")
    assert north.known() == ["DFROC1F"]


def unreadable(path):
    shutil.rmtree(path) if not path.is_symlink() else path.unlink()


def dangling(path):
    unreadable(path)
    path.symlink_to(path.parent / "nowhere")


def a_file(path):
    unreadable(path)
    path.write_text("")


@pytest.mark.parametrize(("spoils", "reason"), [(unreadable, "No such file or directory"), (dangling, "No such file or directory"), (a_file, "Not a directory")])
@pytest.mark.parametrize(("name", "commands"), [("in", ["take", "morning", "arrivals"]), ("swap", ["merge", "send", "morning", "arrivals"])])
def test_a_folder_that_is_gone(offices, north, name, commands, spoils, reason):
    north.take("full.cif", FULL)
    spoils(north.folder / name)
    for command in commands:
        out, said = north.run(command, status=4)
        offices.says(said, f"station-office: {north.folder / name}: it can't be read: {reason}")
        assert said.count("it can't be read") == 1
        assert (out.count("DOCKER") == 2) == (command == "morning")


@pytest.mark.parametrize(("name", "commands"), [("in", ["take", "morning"]), ("swap", ["send", "morning"])])
def test_a_folder_that_cannot_be_written(offices, north, name, commands):
    """The office runs as another user, who may write everything but this folder."""
    north.take("full.cif", FULL)
    if os.getuid() != 0:
        pytest.skip("only root can become another user")
    for path in (offices.root, *offices.root.rglob("*")):
        os.chown(path, 65534, 65534, follow_symlinks=False)
    folder = (north.folder / name).resolve()
    os.chown(folder, 0, 0)
    for command in commands:
        words = ["setpriv", "--reuid=65534", "--regid=65534", "--clear-groups", STATION, "--now", f"{NOW:%FT%H:%M}", command, str(north.state)]
        ended = subprocess.run(words, stdin=subprocess.DEVNULL, capture_output=True, text=True, env={**os.environ, "MAX_AGE": "999"}, check=False)
        assert ended.returncode == 4, ended.stderr
        offices.says(ended.stderr, f"{north.folder / name}: it can't be written: Permission denied")


def test_new_makes_the_folders(offices):
    north = offices.root / "fresh" / "north.state"
    north.parent.mkdir()
    subprocess.run([STATION, "new", north], check=True)
    assert sorted(path.name for path in north.parent.iterdir() if not path.name.startswith(".")) == ["in", "north.state", "north.state.name", "swap"]


@pytest.mark.parametrize("command", ["morning", "take", "known", "send", "withdraw"])
def test_a_file_that_is_no_state(offices, command):
    """Nothing is written beside it."""
    path = offices.root / "other" / "passwd"
    path.parent.mkdir()
    path.write_text("root:x:0:0:root:/root:/bin/bash\n")
    ended = subprocess.run([STATION, command, path, *(["DFROC1F"] if command == "withdraw" else [])], stdin=subprocess.DEVNULL, capture_output=True, text=True, check=False)
    assert (ended.returncode, [it.name for it in path.parent.iterdir()]) == (1, ["passwd"])
    offices.says(ended.stderr, f"station-office: {path}: docker: state refused: offset 0: Mark")


def asking(offices, office, command):
    """The messages of a command, and what zstd was asked. This zstd writes down its words, unless it is ended before."""
    asked, program = offices.root / "asked", offices.root / "bin" / "zstd"
    program.parent.mkdir(exist_ok=True)
    program.write_text(f'#!/bin/bash\n{shutil.which("zstd")} "$@"; status=$?; echo "$@" >>{asked}; exit $status\n')
    program.chmod(0o755)
    asked.write_text("")
    said = office.run(command, PATH=f"{program.parent}:{os.environ['PATH']}")[1]
    return said, asked.read_text()


@pytest.mark.parametrize("is_changed", [False, True])
def test_a_state_that_was_sent_is_not_packed_again(offices, north, is_changed):
    """The copy of STATE is the file in swap/, unless somebody has changed that file."""
    north.take("full.cif", FULL)
    north.run("send")
    before = north.state.read_bytes()
    if is_changed:
        north.sent().write_bytes(north.sent().read_bytes()[:-1])
    north.put("monday.cif", MONDAY)
    asked = asking(offices, north, "take")[1]
    assert (str(north.state) in asked) == is_changed
    assert str(north.folder / "in" / "monday.cif") in asked
    copy = sorted((north.folder / "copies").iterdir())[-1]
    assert subprocess.run(["zstd", "-dcq", copy], capture_output=True, check=True).stdout == before


def test_a_merged_state_is_not_merged_again(offices, north):
    """The checksum of a merged state is known, so only its beginning is unpacked. It is merged again if STATE lost what it brought."""
    south = offices.office("south")
    south.take("full.cif", extract("DFROC1F", "2024-06-10T21:00", "DFROC1E", schedules=4000))
    south.run("send")
    for is_unpacked in (True, False):
        said, asked = asking(offices, north, "merge")
        assert ("-dcq" in asked) == is_unpacked
    offices.says(said, south.name(), "it brought nothing new")
    copy = sorted((north.folder / "copies").iterdir())[0]
    north.run("restore", copy, force=True)
    assert north.known() == []
    north.run("merge")
    assert north.known() == ["DFROC1F"]


def test_an_unchanged_state_is_not_sent_again(offices, north):
    north.take("full.cif", FULL)
    north.run("send")
    before = os.stat(north.sent())
    north.run("send")
    assert os.stat(north.sent()).st_mtime_ns == before.st_mtime_ns
    north.take("monday.cif", MONDAY)
    north.run("send")
    assert os.stat(north.sent()).st_mtime_ns != before.st_mtime_ns
    north.sent().unlink()
    north.run("send")
    assert north.sent().exists()


def test_a_morning_without_news_copies_nothing(offices, north):
    """A copy is made before STATE changes, one for each run."""
    north.put("full.cif", FULL)
    north.put("monday.cif", MONDAY)
    north.morning()
    before = north.list("copies")
    assert len(before) == 1
    north.morning()
    assert north.list("copies") == before


def test_the_last_line_names_each_trouble(offices, north):
    """The greatest status doesn't hide the others."""
    north.take("full.cif", FULL)
    north.put("junk.cif", b"junk")
    north.put("half.cif", extract("DFROC1T", "2024-06-11T21:00", schedules=3))
    unreadable(north.folder / "swap")
    last = north.morning(status=5, MAX_AGE="1")[1].splitlines()[-1]
    assert last == f"station-office: {north.state}: status 5: 1 held back (status 1), 1 refused (status 1), 1 failed (status 4), 1 old (status 5)"
    north = offices.office("south")
    north.put("full.cif", FULL)
    assert "status" not in north.morning()[1]


def test_both_times_are_named(offices, north):
    """A clock that is a year slow doesn't make a file wrong."""
    said = north.take("full.cif", FULL, status=1, now=NOW.replace(year=2023))
    offices.says(said, "the full extract DFROC1F of 2024-06-10 21:00 lies more than a day ahead of the clock, which says 2023-06-12 06:00 and may be wrong")
    north.run("take", north.folder / "held" / "full.cif.zst")
    out = north.run("known", status=5, now=NOW.replace(year=2023))[0]
    offices.says(out, "ahead: the full extract DFROC1F of 2024-06-10 21:00", "which says 2023-06-12 06:00 and may be wrong")
    out = north.run("known", status=5, now=NOW.replace(year=2025), MAX_AGE="")[0]
    offices.says(out, "old: the full extract DFROC1F of 2024-06-10 21:00", "by the clock, which says 2025-06-12 06:00 and may be wrong;")
    out = north.run("known", status=5, now=NOW.replace(day=14), MAX_AGE="")[0]
    offices.says(out, "old: the full extract DFROC1F of 2024-06-10 21:00 is 3 days old by the clock, which says 2024-06-14 06:00; more than 36 hours is too old")


def test_arrivals_merge_although_in_is_gone(offices, north):
    """What can be done is done."""
    south = offices.office("south")
    south.take("full.cif", FULL)
    south.run("send")
    unreadable(north.folder / "in")
    offices.says(north.run("arrivals", status=4)[1], south.sent().name, "it brought the full extract DFROC1F")
    assert north.known() == ["DFROC1F"]


def test_numbers_in_faults(offices, north):
    """The line of docker has the numbers, and so does its meaning."""
    tab = FULL.replace(b"ASHFELD   ", b"ASHFELD\t  ", 1)
    said = north.take("tab.cif", tab, status=1)
    offices.says(said, "docker: file refused: record 2: Byte 10")
    offices.says(said, "column 10 has the leftmost byte that isn't printable")
    said = north.take("cut.cif", FULL[:81 * 5], status=1)
    offices.says(said, "the text ends without a trailer; 6 is one more than the number of its records")


def test_lines_of_a_morning(offices, north):
    """Each line on standard error begins in the same way. A line about STATE names it."""
    north.take("monday.cif", MONDAY)
    said = north.morning(status=5, MAX_AGE="1")[1]
    assert all(line.startswith("station-office: ") for line in said.splitlines())
    for line in ("known up to update DFROC1G", "old: the update DFROC1G"):
        offices.says(said, f"station-office: {north.state}: {line}")


@pytest.mark.parametrize("program", ["station-office", "screen/serve"])
@pytest.mark.parametrize("option", ["--help", "--version"])
def test_options_that_answer(program, option):
    ended = subprocess.run([OFFICE / program, option], stdin=subprocess.DEVNULL, capture_output=True, text=True, check=False)
    assert (ended.returncode, ended.stderr) == (0, "")
    assert ended.stdout

