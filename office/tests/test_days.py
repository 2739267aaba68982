"""Tests how an office runs by itself: files that arrive, the dockers in dockers/, the evening, and the horizon that moves on. DOCKER names the program, DESK the
program `desk`."""
import datetime
import os
import shutil
import subprocess
import threading
import time
import unittest

import pytest
from offices import NOW, STATION, Place, docker, extract

FULL = extract("DFROC1F", "2024-06-10T21:00", "DFROC1E", schedules=20)
MONDAY = extract("DFROC1G", "2024-06-11T01:00", "DFROC1F", kind="U", schedules=2, departs="0905")
TUESDAY = extract("DFROC1H", "2024-06-11T21:00", "DFROC1G", kind="U", schedules=1, prefix="B")


@pytest.fixture
def swap(tmp_path):
    folder = tmp_path / "swap"
    folder.mkdir()
    return folder


@pytest.fixture
def office_of(tmp_path, swap):
    return lambda name: Place(unittest.TestCase(), tmp_path / name, f"{name}.state", swap)


@pytest.fixture
def north(office_of):
    found = office_of("north")
    (found.folder / "dockers").mkdir()
    return found


def filed(office, day=None):
    """The names in dockers/, or in the folder of a day there. Hidden ones count too."""
    return sorted(path.name for path in (office.folder / "dockers" / (day or "")).iterdir())


def text(office, day, name):
    """The content of a file in dockers/. The lines above a docker are left out."""
    return plain((office.folder / "dockers" / day / name).read_bytes())


def plain(content):
    """Dockers without the lines above them."""
    return b"".join(line for line in content.splitlines(True) if not line.startswith(b"# "))


def arrivals(office, still="0.3", **how):
    """Runs `arrivals`, which waits for a short while only. Returns its messages."""
    return office.run("arrivals", STILL=still, **how)[1]


def test_dockers_are_filed(north):
    """The morning writes a text and a page for each place, and the evening does so for tomorrow. What is printed is the same."""
    north.put("full.cif", FULL)
    printed = north.morning()[0].encode()
    assert filed(north) == ["2024-06-12"]
    assert filed(north, "2024-06-12") == ["ASHFELD.html", "ASHFELD.txt", "BRAYTON.html", "BRAYTON.txt"]
    assert b"".join((north.folder / "dockers" / "2024-06-12" / f"{place}.txt").read_bytes() for place in ("ASHFELD", "BRAYTON")) == printed
    assert text(north, "2024-06-12", "BRAYTON.txt") == docker("print", north.state, "BRAYTON", "2024-06-12")
    page = text(north, "2024-06-12", "ASHFELD.html").decode()
    assert "<script" not in page and "Wednesday 12 June 2024" in page and page.count("1A19") >= 1
    north.run("evening")
    assert filed(north) == ["2024-06-12", "2024-06-13"]
    assert text(north, "2024-06-13", "ASHFELD.txt") == docker("print", north.state, "ASHFELD", "2024-06-13")
    assert "Thursday 13 June 2024" in text(north, "2024-06-13", "ASHFELD.html").decode()


def test_no_folder_for_dockers(office_of):
    """Without the folder dockers/ no docker is written."""
    south = office_of("south")
    south.put("full.cif", FULL)
    south.morning()
    assert not (south.folder / "dockers").exists()


def test_dockers_are_replaced(north):
    """A file is replaced as a whole: one that is open stays as it was. A page that can't be made doesn't contradict the text."""
    north.put("full.cif", FULL)
    north.morning()
    before, path = text(north, "2024-06-12", "ASHFELD.txt"), north.folder / "dockers" / "2024-06-12" / "ASHFELD.txt"
    with open(path, "rb") as opened:
        north.put("monday.cif", MONDAY)
        north.morning()
        assert plain(opened.read()) == before != text(north, "2024-06-12", "ASHFELD.txt")
    assert "0905" in text(north, "2024-06-12", "ASHFELD.html").decode().replace(":", "")
    hidden = north.folder / "lacking"
    hidden.mkdir()
    (hidden / "waitress.py").write_text("raise ModuleNotFoundError(name='waitress')\n")
    said = north.morning(status=4, PYTHONPATH=str(hidden))[1]
    assert "there is no waitress" in said and "not all pages could be written: the screen ended with status 4" in said
    assert filed(north, "2024-06-12") == ["ASHFELD.txt", "BRAYTON.txt"]


def test_names_of_files(north):
    """A place with a code that isn't a good name for a file stays in the folder of its day."""
    codes = ["../A", "A/B", ".", "a%2F"]
    (north.folder / "places").write_text("".join(f"{code}\n" for code in codes))
    north.put("full.cif", FULL)
    north.morning()
    assert filed(north, "2024-06-12") == sorted(f"{name}.txt" for name in ("..%2FA", "A%2FB", ".", "a%252F"))
    for code, name in zip(codes, ("..%2FA", "A%2FB", ".", "a%252F")):
        assert text(north, "2024-06-12", f"{name}.txt") == docker("print", north.state, code, "2024-06-12")
    assert filed(north) == ["2024-06-12"]


def test_old_dockers_are_removed(north):
    """Days that are too old are removed, and nothing else in the folder."""
    for name in ("2024-05-28", "2024-05-29", "2024-06-11", "notes", "2024-13-40"):
        (north.folder / "dockers" / name).mkdir()
        (north.folder / "dockers" / name / "ASHFELD.txt").write_text("x")
    north.put("full.cif", FULL)
    north.morning()
    assert filed(north) == ["2024-05-29", "2024-06-11", "2024-06-12", "2024-13-40", "notes"]
    north.morning(DOCKER_DAYS="0")
    assert filed(north) == ["2024-06-12", "2024-13-40", "notes"]


def test_dockers_at_once(north):
    """Mornings that run at once write whole files, and leave no draft."""
    north.put("full.cif", FULL)
    words = [STATION, "--now", NOW.isoformat(timespec="minutes"), "morning", str(north.state)]
    running = [subprocess.Popen(words, stdout=subprocess.DEVNULL, stderr=subprocess.PIPE, env={**os.environ, "MAX_AGE": "999"}) for _ in range(4)]
    said = [one.communicate()[1] for one in running]
    assert [one.returncode for one in running] == [0] * 4, said
    assert filed(north, "2024-06-12") == ["ASHFELD.html", "ASHFELD.txt", "BRAYTON.html", "BRAYTON.txt"]
    assert text(north, "2024-06-12", "ASHFELD.txt") == docker("print", north.state, "ASHFELD", "2024-06-12")


def test_dockers_on_a_full_disk(north):
    """On a full disk the dockers of before stay, and a message says why."""
    north.put("full.cif", FULL)
    north.morning()
    kept = {name: text(north, "2024-06-12", name) for name in ("ASHFELD.txt", "BRAYTON.txt")}
    disk = north.folder / "dockers"
    shutil.copytree(disk, north.folder / "copy")
    if subprocess.run(["mount", "-t", "tmpfs", "-o", "size=96k", "tmpfs", disk], capture_output=True, check=False).returncode != 0:
        pytest.skip("no file system can be mounted")
    try:
        (disk / "2024-06-12").mkdir()
        for name, content in kept.items():
            (disk / "2024-06-12" / name).write_bytes(content)
        with open(disk / "fill", "wb", buffering=0) as fill, pytest.raises(OSError):
            while True:
                fill.write(bytes(4096))
        north.put("monday.cif", MONDAY)
        assert "No space left on device" in north.morning(status=4)[1]
        assert {name: text(north, "2024-06-12", name) for name in filed(north, "2024-06-12")} == kept
    finally:
        subprocess.run(["umount", disk], check=True)


def test_arrivals_take_and_merge(north, office_of):
    """What is there is taken and merged, and STATE is sent. A second run finds nothing new, and does nothing."""
    south = office_of("south")
    south.take("monday.cif", MONDAY)
    south.run("send")
    north.put("full.cif", FULL)
    said = arrivals(north)
    assert "full.cif: accepted" in said and "it brought the update DFROC1G" in said
    assert (north.known(), north.sent().exists()) == (["DFROC1F", "DFROC1G"], True)
    assert filed(north) == []
    north.morning()
    arrivals(north)
    assert arrivals(north) == ""
    north.put("tuesday.cif", TUESDAY)
    assert "tuesday.cif: accepted" in arrivals(north)
    assert north.known() == ["DFROC1F", "DFROC1G", "DFROC1H"]
    south.run("merge")
    south.run("send")
    assert south.name() in arrivals(north)


def test_arrivals_write_dockers_again(north):
    """When STATE changes, the dockers of today and later are written again. The dockers of earlier days stay."""
    north.put("full.cif", FULL)
    for day in ("2024-06-11", "2024-06-12", "2024-06-13"):
        north.run("morning", day)
    before = {day: text(north, day, "ASHFELD.txt") for day in filed(north)}
    marks = {day: os.stat(north.folder / "dockers" / day / "ASHFELD.txt").st_mtime_ns for day in before}
    arrivals(north)
    assert marks == {day: os.stat(north.folder / "dockers" / day / "ASHFELD.txt").st_mtime_ns for day in before}
    north.put("monday.cif", MONDAY)
    arrivals(north)
    assert [day for day in before if text(north, day, "ASHFELD.txt") != before[day]] == ["2024-06-12", "2024-06-13"]
    assert text(north, "2024-06-13", "ASHFELD.txt") == docker("print", north.state, "ASHFELD", "2024-06-13")
    assert "0905" in text(north, "2024-06-13", "ASHFELD.html").decode().replace(":", "")


def test_arrivals_wait(north):
    """A file that grows is taken when it is whole, and a file that comes during the work is taken too."""
    path = north.folder / "in" / "full.cif"

    def grows():
        for at in range(0, len(FULL), len(FULL) // 4 + 1):
            with open(path, "ab") as file:
                file.write(FULL[at:at + len(FULL) // 4 + 1])
            time.sleep(0.6)
        while path.exists():
            time.sleep(0.01)
        north.put("monday.cif", MONDAY)

    writer = threading.Thread(target=grows)
    writer.start()
    said = arrivals(north, still="1.2")
    writer.join()
    assert "full.cif: accepted" in said and "monday.cif: accepted" in said
    assert (north.list("refused"), north.list("in"), north.known()) == ([], [], ["DFROC1F", "DFROC1G"])


def test_arrivals_that_cannot_be_taken(north):
    """A file that is refused is reported once. Hidden files don't count."""
    north.put("junk.txt", b"junk\n")
    north.put(".full.cif.part", FULL)
    assert "junk.txt" in arrivals(north, status=1)
    assert (north.list("in"), north.list("refused")) == ([".full.cif.part"], ["junk.txt.why", "junk.txt.zst"])
    assert arrivals(north) == ""


def test_arrivals_without_an_end(north, office_of):
    """A file that changes again and again in swap/ doesn't keep the files in in/ waiting for ever."""
    stop, path = threading.Event(), north.folder / "swap" / "noise.state"

    def changes():
        while not stop.wait(0.002):
            path.write_bytes(os.urandom(8))

    writer = threading.Thread(target=changes)
    writer.start()
    north.put("full.cif", FULL)
    running = subprocess.Popen([STATION, "--now", NOW.isoformat(timespec="minutes"), "arrivals", str(north.state)], stderr=subprocess.DEVNULL, env={**os.environ, "STILL": "0.05"})
    try:
        end = time.monotonic() + 60
        while north.known() != ["DFROC1F"] and time.monotonic() < end:
            time.sleep(0.2)
        assert north.known() == ["DFROC1F"]
    finally:
        stop.set()
        writer.join()
        running.wait()


def horizon_of(office):
    """The day number of the horizon, from the head of STATE as docs/FORMATS.md has it."""
    return int.from_bytes(office.state.read_bytes()[4:6], "big")


def number_of(day):
    return (datetime.date.fromisoformat(day) - datetime.date(1960, 1, 1)).days


def test_the_horizon_moves_on(north):
    """Each morning moves the horizon if it lags by a week. Without the setting it stays."""
    north.put("full.cif", FULL)
    north.morning()
    north.run("evening", HORIZON_DAYS="")
    assert horizon_of(north) == 0
    north.morning(HORIZON_DAYS="10")
    assert horizon_of(north) == number_of("2024-06-02")
    for days, day in ((6, "2024-06-02"), (7, "2024-06-09"), (13, "2024-06-09")):
        north.morning(now=NOW + datetime.timedelta(days), HORIZON_DAYS="10")
        assert horizon_of(north) == number_of(day)
    north.morning(HORIZON_DAYS="30")
    assert horizon_of(north) == number_of("2024-06-09")
    (expected := north.folder / "expected.state").write_bytes(b"")
    expected.unlink()
    docker("new", expected)
    docker("take", expected, *[path for path in [north.folder / "full.cif"] if path.write_bytes(FULL)])
    docker("horizon", expected, "2024-06-09")
    assert north.state.read_bytes() == expected.read_bytes()


@pytest.mark.parametrize("word", ["6", "0", "-1", "soon"])
def test_horizons_that_are_too_late(north, word):
    """What ended within a week isn't dropped."""
    assert "HORIZON_DAYS" in north.run("morning", status=2, HORIZON_DAYS=word)[1]
    assert horizon_of(north) == 0
