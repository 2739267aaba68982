"""The database that `station-office table` writes."""
import os
import sqlite3
import subprocess

import pytest

from extracts import DAY, NEXT, PLACES, call, end, extract, origin, passes, record as short, train
from offices_run import Office
from serving import DESK, OFFICE
from test_details import ASHFELD, CHANGED, END, ORIGIN, basic, record

BUS = (
    basic("A10001", {30: "B", 31: "BR", 29: "X"}) + record({1: "BX", 12: "NT"}) + record(ORIGIN | {26: "1H", 30: "TBC"})
    + record(ASHFELD | {11: "0800H0802 ", 43: "U -D", 55: "H ", 57: "10", 59: "Z "}) + record(END)
)
NIGHT = train("A10002", origin("CORHAM", "2330"), call("ASHFELD", "2358", "0003", "3"), end("BRAYTON", "0100"), identity="1N02")
PASSING = train("A10003", origin("CORHAM", "0900"), passes("ASHFELD", "0915H", "2"), end("BRAYTON", "0930"), identity="6M03")
STARTS = train("A10004", origin("ASHFELD", "1000"), end("BRAYTON", "1030"), identity="2A04")
JOINED = short("AANA10004A100032406032412131111111JJSASHFELD  TO", "P")


@pytest.fixture
def office(tmp_path):
    found = Office(tmp_path)
    found.morning(extract(PLACES, JOINED, BUS, NIGHT, PASSING, STARTS, CHANGED))
    (tmp_path / "operators").write_text("NT Northern\n")
    return found


def written(office, *words, status=0, **environment):
    """The database that a command writes, and its messages."""
    ended = subprocess.run([OFFICE / "station-office", "--now", f"{DAY}T06:30", "table", office.state, *words], stdin=subprocess.DEVNULL, capture_output=True, check=False,
                           env={**os.environ, "DESK": DESK, **environment})
    assert ended.returncode == status, ended.stderr
    (office.folder / "table.sqlite").write_bytes(ended.stdout)
    base = sqlite3.connect(office.folder / "table.sqlite")
    base.row_factory = sqlite3.Row
    return base, ended.stderr.decode()


def asked(base, what, where="", *words):
    return [tuple(row) for row in base.execute(f"SELECT {what} FROM calls {where}", words)]


def test_calls(office):
    base, _ = written(office, DAY)
    assert asked(base, "uid, start, train, arrives, passes, departs, platform, origin, destination_name", "WHERE place = 'ASHFELD' ORDER BY coalesce(arrives, passes, departs)") == [
        ("A10002", "2024-06-11", "1N02", None, None, "00:03:00", "3", "CORHAM", "Brayton"), ("C00001", DAY, "5A10", "08:00:00", None, "08:02:00", "1", "CORHAM", "Brayton"),
        ("A10001", DAY, "1A10", "08:00:30", None, "08:02:00", "1", "CORHAM", "Brayton"), ("A10003", DAY, "6M03", None, "09:15:30", None, "2", "CORHAM", "Brayton"),
        ("A10004", DAY, "2A04", None, None, "10:00:00", "2", "ASHFELD", "Brayton"), ("A10002", DAY, "1N02", "23:58:00", None, None, "3", "CORHAM", "Brayton"),
    ]
    assert asked(base, "uid, start, arrives, public_arrival, departs", "WHERE place = 'BRAYTON' AND uid = 'A10002'") == [("A10002", "2024-06-11", "01:00:00", "01:00", None)]
    assert asked(base, "DISTINCT place, place_name, date", "ORDER BY place") == [("ASHFELD", "Ashfeld Junction", DAY), ("BRAYTON", "Brayton", DAY)]


def test_kinds(office):
    """What a docker doesn't have comes from the schedule. A change en route counts from its place on."""
    base, _ = written(office, DAY)
    columns = "vehicle, kind, operator_code, operator, activities, activities_in_words, engineering, pathing, performance, bank_holidays"
    assert asked(base, columns, "WHERE uid = 'A10001' AND place = 'ASHFELD'") == [
        ("bus", "bus: replacement because of engineering work", "NT", "Northern (NT)", "U -D", "pick up only, detaches", 0.5, 10, "Z", "doesn’t run on specified bank holiday Mondays")]
    assert asked(base, "place, category_code, kind, power, load, speed", "WHERE uid = 'C00001' ORDER BY place") == [
        (place, "EE", "empty: coaching stock", "diesel multiple unit", "class 165/0", "75 mph") for place in ("ASHFELD", "BRAYTON")]
    assert asked(base, "count(*)", "WHERE vehicle = 'bus'") == [(2,)]


def test_more_places(office):
    """Before the change, the train is another one. At its start it has allowances, too."""
    (office.folder / "places").write_text("CORHAM\n")
    base, _ = written(office, DAY)
    assert asked(base, "kind, catering, load", "WHERE uid = 'C00001'") == [("passenger: ordinary", "buffet, trolley", "class 375")]
    assert asked(base, "engineering, pathing, activities_in_words", "WHERE uid = 'A10001'") == [(1.5, None, "crew change")]


def test_associations(office):
    base, _ = written(office, DAY)
    assert [tuple(row) for row in base.execute("SELECT * FROM associations")] == [(DAY, "ASHFELD", "10:00:00", "is joined", "A10004", "2A04", "A10003", "6M03")]


def test_days(office):
    """Each day has its calls, and says whether it is covered. A day that isn't is also reported."""
    base, said = written(office, DAY, NEXT, "2024-12-20", status=5)
    days = [tuple(row) for row in base.execute("SELECT date, made, known_up_to, cover, gaps <> '' FROM days")]
    made, known = "2024-06-12 06:30", "full extract DFROC1F of 2024-06-11 21:00"
    assert days == [(DAY, made, known, "This day is covered", 0), (NEXT, made, known, "This day is covered", 0), ("2024-12-20", made, known, "This day isn’t covered", 1)]
    assert "2024-12-20: it isn't covered" in said
    assert asked(base, "date, count(*)", "GROUP BY date") == [(DAY, 11), (NEXT, 11)]


@pytest.mark.parametrize("words, status, said", [
    (("2024-06-31",), 2, "'2024-06-31' is no day"), ((DAY, "today"), 2, "'today' is no day"), ((), 2, "station-office table STATE DATE.. >FILE.sqlite"),
])
def test_wrong_words(office, words, status, said):
    """Nothing is written then."""
    ended = subprocess.run([OFFICE / "station-office", "table", office.state, *words], capture_output=True, text=True, check=False, env={**os.environ, "DESK": DESK})
    assert (ended.returncode, ended.stdout) == (status, "") and said in ended.stderr


def test_no_desk(office):
    ended = subprocess.run([OFFICE / "station-office", "table", office.state, DAY], capture_output=True, text=True, check=False, env={**os.environ, "DESK": "/nonexistent"})
    assert (ended.returncode, ended.stdout) == (4, "") and "a table needs the program desk" in ended.stderr


def test_a_terminal(office):
    """Bytes of a database aren't written to a terminal."""
    command = f"{OFFICE / 'station-office'} table {office.state} {DAY}"
    ended = subprocess.run(["script", "-qec", command, "/dev/null"], stdin=subprocess.DEVNULL, capture_output=True, text=True, check=False, env={**os.environ, "DESK": DESK})
    assert ended.returncode == 2 and "it is a terminal" in ended.stdout and "SQLite format" not in ended.stdout
