"""What the rows of a docker say of their trains: the operator, the kind of train, and what it does there. Also the list of an operator's trains."""
import json
import re
import types

import pytest

import dockers
import pages
from extracts import DAY, NEXT, PLACES, WEDNESDAY, extract, place
from pages_read import element, text_of
from serving import TESTS
from test_details import ACTIVITIES, ALTERED, CANCELLED, CHANGED, KINDS, PASSENGER, UNADVERTISED, basic, journey, record

STAND_IN = {"DESK": str(TESTS / "desk-of-docker")}
NIGHT = (
    basic("D00001", PASSENGER | {30: "B", 31: "BS"}) + record({1: "BX", 12: "GW"}) + record({1: "LOCORHAM", 11: "2340 2340", 30: "TB"}) + record({1: "LIASHFELD", 11: "2358 0003", 26: "23580003", 34: "3", 43: "U"})
    + record({1: "LTBRAYTON", 11: "0030 0030", 26: "TF"})
)
# A train that another operator runs on this day, and one that joins it.
MOVED = basic("D00002", PASSENGER) + record({1: "BX", 12: "NT"}) + journey() + basic("D00002", PASSENGER, "O", WEDNESDAY) + record({1: "BX", 12: "GW"}) + journey({}, {34: "7"}, {})
JOINS = "AANA00001D000032406032412131111111JJSASHFELD  TP" + " " * 31 + "P\n"
JOINED = basic("D00003", PASSENGER) + record({1: "BX", 12: "XC"}) + record({1: "LODUNMERE", 11: "0700 0700", 30: "TB"}) + record({1: "LTASHFELD", 11: "0758 0758", 26: "TF"})
FOUND = extract(
    PLACES, place("FARLEY", "FARLEY"), JOINS, *(records + journey() for records, _ in KINDS.values()), *(basic(uid, PASSENGER) + journey(*others) for uid, (*others, _) in ACTIVITIES.items()),
    CHANGED, ALTERED, CANCELLED, UNADVERTISED, NIGHT, MOVED, JOINED, basic("D00004", PASSENGER) + record({1: "LOFARLEY", 11: "0700 0700", 30: "TB"}) + record({1: "LTFARLEY", 2: "TDUNMERE", 11: "0800 0800", 26: "TF"}),
)
OPERATORS = "NT Northern\nXC  CrossCountry\n"


@pytest.fixture(scope="module")
def served(serves):
    found = serves(FOUND, **STAND_IN)
    (found.folder / "operators").write_text(OPERATORS)
    return found


@pytest.fixture(scope="module")
def old(serves):
    found = serves(FOUND, **STAND_IN, OLD="detail")
    (found.folder / "operators").write_text(OPERATORS)
    return found


def cells(page):
    """For each row, by its UID, the texts of the operator and of what is unusual."""
    found = {}
    for row in re.findall(r"<tr[^>]* data-at[^>]*>(.*?)</tr>", page, re.S):
        of = {name: text_of(text) for name, text in re.findall(r'<td class="(\w+)"[^>]*>(.*?)</td>', row, re.S)}
        found.setdefault(of["uid"], []).append((of.get("operator"), of.get("words")))
    return found


def test_rows(served):
    """The words for each kind of train, and for what it does at this place. An association has none."""
    found = cells(served.page(f"/ASHFELD/{DAY}"))
    kinds = {uid: rows[0] for uid, rows in found.items()}
    assert kinds["A00001"] == ("NT", "") and kinds["A00002"] == ("QQ", "bus") and kinds["A00003"] == ("", "ship") and kinds["A00004"] == ("", "freight")
    assert [kinds[uid][1] for uid in ("A00005", "A00006", "A00008", "A00009", "A00010", "A00015", "A00016")] == ["empty", "parcels", "7: Q9", "light locomotive", "", "departmental", "trip"]
    assert {uid: kinds[uid][1] for uid in ACTIVITIES} == {
        "B00001": "pick up only", "B00002": "set down only, detaches", "B00003": "request stop, not advertised, operational stop, locomotive runs round, crew change, changes locomotives",
        "B00004": "attaches and detaches, Z", "B00005": "", "B00006": "railway staff only"}
    # The kind of train after its change en route; on this day; as it would have been.
    assert (kinds["C00001"][1], kinds["C00002"], kinds["C00003"], kinds["C00004"][1]) == ("empty", ("NT", "bus, set down only"), ("", "ship"), "not advertised")
    assert sorted(found["A00001"]) == [("", ""), ("NT", "")]
    assert cells(served.page(f"/CORHAM/{DAY}"))["C00001"] == [("", "")]
    assert cells(served.page(f"/ASHFELD/{NEXT}"))["D00001"] == [("GW", "bus, pick up only")] * 2


def test_lines(served):
    """Each line of a call has what its call has."""
    found = cells(served.page(f"/ASHFELD/{DAY}?rows=lines"))
    assert found["B00001"] == [("", "pick up only")] * 2 and found["D00001"] == [("GW", "bus, pick up only")] * 2


def test_names_of_operators(served):
    page = served.page(f"/ASHFELD/{DAY}")
    assert '<td class="operator" title="Northern">NT</td>' in page and '<td class="operator">QQ</td>' in page
    assert '<input type="checkbox" name="operator" value="NT"> NT Northern</label>' in page and 'value="QQ"> QQ</label>' in page
    before = served.get(f"/ASHFELD/{DAY}").headers["ETag"]
    (served.folder / "operators").write_text("NT North of England\n")
    try:
        assert 'title="North of England"' in served.page(f"/ASHFELD/{DAY}") and served.get(f"/ASHFELD/{DAY}").headers["ETag"] != before
    finally:
        (served.folder / "operators").write_text(OPERATORS)


def test_nothing_unusual(served):
    """A docker whose rows have nothing there has no such columns."""
    page = served.page(f"/FARLEY/{DAY}")
    assert "D00004" in page and 'class="of-operator"' not in page and 'class="of-words"' not in page and 'name="operator"' not in page
    assert 'class="of-words"' in served.page(f"/ASHFELD/{DAY}")


@pytest.mark.parametrize("words, expected", [
    # A train that another operator has on this day is in the lists of both. An association is with its call. The train of the night before is here too.
    ("?operator=NT", ["A00001", "A00001", "C00002", "D00002"]), ("?operator=GW", ["D00001", "D00001", "D00002"]), ("?operator=XC", ["D00003"]), ("?operator=GW&operator=QQ", ["A00002", "D00001", "D00001", "D00002"]),
    ("?operator=GW,QQ", ["A00002", "D00001", "D00001", "D00002"]), ("?operator=NT&platform=1", ["A00001", "A00001", "C00002", "D00002"]), ("?operator=NT&platform=7", ["D00002"]), ("?operator=ZZ", []),
])
def test_operator(served, words, expected):
    page = served.page(f"/ASHFELD/{DAY}{words}")
    assert sorted(uid for uid, rows in cells(page).items() for _ in rows) == expected
    names = {"NT": "Northern (NT)", "XC": "CrossCountry (XC)"}
    codes = re.findall("[A-Z]{2}", words)
    assert f"of operator {' or '.join(names.get(code, code) for code in codes)}" in element(page, "filtered")
    # The choice stays in the addresses of other days and lists, and the form has it.
    for code in codes:
        assert f"operator={code}" in re.search(r'<a href="([^"]*)" aria-label="The day after', page)[1]
        assert f'value="{code}" checked' in page or code == "ZZ"
    assert 'id="unfiltered" href="/ASHFELD"' in page.replace(f"/ASHFELD/{DAY}", "/ASHFELD")


def test_the_operators_changes(served):
    """The list of an operator's changes has its cancelled trains."""
    assert "C00003" in cells(served.page(f"/ASHFELD/{DAY}/changes"))
    assert "C00003" not in cells(served.page(f"/ASHFELD/{DAY}/changes?operator=NT"))
    assert [uid for uid in cells(served.page(f"/ASHFELD/{DAY}/changes?operator=NT")) if uid.startswith("D")] == ["D00002"]


def test_an_older_desk(served, old):
    """If the desk doesn't know what a docker was made from, the rows are as before, and an operator can't be chosen. `.json` and `.csv` are the same."""
    page = old.page(f"/ASHFELD/{DAY}")
    assert 'class="of-operator"' not in page and 'class="of-words"' not in page and 'name="operator"' not in page
    assert "2 cancelled" in page or "1 cancelled" in page
    assert old.get(f"/ASHFELD/{DAY}?operator=NT").status == 501
    for day in (DAY, NEXT, "2024-06-14"):
        for station in ("ASHFELD", "BRAYTON", "CORHAM", "FARLEY"):
            both = [json.loads(it.get(f"/{station}/{day}.json").text) | {"made": ""} for it in (served, old)]
            assert both[0] == both[1]
            assert served.get(f"/{station}/{day}.csv").text == old.get(f"/{station}/{day}.csv").text


def test_state_changes_meanwhile():
    """If STATE changes after a docker was read, the records are of other lines, and nothing is said of the rows."""
    docker = f"{f'DOCKER ASHFELD  {DAY}':<56}\n{'0800  A 1A10 A00001 P':<56}\n{'END':<56}\n".encode()
    lines = [line.decode() for line in docker.splitlines()]
    origin = f" {DAY} {2:>10} {'BS':<80} {'':<80} {'':<80} {'LIASHFELD':<80} {'':<80}"
    detailed = "".join(f"{line:<483}\n" for line in (lines[0], lines[1] + origin, lines[2])).encode()
    screen = types.SimpleNamespace(reader=types.SimpleNamespace(detailed=lambda *_: dockers.Answer(0, detailed)))
    found = pages.Screen.origins(screen, pages.Pair("ASHFELD", DAY, docker, None, None))
    assert found == [(DAY, 2, "BS", "", "", "LIASHFELD", "")]
    assert pages.Screen.origins(screen, pages.Pair("ASHFELD", DAY, docker.replace(b"0800", b"0801"), None, None)) is None


def test_no_desk(serves):
    page = serves(FOUND, DESK="/nonexistent").page(f"/ASHFELD/{DAY}")
    assert "A00001" in page and 'class="of-words"' not in page


@pytest.mark.parametrize("width", [320, 390, 600, 761, 800, 1000, 1024, 1280, 1366, 1600, 1920, 3840])
def test_widths(served, chrome, width):
    """With the columns of the operator and of the kind, nothing is wider than the screen."""
    chrome.sized(width, width * 9 // 16 if width > 1000 else 844, width < 500)
    for path in (f"/ASHFELD/{DAY}", f"/ASHFELD/{DAY}?rows=lines", f"/ASHFELD/{DAY}?operator=NT"):
        chrome.open(served.address(path))
        assert chrome.run("return [innerWidth, document.documentElement.scrollWidth]") == [width, width], path
