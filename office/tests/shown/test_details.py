"""What kind of train it is, and for whom: on the page of a train, in its sentence, and in its other forms. The CIF End User Specification has the columns, the
codes and their meaning."""
import csv
import io
import json
import re

import pytest

from extracts import DAY, PLACES, WEDNESDAY, extract
from pages_read import element, text_of


def record(fields):
    """A record with these texts from these columns on."""
    line = [" "] * 80
    for column, text in fields.items():
        line[column - 1:column - 1 + len(text)] = text
    assert len(line) == 80
    return "".join(line) + "\n"


def basic(uid, fields, indicator="P", days="2406032412131111111"):
    return record({1: f"BSN{uid}{days}", 33: "1A10", 80: indicator} | fields)


ORIGIN = {1: "LOCORHAM", 11: "0730 0730", 20: "2", 23: "FL", 30: "TB"}
ASHFELD = {1: "LIASHFELD", 11: "0800 0802", 26: "08000802", 34: "1", 37: "SL", 40: "FL", 43: "T"}
DUNMERE = {1: "LIDUNMERE", 21: "0815", 26: "00000000", 37: "SL"}
END = {1: "LTBRAYTON", 11: "0830 0830", 20: "2", 23: "FL", 26: "TF"}
PASSENGER = {
    30: "P", 31: "OO", 37: "2345", 42: "12345678", 51: "EMU", 54: "375", 58: "100", 61: "DQ", 67: "B", 68: " ", 69: "A", 71: "CT",
}


def journey(*others):
    """A journey from Corham to Brayton with a stop at Ashfeld. The records of these three places may have other fields."""
    first, stop, last = others or ({}, {}, {})
    return "".join(map(record, (ORIGIN | first, ASHFELD | stop, DUNMERE, END | last)))


# Each case: its records, and what the page says by each name.
KINDS = {
    "A00001": (basic("A00001", PASSENGER) + record({1: "BX", 12: "NT", 14: "Y", 15: "NT123400"}), {
        "Kind": "passenger: ordinary", "Operator": "Northern (NT)", "Service code": "12345678", "Retail service": "NT123400", "Headcode": "2345", "Power": "electric multiple unit",
        "Timing load": "class 375", "Speed": "100 mph", "Characteristics": "driver only, runs as required", "Seats": "first and standard", "Reservations": "compulsory",
        "Catering": "buffet, trolley",
    }),
    "A00002": (basic("A00002", {30: "B", 31: "BR", 29: "X"}) + record({1: "BX", 12: "QQ"}), {
        "Kind": "bus: replacement because of engineering work", "Operator": "QQ", "Bank holidays": "doesn’t run on specified bank holiday Mondays",
    }),
    "A00003": (basic("A00003", {30: "4", 31: "SS", 29: "G"}), {"Kind": "ship", "Bank holidays": "doesn’t run on specified Glasgow holidays"}),
    "A00004": (basic("A00004", {30: "F", 31: "B4", 51: "D", 54: "1800", 58: "060", 61: "YZ"}), {
        "Kind": "freight: aggregates", "Power": "diesel", "Timing load": "1800 tonnes", "Speed": "60 mph",
        "Characteristics": "runs to terminals or yards as required, may have traffic to gauge SB1C, and isn’t to be diverted without authority",
    }),
    "A00005": (basic("A00005", {30: "P", 31: "EE", 51: "DMU", 54: "E", 58: "090"}), {
        "Kind": "empty: coaching stock", "Power": "diesel multiple unit", "Timing load": "class 158, 168, 170 or 175", "Speed": "90 mph",
    }),
    "A00006": (basic("A00006", {30: "P", 31: "PV", 51: "ED", 54: "325"}), {"Kind": "parcels: empty vans", "Power": "electro-diesel", "Timing load": "325 tonnes"}),
    "A00007": (basic("A00007", {30: "P", 31: "XZ", 51: "E", 67: "B", 68: "F", 69: "R", 71: "MHP", 29: "E"}), {
        "Kind": "passenger: sleeper, domestic", "Power": "electric", "Seats": "first and standard", "Sleepers": "first only", "Reservations": "recommended",
        "Catering": "meal included for first class, hot food, reservations for wheelchairs only", "Bank holidays": "doesn’t run on specified Edinburgh holidays",
    }),
    # Codes that no table has.
    "A00008": (basic("A00008", {30: "7", 31: "Q9", 29: "J", 51: "ZZZ", 54: "?", 58: "1X0", 61: "?B", 67: "Q", 68: "Q", 69: "Q", 71: "?C"}), {
        "Kind": "7: Q9", "Power": "ZZZ", "Timing load": "?", "Speed": "1X0", "Characteristics": "?, vacuum braked", "Seats": "Q", "Sleepers": "Q", "Reservations": "Q", "Catering": "?, buffet",
        "Bank holidays": "J",
    }),
    "A00009": (basic("A00009", {30: "2", 31: "ZZ"}), {"Kind": "light locomotive"}),
    "A00010": (basic("A00010", {}), {}),
    # A passenger train has both classes unless it says otherwise. A new train, and one of a code that no table has.
    "A00011": (basic("A00011", {30: "1", 31: "OU", 58: "075"}), {"Kind": "passenger: unadvertised ordinary", "Seats": "first and standard", "Speed": "75 mph"}),
    "A00012": (basic("A00012", {30: "P", 31: "OQ", 67: "S"}), {"Kind": "passenger: OQ", "Seats": "standard only"}),
    # What the category says counts before the status of a passenger train, and before the status of a freight train.
    "A00013": (basic("A00013", {30: "1", 31: "BR"}), {"Kind": "bus: replacement because of engineering work"}),
    "A00014": (basic("A00014", {30: "B", 31: "OO"}), {"Kind": "bus: ordinary"}),
    "A00015": (basic("A00015", {30: "2", 31: "DY"}), {"Kind": "departmental: signal and telecommunications engineer"}),
    "A00016": (basic("A00016", {30: "3", 31: "  "}), {"Kind": "trip"}),
}
ACTIVITIES = {
    # At the origin, at the stop, and at the end: columns 30, 43 and 26.
    "B00001": ({30: "TB-U"}, {43: "U"}, {26: "TFC"}, ["attaches", "pick up only", "crew change"]),
    "B00002": ({30: "TBN"}, {43: "D -D"}, {26: "TFRM"}, ["not advertised", "set down only, detaches", "reverses"]),
    "B00003": ({30: "TB"}, {43: "R N OPRRC L"}, {26: "TF"}, ["", "request stop, not advertised, operational stop, locomotive runs round, crew change, changes locomotives", ""]),
    "B00004": ({30: "TBQQ"}, {43: "-TZ"}, {26: "TF-D"}, ["QQ", "attaches and detaches, Z", "detaches"]),
    # Allowances: engineering, pathing and performance, in columns 26, 28 and 42 of LO, and 55, 57 and 59 of LI.
    "B00005": ({26: "1H", 28: "H ", 42: "2 ", 30: "TB"}, {55: "10", 57: "1 ", 59: "H "}, {26: "TF"}, ["1½ min engineering, ½ min pathing, 2 min performance", "10 min engineering, 1 min pathing, ½ min performance", ""]),
    "B00006": ({30: "TB"}, {43: "S", 55: "0 ", 57: "4H"}, {26: "TF"}, ["", "railway staff only, 4½ min pathing", ""]),
}
CHANGED = basic("C00001", PASSENGER) + record(ORIGIN) + record({1: "CRASHFELD", 11: "EE", 13: "5A10", 31: "DMU", 34: "N", 38: "075", 47: "S"}) + record(ASHFELD) + record(END)
ALTERED = (
    basic("C00002", PASSENGER) + record({1: "BX", 12: "NT"}) + journey()
    + basic("C00002", PASSENGER | {30: "5", 31: "BR", 51: "   ", 54: "    ", 58: "   "}, "O", WEDNESDAY) + record({1: "BX", 12: "NT"}) + journey({30: "TB"}, {43: "D"}, {26: "TF"})
)
CANCELLED = basic("C00003", PASSENGER | {30: "S", 31: "SS"}) + journey() + record({1: f"BSNC00003{WEDNESDAY}", 80: "C"})
UNADVERTISED = basic("C00004", PASSENGER) + "".join(map(record, (ORIGIN, ASHFELD | {43: "T N"}, END | {26: "TFU"})))


@pytest.fixture(scope="module")
def served(serves):
    found = serves(extract(
        PLACES, *(records + journey() for records, _ in KINDS.values()), *(basic(uid, PASSENGER) + journey(*others) for uid, (*others, _) in ACTIVITIES.items()),
        CHANGED, ALTERED, CANCELLED, UNADVERTISED,
    ))
    (found.folder / "operators").write_text("# Code and name\nNT Northern\nXC  CrossCountry\n\nbroken\n")
    return found


def facts(page):
    """The kind of a train, by the names on its page. What was planned stands in brackets, and what is instead between asterisks."""
    marked = re.sub(r"<ins>(.*?)</ins>", r"*\1*", re.sub(r"<del>(.*?)</del>", r"[\1]", page))
    return {text_of(name): text_of(words) for name, words in re.findall(r"<dt>(.*?)</dt><dd>(.*?)</dd>", marked)}


def here(page):
    """What a train does at each call."""
    marked = re.sub(r"<ins>(.*?)</ins>", r"*\1*", re.sub(r"<del>(.*?)</del>", r"[\1]", page))
    return [text_of(cell) for cell in re.findall(r'<td class="here">(.*?)</td>', marked)]


@pytest.mark.parametrize("uid", KINDS)
def test_kind(served, uid):
    assert facts(served.page(f"/train/{uid}/{DAY}")) == KINDS[uid][1]


@pytest.mark.parametrize("uid", ACTIVITIES)
def test_activities(served, uid):
    first, stop, passing, last = here(served.page(f"/train/{uid}/{DAY}"))
    assert [first, stop, last] == ACTIVITIES[uid][3] and passing == ""


def test_change_en_route(served):
    """From the change on, another kind of train: what is blank there is none any more."""
    assert here(served.page(f"/train/C00001/{DAY}")) == [
        "", "from here: kind empty: coaching stock; service code none; headcode none; power diesel multiple unit; timing load class 165/0; speed 75 mph; characteristics none; "
        "seats standard only; reservations none; catering none", ""]


def test_altered(served):
    """What differs from the permanent schedule is marked. A bus isn't called a train."""
    page = served.page(f"/train/C00002/{DAY}")
    found = facts(page)
    assert found["Kind"] == "[passenger: ordinary] *bus: replacement because of engineering work*"
    assert (found["Power"], found["Timing load"], found["Speed"]) == ("[electric multiple unit]", "[class 375]", "[100 mph]")
    assert (found["Operator"], found["Catering"]) == ("Northern (NT)", "buffet, trolley")
    assert here(page) == ["", "*set down only*", "", ""]
    assert element(page, "aloud") == "The 07:30 bus from Corham Exchange to Brayton calls at Ashfeld Junction (to set down only) and Brayton."


@pytest.mark.parametrize("uid, sentence", [
    ("C00003", "The 07:30 ship from Corham Exchange to Brayton would have called at Ashfeld Junction and Brayton."),
    ("C00004", "The 07:30 from Corham Exchange to Brayton calls at Brayton (to pick up only) only."),
    ("B00001", "The 07:30 from Corham Exchange to Brayton calls at Ashfeld Junction (to pick up only) and Brayton."),
    ("A00002", "The 07:30 bus from Corham Exchange to Brayton calls at Ashfeld Junction and Brayton."),
    ("A00004", "The 07:30 from Corham Exchange to Brayton calls at Ashfeld Junction and Brayton."),
])
def test_sentence(served, uid, sentence):
    assert element(served.page(f"/train/{uid}/{DAY}"), "aloud") == sentence


def test_cancelled(served):
    """The page has the kind of the train that would have run."""
    assert facts(served.page(f"/train/C00003/{DAY}"))["Kind"] == "ship"


def test_operators_are_edited(served):
    """A new name is shown at once, also on a page that a browser has."""
    before = served.get(f"/train/A00001/{DAY}").headers["ETag"]
    text = (served.folder / "operators").read_text()
    try:
        (served.folder / "operators").write_text("NT North of England\n")
        assert facts(served.page(f"/train/A00001/{DAY}"))["Operator"] == "North of England (NT)"
        assert served.get(f"/train/A00001/{DAY}").headers["ETag"] != before
        (served.folder / "operators").unlink()
        assert facts(served.page(f"/train/A00001/{DAY}"))["Operator"] == "NT"
    finally:
        (served.folder / "operators").write_text(text)


def test_json(served):
    told = json.loads(served.get(f"/train/A00001/{DAY}.json").text)
    runs = told["runs_as"]
    assert (told["uid"], told["date"], told["state"], told["stp"], told["is_covered"]) == ("A00001", DAY, "RUNS", "P", True)
    assert runs["details"]["kind"] == "passenger: ordinary" and runs["details"]["operator"] == {"code": "NT", "words": "Northern (NT)"}
    assert runs["details"]["status"]["code"] == "P" and runs["details"]["catering"] == {"code": "CT", "words": "buffet, trolley"}
    assert [call["tiploc"] for call in runs["calls"]] == ["CORHAM", "ASHFELD", "DUNMERE", "BRAYTON"]
    assert told["planned"] is None and told["bank_holiday_in"] == []
    stop = json.loads(served.get(f"/train/B00005/{DAY}.json").text)["runs_as"]["calls"][1]
    assert stop["allowances"] == {
        "engineering": {"code": "10", "words": "10 min"}, "pathing": {"code": "1", "words": "1 min"}, "performance": {"code": "H", "words": "½ min"}}
    stop = json.loads(served.get(f"/train/B00004/{DAY}.json").text)["runs_as"]["calls"][1]
    assert stop["activities"] == [{"code": "-T", "words": "attaches and detaches"}, {"code": "Z", "words": "Z"}]
    assert (stop["arrives"], stop["departs"], stop["passes"], stop["public_arrival"], stop["platform"], stop["name"]) == ("08:00", "08:02", "", "08:00", "1", "Ashfeld Junction")
    told = json.loads(served.get(f"/train/C00003/{DAY}.json").text)
    assert told["runs_as"] is None and told["planned"]["details"]["kind"] == "ship"


def test_the_docker_as_json(served):
    """Each line of a docker's .json has what its page lacks. It is what counts at this place, after a change en route."""
    lines = json.loads(served.get(f"/ASHFELD/{DAY}.json").text)["lines"]
    of = {(line["uid"], line["kind"]): line["of_train"] for line in lines}
    assert of["A00002", "A"] == {
        "vehicle": "bus", "kind": "bus: replacement because of engineering work", "operator": {"code": "QQ", "words": "QQ"}, "activities": [{"code": "T", "words": ""}], "allowances": {}}
    assert of["A00001", "D"]["operator"] == {"code": "NT", "words": "Northern (NT)"}
    assert [of["C00001", kind]["kind"] for kind in "AD"] == ["empty: coaching stock"] * 2
    assert of["B00002", "D"]["activities"] == [{"code": "D", "words": "set down only"}, {"code": "-D", "words": "detaches"}]
    assert of["B00005", "A"]["allowances"]["engineering"] == {"code": "10", "words": "10 min"}
    before = json.loads(served.get(f"/CORHAM/{DAY}.json").text)["lines"]
    assert [line["of_train"]["kind"] for line in before if line["uid"] == "C00001"] == ["passenger: ordinary"]


def test_csv(served):
    def rows_of(uid):
        return list(csv.DictReader(io.StringIO(served.get(f"/train/{uid}/{DAY}.csv").text)))

    first, stop, passing, last = rows_of("B00005")
    assert (first["tiploc"], first["departs"], first["arrives"], first["engineering"], first["pathing"], first["performance"]) == ("CORHAM", "07:30", "", "1½ min", "½ min", "2 min")
    assert (stop["name"], stop["arrives"], stop["departs"], passing["passes"], last["public_arrival"]) == ("Ashfeld Junction", "08:00", "08:02", "08:15", "08:30")
    assert (stop["kind"], stop["power"], stop["catering"]) == ("passenger: ordinary", "electric multiple unit", "buffet, trolley")
    assert [row["activities"] for row in rows_of("B00002")] == ["TB N", "D -D", "", "TF RM"]
    assert [row["activities_in_words"] for row in rows_of("B00002")] == ["not advertised", "set down only, detaches", "", "reverses"]
    assert [row["kind"] for row in rows_of("C00001")] == ["passenger: ordinary", "empty: coaching stock", "empty: coaching stock"]
    assert rows_of("C00003") == []
    # A cell that begins with a hyphen isn't a formula.
    assert [row["activities"] for row in rows_of("B00004")][1] == "'-T Z"


def test_txt(served):
    """The records as desk gives them."""
    lines = served.get(f"/train/A00001/{DAY}.txt").text.splitlines()
    assert lines[0].startswith(f"TRAIN  A00001  {DAY} P RUNS") and [line[:2] for line in lines[1:]] == ["BS", "BX", "LO", "LI", "LI", "LT", "EN"]


@pytest.mark.parametrize("path, status", [("/train/A00001/2024-06-12.svg", 404), ("/train/A0001/2024-06-12.json", 400), ("/train/A00001/2024-06-31.csv", 400), ("/train/A99999/2024-06-12.json", 200)])
def test_other_addresses(served, path, status):
    assert served.get(path).status == status


def test_the_head_leads_to_the_forms(served):
    page = served.page(f"/train/A00001/{DAY}")
    assert all(f'href="/train/A00001/{DAY}.{form}"' in page for form in ("txt", "csv", "json"))


def test_a_form_of_a_train_that_is_here(served):
    """The day on which a train is at a place may not be the day of its start."""
    answer = served.get(f"/train/A00001/{DAY}.json?at=ASHFELD.0800")
    assert (answer.status, answer.headers["Location"]) == (303, f"/train/A00001/{DAY}.json")


# From https://www.gov.uk/bank-holidays.
HOLIDAYS = [
    ("2024-08-26", "Monday 26 August 2024 is a bank holiday in England and Wales."), ("2024-08-05", "Monday 5 August 2024 is a bank holiday in Scotland."),
    ("2024-12-25", "Wednesday 25 December 2024 is a bank holiday in England and Wales and in Scotland."), ("2024-12-02", "Monday 2 December 2024 is a bank holiday in Scotland."),
    ("2022-06-02", "Thursday 2 June 2022 is a bank holiday in England and Wales and in Scotland."), ("2022-05-30", None), ("2022-01-04", "Tuesday 4 January 2022 is a bank holiday in Scotland."),
    ("2021-12-28", "Tuesday 28 December 2021 is a bank holiday in England and Wales and in Scotland."), ("2021-12-25", None), ("2025-04-21", "Monday 21 April 2025 is a bank holiday in England and Wales."),
    ("2025-04-18", "Friday 18 April 2025 is a bank holiday in England and Wales and in Scotland."), ("2020-05-08", "Friday 8 May 2020 is a bank holiday in England and Wales and in Scotland."),
    ("2020-05-04", None), ("2023-01-02", "Monday 2 January 2023 is a bank holiday in England and Wales and in Scotland."), ("2023-01-03", "Tuesday 3 January 2023 is a bank holiday in Scotland."),
    ("2024-06-12", None), ("1975-05-05", None),
]


@pytest.mark.parametrize("day, words", HOLIDAYS)
def test_bank_holidays(served, day, words):
    """A page says where its day is a bank holiday."""
    assert element(served.page(f"/train/A00001/{day}"), "holiday") == words
    said = element(served.page(f"/ASHFELD/{day}"), "holiday")
    assert said == (words and f"{words} Whether a train then doesn’t run is on its own page.")


@pytest.mark.parametrize("width", [1920, 1366, 768, 390, 320])
def test_nothing_is_cut(served, chrome, width):
    chrome.sized(width, 900, width < 500)
    chrome.open(served.address(f"/train/C00002/{DAY}"))
    assert chrome.run("return document.documentElement.scrollWidth") <= width
    assert chrome.run("return [...document.querySelectorAll('#details div')].every(it => it.scrollWidth <= it.clientWidth + 1 && it.getBoundingClientRect().height > 0)")
