"""The lines of dockers: `day` prints them from a file, and `print` from a state that took the file.

`print` keeps only the part of a state that one timing point needs, and `day` keeps only the part of a file that may count there. Both have to give the same
docker for every timing point. The files are random extracts with records in any order. If an extract has few UIDs, most of its keys are changed more than once."""
import lists
import plans
import pytest
from docker_lines import EVENING_AT_COLWELL, LINES
from given import BAD
from outcomes import DONE, accepted, file_refused, prints, takes
from programs import ROOT, docker, give, held
from tables import each

# Each row has a file, a timing point, a day, and the names of the docker's lines.
DOCKERS = {
    "the permanent schedule": ("indicators", "ASHFELD", "2024-06-12", ["LEAVES_0900"]),
    "an overlay": ("indicators", "ASHFELD", "2024-06-11", ["LEAVES_0915"]),
    "a cancellation": ("indicators", "ASHFELD", "2024-06-14", []),
    "before midnight": ("midnight", "COLWELL", "2024-06-10", []),
    "past midnight": ("midnight", "COLWELL", "2024-06-11", ["NIGHT_COMES", "NIGHT_LEAVES"]),
    "a pass past midnight": ("midnight", "DUNMERE", "2024-06-11", ["NIGHT_PASSES"]),
    "a train that divides at its second call": (
        "divides", "COLWELL", "2024-06-10", ["FIRST_COMES", "FIRST_LEAVES", "AGAIN_COMES", "DIVIDES", "AGAIN_LEAVES", "OTHER_LEAVES"],
    ),
    "a train that goes on the next day": ("next_day", "COLWELL", "2024-06-10", ["COMES_2350", "WORKS_ON"]),
    "a train that does not run the same day": ("same_day", "COLWELL", "2024-06-10", ["COMES_2350", "WORKS_ON_UNKNOWN"]),
    "an association of another category": ("other_category", "COLWELL", "2024-06-10", ["COMES_2350"]),
    "a partner that is cancelled": ("cancelled", "COLWELL", "2024-06-10", ["COMES_2350", "WORKS_ON_UNKNOWN"]),
    "an identity that changes": ("another_identity", "COLWELL", "2024-06-10", ["PASSES_AS_5E51"]),
    "a train without an end, on the last day": ("without_end", "ASHFELD", "2059-12-31", ["LEAVES_0900"]),
}


def prints_lines(place, date, names):
    return prints(place, date, *(LINES[name] for name in names))


@each("file, place, date, names", DOCKERS)
def test_day(file, place, date, names):
    assert docker("day", file, place, date) == prints_lines(place, date, names)


@each("file, place, date, names", DOCKERS)
def test_print(file, place, date, names):
    takes("office", file)
    assert docker("print", "office", place, date) == prints_lines(place, date, names)


HORIZON, LATER_DAYS = "2024-06-12", plans.DAYS[7:]


@pytest.fixture(params=[(8, 0), (60, 1), (60, 2)], ids=lambda it: f"{it[0]} UIDs, {it[1]}")
def files(request, given):
    """A full extract of some hundred records, larger than a piece of a file, and its update."""
    plan = plans.Plan(f"places {request.param}")
    plan.uids = request.param[0]
    found = plan.files(size=200)
    for name, text in zip(("full_extract", "update"), found):
        give(text.encode(), name)
    return found


def print_as_day(state, file, days):
    """Checks that `print` and `day` give the same dockers. Returns the lines of these dockers."""
    lines = []
    for day in days:
        for place in (*plans.CODES, "NOWHERE"):
            printed = docker("print", state, place, day)
            assert printed.status == 0
            assert printed == docker("day", file, place, day), f"{place} on {day}"
            lines += printed.output.decode().splitlines()[1:-1]
    return lines


def test_the_records_and_changes_of_a_random_extract(files):
    for name, text in zip(("full_extract", "update"), files):
        assert docker("check", name) == accepted(text.count("\n"), len(lists.puts_of(text)))


def test_print_of_every_timing_point(files):
    takes("office", "full_extract")
    lines = print_as_day("office", "full_extract", plans.DAYS)
    assert {line[6] for line in lines} == set("ADJNPV")
    assert any(line[20] == "O" for line in lines), "no overlay"
    assert any("????" in line for line in lines), "no train that is unknown"


def test_print_of_every_timing_point_after_the_update(files):
    """A full extract of what the two files leave has the same dockers, under a horizon too."""
    before = takes("office", "full_extract", "update")
    give(plans.left_by(files).encode(), "left")
    print_as_day("office", "left", plans.DAYS)
    assert docker("horizon", "office", HORIZON) == DONE
    assert held("office") != before
    print_as_day("office", "left", LATER_DAYS)


ONE_ACCEPTED = accepted(5, 1)
ACCEPTED = {
    "check of one schedule": ("check one", ONE_ACCEPTED),
    "day at the origin": ("day one ASHFELD 2024-06-10", prints("ASHFELD", "2024-06-10", LINES["LEAVES_0900"])),
    "day at the terminus": ("day one BRAYTON 2024-06-10", prints("BRAYTON", "2024-06-10", LINES["COMES_0930"])),
    "day on which no train runs": ("day one ASHFELD 2024-06-15", prints("ASHFELD", "2024-06-15")),
    "day at a timing point in lower case, which has no train": ("day one ashfeld 2024-06-10", prints("ashfeld", "2024-06-10")),
    "lines that end in carriage return and line feed": ("check returns", ONE_ACCEPTED),
    "a last line without its line feed": ("check unended", ONE_ACCEPTED),
    "a deletion, whose journey is not read": ("check deletion", ONE_ACCEPTED),
    "a file of several pieces": ("check many", accepted(2502, 2500)),
    "check of a renaming": ("check renamed", accepted(3, 2)),
}


@each("words, wanted", ACCEPTED)
def test_accepts(words, wanted):
    assert docker(*words.split()) == wanted


@each("name, _text, fault", BAD)
@each("words", ["check", "day"])
def test_refuses(words, name, _text, fault):
    assert docker(words, name, *(["ASHFELD", "2024-06-10"] if words == "day" else [])) == file_refused(fault)


def test_the_example_with_associations():
    """An evening with a train that runs past midnight, one that another train joins, and one that divides."""
    example = str(ROOT / "examples/association.cif")
    assert docker("day", example, "COLWELL", "2024-06-11") == prints("COLWELL", "2024-06-11", *EVENING_AT_COLWELL, name="COLWELL JUNCTION")
