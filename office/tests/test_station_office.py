"""Tests station-office on two offices, North and South: what it takes and refuses, what the offices exchange, what it prints, its horizons, its copies and its lock."""
import fcntl
import gzip
import os
import pathlib
import re
import shutil
import subprocess
import threading
import zipfile

import pytest
from offices import EXAMPLES, OFFICE, ROOT, STATION, docker, record

FULL, MONDAY, TUESDAY = ((EXAMPLES / f"{name}.cif").read_bytes() for name in ("full", "monday", "tuesday"))
PLACES = (EXAMPLES / "places").read_text(encoding="utf-8")
DAY = "2024-06-12"
# The day after the last extract.
NOW = ["--now", "2024-06-12T06:00"]
STAND_IN = {"DESK": str(OFFICE / "tests" / "desk-of-docker")}
CAUSES = [line.split("\t") for line in (OFFICE / "causes").read_text(encoding="utf-8").splitlines()]
# What South prints on the day, with the remarks above each docker.
PRINTED = re.findall(r"^(?:#|DOCKER|\d|END).*", (EXAMPLES / "transcript").read_text(encoding="utf-8").partition("\n$ station-office morning")[2], re.M)
# The 5N01 that starts on this day is cancelled, 1A10 is altered, and 1Z05 is new.
DIFFERING = """\
DOCKER ASHFELD 2024-06-12 ASHFELD JUNCTION
- 0900  J 1A10 A10001 P   1                A10002  2B20
- 0900  D 1A10 A10001 P   1   SL      0900 ASHFELD BRAYTON
+ 0905  J 1A10 A10001 P   3                A10002  2B20
+ 0905  D 1A10 A10001 O   3   SL      0905 ASHFELD BRAYTON
+ 1015  D 1Z05 A10004 N   1   FL      1015 ASHFELD BRAYTON
DOCKER BRAYTON 2024-06-12 BRAYTON
- 0930  A 1A10 A10001 P   2       FL  0932 ASHFELD BRAYTON
+ 0935  A 1A10 A10001 O   2       FL  0937 ASHFELD BRAYTON
+ 1044H A 1Z05 A10004 N   1       FL  1046 ASHFELD BRAYTON
DOCKER CORHAM  2024-06-12 CORHAM EXCHANGE
- 0914H P 1A10 A10001 P       FL           ASHFELD BRAYTON
+ 0919H P 1A10 A10001 O       FL           ASHFELD BRAYTON
- 2340  D 5N01 A10003 P   3           2340 CORHAM  ASHFELD
"""


class Printed:
    """What a command printed, and what it said."""

    def __init__(self, ended):
        self.out, self.said = ended.stdout, ended.stderr

    def says(self, *texts):
        for text in texts:
            assert text in self.said
        return self

    def silent_on(self, *texts):
        for text in texts:
            assert text not in self.said
        return self

    def dockers(self):
        """The places whose dockers were printed."""
        return [line.split()[1] for line in self.out.splitlines() if line.startswith("DOCKER")]


def office(status, *words, **environment):
    """Runs station-office on the day after the last extract, and checks its status."""
    ended = subprocess.run([STATION, *NOW, *map(str, words)], stdin=subprocess.DEVNULL, capture_output=True, text=True, check=False, env={**os.environ, **environment})
    assert ended.returncode == status, (words, ended.stdout, ended.stderr)
    return Printed(ended)


@pytest.fixture
def folder(tmp_path, monkeypatch):
    """A folder with two offices that share another. They know nothing yet."""
    monkeypatch.chdir(tmp_path)
    pathlib.Path("shared").mkdir()
    for name in ("north", "south"):
        pathlib.Path(name, "in").mkdir(parents=True)
        pathlib.Path(name, "swap").symlink_to("../shared")
        pathlib.Path(name, "places").write_text(PLACES, encoding="utf-8")
        docker("new", f"{name}/{name}.state")
    return tmp_path


@pytest.fixture
def north(folder):
    """An office that has the full extract and Monday's update, by docker's own commands."""
    for name in ("full", "monday"):
        docker("take", "north/north.state", EXAMPLES / f"{name}.cif")
    return "north/north.state"


@pytest.fixture
def south(folder):
    """An office that knows all three extracts."""
    for name in ("full", "monday", "tuesday"):
        docker("take", "south/south.state", EXAMPLES / f"{name}.cif")
    return "south/south.state"


def put(name, content):
    pathlib.Path(name).write_bytes(content)


def files(state):
    return docker("files", state).decode().splitlines()


def unpacked(path):
    return subprocess.run(["zstd", "-dcq", path], capture_output=True, check=True).stdout


def zipped(name, *contents):
    with zipfile.ZipFile(name, "w") as archive:
        for number, content in enumerate(contents):
            archive.writestr(f"{number}.cif", content)


def test_each_cause_has_one_advice():
    assert len({name for name, *_ in CAUSES}) == len(CAUSES)


@pytest.mark.parametrize("checker, paths", [
    ("shellcheck", [EXAMPLES / "run"]),
    ("pyflakes3", [STATION, *OFFICE.glob("*.py"), *OFFICE.glob("station_office/*.py"), *OFFICE.glob("tests/*.py")]),
])
def test_a_checker_of_scripts_has_nothing_to_say(checker, paths):
    if shutil.which(checker) is None:
        pytest.skip(f"there is no {checker}")
    ended = subprocess.run([checker, *paths], stdin=subprocess.DEVNULL, capture_output=True, text=True, check=False)
    assert (ended.returncode, ended.stdout) == (0, "")


def test_extracts_are_unpacked_by_their_content(folder):
    office(1, "new", "north/north.state").says("--force makes it know nothing")
    put("north/in/full.cif.gz", gzip.compress(FULL))
    zipped("north/in/monday", MONDAY)
    office(0, "take", "north/north.state").says("full.cif.gz: accepted: 19 records, 8 changes")
    assert not os.listdir("north/in")
    assert sorted(os.listdir("north/taken")) == ["full.cif.gz", "list", "monday"]
    assert files("north/north.state") == ["2024-06-07 2100 DFROC1F F DFROC1E", "2024-06-10 2100 DFROC1G U DFROC1F"]
    put("tuesday.cif", TUESDAY)
    subprocess.run(["zstd", "-q", "tuesday.cif", "-o", "tuesday.zst"], check=True)
    pathlib.Path("south/in/tuesday.zst").symlink_to("../../tuesday.zst")
    office(0, "take", "south/south.state")
    assert files("south/south.state") == ["2024-06-11 2100 DFROC1H U DFROC1G"]


def test_the_missing_update_is_named(north):
    docker("take", "south/south.state", EXAMPLES / "tuesday.cif")
    told = office(5, "known", "south/south.state").out.splitlines()
    assert "known up to update DFROC1H of 2024-06-11 21:00" in told
    assert "missing: DFROC1G, which comes before the update DFROC1H of 2024-06-11 21:00" in told
    assert office(0, "known", north).out.count("\n") == 1


def faults():
    """A file for each cause, made from the full extract."""
    lines = FULL.decode("ascii").splitlines(keepends=True)
    late = [record(f"LICORHAM            {time} 00000000   FL") for time in ("0800", "0700", "0600")]
    return {
        "After": [*lines, "\n"], "Length": ["\ufeff", *lines], "Byte": [lines[0], lines[1].replace("J", "\t", 1), *lines[2:]],
        "Kind": [lines[0], "LN" + lines[1][2:], *lines[2:]], "Place": [lines[1], lines[0], *lines[2:]], "Field": [re.sub(r"F(A *)$", r"X\1", lines[0], flags=re.M), *lines[1:]],
        "NoEnd": lines[:5],
        "Midnights": [lines[0], record("BSNA100012406032412131111100 POO1A10", "P"), record("LOASHFELD 0900 09001  SL"), *late, record("LTBRAYTON 0930 09322  FL"), record("ZZ")],
    }


@pytest.mark.parametrize("fault", faults())
def test_a_refused_file_is_put_aside_with_its_line_and_what_to_do(north, fault):
    content = "".join(faults()[fault]).encode("utf-8")
    put(f"north/in/{fault}", content)
    told = office(1, "take", north)
    [line] = [line for line in told.said.splitlines() if f": {fault}" in line]
    [advice] = [advice for name, _, advice in CAUSES if name == f"file refused: {fault}"]
    told.says(advice)
    assert line.removeprefix("station-office: ") in pathlib.Path(f"north/refused/{fault}.why").read_text(encoding="utf-8")
    assert unpacked(f"north/refused/{fault}.zst") == content
    assert not os.listdir("north/in")


def test_what_cannot_be_unpacked_is_put_aside(north):
    put("north/in/torn.gz", gzip.compress(FULL)[:300])
    zipped("north/in/two.zip", MONDAY, TUESDAY)
    office(1, "take", north).says("torn.gz: it can't be unpacked", "two.zip: it is a zip of several files")
    assert {"torn.gz", "two.zip"} <= set(os.listdir("north/refused"))


def test_a_file_that_is_named_stays_and_the_others_are_taken(folder):
    docker("take", "north/north.state", EXAMPLES / "full.cif")
    put("NoEnd", "".join(faults()["NoEnd"]).encode())
    office(1, "take", "north/north.state", "NoEnd", EXAMPLES / "monday.cif")
    assert pathlib.Path("NoEnd").exists()
    assert [line.split()[2] for line in files("north/north.state")] == ["DFROC1F", "DFROC1G"]
    office(4, "take", "north/north.state", "nowhere.cif", "NoEnd").says("nowhere.cif: there is no such file", "NoEnd: docker: file refused")
    office(4, "known", "north/none.state").says("there is no such file")


def test_an_extract_waits_if_state_is_at_fault(folder):
    put("north/north.state", b"no state")
    put("north/in/full.cif", FULL)
    office(1, "take", "north/north.state").says("state refused: offset 0: Mark")
    assert os.listdir("north/in") == ["full.cif"]


def test_a_morning_swaps_states_and_prints_the_dockers_of_the_transcript(north):
    docker("take", "south/south.state", EXAMPLES / "tuesday.cif")
    office(0, "send", north)
    sent = pathlib.Path("shared", pathlib.Path("north/north.state.name").read_text(encoding="utf-8").strip() + ".state.zst")
    assert unpacked(sent) == pathlib.Path(north).read_bytes()
    told = office(0, "morning", "south/south.state", DAY).says("known up to update DFROC1H").silent_on("missing")
    assert told.out.splitlines() == PRINTED
    assert told.dockers() == PLACES.split()
    office(0, "merge", north)
    assert pathlib.Path(north).read_bytes() == pathlib.Path("south/south.state").read_bytes()


def test_a_list_of_places(south):
    """Its last line has no line feed, some have carriage returns, one place is unknown, and one is refused."""
    put("south/places", b"CORHAM\r\n\n# a remark\nNOWHERE\nASHFIELD\nBRAYTON")
    told = office(2, "print", south, DAY).says("NOWHERE: nobody knows this code", "'ASHFIELD' is no place")
    assert told.dockers() == ["CORHAM", "NOWHERE", "BRAYTON"]
    office(2, "print", south, "12/06/2024").says("is no day")


def test_one_process_of_desk_prints_all_dockers(south, folder):
    told = office(0, "print", south, DAY, **STAND_IN, STARTS=str(folder / "starts"))
    assert told.out.splitlines() == PRINTED
    assert len(pathlib.Path("starts").read_text(encoding="ascii").splitlines()) == 1


@pytest.mark.parametrize("command", ["print", "morning"])
def test_a_desk_that_ends_while_dockers_are_printed(south, folder, command):
    """The desk ends instead of giving the second docker, with requests that it was sent ahead. Another one gives it, and all that follow."""
    office(0, "send", south)
    told = office(0, command, south, DAY, **STAND_IN, TROUBLE="ends 4", ONCE=str(folder / "once"), STARTS=str(folder / "starts"))
    assert told.out.splitlines() == PRINTED
    assert len(pathlib.Path("starts").read_text(encoding="ascii").splitlines()) == 2
    if command == "morning":
        told.says(f"{DAY}: 1 cancelled, 1 altered, 1 added at 3 of 3 places; ")


@pytest.mark.parametrize("command", ["print", "morning"])
def test_a_desk_that_refuses_a_docker(south, command):
    """The second docker is reported, and the third one is printed."""
    places = PLACES.split()
    office(0, "send", south)
    told = office(3, command, south, DAY, **STAND_IN, TROUBLE="refuses 4").says(f"{places[1]}: docker: want of memory").silent_on(f"{places[2]}: ")
    assert told.dockers() == [places[0], places[2]]
    if command == "morning":
        told.says(f"{DAY}: 1 cancelled, 1 altered, 1 added at 2 of 2 places; ")


def test_a_desk_of_an_older_version_that_never_writes(south, folder):
    """A morning that changes nothing needs only its answers."""
    program = folder / "older"
    program.write_text(f'#!/bin/sh\n[ "$1" = --write ] && echo "desk: usage: STATE" >&2 && exit 2\nexec {STAND_IN["DESK"]} "$@"\n')
    program.chmod(0o755)
    told = office(0, "morning", south, DAY, DESK=str(program))
    assert told.out.splitlines() == PRINTED
    told.says(f"{DAY}: 1 cancelled, 1 altered, 1 added at 3 of 3 places; ")


@pytest.mark.parametrize("trouble", ["", "refuses 4", "ends 4", "ends 9"])
def test_a_morning_compares_dockers_while_state_is_packed(south, folder, trouble):
    """A slow zstd gives it time for all of them. If one can't be had then, it is asked for again later."""
    program = folder / "bin" / "zstd"
    program.parent.mkdir()
    program.write_text(f'#!/bin/sh\nsleep 1.5\nexec {shutil.which("zstd")} "$@"\n')
    program.chmod(0o755)
    path = f"{program.parent}:{os.environ['PATH']}"
    told = office(0, "morning", south, DAY, **STAND_IN, PATH=path, ASKED=str(folder / "asked"), TROUBLE=trouble, ONCE=str(folder / "once"))
    assert told.out.splitlines() == PRINTED
    told.says(f"{DAY}: 1 cancelled, 1 altered, 1 added at 3 of 3 places; ")
    asked = pathlib.Path("asked").read_text(encoding="ascii").splitlines()
    assert asked[0].startswith("print")
    if not trouble:
        assert len(asked) == len(set(asked)) and asked.index("files") > asked.index(f"permanent {PLACES.split()[-1]} {DAY}")


def test_what_differs_from_the_permanent_timetable(south):
    told = office(0, "changes", south, DAY, **STAND_IN)
    assert told.said == ""
    assert not [line for line in told.out.splitlines() if not re.fullmatch(r"# .*|DOCKER .{49}|[-+] .{56}", line)]
    assert re.sub(r" *$|^#.*\n", "", told.out, flags=re.M) == DIFFERING
    quiet = office(0, "changes", south, "2024-06-14", **STAND_IN).says("2024-06-14: nothing differs from the permanent timetable")
    assert quiet.out == ""
    office(0, "morning", south, DAY, **STAND_IN).says(f"{DAY}: 1 cancelled, 1 altered, 1 added at 3 of 3 places; ", f"station-office changes {south} {DAY}")
    office(0, "morning", south, "2024-06-14", **STAND_IN).says("2024-06-14: nothing differs from the permanent timetable")


@pytest.mark.parametrize("desk", [{**STAND_IN, "OLD": "permanent"}, {**STAND_IN, "OLD": "places known permanent"}, {"DESK": "/nonexistent"}])
def test_what_differs_cannot_be_said(south, desk):
    office(0, "morning", south, DAY, **desk).silent_on("cancelled").says(f"{DAY}: what differs from the permanent timetable can't be said")
    told = office(4, "changes", south, DAY, **desk)
    if "OLD" in desk:
        told.says("this needs a program desk that knows what is permanent")


@pytest.mark.parametrize("command", ["changes", "morning"])
def test_a_desk_without_memory(south, command):
    told = office(3, command, south, DAY, **STAND_IN, POOR="permanent").says("ASHFELD: docker: want of memory")
    if command == "morning":
        assert told.dockers() == PLACES.split()


def test_words_of_changes(south):
    office(2, "changes", south)
    office(2, "changes", south, "12/06/2024", **STAND_IN).says("is no day")
    put("south/places", b"ASHFIELD\nNOWHERE\nCORHAM\n")
    told = office(2, "changes", south, DAY, **STAND_IN).says("'ASHFIELD' is no place")
    assert told.dockers() == ["CORHAM"]


def test_the_words_of_a_horizon(north):
    office(1, "horizon", north, "2024-06-06").says("later than a week ago")
    office(2, "horizon", north, "tomorrow").says("'tomorrow' is no day")
    office(0, "horizon", north, "2024-06-01")


def at_terminal(answer, *words):
    """Answers a question at a terminal. Returns the status."""
    command = " ".join(map(str, [STATION, *NOW, *words]))
    return subprocess.run(["script", "-qec", command, "/dev/null"], input=f"{answer}\n".encode(), capture_output=True, check=False).returncode


def test_a_horizon_is_asked_for_before_it_cannot_be_taken_back(north, south):
    office(0, "horizon", north, "2024-06-01")
    docker("new", "shared/hasty.state")
    docker("horizon", "shared/hasty.state", "2024-06-06")
    before = pathlib.Path(south).read_bytes()
    office(1, "merge", south, "shared/hasty.state").says("its horizon is 2024-06-06", "--force merges it")
    assert at_terminal("n", "merge", south, "shared/hasty.state") != 0
    assert pathlib.Path(south).read_bytes() == before
    docker("take", north, EXAMPLES / "tuesday.cif")
    office(0, "send", north)
    [sent] = pathlib.Path("shared").glob("*-north-*.state.zst")
    office(0, "merge", south, sent).says("its horizon is 2024-06-01")
    assert pathlib.Path(north).read_bytes() == pathlib.Path(south).read_bytes()
    for name in ("asked", "forced", "expected"):
        shutil.copy(south, f"{name}.state")
    assert at_terminal("y", "merge", "asked.state", "shared/hasty.state") == 0
    office(0, "--force", "merge", "forced.state", "shared/hasty.state")
    docker("horizon", "expected.state", "2024-06-06")
    assert len({pathlib.Path(f"{name}.state").read_bytes() for name in ("asked", "forced", "expected")}) == 1
    told = office(1, "print", south, "2024-06-02").says("day refused", "Take a later day")
    assert told.said.count("day refused") == 1


def test_the_last_seven_states_are_kept_and_one_is_put_back(folder):
    """There is a copy of STATE before each command that changes it."""
    state, after = pathlib.Path("north/north.state"), []
    for number in range(1, 11):
        put("extract", subprocess.run([ROOT / "examples" / "fan-in" / "extract", str(number)], capture_output=True, check=True).stdout)
        office(0, "take", state, "extract")
        after.append(state.read_bytes())
    copies = sorted(pathlib.Path("north/copies").iterdir())
    assert [unpacked(path) for path in copies] == after[2:9]
    for _ in range(2):
        office(0, "merge", state, state)
    assert unpacked(max(pathlib.Path("north/copies").iterdir())) == after[8]
    office(0, "--force", "new", state)
    docker("new", "empty.state")
    assert state.read_bytes() == pathlib.Path("empty.state").read_bytes()
    oldest = min(pathlib.Path("north/copies").iterdir())
    wanted = unpacked(oldest)
    office(1, "restore", state, oldest)
    office(0, "--force", "restore", state, oldest)
    assert state.read_bytes() == wanted


def test_one_at_a_time(south):
    """A command that waits goes on when the lock of the other is let go."""
    with open("south/.south.state.lock", "ab") as held:
        fcntl.flock(held, fcntl.LOCK_EX)
        office(4, "take", south, WAIT="0").says("another station-office is at work")
        later = threading.Timer(2, fcntl.flock, (held, fcntl.LOCK_UN))
        later.start()
        office(0, "take", south, WAIT="20")
        later.join()
    assert not list(pathlib.Path().rglob(".*.work"))
