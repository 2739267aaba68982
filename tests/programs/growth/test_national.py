"""An extract of national size: 500,000 schedules with eight million calls. Each command and a desk have to give the right answer. A program fails here if it
limits the number of rows, or requests more memory than the rows need.

The files need 4 GB. They are in memory (/dev/shm) if there is room and no TMPDIR, and otherwise in a temporary folder."""
import contextlib
import filecmp
import os
import pathlib
import shutil
import tempfile

import checks
import pytest
from checks import holds
from desks import Answer, desk, written
from outcomes import DONE, accepted, docker_text, done
from programs import docker
from records import TRAILER, basic, header, origin, passes, terminus
from states import OLD_MARK
from tables import by_itself, each

pytestmark = [by_itself, pytest.mark.timeout(600)]

SCHEDULES, MORE, ROUTES, CALLS = 500_000, 10_000, 1000, 16
# Under this horizon, all schedules of a route have lapsed except the last.
HORIZON, DAY = "2024-01-01", "2024-06-12"
# The bytes that the files need.
FILES = 4 << 30
# The last schedules of the two files, which take the last route.
LAST, LAST_MORE = SCHEDULES - 1, SCHEDULES + MORE - 1


def uid(number):
    return f"{chr(ord('A') + number // 100_000)}{number % 100_000:05}"


def place(route, stop):
    return f"{chr(ord('A') + stop)}{route:06}"


def journey(route):
    """The locations of a route, which has places of its own, a minute apart."""
    between = "".join(passes(place(route, stop), f"09{stop:02}") for stop in range(1, CALLS - 1))
    return origin(place(route, 0), "0900") + between + terminus(place(route, CALLS - 1), f"09{CALLS - 1:02}")


def write(path, reference, numbers):
    """Writes an extract of the schedules with these numbers, which take the routes in turn."""
    journeys = [journey(route) for route in range(ROUTES)]
    with open(path, "w", encoding="ascii") as file:
        file.write(header("240609", reference))
        for number in numbers:
            last = "999999" if number >= numbers.stop - ROUTES else "231231"
            file.write(basic("N", uid(number), "230101", last, "1111111", "1A10"))
            file.write(journeys[number % ROUTES])
        file.write(TRAILER)


@pytest.fixture(scope="module")
def national():
    """A folder with two extracts, the states that take them, and the state that knows both."""
    is_room = not os.environ.get("TMPDIR") and os.path.isdir("/dev/shm") and shutil.disk_usage("/dev/shm").free >= FILES
    with (pytest.MonkeyPatch.context() as patch, tempfile.TemporaryDirectory(dir="/dev/shm" if is_room else None) as made):
        # A command may take six times as long as in other tests.
        patch.setattr(checks, "PATIENCE", 120)
        folder = pathlib.Path(made)
        write(folder / "first.cif", "DFROC1A", range(SCHEDULES))
        write(folder / "second.cif", "DFROC1B", range(SCHEDULES, SCHEDULES + MORE))
        for name in ("first", "second"):
            takes(folder / f"{name}.state", folder / f"{name}.cif")
        with copy_of(folder / "first.state") as state:
            assert docker("merge", state, folder / "second.state") == DONE
            state.rename(folder / "joined.state")
        yield folder


def takes(state, file):
    assert docker("new", state) == DONE
    assert docker("take", state, file) == DONE


@contextlib.contextmanager
def copy_of(path):
    """A copy of a state. It is removed at the end."""
    copy = path.parent / "STATE"
    try:
        yield pathlib.Path(shutil.copyfile(path, copy))
    finally:
        copy.unlink(missing_ok=True)


def same_text(state, wanted):
    holds(f"it isn't {wanted.name}", filecmp.cmp(state, wanted, shallow=False))
    holds("a draft is left", not os.path.lexists(f"{state}.new"))


def docker_of(stop, *numbers):
    """The docker of a place on the last route, at which the schedules with these numbers call."""
    route = ROUTES - 1
    trains = [f"09{stop:02}  P 1A10 {uid(number)} P" for number in numbers]
    ends = f"{place(route, 0)} {place(route, CALLS - 1)}"
    return docker_text(place(route, stop), DAY, *(f"{train:41}{ends}" for train in trains))


def at(stop):
    """The words for the docker of a place on the last route."""
    return f"{place(ROUTES - 1, stop)} {DAY}"


@each("name", ["first", "second"])
def test_new_and_take(national, name):
    state = national / "STATE"
    takes(state, national / f"{name}.cif")
    same_text(state, national / f"{name}.state")
    state.unlink()


@each("words, wanted", {
    "check": ("check {}/first.cif", accepted(SCHEDULES * (CALLS + 1) + 2, SCHEDULES)),
    "day": (f"day {{}}/first.cif {at(9)}", done(docker_of(9, LAST))),
    "print": (f"print {{}}/first.state {at(14)}", done(docker_of(14, LAST))),
    "files": ("files {}/joined.state", done(b"2024-06-09 2100 DFROC1A U DFROC1Z\n2024-06-09 2100 DFROC1B U DFROC1Z\n")),
})
def test_reads(national, words, wanted):
    assert docker(*words.format(national).split()) == wanted


def test_migrate(national):
    """The older format has another mark and no horizon. What is migrated is the same state."""
    old = national / "STATE"
    with open(national / "first.state", "rb") as text, open(old, "wb") as out:
        text.seek(6)
        out.write(OLD_MARK)
        shutil.copyfileobj(text, out, 1 << 24)
    assert docker("migrate", old) == DONE
    same_text(old, national / "first.state")
    old.unlink()


@each("name, other", {"the update into the extract": ("first", "second"), "the extract into the update": ("second", "first")})
def test_merge(national, name, other):
    """A merge either way results in the same state."""
    with copy_of(national / f"{name}.state") as state:
        assert docker("merge", state, national / f"{other}.state") == DONE
        same_text(state, national / "joined.state")


def test_a_desk_prints_takes_prints_and_saves(national):
    """A desk over the state of the first file learns what the other state knows."""
    asked = f"print {at(5)}\n"
    given = f"{asked}take {national}/second.cif\n{asked}save\n".encode()
    texts = [docker_of(5, LAST), b"", docker_of(5, LAST, LAST_MORE), b""]
    with copy_of(national / "first.state") as state:
        assert desk("--write", state, given=given) == done(written(Answer(0, text) for text in texts))
        same_text(state, national / "joined.state")


def test_take_of_a_known_file_changes_nothing(national):
    with copy_of(national / "joined.state") as state:
        assert docker("take", state, national / "second.cif") == DONE
        same_text(state, national / "joined.state")


def test_print_under_a_horizon(national):
    with copy_of(national / "joined.state") as state:
        assert docker("horizon", state, HORIZON) == DONE
        assert docker("print", state, *at(3).split()) == done(docker_of(3, LAST, LAST_MORE))
