"""More things than 16 bits can number or a fixed buffer can hold. There are 70,000 schedules and as many associations, each at a place of its own. There are
also a schedule of 200 lines, and 1,100 files in each of two states.

Each answer has to be right, so memory may run out only if a growth was refused. Then a growth in the middle of a `take` and of a `merge` is refused, and
each of the last two. If one of the last two is refused, the program has to report that it is out of memory. If the one in the middle is refused, it may also
manage with less memory, and give the whole answer."""
import pathlib
import typing

import pytest
from checks import holds, named
from docker_lines import event, works_on
from outcomes import DONE, accepted, done, holds_only, prints, ran_out
from programs import docker, give, held, preloading
from records import ALWAYS, NO_END, association, basic, extract, header, intermediate, origin, terminus
from states import ledger, older
from tables import each

# One process runs all of these cases, because it keeps the large states.
pytestmark = pytest.mark.xdist_group("sizes")

ROWS = 70_000
FILES = 1100
STOPS = 198
DAY = "2024-06-12"


class Half(typing.NamedTuple):
    """An extract and the state that takes it. The fields are the letters of its UIDs and places,
    its reference, and the numbers of the files that the state knew before."""

    uid: str
    place: str
    reference: str
    known: range

    def last_place(self):
        return f"{self.place}{ROWS - 1:06}"


FIRST = Half("A", "P", "DFROC1A", range(0, 2 * FILES, 2))
SECOND = Half("B", "Q", "DFROC1B", range(1, 2 * FILES, 2))
HALVES = {"first": FIRST, "second": SECOND}


def schedule(uid, *journey):
    return basic("N", uid, "240101", NO_END, ALWAYS, "1A10") + "".join(journey)


def units(half):
    """Each schedule begins at a place of its own, and has an association there with the next schedule. One more schedule has 200 lines."""
    for row in range(ROWS):
        uid, other = (f"{half.uid}{it:05}" for it in (row, (row + 1) % ROWS))
        place = f"{half.place}{row:06}"
        yield schedule(uid, origin(place, "0900"), terminus("MEETING", "0930"))
        yield association(uid, other, "240101", NO_END, place)
    between = (intermediate(f"L{stop:06}", passes="1010") for stop in range(1, STOPS + 1))
    yield schedule("Z00000", origin("BEYOND", "1000"), *between, terminus("MEETING", "1030"))


@pytest.fixture(scope="module")
def large(work):
    """A folder with the two extracts, the states before and after they are taken, and the state that joins the two states."""
    folder = work / "sizes"
    folder.mkdir()
    for name, half in HALVES.items():
        file, after = folder / f"{name}.cif", folder / f"{name}.state"
        give(extract(header("240609", half.reference), *units(half)).encode(), file)
        give(give(ledger(half.known), folder / f"{name}.ledger"), after)
        assert docker("take", after, file) == DONE
    give(held(folder / "first.state"), folder / "joined.state")
    assert docker("merge", folder / "joined.state", folder / "second.state") == DONE
    return folder


def last_docker(half):
    """The docker of the last place, where the last schedule leaves and works on."""
    uid, place = f"{half.uid}{ROWS - 1:05}", half.last_place()
    return prints(place, DAY, works_on("0900", uid, f"{half.uid}00000"), event("0900", "D", uid, place, "MEETING", "0900"))


def test_check(large):
    assert docker("check", large / "first.cif") == accepted(4 * ROWS + STOPS + 5, 2 * ROWS + 1)


@each("before, words, after", {
    "take of the first file": ("first.ledger", "take STATE {}/first.cif", "first.state"),
    "take of the second file": ("second.ledger", "take STATE {}/second.cif", "second.state"),
    "merge": ("first.state", "merge STATE {}/second.state", "joined.state"),
})
def test_stores(large, before, words, after):
    give(held(large / before))
    assert docker(*words.format(large).split()) == DONE
    holds_only("STATE", held(large / after))


@each("words, place, wanted", {
    "day at the last place": ("day {}/first.cif", FIRST.last_place(), last_docker(FIRST)),
    "print at the last place": ("print {}/first.state", FIRST.last_place(), last_docker(FIRST)),
    "print from the joined state at the last place of the first file": ("print {}/joined.state", FIRST.last_place(), last_docker(FIRST)),
    "print from the joined state at the last place of the second file": ("print {}/joined.state", SECOND.last_place(), last_docker(SECOND)),
    "print from the joined state at a place in the schedule of 200 lines": (
        "print {}/joined.state", "L000198", prints("L000198", DAY, event("1010", "P", "Z00000", "BEYOND", "MEETING")),
    ),
})
def test_a_docker(large, words, place, wanted):
    assert docker(*words.format(large).split(), place, DAY) == wanted


def test_files_of_the_joined_state(large):
    lines = [f"2005-09-26 0105 {number:07} U LASTREF\n" for number in range(2 * FILES)]
    lines += [f"2024-06-09 2100 {half.reference} U DFROC1Z\n" for half in HALVES.values()]
    assert docker("files", large / "joined.state") == done("".join(lines).encode())


def test_horizon_of_the_joined_state(large):
    give(held(large / "joined.state"))
    assert docker("horizon", "STATE", "2024-01-01") == DONE


def test_migrate(large):
    give(older(held(large / "first.state")))
    assert docker("migrate", "STATE") == DONE
    holds_only("STATE", held(large / "first.state"))


@each("before, words", {"take": ("first.ledger", "take STATE {}/first.cif"), "merge": ("first.state", "merge STATE {}/second.state")})
@each("which", ["in the middle", "last but one", "last"])
def test_a_growth_is_refused(large, refusing, before, words, which):
    words, before = words.format(large).split(), held(large / before)
    give(before)
    whole = docker(*words, before=preloading(refusing, COUNTED=pathlib.Path("counted").absolute()))
    assert whole == DONE
    stored, count = held(), int(held("counted"))
    growth = {"in the middle": count // 2, "last but one": count - 1, "last": count}[which]
    give(before)
    with named(f"growth {growth} of {count}"):
        is_out = ran_out(docker(*words, before=preloading(refusing, GROWTH=growth)), before, whole, stored)
        holds("the program managed with less memory", is_out or which == "in the middle")
    print(f"{count} growths")
