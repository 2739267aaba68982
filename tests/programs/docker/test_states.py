"""`new`, `take`, `merge`, `print`, `files`, `horizon` and `migrate`: what a state holds, in whatever order it learned of its files. Also states with a horizon,
and states in the older format."""
import itertools

from docker_lines import LINES
from given import FILES_LINE, REVISED_FILES_LINE, STATES, STATE_OF_BOTH, STATE_OF_ONE, STATE_OF_REVISED
from outcomes import DAY_REFUSED, DONE, done, holds_only, keeps, prints, state_refused, stores, takes
from programs import docker, give, held
from states import older, under
from tables import each

LAPSED = STATES["state_of_lapsed"]
TO_JUNE = under("2024-06-14", STATE_OF_ONE)
OLD = older(STATE_OF_ONE)


def test_new():
    stores(STATES["no_files"], "new", "office")


@each("text, size", {"a state of one schedule": (STATE_OF_ONE, 311), "a state that lapsed": (LAPSED, 67), "a state in the older format": (OLD, 309)})
def test_the_text_of(text, size):
    """These tests write the texts of states part by part, so the sizes of some are checked here."""
    assert len(text) == size


@each("before, words, wanted", {
    "print of no file": (STATES["no_files"], "print office ELM 2024-06-10", prints("ELM", "2024-06-10")),
    "files of no file": (STATES["no_files"], "files office", DONE),
    "print at the origin": (STATE_OF_ONE, "print office ASHFELD 2024-06-10", prints("ASHFELD", "2024-06-10", LINES["LEAVES_0900"])),
    "print at the terminus": (STATE_OF_ONE, "print office BRAYTON 2024-06-10", prints("BRAYTON", "2024-06-10", LINES["COMES_0930"])),
    "print on which no train runs": (STATE_OF_ONE, "print office ASHFELD 2024-06-15", prints("ASHFELD", "2024-06-15")),
    "files of one": (STATE_OF_ONE, "files office", done(FILES_LINE)),
    "print of a revision": (STATE_OF_BOTH, "print office ASHFELD 2024-06-10", prints("ASHFELD", "2024-06-10", LINES["LEAVES_0905"])),
    "files of a revision": (STATE_OF_BOTH, "files office", done(FILES_LINE + REVISED_FILES_LINE)),
    "print of a late full extract": (
        STATES["state_of_three"], "print office ASHFELD 2024-06-10", prints("ASHFELD", "2024-06-10", LINES["LEAVES_1000"], LINES["LEAVES_1100"]),
    ),
    "the heading of the new TIPLOC": (STATES["state_of_renamed"], "print office ASHFLDN 2024-06-10", prints("ASHFLDN", "2024-06-10", name="ASHFIELD NEW")),
    "the heading of the old TIPLOC": (STATES["state_of_renamed"], "print office ASHFELD 2024-06-10", prints("ASHFELD", "2024-06-10")),
    "print before the horizon plus three days": (TO_JUNE, "print office ASHFELD 2024-06-16", DAY_REFUSED),
    "print on the horizon plus three days": (TO_JUNE, "print office ASHFELD 2024-06-17", prints("ASHFELD", "2024-06-17")),
    "print before the later horizon plus three days": (LAPSED, "print office ASHFELD 2024-06-17", DAY_REFUSED),
    "print on the later horizon plus three days": (LAPSED, "print office ASHFELD 2024-06-18", prints("ASHFELD", "2024-06-18")),
    "files of what lapsed": (LAPSED, "files office", done(FILES_LINE)),
})
def test_prints(before, words, wanted):
    give(before, "office")
    keeps(wanted, *words.split())


@each("before, words, wanted", {
    "take": (STATES["no_files"], "take office one", STATE_OF_ONE),
    "take of a file that was taken": (STATE_OF_ONE, "take office one", STATE_OF_ONE),
    "take of a revision": (STATE_OF_ONE, "take office revised", STATE_OF_BOTH),
    "merge": (STATE_OF_ONE, "merge office state_of_revised", STATE_OF_BOTH),
    "merge of what is known": (STATE_OF_BOTH, "merge office state_of_revised", STATE_OF_BOTH),
    "merge with itself": (STATE_OF_BOTH, "merge office office", STATE_OF_BOTH),
    "merge the other way": (STATE_OF_REVISED, "merge office state_of_one", STATE_OF_BOTH),
    "horizon on the last day": (STATE_OF_ONE, "horizon office 2024-06-14", TO_JUNE),
    "horizon after the last day": (TO_JUNE, "horizon office 2024-06-15", LAPSED),
    "a horizon that is not greater": (LAPSED, "horizon office 2024-06-10", LAPSED),
    "the first day as a horizon": (LAPSED, "horizon office 1960-01-01", LAPSED),
    "merge of a state under a greater horizon": (STATE_OF_ONE, "merge office state_of_lapsed", LAPSED),
    "merge under a horizon": (LAPSED, "merge office state_of_one", LAPSED),
    "take under a horizon": (LAPSED, "take office one", LAPSED),
    "migrate": (OLD, "migrate office", STATE_OF_ONE),
    "merge of a state under a horizon": (STATE_OF_REVISED, "merge office state_to_june", under("2024-06-14", STATE_OF_BOTH)),
})
def test_stores(before, words, wanted):
    give(before, "office")
    give(TO_JUNE, "state_to_june")
    stores(wanted, *words.split())


@each("files, wanted", {
    "take of lines that end in carriage return and line feed": ("returns", STATE_OF_ONE),
    "take of a last line without its line feed": ("unended", STATE_OF_ONE),
    "take of a file after its revision": ("revised one", STATE_OF_BOTH),
    "take into a state of its own": ("revised", STATE_OF_REVISED),
    "a deletion first": ("deleted before_deleted", STATES["state_of_deleted"]),
    "a deletion last": ("before_deleted deleted", STATES["state_of_deleted"]),
    "a TIPLOC renamed": ("named renamed", STATES["state_of_renamed"]),
    "a TIPLOC renamed before it is named": ("renamed named", STATES["state_of_renamed"]),
})
def test_takes_in_turn(files, wanted):
    assert takes("office", *files.split()) == wanted
    holds_only("office", wanted)


ORDERS = [" ".join(order) for order in itertools.permutations(("early", "full", "late_update"))]


@each("order", ORDERS)
def test_take_of(order):
    """A full extract and two updates, taken in each order."""
    assert takes("office", *order.split()) == STATES["state_of_three"]
    holds_only("office", STATES["state_of_three"])


def test_three_offices_merged():
    for file in ("early", "full", "late_update"):
        takes(f"of_{file}", file)
    assert docker("merge", "of_late_update", "of_early") == DONE
    stores(STATES["state_of_three"], "merge", "of_full", "of_late_update", state="of_full")


# Files with equal stamps: the later last day wins, then the greater bytes, and a put wins over a deletion.
EQUAL_STAMPS = {
    "longer, one": ("longer", "0850"),
    "one, longer": ("longer", "0850"),
    "later, one": ("later", "0905"),
    "one, later": ("later", "0905"),
    "one, gone_at_once": ("one", "0900"),
    "gone_at_once, one": ("one", "0900"),
}


@each("files, winner, time", {name: (name.split(", "), *row) for name, row in EQUAL_STAMPS.items()})
def test_equal_stamps(files, winner, time):
    wanted = takes("wanted_state", winner)
    assert takes("office", *files) == wanted
    holds_only("office", wanted)
    assert docker("print", "office", "ASHFELD", "2024-06-10") == prints("ASHFELD", "2024-06-10", LINES[f"LEAVES_{time}"])


def does(*lines):
    """The text of a new state after these commands."""
    assert docker("new", "office") == DONE
    for line in lines:
        assert docker(*line.split()) == DONE
    return held("office")


def test_an_older_schedule_that_ends_later_stays_below_what_lapsed():
    older_one, newer_one = "take office to_july", "take office revised"
    assert does(older_one, newer_one, "horizon office 2024-06-15") == does(newer_one, "horizon office 2024-06-15", older_one)
    assert docker("print", "office", "ASHFELD", "2024-06-24") == prints("ASHFELD", "2024-06-24")


@each("text, offset, cause", {
    "the newer format": (STATE_OF_ONE, 0, "Mark"),
    "a text cut to 3 bytes": (OLD[:3], 0, "Short"),
    "a text cut to 11 bytes": (OLD[:11], 4, "Short"),
    "a text cut to 30 bytes": (OLD[:30], 12, "Short"),
    "a text cut to 38 bytes": (OLD[:38], 31, "Short"),
    "a text cut to 308 bytes": (OLD[:308], 39, "Short"),
    "a text and a byte": (OLD + b"x", 309, "Tail"),
    "an op 2": (OLD[:64] + b"\2" + OLD[65:], 39, "Body"),
})
def test_migrate_of(text, offset, cause):
    give(text, "bad")
    keeps(state_refused(offset, cause), "migrate", "bad", state="bad")
