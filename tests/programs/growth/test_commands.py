"""Each command in too little memory: with one memory growth after another refused, and in address spaces of 4 MB and more, an eighth of a megabyte apart. A run
has to give the whole answer. Otherwise memory has to run out, and the run prints nothing and leaves STATE unchanged."""
import functools

import pytest
from checks import named, same
from outcomes import holds_only, ran_out, takes
from plans import Plan
from programs import docker, give, held, in_memory, in_turn, preloading
from states import older
from tables import each

# The size of the first address space, and the difference between two, in KiB.
FIRST, STEP = 4096, 128
# The runs end after this many in a row that have given the whole answer.
ENOUGH = 8
# Commands that need no more memory than the first address space has. `check` keeps nothing of a file, and this ledger is short.
SMALL = "new", "check", "files"
# The state with which a command starts, its words, and its job line. The state of the extract is also there in the older format.
COMMANDS = each("state, line, job", {
    "new": ("empty", "new STATE", ""),
    "check": ("empty", "check full.cif", ""),
    "day": ("empty", "day full.cif ASHFELD 2024-06-12", ""),
    "take": ("full", "take STATE update.cif", ""),
    "merge": ("full", "merge STATE update.state", ""),
    "print": ("full", "print STATE ASHFELD 2024-06-12", ""),
    "files": ("full", "files STATE", ""),
    "horizon": ("full", "horizon STATE 2024-06-01", ""),
    "migrate": ("old", "migrate STATE", ""),
    "a job line": ("full", "", "print stdin ASHFELD 2024-06-12\n"),
})


@functools.cache
def texts_of(folder, size):
    """An extract of this number of schedules and its update, and the states of neither, of each, and of the extract in the older format."""
    folder.mkdir()
    plan = Plan("memory")
    plan.uids = size // 2
    for name, text in zip(("full", "update"), plan.files(size)):
        give(text.encode(), folder / f"{name}.cif")
        takes(folder / f"{name}.state", folder / f"{name}.cif")
    give(older(held(folder / "full.state")), folder / "old.state")
    takes(folder / "empty.state")
    return {path.name: held(path) for path in folder.iterdir()}


@pytest.fixture
def run_of(work, size, state, line, job):
    """A function that runs the command over its state, the state's text before, the whole answer, and the state's text after it."""
    texts = texts_of(work / f"commands {size}", size)
    for name, text in texts.items():
        give(text, name)
    before = texts[f"{state}.state"]

    def runs(**options):
        give(before)
        return docker(*line.split(), given=job.encode() + before if job else b"", **options)

    whole = runs()
    assert (whole.status, whole.errors) == (0, b"")
    return runs, before, whole, held()


@pytest.mark.parametrize("size", [40])
@COMMANDS
def test_each_growth_of_a_command_is_refused_in_turn(refusing, run_of):
    """After each of these runs, the command is run with enough memory, and has to give the whole answer."""
    runs, before, whole, stored = run_of
    for growth, ended, told in in_turn(lambda number: runs(before=preloading(refusing, GROWTH=number, REFUSED="refused")), "refused"):
        with named(f"growth {growth}"):
            is_out = ran_out(ended, before, whole, stored)
            if told is not None:
                same("the end afterwards", runs(), whole)
                holds_only("STATE", stored)
    assert not is_out
    assert growth > 1, "no growth was refused"
    print(f"{growth - 1} growths were refused")


@pytest.mark.parametrize("size", [2500])
@COMMANDS
def test_small_address_spaces_in_turn(run_of, line):
    runs, before, whole, stored = run_of
    is_out = []
    while len(is_out) < ENOUGH or any(is_out[-ENOUGH:]):
        room = FIRST + STEP * len(is_out)
        with named(f"{room} KiB"):
            is_out.append(ran_out(runs(before=in_memory(room)), before, whole, stored))
    assert any(is_out) or line.partition(" ")[0] in SMALL, "memory never ran out"
    print(f"memory ran out in {sum(is_out)} of {len(is_out)} address spaces")
