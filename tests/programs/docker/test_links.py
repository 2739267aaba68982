"""A STATE that is a link, the permissions of its file, and files that can't be made or replaced."""
import os
import pathlib
import shutil
import stat
import subprocess

import pytest
from docker_lines import LINES
from given import STATE_OF_BOTH, STATE_OF_ONE, STATES
from outcomes import DEVICE, DONE, holds_only, prints, stores
from programs import DOCKER, as_nobody, docker, give, held, redirected, run
from tables import each

NO_FILES = STATES["no_files"]


def mode_of(name):
    return stat.S_IMODE(os.stat(name).st_mode)


def test_take_by_a_link():
    """The link stays a link, and the file keeps its permissions."""
    give(STATE_OF_ONE, "office")
    os.chmod("office", 0o640)
    os.symlink("office", "linked")
    stores(STATE_OF_BOTH, "take", "linked", "revised")
    assert (os.readlink("linked"), mode_of("office")) == ("office", 0o640)


MASKS = {"022": 0o644, "077": 0o600, "000": 0o666}


def masked(mask):
    """The words that run the program under this permission mask."""
    return ("sh", "-c", f'umask {mask}; exec "$@"', "sh")


@each("mask, mode", dict(zip(MASKS, MASKS.items())))
def test_new_under_the_mask(mask, mode):
    stores(NO_FILES, "new", "office", before=masked(mask))
    assert mode_of("office") == mode


@each("mask", list(MASKS))
def test_take_under_the_mask(mask):
    give(NO_FILES, "office")
    os.chmod("office", 0o604)
    stores(STATE_OF_ONE, "take", "office", "one", before=masked(mask))
    assert mode_of("office") == 0o604


def test_take_by_a_link_that_leads_nowhere():
    os.symlink("not_there", "link")
    assert docker("take", "link", "one") == DEVICE
    assert not os.path.lexists("not_there")


def test_new_by_a_link_that_leads_nowhere():
    os.symlink("not_there", "link")
    stores(NO_FILES, "new", "link", state="not_there")


def test_new_into_a_pipe():
    assert docker("new", "/dev/stdout") == DONE._replace(output=NO_FILES)
    assert NO_FILES == b"DKS2" + bytes(18)


def test_new_into_a_named_pipe():
    os.mkfifo("queue")
    with subprocess.Popen([DOCKER, "new", "queue"]) as maker:
        text = held("queue")
    assert (maker.returncode, text) == (0, NO_FILES)


@each("state", {
    "on a full device": "/dev/full", "in place of a folder": "folder", "if nothing can be made": "/proc/state", "in a folder that is not there": "no/state",
})
def test_new(state):
    assert docker("new", state) == DEVICE


def test_new_at_standard_output_which_is_a_file():
    stores(NO_FILES, "new", "/dev/stdout", state="at_output", before=redirected(">at_output"))


# These cases run as a user other than root, because root may write anywhere.


@pytest.fixture
def stranger(folder):
    """The words that run a command as this user. The folder has the program."""
    shutil.copy(DOCKER, folder / "program")
    command = [*as_nobody(), str(folder / "program")]
    if run([*command, "check", "one"]).status:
        pytest.skip("this machine lets nobody but root run the program")
    return command


@pytest.fixture
def locked(given):
    """A read-only folder with a state that isn't read-only."""
    os.mkdir("locked")
    give(STATE_OF_ONE, "locked/office")
    os.chmod("locked/office", 0o666)
    os.chmod("locked", 0o555)
    yield
    os.chmod("locked", 0o755)


@pytest.fixture
def unlocked(given):
    """A folder of this user with a state. Neither is read-only."""
    os.mkdir("open")
    give(STATE_OF_ONE, "open/office")
    for name in ("open", "open/office") if os.getuid() == 0 else ():
        os.chown(name, 65534, 65534)


def test_new_in_a_folder_that_is_read_only(stranger, locked):
    assert (run([*stranger, "new", "locked/state"]), os.listdir("locked")) == (DEVICE, ["office"])


def test_take_in_a_folder_that_is_read_only(stranger, locked):
    """A docker can still be printed from the state."""
    assert run([*stranger, "take", "locked/office", "revised"]) == DEVICE
    holds_only("locked/office", STATE_OF_ONE)
    assert run([*stranger, "print", "locked/office", "ASHFELD", "2024-06-10"]) == prints("ASHFELD", "2024-06-10", LINES["LEAVES_0900"])


def test_take_of_a_state_that_is_read_only_in_a_folder_that_is_not(stranger, unlocked):
    """The state stays read-only."""
    os.chmod("open/office", 0o444)
    assert run([*stranger, "take", "open/office", "revised"]) == DONE
    holds_only("open/office", STATE_OF_BOTH)
    assert mode_of("open/office") == 0o444


def test_take_beside_a_left_over_draft_that_is_read_only(stranger, unlocked):
    """The draft is removed, although this user may not write it."""
    give(b"DKS2 left", "open/office.new")
    if os.getuid() == 0:
        os.chown("open/office.new", 65534, 65534)
    os.chmod("open/office.new", 0o1444)
    assert run([*stranger, "take", "open/office", "revised"]) == DONE
    holds_only("open/office", STATE_OF_BOTH)


def test_take_beside_a_pipe_that_may_only_be_read(stranger, unlocked):
    """The pipe has the name of a draft. The command is refused, and doesn't open the pipe."""
    os.mkfifo("open/office.new")
    os.chmod("open/office.new", 0o444)
    assert run([*stranger, "take", "open/office", "revised"]) == DEVICE
    assert stat.S_ISFIFO(os.lstat("open/office.new").st_mode)
    assert held("open/office") == STATE_OF_ONE


def test_take_of_a_state_that_may_not_be_read(stranger, unlocked):
    os.chmod("open/office", 0o200)
    before = pathlib.Path("open/office").stat()
    assert run([*stranger, "take", "open/office", "one"]) == DEVICE
    after = pathlib.Path("open/office").stat()
    assert (after.st_ino, after.st_mtime_ns) == (before.st_ino, before.st_mtime_ns)
    os.chmod("open/office", 0o600)
    holds_only("open/office", STATE_OF_ONE)
