"""What `save` writes, and that no STATE is ever lost."""
import os
import random
import resource
import signal
import stat
import subprocess
import time

import pytest
from desks import DEVICE, DONE, Desk, desk, docker, ends_well
from mirror import give_large, mirrored, state_of, writing
from outcomes import holds_only
from programs import Ended, give, held
from tables import alone, each


def with_large():
    """The text of a state that knows the file `full` and the large file."""
    give(state_of("full"), "by_docker")
    assert docker("take", "by_docker", "large") == DONE
    return held("by_docker")


def test_save_twice_in_a_row_and_with_nothing_changed():
    with mirrored("full") as (asked, mirror):
        for line in ("save", "save", "take monday", "save", "save", "files", "save"):
            assert asked.ask(line) == mirror.answer(*line.split()), line
            holds_only("STATE", mirror.stored)


def test_save_keeps_the_permissions_of_state_and_its_link():
    give(state_of("full"), "office")
    os.chmod("office", 0o640)
    os.symlink("office", "STATE")
    with writing("full") as asked:
        asked.does("take monday", "save")
    assert (os.readlink("STATE"), stat.S_IMODE(os.stat("office").st_mode), held("office")) == ("office", 0o640, state_of("full", "monday"))


def limit_files(process, size):
    resource.prlimit(process.pid, resource.RLIMIT_FSIZE, (size, resource.RLIM_INFINITY))


@each("size", {f"{size} bytes, at a save": size for size in (0, 1, 1024, 7168, 50000)})
def test_a_disk_that_is_full_at(size):
    give_large(800)
    before = state_of("full")
    # Python ignores the signal for a file that grows beyond its limit, and so does the desk that it starts.
    with writing("full", restore_signals=False) as asked:
        asked.does("take large")
        limit_files(asked.process, size)
        for _ in range(2):
            asked.gives(DEVICE, "save")
            holds_only("STATE", before)
        files = asked.ask("files")
        assert asked.ask("print ASHFELD 2024-06-14").text.count(b" L0") == 800
        limit_files(asked.process, resource.RLIM_INFINITY)
        asked.does("save")
        holds_only("STATE", with_large())
        assert files == docker("files", "STATE")


ON_SMALL = 'mount -t tmpfs -o size=512k none small && cp STATE small/STATE && exec "$@"'


def apart():
    """The words that run a program in a mount namespace of its own, with a file system of 512 KiB in the folder `small`."""
    os.mkdir("small")
    command = ["unshare", "-m" if os.getuid() == 0 else "-rm", "sh", "-c", ON_SMALL, "sh"]
    if subprocess.run([*command, "true"], check=False, stderr=subprocess.DEVNULL).returncode:
        pytest.skip("this machine allows no mount")
    return command


@alone
def test_a_small_file_system_that_is_full():
    give_large(800)
    before = give(state_of("full"))
    with Desk("--write", "small/STATE", program=apart()) as asked:
        asked.does("take large")
        folder = f"/proc/{asked.process.pid}/root{os.getcwd()}/small"
        subprocess.run(["dd", "if=/dev/zero", f"of={folder}/filler"], check=False, stderr=subprocess.DEVNULL)
        assert (asked.ask("save"), sorted(os.listdir(folder)), held(f"{folder}/STATE")) == (DEVICE, ["STATE", "filler"], before)
        assert asked.ask("print ASHFELD 2024-06-14").text.count(b" L0") == 800
        os.remove(f"{folder}/filler")
        asked.does("save")
        assert held(f"{folder}/STATE") == with_large()
        ends_well(asked)


def test_a_file_that_has_the_drafts_name_and_is_no_draft():
    with writing("full") as asked:
        asked.does("take monday")
        give(b"mine", "STATE.new")
        assert (asked.ask("save"), held("STATE.new"), held()) == (DEVICE, b"mine", state_of("full"))
        os.remove("STATE.new")
        asked.does("save")
        holds_only("STATE", state_of("full", "monday"))


def test_a_draft_that_a_killed_command_left():
    give(b"DKS2", "STATE.new")
    os.chmod("STATE.new", 0o1640)
    with writing("full") as asked:
        assert asked.ask("files") == docker("files", "STATE")
        assert os.path.exists("STATE.new"), "it is gone before a save"
        asked.does("take monday", "save")
        holds_only("STATE", state_of("full", "monday"))


SIGNALS = ["SIGINT", "SIGTERM"]
# The words that run a desk which doesn't ignore these signals.
HEEDING = ("env", "--default-signal=INT,TERM")


def signalled(which, before, wanted, delay):
    """Sends a signal to a desk during a save, and checks what it leaves. Returns whether STATE is as before, and whether a draft is left."""
    give(before)
    with Desk("--write", "STATE", program=HEEDING) as asked:
        asked.does("take large")
        asked.say(b"save\n")
        time.sleep(delay)
        asked.process.send_signal(which)
        assert asked.ended().status == -which
    now = held()
    assert now in (before, wanted), "STATE is neither as it was nor as it is to be"
    if is_left := os.path.lexists("STATE.new"):
        mode = os.lstat("STATE.new").st_mode
        assert stat.S_ISREG(mode) and mode & stat.S_ISVTX, "a draft without its mark"
        assert now == before, "a draft beside what is stored"
    return now == before, is_left


@alone
@each("name", SIGNALS)
def test_a_signal_at_random_moments_of_a_save(name):
    which, before = getattr(signal, name), state_of("full")
    give_large(4000)
    wanted, numbers, met = with_large(), random.Random(name), set()
    with writing("full") as asked:
        asked.does("take large")
        began = time.monotonic()
        asked.does("save")
        longest = 1.3 * (time.monotonic() - began)
    for _ in range(60):
        met.add(signalled(which, before, wanted, numbers.uniform(0, longest)))
        assert desk("--write", "STATE", given=b"take large\nsave\n") == Ended(0, DONE.written() * 2, b"")
        holds_only("STATE", wanted)
    assert (True, True) in met, "no signal met a save"


@alone
@each("name", SIGNALS)
def test_a_signal_between_requests(name):
    which, before = getattr(signal, name), give(state_of("full"))
    with Desk("--write", "STATE", program=HEEDING) as asked:
        asked.does("take monday")
        asked.process.send_signal(which)
        assert asked.ended() == Ended(-which, b"", b"")
    holds_only("STATE", before)
