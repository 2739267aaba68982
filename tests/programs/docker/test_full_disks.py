"""Disks that become full at any point of a write, and files that have the name of a draft."""
import os
import signal
import subprocess

import pytest
from given import STATE_OF_BOTH, STATE_OF_ONE
from outcomes import DEVICE, DONE, keeps, stores, takes, takes_more
from programs import DOCKER, Ended, docker, ended_on_disk, give, held, on_disk, redirected, run
from tables import alone, each

KILOBYTES = {f"{size} KiB": size for size in (1, 7, 16)}


@each("kilobytes", KILOBYTES)
@each("words", {"take": "take office places", "merge": "merge office of_places"})
def test_a_disk_that_becomes_full(kilobytes, words):
    give(STATE_OF_BOTH, "office")
    takes("of_places", "places")
    keeps(DEVICE, *words.split(), before=on_disk(kilobytes))


# The words that run the program on a disk without room. Its standard error is a file on that disk, so the line that reports the fault can't be written either.
NO_ROOM = (*redirected("2>faults"), *on_disk(0))


def test_take_on_a_full_disk():
    give(STATE_OF_BOTH, "office")
    keeps(Ended(4, b"", b""), "take", "office", "places", before=NO_ROOM)
    assert held("faults") == b""


def test_new_on_a_full_disk():
    assert docker("new", "not_made", before=NO_ROOM) == Ended(4, b"", b"")
    assert (held("faults"), os.path.lexists("not_made"), os.path.lexists("not_made.new")) == (b"", False, False)


def test_a_full_disk_with_standard_error_closed():
    give(STATE_OF_ONE, "office")
    before = (*redirected("2>&-"), *on_disk(1))
    keeps(Ended(4, b"", b""), "take", "office", "places", before=before)


@alone
def test_a_take_that_is_ended_at_each_kib_that_it_writes_leaves_the_state_and_hinders_no_other():
    give(STATE_OF_BOTH, "office")
    for kilobytes in range(18):
        ended = docker("take", "office", "places", before=ended_on_disk(kilobytes))
        assert ended == Ended(-signal.SIGXFSZ, b"", b""), f"at {kilobytes} KiB"
        assert held("office") == STATE_OF_BOTH
        assert os.path.exists("office.new")
    assert docker("take", "office", "places") == DONE
    assert not os.path.lexists("office.new")
    assert docker("files", "office").output.count(b"\n") == 2


# A file that has the name of a draft, but that no command left there, stays.


def test_a_file_of_the_name_of_a_draft():
    give(STATE_OF_ONE, "office")
    give(b"mine\n", "office.new")
    assert docker("take", "office", "revised") == DEVICE
    assert (held("office"), held("office.new")) == (STATE_OF_ONE, b"mine\n")


def test_a_state_of_the_name_of_a_draft():
    give(STATE_OF_ONE, "office.new")
    stores(STATE_OF_BOTH, "take", "office.new", "revised", state="office.new")


@alone
def test_a_draft_beside_a_state_of_the_name_of_a_draft():
    """No command mistakes that state for its own draft."""
    give(STATE_OF_ONE, "office")
    give(STATE_OF_BOTH, "office.new")
    assert docker("take", "office.new", "one", before=ended_on_disk(0)).status == -signal.SIGXFSZ
    assert os.path.exists("office.new.new")
    assert docker("take", "office.new", "one") == DEVICE
    os.remove("office.new.new")
    assert docker("take", "office", "revised") == DEVICE
    assert (held("office"), held("office.new")) == (STATE_OF_ONE, STATE_OF_BOTH)


def test_a_link_of_the_name_of_a_draft():
    give(STATE_OF_ONE, "office")
    os.symlink("state_of_one", "office.new")
    assert docker("take", "office", "revised") == DEVICE
    assert (os.readlink("office.new"), held("office")) == ("state_of_one", STATE_OF_ONE)


# A file system of 64 KiB, mounted for this command only. It is full, then has little room, then is read-only, and finally has all its room.
ROOMS = """
    mount -t tmpfs -o size=64k none small && cp state_of_both small/office || exit 1
    takes() {
        "$0" take small/office places 2>small.err
        printf '%s %s' $? "$(cat small.err)"
        ls small | grep new
        cmp small/office "$1" && echo
    }
    head -c 1M /dev/zero >small/filler 2>/dev/null
    for room in 0 4 8 12 16; do
        truncate -s $((15 * 4096 - room * 1024)) small/filler
        takes state_of_both
    done
    mount -o remount,ro small && takes state_of_both
    mount -o remount,rw small && rm small/filler && takes wanted_places"""


@alone
def test_a_small_file_system_that_is_full():
    apart = ["unshare", "-rm" if os.getuid() else "-m"]
    os.mkdir("small")
    mount = [*apart, "mount", "-t", "tmpfs", "-o", "size=64k", "none", "small"]
    if subprocess.run(mount, check=False, stderr=subprocess.DEVNULL).returncode:
        pytest.skip("this machine allows no mount")
    give(STATE_OF_BOTH, "wanted_places")
    takes_more("wanted_places", "places")
    assert run([*apart, "bash", "-uc", ROOMS, DOCKER]) == Ended(0, 6 * b"4 docker: device failed\n" + b"0 \n", b"")
