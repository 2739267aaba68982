"""./install puts the programs, the office and their manual pages under a prefix, and takes them away again."""
import filecmp
import pathlib
import subprocess

import pytest
from machine import ROOT, is_built_here

OFFICE = ("station-office", "station-office-screen")


@pytest.fixture
def prefix(tmp_path):
    if not is_built_here():
        pytest.skip("another program is tried than the launcher's")
    return tmp_path / "prefix"


def installs(prefix, *words):
    return subprocess.run([ROOT / "install", "--prefix", prefix, *words], stdin=subprocess.DEVNULL, stdout=subprocess.DEVNULL, stderr=subprocess.DEVNULL, check=False).returncode


def files(prefix):
    return [path for path in pathlib.Path(prefix).rglob("*") if not path.is_dir() or path.is_symlink()]


def test_under_another_name(prefix):
    assert installs(prefix, "--name", "station-docker") == 0
    for program, installed in (("docker", "station-docker"), ("desk", "station-docker-desk")):
        assert filecmp.cmp(ROOT / "crates" / program / "out" / program, prefix / "bin" / installed, shallow=False)
    for page in ("station-docker", "station-docker-desk", *OFFICE):
        assert f"\n.TH {page.upper()} 1" in (prefix / "share" / "man" / "man1" / f"{page}.1").read_text(encoding="utf-8")
    subprocess.run([prefix / "bin" / "station-docker", "check", ROOT / "examples" / "one-schedule.cif"], stdout=subprocess.DEVNULL, check=True)
    # Another name has nothing of the office, so its removal leaves the office.
    assert installs(prefix, "--name", "other", "--remove") == 0
    assert (prefix / "bin" / "station-office").exists()
    assert installs(prefix, "--name", "station-docker", "--remove") == 0
    assert not files(prefix)


@pytest.mark.parametrize("other", ["docker", "docker-desk", "station-office"])
def test_another_program_has_the_name(prefix, other):
    (prefix / "bin").mkdir(parents=True)
    (prefix / "bin" / other).touch()
    assert installs(prefix) != 0
    assert installs(prefix, "--remove") != 0
    assert files(prefix) == [prefix / "bin" / other]
