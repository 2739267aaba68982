"""Fixtures: the folder in which each case runs, and what it needs."""
import pathlib
import tempfile

import pytest

pytest.register_assert_rewrite("mirror", "desks", "outcomes", "meetings")
import programs  # noqa: E402


@pytest.fixture(autouse=True)
def folder(monkeypatch):
    """A new folder in which the case runs. Any user may enter it."""
    with tempfile.TemporaryDirectory() as name:
        path = pathlib.Path(name)
        path.chmod(0o755)
        monkeypatch.chdir(path)
        yield path


@pytest.fixture(scope="session")
def work():
    """A folder for things that many cases use."""
    with tempfile.TemporaryDirectory() as name:
        path = pathlib.Path(name)
        path.chmod(0o755)
        yield path


@pytest.fixture(scope="session")
def device(work):
    """The library that makes a system call fail, kills the program at it or interrupts it, or runs something else just before it."""
    return programs.build_library("device/device.c", work / "device.so")


@pytest.fixture(scope="session")
def refusing(work):
    """The library that refuses one memory growth."""
    return programs.build_library("programs/growth/refuse.c", work / "refuse.so")
