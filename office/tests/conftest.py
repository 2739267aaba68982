"""Fixtures: offices that share a folder, and the Debian package."""
import subprocess

import pytest
from machine import ROOT, is_built_here
from offices import Offices


@pytest.fixture
def offices():
    """A folder in which a case makes its offices."""
    given = Offices()
    given.setUp()
    yield given
    given.doCleanups()


@pytest.fixture(scope="session")
def package(tmp_path_factory):
    """The package, which has the programs that ./install installs."""
    if not is_built_here():
        pytest.skip("the package has another program than the tested one")
    made = subprocess.run([ROOT / "packaging" / "deb", tmp_path_factory.mktemp("package")], stdin=subprocess.DEVNULL, capture_output=True, text=True, check=False)
    assert made.returncode == 0, made.stderr
    return made.stdout.strip()
