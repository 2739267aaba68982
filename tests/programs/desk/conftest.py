"""Fixtures for the cases of `desk`: the files and states in a case's folder."""
import shutil

import desk_extracts as extracts
import mirror
import pytest
from programs import give


@pytest.fixture(scope="session")
def given_files(work):
    """A folder with the good files, the bad files, and the states that desks read."""
    mirror.GIVEN, mirror.CHANGED = work / "given", work / "changed"
    mirror.GIVEN.mkdir()
    mirror.CHANGED.mkdir()
    for name, text in (extracts.GOOD | {name: text for name, (text, _) in extracts.BAD.items()}).items():
        give(text.encode(), mirror.given(name))
    for name, (names, horizon) in mirror.STATES.items():
        give(mirror.state_of(*names, horizon=horizon), mirror.given(name))
    return mirror.GIVEN


@pytest.fixture(autouse=True)
def given(folder, given_files):
    shutil.copytree(given_files, folder, dirs_exist_ok=True)
    # The folder has the permissions of the folder that was copied.
    folder.chmod(0o755)
