"""`./try` refuses what would write STATE, and runs the first command of README without any proof."""
import pathlib
import re
import shutil
import subprocess

import pytest

ROOT = pathlib.Path(__file__).resolve().parents[2]
OFFICE = ROOT / "examples" / "office"
FIRST = r"^\$ \./try day examples/office/full\.cif ASHFELD 2024-06-12\n(.*?)^```$"


def tries(*words):
    with open(OFFICE / "full.cif", "rb") as given:
        return subprocess.run([ROOT / "try", *words], cwd=OFFICE, stdin=given, capture_output=True, check=False, text=True)


@pytest.mark.parametrize("words", ["", "new STATE", "take STATE full.cif", "merge STATE full.cif", "horizon STATE 2024-06-10", "migrate STATE"])
def test_a_command_that_writes_a_state(tmp_path, words):
    state = shutil.copy(OFFICE / "full.cif", tmp_path / "state")
    ended = tries(*words.replace("STATE", str(state)).split())
    assert (ended.returncode, ended.stdout, ended.stderr.count("\n")) == (2, "", 1)
    assert state.read_bytes() == (OFFICE / "full.cif").read_bytes()


@pytest.mark.timeout(3600)
def test_the_first_command_of_readme():
    """Takes a few minutes, since it compiles the program."""
    shown = re.search(FIRST, (ROOT / "README.md").read_text(encoding="utf-8"), re.M | re.S)[1]
    ended = tries("day", "full.cif", "ASHFELD", "2024-06-12")
    assert (ended.returncode, ended.stdout) == (0, shown), ended.stderr
    assert re.sub(r": nothing is proved yet: .*", "", ended.stderr) == "try\n"
