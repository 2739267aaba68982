"""The launcher at the root of the repository."""
import os
import shutil
import sys

import pytest
from docker_lines import LINES
from outcomes import accepted, prints
from programs import DOCKER, ROOT, Ended, run

LAUNCHER = str(ROOT / "docker")
# All tools that the launcher runs before it looks for the kit.
TOOLS = ("bash", "dirname", "readlink")
NOT_BUILT = b"docker: the program isn't built, and the kit's command rt isn't on the PATH to prove and build it\n"


@pytest.fixture
def launched():
    """If the program under test is the launcher's program, it is already built."""
    if DOCKER != str(ROOT / "crates/docker/out/docker"):
        pytest.skip("another program is tried than the launcher's")


@pytest.mark.usefixtures("launched")
def test_the_launcher_in_another_folder():
    assert run([LAUNCHER, "check", "one"]) == accepted(5, 1)


@pytest.mark.usefixtures("launched")
def test_the_launcher_on_the_example():
    ended = run(["./docker", "day", "examples/one-schedule.cif", "ASHFELD", "2024-06-10"], cwd=ROOT)
    assert ended == prints("ASHFELD", "2024-06-10", LINES["LEAVES_0900"])


def test_the_launcher_if_nothing_can_be_built():
    os.makedirs("bare/crates/docker")
    for name in ("docker", "crates.txt"):
        shutil.copy(ROOT / name, "bare")
    shutil.copytree(ROOT / "lib", "bare/lib")
    os.mkdir("bin")
    for tool in TOOLS:
        os.symlink(shutil.which(tool), f"bin/{tool}")
    os.symlink(sys.executable, "bin/python3")
    assert run(["bare/docker", "check", "one"], env=os.environ | {"PATH": os.path.abspath("bin")}) == Ended(70, b"", NOT_BUILT)
