"""Tests that each program and script that a user calls answers --help and --version with status 0, from any folder, and does nothing else."""
import os
import pathlib
import re
import subprocess

import pytest

ROOT = pathlib.Path(__file__).resolve().parent.parent.parent
OFFICE = ROOT / "office"
# `docker` and `desk` are proved programs, whose words their own tests have. The others are called by the gate, by dpkg, by a case, by a service, and by another
# example.
OTHERS = ("docker", "desk", ".ci/", "packaging/p", "office/tests/", "office/services/", "examples/fan-in/workers.py")
# Some tests may hold a lock on the index.
ENVIRONMENT = {**os.environ, "GIT_OPTIONAL_LOCKS": "0"}


# The files that git knows and that may be executed.
LISTED = subprocess.run(["git", "-C", ROOT, "ls-files", "-s"], capture_output=True, text=True, check=True).stdout.splitlines()
CALLED = [name for mode, name in (line.split("\t") for line in LISTED) if mode.startswith("100755") and not name.startswith(OTHERS)]


def ended(*words, env=ENVIRONMENT, cwd="/"):
    return subprocess.run(words, cwd=cwd, env=env, stdin=subprocess.DEVNULL, capture_output=True, text=True, timeout=20, check=False)


def test_they_are_found():
    some = "install try test packaging/deb docs/check bench/run bench/run-gate tests/bodies office/station-office office/screen/serve"
    assert not {*some.split()} - {*CALLED}
    assert len(CALLED) > 30


@pytest.mark.parametrize("name", CALLED)
def test_help(name):
    """The first sentence of the file is printed, and no line of its code."""
    found = ended(ROOT / name, "--help")
    assert (found.returncode, found.stderr) == (0, "")
    text = (ROOT / name).read_text(encoding="utf-8")
    first = re.search(r'^(?:#!.*\n"""|#!.*\n# )(.{20})', text)[1]
    assert first in found.stdout
    assert not re.search(r"^(set -|import |source )", found.stdout, re.M)


@pytest.mark.parametrize("name", CALLED)
def test_version(name):
    found = ended(ROOT / name, "--version")
    assert (found.returncode, found.stderr) == (0, "")
    assert re.fullmatch(r"[\w-]+ (0\.\d{8}|of a checkout)\n", found.stdout)


@pytest.mark.parametrize("name", ["install", "docs/prose"])
def test_sources_without_git(name, tmp_path):
    """A folder that git knows nothing of has no day."""
    for path in (name, "lib/asked.sh", "lib/asked.py"):
        (tmp_path / path).parent.mkdir(exist_ok=True)
        (tmp_path / path).write_bytes((ROOT / path).read_bytes())
    found = ended("bash" if name == "install" else "python3", tmp_path / name, "--version", env={**ENVIRONMENT, "GIT_DIR": "/nonexistent"})
    assert (found.returncode, found.stdout) == (0, f"{name.rpartition('/')[2]} of a checkout\n")


COMMANDS = ("new", "take", "fetch", "merge", "horizon", "restore", "withdraw", "send", "known", "print", "changes", "table", "morning", "evening", "arrivals", "explain")


@pytest.mark.parametrize("command", COMMANDS)
def test_commands_of_station_office(command, tmp_path):
    """--help after a command prints the lines of this command only. Nothing is done."""
    for words in ([command, "--help"], ["--force", command, "--help"], ["--now", "2024-06-12T06:00", command, "--help"]):
        found = ended(OFFICE / "station-office", *words, cwd=tmp_path)
        assert (found.returncode, found.stderr) == (0, "")
        *lines, _, last = found.stdout.splitlines()
        assert len(lines) == (2 if command == "changes" else 1)
        assert all(re.match(rf"station-office (\[--force\] )?{command}\b", line) for line in lines)
        assert last == "`station-office --help` describes all commands."
    found = ended(OFFICE / "station-office", command, "--version", cwd=tmp_path)
    assert (found.returncode, found.stderr) == (0, "") and found.stdout.startswith("station-office ")
    assert not list(tmp_path.iterdir())


def test_the_screen_needs_no_flask_for_its_help(tmp_path):
    (tmp_path / "flask.py").write_text("raise ModuleNotFoundError('flask', name='flask')\n", encoding="utf-8")
    environment = {**ENVIRONMENT, "PYTHONPATH": str(tmp_path)}
    for word in ("--help", "--version"):
        assert ended(OFFICE / "screen" / "serve", word, env=environment).returncode == 0
    found = ended(OFFICE / "screen" / "serve", "north.state", env=environment)
    assert (found.returncode, found.stderr) == (4, "station-office: there is no flask: the screen needs Debian's python3-flask and python3-waitress\n")
