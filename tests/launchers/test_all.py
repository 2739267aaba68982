"""Tests `./test` in a tree in which each step only notes that it ran, and ends as the case says. Only `tests/proofs` is the real one, with another `rt`."""
import os
import pathlib
import re
import shutil
import subprocess

import pytest

ROOT = pathlib.Path(__file__).resolve().parent.parent.parent
PROOFS = ["tests/run launchers", "rt ci"]
PROGRAMS = ["tests/run programs"]
# `tests/proofs` runs `rt ci`.
RUN = [*PROOFS, "docs/check", *PROGRAMS]
ALL = [it.replace("rt ci", "tests/proofs") for it in RUN]
EDITS = """rt: must-fail a: refused, as it must be
rt: must-fail b: refused, as it must be
rt: ok
38 passed, 0 failed
"""
# A step notes its name and its words, prints what the case wants, and ends with the status that the case wants.
STEP = """#!/bin/sh
name="${0#"$TREE/"}${1:+ $1}"
name=${name#bin/}
echo "$name: ${RT_JOBS:-}" >>"$TREE/ran"
cat "$TREE/printed/$name" 2>/dev/null
[ ! -e "$TREE/status/$name" ] || exit "$(cat "$TREE/status/$name")"
"""


class Tree:
    """A copy of `./test` with steps that only note that they ran."""

    def __init__(self, folder):
        self.folder = folder
        shutil.copy(ROOT / "test", folder)
        shutil.copytree(ROOT / "lib", folder / "lib")
        for name in ("tests/run", "docs/check", "bin/rt", "tests/packages"):
            self.puts(".", name, STEP if name != "tests/packages" else "#!/bin/sh\nexit 0\n")
            (folder / name).chmod(0o755)
        shutil.copy(ROOT / "tests" / "proofs", folder / "tests")
        self.puts("printed", "rt ci", EDITS)

    def puts(self, kind, name, text):
        path = self.folder / kind / name
        path.parent.mkdir(parents=True, exist_ok=True)
        path.write_text(text, encoding="utf-8")

    def run(self, *words, script="test", **more):
        env = {key: value for key, value in os.environ.items() if key != "RT_JOBS"}
        env |= {"TREE": str(self.folder), "PATH": f"{self.folder}/bin:{os.environ['PATH']}", **more}
        self.puts(".", "ran", "")
        ended = subprocess.run([self.folder / script, *words], cwd="/", env=env, check=False, capture_output=True, text=True)
        ran = (self.folder / "ran").read_text(encoding="utf-8").splitlines()
        return ended, [line.split(":")[0] for line in ran], ran


@pytest.fixture
def tree(tmp_path):
    return Tree(tmp_path)


def last(ended):
    return ended.stdout.splitlines()[-1]


def test_all_steps_run_in_order_and_their_tests_are_counted(tree):
    tree.puts("printed", "tests/run programs", "...s [100%]\n3 passed, 1 skipped in 1.02s\n.\n2 passed in 61.00s (0:01:01)\n")
    ended, ran, _ = tree.run()
    assert (ended.returncode, ran) == (0, RUN)
    # 38 by rt, 5 by pytest, and the 2 steps that count nothing.
    assert last(ended) == "45 passed, 0 failed"
    assert re.findall(r"^\./test: (\d of 4): ([^:]+)", ended.stdout, re.M) == [(f"{number} of 4", name) for number, name in enumerate(ALL, 1)]


@pytest.mark.parametrize("name", RUN)
def test_a_step_that_fails(tree, name):
    """The status is 1, and only the steps that need this one aren't run. They count as failed."""
    tree.puts("status", name, "3")
    ended, ran, _ = tree.run()
    without = {"tests/run launchers": ["tests/proofs", *PROGRAMS], "rt ci": PROGRAMS}.get(name, [])
    step = name.replace("rt ci", "tests/proofs")
    assert ended.returncode == 1
    assert [it.replace("rt ci", "tests/proofs") for it in ran] == [it for it in ALL if it not in without]
    assert last(ended).endswith(f", {1 + len(without)} failed")
    assert f"failed or not run: {', '.join(it for it in ALL if it == step or it in without)}\n" in ended.stdout


@pytest.mark.parametrize("old, new, why", [
    ("b: refused, as it must be", "b: refused, as it must be (a)", "b: refused only for a name that a proof file cites; change a value and keep the names"),
    ("b: refused, as it must be", "b: BAD EDIT: no such line", "b: not applied or not compiled, so the prover was never asked"),
    ("rt: must-fail", "rt: other", "no line of a must-fail edit was read"),
])
def test_an_edit_that_shows_nothing(tree, old, new, why):
    tree.puts("printed", "rt ci", EDITS.replace(old, new))
    ended, ran, _ = tree.run("proofs")
    assert (ended.returncode, ran) == (1, PROOFS)
    assert f"tests/proofs: {why}\n" in ended.stdout


def test_the_failures_of_pytest_are_counted(tree):
    tree.puts("printed", "tests/run programs", "F.F [100%]\n2 failed, 1 passed in 1.02s\n")
    tree.puts("status", "tests/run programs", "1")
    ended, _, _ = tree.run("programs")
    assert (ended.returncode, last(ended)) == (1, "1 passed, 2 failed")


@pytest.mark.parametrize("part, steps", [("proofs", PROOFS), ("pages", ["docs/check"]), ("programs", PROGRAMS)])
def test_a_part(tree, part, steps):
    ended, ran, _ = tree.run(part)
    assert (ended.returncode, ran) == (0, steps)


def test_no_part_has_the_name(tree):
    ended, ran, _ = tree.run("proof")
    assert (ended.returncode, ran, ended.stdout) == (2, [], "")
    assert ended.stderr == "./test: proof is no part: proofs, pages, programs\n"


def test_how_many_crates_are_checked_at_once(tree):
    processors = len(os.sched_getaffinity(0))
    assert f"rt ci: {processors}" in tree.run("proofs")[2]
    assert "rt ci: 7" in tree.run("proofs", RT_JOBS="7")[2]


def test_packages_that_are_missing_are_named(tree):
    tree.puts("tests", "packages", "#!/bin/sh\necho valgrind zstd\nexit 1\n")
    ended, ran, _ = tree.run("pages")
    assert (ended.returncode, ran) == (0, ["docs/check"])
    assert "./test: some tests can't run without these packages: apt-get install valgrind zstd\n" in ended.stdout


def test_the_gate_runs_everything(tree):
    shutil.copytree(ROOT / ".ci", tree.folder / ".ci")
    ended, _, _ = tree.run(script=".ci/run")
    assert (ended.returncode, last(ended)) == (0, "41 passed, 0 failed")
    tree.puts("status", "tests/run programs", "1")
    assert tree.run(script=".ci/run")[0].returncode == 1
