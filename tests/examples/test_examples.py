"""The examples print what their pages show."""
import pathlib
import subprocess

import pytest

ROOT = pathlib.Path(__file__).resolve().parents[2]
EXAMPLES = ROOT / "examples"


def printed(*words):
    ended = subprocess.run(words, stdin=subprocess.DEVNULL, capture_output=True, text=True, check=False)
    assert ended.returncode == 0, ended.stderr
    return ended.stdout


def test_a_morning_at_two_offices():
    """office/tests/test_transcript.py shows that the transcript is right."""
    assert printed(EXAMPLES / "office" / "run") == (EXAMPLES / "office" / "transcript").read_text(encoding="utf-8")


@pytest.mark.timeout(200)
def test_many_offices():
    """Each tree of merges gives the bytes that a chain of merges gives. Without Dask, one tree is made, and the output says so."""
    chain, *trees = printed(EXAMPLES / "fan-in" / "run").splitlines()
    not_run = [line for line in trees if line.startswith("not run")]
    assert chain.startswith("a chain of fifteen merges: ")
    assert [line for line in trees if not line.endswith(": the same")] == not_run
    assert len(trees) - len(not_run) == (1 if not_run else 3)
    if not_run:
        pytest.skip("there is no python3-distributed, or no zstd")
