"""No command and no request costs more than figures.md says. The script beside this file measures them, and records new figures."""
import pathlib
import subprocess

import pytest


@pytest.mark.by_itself
@pytest.mark.timeout(600)
def test_no_command_costs_more_than_recorded():
    ended = subprocess.run([pathlib.Path(__file__).with_name("run")], stdin=subprocess.DEVNULL, stdout=subprocess.PIPE, stderr=subprocess.STDOUT, text=True, check=False)
    print(ended.stdout)
    assert ended.returncode == 0
