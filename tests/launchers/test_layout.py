"""The sources have the layout of `rt fmt`, and nothing in them is unused. The list of cases that may be skipped names only existing cases, with reasons."""
import pathlib
import re
import subprocess

ROOT = pathlib.Path(__file__).resolve().parents[2]


def test_layout():
    ended = subprocess.run([ROOT / "tests" / "layout"], stdin=subprocess.DEVNULL, stdout=subprocess.PIPE, stderr=subprocess.STDOUT, text=True, check=False)
    assert ended.returncode == 0, ended.stdout


def test_each_case_that_may_be_skipped_is_there():
    lines = [line for line in (ROOT / "tests" / "skipped").read_text(encoding="utf-8").splitlines() if not line.startswith("#")]
    assert lines == sorted(lines)
    for line in lines:
        name, reason = line.split("  ")
        file, *_, function = name.split("::") if "::" in name else (name, "*")
        found = [path.read_text(encoding="utf-8") for path in ROOT.glob(file)]
        assert found and reason.strip(), line
        assert function == "*" or re.search(rf"^ *def {function}\(", found[0], re.M), line
