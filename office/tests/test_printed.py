"""Tests the files of dockers that an office keeps."""
import datetime
import io
import os
import pathlib
import signal
import subprocess
import sys
import time
import types
import zipfile

import dockers
import pytest
from station_office import printed

DAY = "2024-06-12"


def keeps(folder, day, *places):
    """Has the morning of a day in June keep a docker of this day for each place: the place's code."""
    at = datetime.datetime(2024, 6, day, 5)
    office = types.SimpleNamespace(folder=folder, state=folder / "STATE", settings=types.SimpleNamespace(now=at))
    draft = printed.Draft()
    for place in places:
        draft.adds(f"{at.date()}", place, place.encode())
    printed.keeps_morning(office, draft)


def test_each_file_is_opened_once(tmp_path, monkeypatch):
    """A docker that no morning kept is looked for in the files of all ten mornings. Each file is opened once, and again only if another takes its place."""
    (tmp_path / "STATE").touch()
    for day in range(1, 13):
        keeps(tmp_path, day, "ASHFELD", "CORHAM")
    opened, zip_file = [], zipfile.ZipFile
    monkeypatch.setattr(zipfile, "ZipFile", lambda path, *words, **more: opened.append(getattr(path, "name", "a draft")) or zip_file(path, *words, **more))
    for _ in range(3):
        mornings = printed.mornings(tmp_path)
        assert [it.moment.day for it in mornings] == list(range(12, 2, -1))
        assert all(printed.before(mornings, f"PLACE{number}", DAY) is None for number in range(100))
        assert printed.before(mornings, "CORHAM", "2024-06-03") == (mornings[-1], b"CORHAM")
        assert printed.before(mornings, "CORHAM", "2024-06-02") is None
    assert sorted(opened) == [f"2024-06-{day:02}.zip" for day in range(3, 13)]
    keeps(tmp_path, 12, "ASHFELD")
    mornings = printed.mornings(tmp_path)
    assert printed.before(mornings, "ASHFELD", DAY) == (mornings[0], b"ASHFELD")
    assert printed.before(mornings, "CORHAM", DAY) is None


def test_a_draft_holds_no_pipe_of_a_desk(tmp_path):
    """A desk ends when its input does, although the process that packs dockers was started after it."""
    program = tmp_path / "desk"
    program.write_text("#!/bin/sh\ncat >/dev/null\n")
    program.chmod(0o755)
    reader = dockers.Desk(str(program), tmp_path / "STATE")
    reader.begins()
    process, draft = reader.process, printed.Draft()
    reader.close()
    assert process.returncode == 0
    assert zipfile.ZipFile(io.BytesIO(draft.made("a comment"))).comment == b"a comment"


def test_a_draft_whose_process_is_killed():
    """No file is made of it."""
    draft = printed.Draft()
    draft.adds(DAY, "ASHFELD", b"ASHFELD")
    os.kill(draft.child, signal.SIGKILL)
    with pytest.raises(OSError):
        draft.adds(DAY, "CORHAM", b"CORHAM")
        draft.made("")


def test_a_draft_that_nobody_finishes():
    """If the station-office is killed, the process that packs dockers ends too."""
    code = f"import sys, time; sys.path[:0] = {sys.path}; from station_office import printed; print(printed.Draft().child, flush=True); time.sleep(60)"
    with subprocess.Popen([sys.executable, "-c", code], stdout=subprocess.PIPE, text=True) as process:
        child = pathlib.Path("/proc") / process.stdout.readline().strip()
        assert child.exists()
        process.kill()
    for _ in range(100):
        if not child.exists() or ") Z " in (child / "stat").read_text():
            return
        time.sleep(0.05)
    pytest.fail("it is still running")
