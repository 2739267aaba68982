"""Helpers for the tests of station-office: extracts of any size, and offices in folders of their own. DOCKER names the program, DESK the program `desk`."""
import atexit
import datetime
import functools
import hashlib
import os
import pathlib
import subprocess
import tempfile
import unittest

import forking

ROOT = pathlib.Path(__file__).resolve().parent.parent.parent
OFFICE = ROOT / "office"
EXAMPLES = ROOT / "examples" / "office"
STATION = str(OFFICE / "station-office")
DOCKER = os.environ["DOCKER"]
NOW = datetime.datetime(2024, 6, 12, 6, 0)
# A file in in/ counts as complete at once, unless a case says otherwise.
os.environ["STILL"] = "0"
PLACES = "ASHFELD\nBRAYTON\n"


def record(text, last=" "):
    return f"{text:<79}{last}\n"


def extract(reference, moment, last="", kind="F", schedules=10, prefix="A", departs="0900"):
    """An extract made at a moment `YYYY-MM-DDTHH:MM`. A full extract has the timing points ASHFELD and BRAYTON. Each extract has this number of trains from
    ASHFELD to BRAYTON."""
    at = datetime.datetime.fromisoformat(moment)
    lines = [record(f"HDTPS.UDFROC1.PD240609{at:%d%m%y%H%M}{reference:<7}{last:<7}{kind}A")]
    if kind == "F":
        lines += [record(f"TI{code:<16}{code:<44}") for code in ("ASHFELD", "BRAYTON")]
    for number in range(schedules):
        lines += [record(f"BSN{prefix}{number:05}2406032412131111111 POO1A{number % 100:02}", "P"), record(f"LOASHFELD {departs} {departs}1  SL"), record("LTBRAYTON 2330 23302  FL")]
    return "".join([*lines, record("ZZ")]).encode("ascii")


def docker(*words):
    """Runs a docker command, which has to succeed. Returns its output."""
    return subprocess.run([DOCKER, *map(str, words)], stdin=subprocess.DEVNULL, capture_output=True, check=True).stdout


def digest(path):
    return hashlib.sha256(pathlib.Path(path).read_bytes()).hexdigest()


@functools.cache
def station():
    """Runs station-office."""
    found = forking.Runs(STATION)
    atexit.register(found.ends)
    return found


class Place:
    """An office: its folder, its STATE, and how its station-office is run."""

    def __init__(self, test, folder, state, swap):
        self.test, self.folder, self.state = test, folder, folder / state
        (folder / "in").mkdir(parents=True)
        (folder / "swap").symlink_to(swap)
        (folder / "places").write_text(PLACES)
        self.run("new")

    def run(self, command, *words, status=0, force=False, now=NOW, **environment):
        """Runs a command, and checks its status. Returns its output and its messages."""
        options = ["--force"] * force + ["--now", now.isoformat(timespec="minutes")]
        ended, out, said = station().run(*options, command, self.state, *words, **{"MAX_AGE": "999", **environment})
        self.test.assertEqual(ended, status, (command, *words, said))
        self.test.assertNotIn("Traceback", said)
        return out.decode("utf-8"), said

    def put(self, name, content):
        """Puts a file into in/."""
        (self.folder / "in" / name).write_bytes(content)
        return self.folder / "in" / name

    def take(self, name, content, **how):
        """Puts a file into in/, and takes what is there. Returns the messages."""
        self.put(name, content)
        return self.run("take", **how)[1]

    def morning(self, status=0, **how):
        """Does a morning. Returns the dockers and the messages."""
        return self.run("morning", status=status, **how)

    def name(self):
        return self.folder.joinpath(f"{self.state.name}.name").read_text().strip()

    def sent(self):
        """The file in swap/ with this office's name."""
        return self.folder / "swap" / f"{self.name()}.state.zst"

    def known(self):
        """The references of the files that count in STATE."""
        return [line.split()[2] for line in docker("files", self.state).decode().splitlines()]

    def list(self, folder):
        """The names in a folder."""
        return sorted(path.name for path in (self.folder / folder).iterdir()) if (self.folder / folder).exists() else []


class Offices(unittest.TestCase):
    """Several offices that share a folder."""

    def setUp(self):
        folder = tempfile.TemporaryDirectory()
        self.addCleanup(folder.cleanup)
        self.root = pathlib.Path(folder.name)
        self.swap = self.root / "swap"
        self.swap.mkdir()

    def office(self, name, state=None):
        return Place(self, self.root / name, state or f"{name}.state", self.swap)

    def made_of(self, *contents):
        """The bytes of the state that docker makes of these files."""
        state = self.root / "expected.state"
        docker("new", state)
        for content in contents:
            (self.root / "expected.cif").write_bytes(content)
            docker("take", state, self.root / "expected.cif")
        return state.read_bytes()

    def says(self, text, *parts):
        """Checks that one line has all these parts."""
        self.assertTrue(any(all(part in line for part in parts) for line in text.splitlines()), (parts, text))

    def silent_on(self, text, *parts):
        for part in parts:
            self.assertNotIn(part, text)
