"""Tests that station-office always says what happens: its statuses, its message for each file, what it does if a device fails, and what it keeps. DOCKER names
the program, DESK the program `desk`."""
import gzip
import json
import os
import signal
import socket
import subprocess
import tarfile
import time
import unittest

from offices import DOCKER, EXAMPLES, NOW, OFFICE, STATION, Offices, digest, docker, extract
from serving import HAS_FLASK

FULL = extract("DFROC1F", "2024-06-10T21:00", "DFROC1E", schedules=20)
MONDAY = extract("DFROC1G", "2024-06-11T01:00", "DFROC1F", kind="U", schedules=2, departs="0905")
TUESDAY = extract("DFROC1H", "2024-06-11T21:00", "DFROC1G", kind="U", schedules=1, prefix="B")


def at(clock):
    """The clock on the day after Tuesday's update, at this time."""
    return NOW.replace(hour=int(clock[:2]), minute=int(clock[2:]))


class Known(Offices):
    """Whether what is known is old, or lacks something."""

    def test_statuses(self):
        north = self.office("north")
        out, _ = north.run("known", status=5)
        self.assertEqual(out, "nothing is known: no extract was taken\n")
        north.take("full.cif", FULL)
        north.take("tuesday.cif", TUESDAY)
        out, _ = north.run("known", status=5)
        self.says(out, "missing: DFROC1G, which comes before the update DFROC1H of 2024-06-11 21:00")
        self.says(north.morning(status=5)[1], "missing: DFROC1G")
        north.take("monday.cif", MONDAY)
        self.assertEqual(north.run("known")[0], "known up to update DFROC1H of 2024-06-11 21:00\n")
        north.morning()

    def test_age(self):
        """A day and a half after the newest file nothing is wrong; a minute later it is too old. MAX_AGE sets another number of hours."""
        north = self.office("north")
        north.take("full.cif", FULL)
        for clock, age, status in (("0900", "36", 0), ("0901", "", 5), ("0901", "36.1", 0), ("0600", "33", 0), ("0600", "32.9", 5)):
            out, _ = north.run("known", now=at(clock), status=status, MAX_AGE=age)
            self.assertEqual("old: the full extract DFROC1F of 2024-06-10 21:00 is" in out, status == 5, (clock, age))
        self.says(north.morning(now=at("0901"), status=5, MAX_AGE="")[1], "is 36 hours old by the clock, which says 2024-06-12 09:01; more than 36 hours is too old")
        for word in ("soon", "-1", "nan"):
            self.says(north.run("known", status=2, MAX_AGE=word)[1], "MAX_AGE", "is no number")

    def test_ahead(self):
        north = self.office("north")
        (self.root / "wrong.cif").write_bytes(extract("DFROC1X", "2034-06-15T21:00"))
        docker("take", north.state, self.root / "wrong.cif")
        self.says(north.run("known", status=5)[0], "ahead: the full extract DFROC1X of 2034-06-15 21:00", f"withdraw {north.state} DFROC1X")


class Files(Offices):
    """The message for each file."""

    def setUp(self):
        super().setUp()
        self.north = self.office("north")

    def test_known(self):
        self.north.take("full.cif", FULL)
        before = digest(self.north.state)
        said = self.north.take("again.cif.gz", gzip.compress(FULL))
        self.says(said, "again.cif.gz", "the full extract DFROC1F of 2024-06-10 21:00 is known already, so it brought nothing new")
        self.north.take("tuesday.cif", TUESDAY)
        older = extract("DFROC1E", "2024-06-09T21:00", schedules=20)
        self.says(self.north.take("older.cif", older), "older.cif", "it is older than the full extract DFROC1F of 2024-06-10 21:00, so it brought nothing new")
        self.assertNotEqual(digest(self.north.state), before)
        self.assertEqual((self.north.list("in"), self.north.list("taken")), ([], ["full.cif.zst", "list", "older.cif.zst", "tuesday.cif.zst"]))

    def test_same_stamp(self):
        """A file with a known stamp and other content is held. If it is forced, both files count together."""
        other = extract("DFROC1F", "2024-06-10T21:00", "DFROC1E", schedules=20, departs="1000")
        self.north.take("full.cif", FULL)
        before = digest(self.north.state)
        said = self.north.take("other.cif", other, status=1)
        self.says(said, "other.cif", "another file with its stamp is known, the full extract DFROC1F of 2024-06-10 21:00, and has other content")
        self.assertEqual((digest(self.north.state), self.north.list("held")), (before, ["other.cif.why", "other.cif.zst"]))
        self.north.run("take", self.north.folder / "held" / "other.cif.zst", force=True)
        self.assertEqual(self.north.state.read_bytes(), self.made_of(FULL, other))
        south = self.office("south")
        self.north.run("send")
        south.run("merge")
        another = extract("DFROC1F", "2024-06-10T21:00", "DFROC1E", schedules=20, departs="1100")
        self.says(south.take("another.cif", another, status=1), "another.cif", "has other content")
        self.says(south.take("full.cif", FULL, status=1), "full.cif", "has other content")

    def test_merges(self):
        south = self.office("south")
        self.north.take("full.cif", FULL)
        self.north.run("send")
        self.says(south.run("merge")[1], self.north.name(), "it brought the full extract DFROC1F of 2024-06-10 21:00")
        self.says(south.run("merge")[1], self.north.name(), "it brought nothing new")
        self.north.put("monday.cif", MONDAY)
        self.north.take("tuesday.cif", TUESDAY)
        self.north.run("send")
        self.says(south.run("merge")[1], self.north.name(), "it brought the update DFROC1G of 2024-06-11 01:00 and 1 more")

    def test_kinds(self):
        """A file that isn't an extract is put aside, and the message says what kind of file it is."""
        with tarfile.open(self.root / "x.tar", "w") as tar:
            tar.add(EXAMPLES / "full.cif", "full.cif")
        kinds = {
            "schedule.json": (json.dumps({"JsonTimetableV1": {}}).encode(), "it is JSON"), "leaflet.pdf": (b"%PDF-1.7\n%", "it is a PDF"),
            "files.tar": ((self.root / "x.tar").read_bytes(), "it is a tar"), "rsp.mca": (b"/!! Start of file\n" + FULL, "comment lines that begin with /!!"),
            "south.state": (self.north.state.read_bytes(), "it is an office's state: `station-office merge` takes those"), "error.html": (b"<html>", "it is XML or a web page"),
            "full.bz2": (b"BZh91AY", "it is packed by bzip2"), "twice.gz": (gzip.compress(gzip.compress(FULL)), "it is packed by gzip"),
            "text.cif": (b"no extract\n", "docker: file refused: record 1: Length"),
        }
        for name, (content, _) in kinds.items():
            self.north.put(name, content)
        said = self.north.run("take", status=1)[1]
        for name, (content, why) in kinds.items():
            self.says(said, f"in/{name}", why)
            self.assertIn(why, next((self.north.folder / "refused").glob(f"{name}*.why")).read_text())
            packed = next(path for path in (self.north.folder / "refused").glob(f"{name}*") if path.suffix != ".why")
            kept = subprocess.run(["zstd", "-dcq", packed], capture_output=True, check=True).stdout if packed.suffix == ".zst" else packed.read_bytes()
            self.assertEqual(kept, content)
        self.assertEqual(self.north.list("in"), [])

    def test_folders(self):
        (self.north.folder / "in" / "old").mkdir()
        (self.north.folder / "in" / ".full.cif.part").write_bytes(FULL[:100])
        said = self.north.take("full.cif", FULL)
        self.says(said, "in/old: it is no file, and is passed over")
        self.assertEqual(self.north.list("in"), [".full.cif.part", "old"])
        self.north.morning()

    def test_names(self):
        """If no file has a place's name, but trains call there, its code isn't reported as unknown."""
        self.north.take("monday.cif", MONDAY)
        (self.north.folder / "places").write_text("ASHFELD\nASHFIEL\n")
        _, said = self.north.run("print", "2024-06-12", status=5)
        self.says(said, "ASHFELD: trains call here, but no file has brought its name yet")
        self.says(said, "ASHFIEL: nobody knows this code")


class Devices(Offices):
    """What is done if a device fails, or if a run is ended."""

    def setUp(self):
        super().setUp()
        self.north = self.office("north")
        self.north.take("full.cif", FULL)

    def ended(self, command, **how):
        """The output of a shell command, which may have no traceback."""
        ended = subprocess.run(["bash", "-c", command], stdin=subprocess.DEVNULL, capture_output=True, text=True, check=False, **how)
        self.assertNotIn("Traceback", ended.stderr)
        self.assertNotIn("Exception", ended.stderr)
        return ended.stderr.splitlines()

    def test_output(self):
        """A closed pipe and a full device give one line and status 4."""
        (self.north.folder / "places").write_text("ASHFELD\n" * 2000)
        for words in (["--now", f"{NOW:%FT%H:%M}", "print", self.north.state, "2024-06-12"], ["known", self.north.state], ["--help"], ["--version"]):
            reading, writing = os.pipe()
            os.close(reading)
            with os.fdopen(writing) as closed, open("/dev/full", "w", encoding="ascii") as full:
                for output, line in ((closed, "it was closed before its end"), (full, "No space left on device")):
                    ended = subprocess.run([STATION, *words], stdin=subprocess.DEVNULL, stdout=output, stderr=subprocess.PIPE, text=True, check=False)
                    self.assertEqual((ended.returncode, ended.stderr), (4, f"station-office: standard output: {line}\n"))

    def test_no_program(self):
        environment = {"PATH": "/usr/bin:/bin", "DOCKER": "/nonexistent/docker"}
        for words in ("known", "print 2024-06-12", "take", "morning"):
            command, *rest = words.split()
            lines = self.ended(f"{STATION} {command} {self.north.state} {' '.join(rest)} >/dev/null; echo $? >&2", env=environment)
            self.assertEqual(lines[-1], "4")
            self.assertIn("there is no program docker", lines[0])

    def test_full_disk(self):
        """On a full disk the dockers are printed, and a message says how much room there is and how much is needed. A new file waits."""
        disk, full, update = self.root / "disk", self.root / "full.cif", self.root / "update.cif"
        disk.mkdir()
        own = next((words for words in (["unshare", "-m"], ["unshare", "-rm"]) if subprocess.run([*words, "mount", "-t", "tmpfs", "tmpfs", disk], check=False, capture_output=True).returncode == 0), None)
        if own is None:
            self.skipTest("no file system can be mounted")
        full.write_bytes(extract("DFROC1F", "2024-06-10T21:00", schedules=4000))
        update.write_bytes(extract("DFROC1G", "2024-06-11T21:00", "DFROC1F", kind="U", schedules=1, departs="1000"))
        words = f"{STATION} --now {NOW:%FT%H:%M} morning {disk}/n.state 2024-06-12 >{self.root}/dockers || echo $? >&2"
        script = f"""
            set -e; mount -t tmpfs -o size=4m tmpfs {disk}; mkdir {disk}/in; cp {full} {disk}/in/; echo ASHFELD >{disk}/places; export MAX_AGE=999
            {STATION} new {disk}/n.state; {STATION} --now {NOW:%FT%H:%M} take {disk}/n.state; cp {update} {disk}/in/
            head -c $(($(stat -f -c '%a * %S' {disk}) - 500000)) /dev/zero >{disk}/fill; echo --- >&2; {words}; rm -r {disk}/copies
            head -c 500000 /dev/zero >{disk}/more || true; echo --- >&2; {words}; ls -A {disk}/in {disk}/held {disk}/.n.state.work >&2 2>/dev/null || true"""
        said = subprocess.run([*own, "bash", "-c", script], stdin=subprocess.DEVNULL, capture_output=True, text=True, check=False).stderr.split("---\n")
        self.assertEqual(len(said), 3, said)
        self.says(said[1], "update.cif: docker: device failed")
        self.says(said[2], "n.state: no copy can be made, so it stays as it is")
        for part in said[1:]:
            self.assertRegex(part, r"the disk is full: \d+ KB are free, and about 1\.\d MB are needed")
            self.assertIn("\n4\n", part)
        self.says(said[2], "update.cif")
        self.assertEqual((self.root / "dockers").read_bytes().count(b" D "), 4000)

    def test_overtaken(self):
        """If another command wrote STATE in the meantime, that isn't reported as a full disk. The file waits, and is taken the next time."""
        update = self.root / "tuesday.cif"
        update.write_bytes(TUESDAY)
        program = self.root / "overtaken"
        # Another command writes STATE before the first desk saves it.
        program.write_text(f"""#!/bin/bash
            [ ! -e {self.root}/once ] || exec {os.environ["DESK"]} "$@"
            touch {self.root}/once
            while read -r line; do
              [ "$line" != save ] || {DOCKER} take {self.north.state} {update}
              echo "$line"
            done | {os.environ["DESK"]} "$@" """)
        program.chmod(0o755)
        self.north.put("monday.cif", MONDAY)
        said = self.north.run("take", status=4, DESK=str(program))[1]
        self.says(said, "monday.cif", "another command wrote STATE meanwhile, so this one changed nothing: do it again")
        self.silent_on(said, "disk", "free")
        self.assertEqual((self.north.known(), self.north.list("in")), (["DFROC1F", "DFROC1H"], ["monday.cif"]))
        self.north.run("take", DESK=str(program))
        self.assertEqual(self.north.known(), ["DFROC1F", "DFROC1G", "DFROC1H"])

    def test_leftovers(self):
        """The next run removes what a killed run left."""
        os.mkfifo(self.root / "never.cif")
        running = subprocess.Popen([STATION, "take", str(self.north.state), str(self.root / "never.cif")], start_new_session=True)
        while not (self.north.folder / ".north.state.work").exists():
            time.sleep(0.02)
        os.killpg(running.pid, signal.SIGKILL)
        running.wait()
        (self.north.folder / ".north.state.work" / "left").write_text("x")
        self.north.run("take")
        self.assertEqual([path.name for path in self.north.folder.glob(".*")], [".north.state.lock"])

    def test_interrupted(self):
        """A run that is interrupted leaves nothing."""
        os.mkfifo(self.root / "never.cif")
        running = subprocess.Popen([STATION, "take", str(self.north.state), str(self.root / "never.cif")], stderr=subprocess.PIPE)
        while not (self.north.folder / ".north.state.work").exists():
            time.sleep(0.02)
        running.send_signal(signal.SIGTERM)
        self.assertEqual((running.communicate()[1], running.returncode), (b"", 130))
        self.assertFalse((self.north.folder / ".north.state.work").exists())


class Keeping(Offices):
    """What taken/, refused/ and held/ keep."""

    def test_days(self):
        """Files that came more than KEEP_DAYS ago are removed, but not files that came after the newest full extract."""
        north = self.office("north")
        north.take("older.cif", extract("DFROC1A", "2024-05-01T21:00", schedules=20))
        north.take("full.cif", FULL)
        for name, content in (("monday.cif", MONDAY), ("junk.txt", b"junk"), ("ahead.cif", extract("DFROC1T", "2024-06-14T21:00"))):
            north.put(name, content)
        north.run("take", status=1)
        names = ["taken/full.cif.zst", "taken/monday.cif.zst", "taken/older.cif.zst", "refused/junk.txt.zst", "refused/junk.txt.why", "held/ahead.cif.zst", "held/ahead.cif.why"]
        for name, days in zip(names, (40, 38, 50, 39, 39, 41, 41)):
            os.utime(north.folder / name, (time.time() - days * 86400,) * 2)
        north.run("take")
        self.assertEqual([name for name in names if (north.folder / name).exists()], names[:2] + names[3:5])
        north.run("take", KEEP_DAYS="50.5")
        north.take("newer.cif", extract("DFROC1S", "2024-06-11T22:00", schedules=20))
        self.assertEqual([north.list(folder) for folder in ("taken", "refused", "held")], [["list", "newer.cif.zst"], [], []])

    def test_days_of_states(self):
        """If the newest full extract came with another office's state, files that count in STATE stay."""
        north, south = self.office("north"), self.office("south")
        south.take("full.cif", FULL)
        south.run("send")
        north.take("monday.cif", MONDAY)
        north.run("merge")
        os.utime(north.folder / "taken" / "monday.cif.zst", (0, 0))
        north.run("take")
        self.assertEqual(north.list("taken"), ["list", "monday.cif.zst"])

    def test_names(self):
        """Two files with the same name both stay."""
        north = self.office("north")
        north.put("x.cif", b"one")
        north.run("take", status=1)
        north.put("x.cif", b"two")
        north.run("take", status=1)
        self.assertEqual(north.list("refused"), ["x.cif.2.why", "x.cif.2.zst", "x.cif.why", "x.cif.zst"])


@unittest.skipUnless(HAS_FLASK, "there is no flask or no waitress")
class Screen(Offices):
    """Problems that stop the screen: one line for each. It needs Flask."""

    def stopped(self, *words, status=4, **environment):
        ended = subprocess.run([OFFICE / "screen" / "serve", *words, "x.state"], stdin=subprocess.DEVNULL, capture_output=True, text=True, env={**os.environ, **environment}, check=False)
        self.assertEqual((ended.returncode, len(ended.stderr.splitlines())), (status, 1), ended.stderr)
        return ended.stderr

    def test_no_flask(self):
        (self.root / "flask.py").write_text("raise ModuleNotFoundError(name='flask')\n")
        self.says(self.stopped(PYTHONPATH=str(self.root)), "there is no flask: the screen needs Debian's python3-flask and python3-waitress")

    def test_addresses(self):
        with socket.create_server(("127.0.0.1", 0)) as other:
            address = f"127.0.0.1:{other.getsockname()[1]}"
            self.says(self.stopped("--listen", address), f"--listen: {address}: Address already in use")
        for word in ("8480", "127.0.0.1:", "127.0.0.1:http", "127.0.0.1:65536"):
            self.says(self.stopped("--listen", word, status=2), f"--listen: {word!r} is no address: write ADDRESS:PORT, as 127.0.0.1:8480")
        self.says(self.stopped("--listen", "nowhere.invalid:8480"), "--listen: nowhere.invalid:8480: ")


class Words(unittest.TestCase):
    """--help, --version, and words that aren't a command."""

    def ended(self, *words):
        return subprocess.run([STATION, *words], stdin=subprocess.DEVNULL, capture_output=True, text=True, check=False)

    def test_help(self):
        for words in (("--help",), ("--force", "--help")):
            ended = self.ended(*words)
            self.assertEqual((ended.returncode, ended.stderr), (0, ""))
            for part in ("station-office [--force] withdraw STATE REFERENCE [MOMENT]", "MAX_AGE", "The status is"):
                self.assertIn(part, ended.stdout)

    def test_version(self):
        self.assertRegex(self.ended("--version").stdout, r"^station-office \S")

    def test_usage(self):
        for words in ((), ("now", "x"), ("known",), ("known", "x", "y"), ("withdraw", "x"), ("withdraw", "x", "a", "b", "c"), ("--now",), ("--forced", "known", "x")):
            ended = self.ended(*words)
            self.assertEqual((ended.returncode, ended.stdout), (2, ""), words)
            self.assertEqual({line.split()[0] for line in ended.stderr.splitlines()}, {"station-office"})
        self.assertEqual(self.ended("--now", "noon", "known", "x").stderr, "station-office: --now: 'noon' is no time: write YYYY-MM-DDTHH:MM\n")
