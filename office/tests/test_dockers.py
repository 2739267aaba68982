"""Tests office/dockers.py: `desk` and `docker` commands have to give the same answers, whatever happens to STATE and to the process. DOCKER names
the program, and DESK the program `desk`; without it, a stand-in speaks its protocol (desk-of-docker)."""
import os
import pathlib
import shutil
import subprocess
import tempfile
import unittest
import unittest.mock

import dockers

HERE = pathlib.Path(__file__).resolve().parent
OFFICE = HERE.parent
EXAMPLES = OFFICE.parent / "examples" / "office"
STAND_IN = str(HERE / "desk-of-docker")
DOCKER = os.environ["DOCKER"]
REAL = shutil.which(os.environ.get("DESK") or f"{DOCKER}-desk")
REQUESTS = [("print", place, day) for place in ("ASHFELD", "CORHAM", "NOWHERE") for day in ("2024-06-10", "2024-06-12")] + [("files",)]


def docker(*words):
    ended = subprocess.run([DOCKER, *words], stdin=subprocess.DEVNULL, capture_output=True, check=False)
    return dockers.Answer(ended.returncode, ended.stderr if ended.returncode else ended.stdout)


class Office(unittest.TestCase):
    """A folder with the state of the full extract."""

    def setUp(self):
        folder = tempfile.TemporaryDirectory()
        self.addCleanup(folder.cleanup)
        self.folder = pathlib.Path(folder.name)
        self.state = str(self.folder / "office.state")
        self.took("new", self.state)
        self.took("take", self.state, str(EXAMPLES / "full.cif"))
        self.starts = self.folder / "starts"
        kept = unittest.mock.patch.dict(os.environ)
        kept.start()
        self.addCleanup(kept.stop)
        os.environ["STARTS"] = str(self.starts)
        os.environ.pop("TROUBLE", None)

    def took(self, *words):
        self.assertEqual(docker(*words).status, 0, words)

    def started(self):
        """The number of times that the stand-in was started."""
        return len(self.starts.read_text().splitlines())

    def reader(self, kind, program):
        reader = kind(program, self.state)
        self.addCleanup(reader.close)
        return reader

    def desk(self, trouble=""):
        os.environ["TROUBLE"] = trouble
        return self.reader(dockers.Desk, STAND_IN)

    def same(self, reader):
        """Checks that each request has the answer of a docker command."""
        for command, *words in REQUESTS:
            self.assertEqual(reader.ask((command, *words)), docker(command, self.state, *words), words)


class BothWays(Office):
    def changes(self, reader):
        """Changes STATE in several ways: by an update, by a horizon, to a file that isn't a state, to another state, to no file, and back to the first
        state."""
        self.same(reader)
        self.took("take", self.state, str(EXAMPLES / "monday.cif"))
        self.same(reader)
        kept = self.folder / "kept"
        shutil.copy(self.state, kept)
        self.took("horizon", self.state, "2024-06-09")
        self.same(reader)
        self.assertEqual(reader.print_docker("ASHFELD", "2024-06-11"), dockers.Answer(1, b"docker: day refused: before horizon plus three days\n"))
        (self.folder / "torn").write_bytes(b"no state")
        os.replace(self.folder / "torn", self.state)
        self.assertEqual(reader.files(), dockers.Answer(1, b"docker: state refused: offset 0: Mark\n"))
        self.took("new", self.state)
        self.same(reader)
        os.replace(kept, self.state)
        self.same(reader)
        os.remove(self.state)
        self.assertEqual(reader.files(), dockers.Answer(4, b"docker: device failed\n"))
        self.took("new", self.state)
        self.took("take", self.state, str(EXAMPLES / "tuesday.cif"))
        self.same(reader)

    def test_docker(self):
        self.changes(self.reader(dockers.Commands, DOCKER))

    def test_desk(self):
        self.changes(self.desk())

    @unittest.skipUnless(REAL, "there is no program desk")
    def test_real_desk(self):
        self.changes(self.reader(dockers.Desk, REAL))

    def test_words(self):
        """Words that aren't one place and one day aren't sent."""
        for reader in (self.reader(dockers.Commands, "/bin/false"), self.reader(dockers.Desk, "/bin/false")):
            for place in ("", "A B", "-A", "ASHFIELD", "A\n", "A\tB", "ASHFELD ", "\u00c4", "A\x00"):
                self.assertEqual(reader.print_docker(place, "2024-06-12").status, 2, repr(place))
            for day in ("", "2024-6-12", "2024-06-31", "1959-12-31", "2060-01-01", "2024-06-12\n", "12/06/2024", "\u0662024-06-12", "20240612", "2024-164"):
                self.assertEqual(reader.print_docker("ASHFELD", day).status, 2, repr(day))


class OneDesk(Office):
    def test_one_load(self):
        """One process answers all requests, and sees an update after `renew`."""
        reader = self.desk()
        self.same(reader)
        self.took("take", self.state, str(EXAMPLES / "monday.cif"))
        self.same(reader)
        self.assertEqual(self.started(), 1)
        self.took("new", self.state)
        self.same(reader)
        self.assertEqual(self.started(), 2)

    def test_lists(self):
        """Each list is asked for once until STATE changes. A desk of an older version is asked once whether it knows the lists. `docker` has no lists."""
        asked = self.folder / "asked"
        os.environ["ASKED"] = str(asked)
        self.addCleanup(os.environ.pop, "ASKED")
        reader = self.desk()

        def counts():
            return [asked.read_text().splitlines().count(request) for request in ("files", "places", "known")]

        first = [(reader.files(), reader.places(), reader.known()) for _ in range(3)][-1]
        self.assertEqual(counts(), [1, 1, 1])
        self.assertEqual(first[1].text.splitlines()[0], b"ASHFELD           ASHFELD JUNCTION                    4")
        self.assertEqual(dockers.coverage_of(first[2].text), (None, "2024-06-07", "2024-12-13", 4))
        self.took("take", self.state, str(EXAMPLES / "monday.cif"))
        self.assertNotEqual((reader.files(), reader.places()), first[:2])
        self.assertEqual((reader.files(), reader.places(), counts()), (reader.files(), reader.places(), [2, 2, 1]))
        reader.process.kill()
        reader.process.wait()
        reader.print_docker("ASHFELD", "2024-06-12")
        reader.places()
        self.assertEqual(counts(), [2, 3, 1])
        os.environ["OLD"] = "places known permanent"
        self.addCleanup(os.environ.pop, "OLD")
        reader = self.desk()
        self.assertEqual({reader.places().status for _ in range(3)} | {reader.known().status for _ in range(3)}, {dockers.NO_REQUEST})
        self.assertEqual(counts(), [2, 4, 2])
        reader = self.reader(dockers.Commands, "/bin/false")
        self.assertEqual((reader.places().status, reader.known().status), (dockers.UNKNOWN, dockers.UNKNOWN))
        self.assertEqual(dockers.coverage_of(b"HORIZON      2024-06-10\nSCHEDULES    0\nNEW          x\n"), ("2024-06-10", None, None, 0))

    def test_permanent(self):
        """A desk is asked for permanent dockers. A desk of an older version is asked once until STATE changes. `docker` has no permanent dockers."""
        asked = self.folder / "asked"
        os.environ["ASKED"] = str(asked)
        self.addCleanup(os.environ.pop, "ASKED")
        self.took("take", self.state, str(EXAMPLES / "monday.cif"))
        # Monday's update has nothing permanent.
        base = docker("day", str(EXAMPLES / "full.cif"), "ASHFELD", "2024-06-12")
        self.assertEqual(self.desk().permanent("ASHFELD", "2024-06-12"), base)
        self.assertNotEqual(docker("print", self.state, "ASHFELD", "2024-06-12"), base)
        os.environ["OLD"] = "permanent"
        self.addCleanup(os.environ.pop, "OLD")
        asked.write_text("")
        reader = self.desk()
        self.assertEqual({reader.permanent(place, "2024-06-12").status for place in ("ASHFELD", "CORHAM", "ASHFELD")}, {dockers.NO_REQUEST})
        self.same(reader)
        self.assertEqual(asked.read_text().count("permanent"), 1)
        self.took("take", self.state, str(EXAMPLES / "tuesday.cif"))
        self.assertEqual([reader.permanent("ASHFELD", "2024-06-12").status for _ in range(2)], [dockers.NO_REQUEST] * 2)
        self.assertEqual(asked.read_text().count("permanent"), 2)
        for place, day in (("ASHFIELD", "2024-06-12"), ("ASHFELD", "12/06/2024"), ("A\nB", "2024-06-12")):
            self.assertEqual(self.reader(dockers.Desk, "/bin/false").permanent(place, day).status, 2)
        self.assertEqual(self.reader(dockers.Commands, "/bin/false").permanent("ASHFELD", "2024-06-12").status, dockers.UNKNOWN)

    def test_listed(self):
        """A desk lists the trains with an identity. A desk of an older version refuses, and so does `docker`."""
        self.assertEqual(self.desk().listed("1A10", "2024-06-12"), (0, b"A10001 2024-06-12 P\n"))
        self.assertEqual(self.desk().listed("9Z99", "2024-06-12"), (0, b""))
        self.assertEqual({self.reader(dockers.Desk, "/bin/false").listed(*words).status for words in (("1A1", "2024-06-12"), ("1A 1", "2024-06-12"), ("1A10", "12/06/2024"))}, {2})
        self.assertEqual(self.reader(dockers.Commands, "/bin/false").listed("1A10", "2024-06-12").status, dockers.UNKNOWN)
        os.environ["OLD"] = "trains"
        self.addCleanup(os.environ.pop, "OLD")
        self.assertEqual(self.reader(dockers.Desk, STAND_IN).listed("1A10", "2024-06-12").status, dockers.NO_REQUEST)

    def test_together(self):
        """Many trains are asked for together. Their answers come in order, even if the process ends in the middle."""
        wanted = [(f"A1000{number % 10}", f"2024-06-{10 + number % 7}") for number in range(400)] + [("A 0001", "2024-06-12"), ("A10001", "2024-06-31")]
        reader = self.desk()
        one_by_one = [reader.train(*one) for one in wanted]
        self.assertEqual([answer.status for answer in one_by_one[-2:]], [2, 2])
        for trouble in ("", "ends 7", "short 300", "counts 2", "babbles 399"):
            self.starts.write_text("")
            reader = self.desk(trouble)
            reader.files()
            # A process that is started again has no trouble.
            os.environ["TROUBLE"] = ""
            self.assertEqual(reader.trains(wanted), one_by_one, trouble)
            self.assertEqual(self.started(), 2 if trouble else 1)
        self.assertEqual(reader.trains([]), [])
        os.environ["TROUBLE"] = "ends 1"
        self.assertEqual({answer.status for answer in self.reader(dockers.Desk, STAND_IN).trains(wanted[:9])}, {4})
        self.assertEqual({answer.status for answer in self.reader(dockers.Commands, "/bin/false").trains(wanted[:9])}, {dockers.UNKNOWN})

    def test_trouble(self):
        """If a process ends, or writes something that isn't an answer, it is started again, and the request is asked again."""
        for trouble in ("ends 3", "short 2", "counts 4", "babbles 2"):
            with self.subTest(trouble):
                self.starts.write_text("")
                self.same(self.desk(trouble))
                self.assertGreater(self.started(), 1)

    def test_no_answer(self):
        """If a process ends at once, or never answers, the request has status 4. The next request is still asked."""
        reader = self.desk("ends 1")
        self.assertEqual(reader.files().status, 4)
        os.environ["TROUBLE"] = ""
        self.assertEqual(reader.files(), docker("files", self.state))
        reader = self.desk("sleeps 1")
        patience, dockers.PATIENCE = dockers.PATIENCE, 0.5
        try:
            self.assertEqual(reader.files().status, 4)
        finally:
            dockers.PATIENCE = patience

    def test_killed(self):
        reader = self.desk()
        before = reader.files()
        reader.process.kill()
        self.assertEqual(reader.files(), before)


class EachCommand(Office):
    def counted(self):
        """A program that runs docker, and adds a line to `calls` for each command."""
        program = self.folder / "counted"
        self.calls = self.folder / "calls"
        self.calls.write_text("")
        program.write_text(f'#!/bin/sh\necho "$*" >>"{self.calls}"\nexec "{DOCKER}" "$@"\n')
        program.chmod(0o755)
        return str(program)

    def asked(self):
        return len(self.calls.read_text().splitlines())

    def test_kept(self):
        """An answer is kept as long as STATE is the same file. After a device has failed, the request is asked again."""
        reader = self.reader(dockers.Commands, self.counted())
        self.assertIsNone(reader.at_hand("ASHFELD", "2024-06-12"))
        first = reader.print_docker("ASHFELD", "2024-06-12")
        self.assertEqual(reader.print_docker("ASHFELD", "2024-06-12"), first)
        self.assertEqual(reader.at_hand("ASHFELD", "2024-06-12"), first)
        self.assertEqual(self.asked(), 1)
        self.took("take", self.state, str(EXAMPLES / "monday.cif"))
        self.assertIsNone(reader.at_hand("ASHFELD", "2024-06-12"))
        self.assertNotEqual(reader.print_docker("ASHFELD", "2024-06-12"), first)
        self.assertEqual(self.asked(), 2)
        os.remove(self.state)
        self.assertEqual([reader.files().status, reader.files().status], [4, 4])
        self.assertEqual(self.asked(), 4)

    def test_room(self):
        """The size of the remembered answers is limited. When the limit is reached, the oldest answer is dropped."""
        reader = self.reader(dockers.Commands, self.counted())
        room, dockers.KEPT = dockers.KEPT, 500
        try:
            for request in REQUESTS:
                reader.ask(request)
                self.assertLessEqual(sum(len(answer.text) for answer in reader.kept.values()), 500)
        finally:
            dockers.KEPT = room
