"""Tests the screen: the next trains across midnight, a server that serves all its clients, the page of a train, other days, and a page for
everybody."""
import gzip
import json
import os
import pathlib
import random
import re
import signal
import socket
import subprocess
import tempfile
import time
import unittest

import pytest
from offices import record
from screens import CELLS, CUT, DAY, ENDS, FAINT, HEADS, NAMES, REAL, SHOWN, STAND_IN, TAILS, WIDTHS, Office, Seen, knows, run, waited

# A browser shows many pages in a case.
pytestmark = pytest.mark.timeout(600)

NEXT = "2024-06-13"
AHEAD = f"return [...document.querySelectorAll('#next tr[data-at]')].map({CELLS})"
# The visible rows of both days: for each, its time in half minutes, its time as it is shown, and
# the position of its bottom edge.
SEEN = """return [...document.querySelectorAll('#docker tr[data-at]')].filter(row => row.getBoundingClientRect().height)
    .map(row => [Number(row.dataset.at), row.cells[0].textContent, row.getBoundingClientRect().bottom])"""
class Late(Seen):
    """The next trains at ten to midnight."""

    desk = STAND_IN
    names = NAMES
    now = f"{DAY}T23:49"

    def test_coming(self):
        """The next trains continue with tomorrow's, below a line at midnight."""
        wall = self.browser(1920, 1080)
        wall.open(self.address("/ASHFELD"))
        tomorrow = self.rows(day=NEXT)
        ahead = wall.run(AHEAD)
        self.assertEqual(ahead, tomorrow[:len(ahead)])
        self.assertGreaterEqual(len(ahead), 40)
        self.assertTrue(all(row[0] >= "06:00" for row in tomorrow[len(ahead):]))
        seen = wall.run(SEEN)
        late = [row[0] for row in self.rows() if row[0][:5] >= "23:51"]
        self.assertEqual([row[1] for row in seen], late + [row[0] for row in ahead])
        self.assertGreater(len(late), 1)
        self.assertEqual([row[0] for row in seen], sorted(row[0] for row in seen))
        bottom = wall.run("return innerHeight")
        self.assertGreaterEqual(sum(row[2] <= bottom for row in seen), 18)
        self.assertEqual(wall.run("return document.querySelector('.midnight').textContent"), "Thursday 13 June 2024")
        self.assertFalse(wall.run("return document.getElementById('no-more').checkVisibility()"))

    def test_day_alone(self):
        """The docker of a day has only that day."""
        made = self.browser(1920, 1080)
        made.open(self.address(f"/ASHFELD/{DAY}"))
        self.assertIsNone(made.run("return document.getElementById('next')"))


class LateAndAlone(Seen):
    """A screen on a wall whose server stops just before midnight."""

    now = f"{DAY}T23:59:40"

    def test_goes_on(self):
        wall = self.browser(1920, 1080)
        wall.open(self.address("/ASHFELD"))
        self.server.dies()
        self.assertTrue(waited(40, lambda: wall.run("return document.getElementById('clock').textContent").startswith("00:0")))
        self.assertFalse(any(wall.run(SHOWN)))
        self.assertEqual([row[1] for row in wall.run(SEEN)], [row[0] for row in wall.run(AHEAD) if row[0][:5] >= wall.run("return document.getElementById('clock').textContent")])
        self.assertTrue(waited(20, lambda: wall.run("return document.querySelector('#status.bad')?.textContent")))


@pytest.mark.by_itself
class Alive(Seen):
    """Other clients of the server, and whether the server answers."""

    desk = STAND_IN

    def test_hung(self):
        """If the server hangs, the screen says within seconds that it isn't renewed, and later that it is again."""
        wall = self.browser(1920, 1080)
        wall.open(self.address("/ASHFELD"))
        self.assertEqual(wall.run("return document.getElementById('status').textContent"), "")
        self.server.process.send_signal(signal.SIGSTOP)
        try:
            self.assertRegex(waited(20, lambda: wall.run("return document.querySelector('#status.bad')?.textContent")) or "", r"^Not renewed since 0[89]:\d\d: no answer$")
        finally:
            self.server.process.send_signal(signal.SIGCONT)
        self.assertRegex(waited(20, lambda: wall.run("return document.querySelector('#status:not(.bad)')?.textContent")) or "", r"^Renewed at 0[89]:\d\d$")

    def connections(self, number, sent=b""):
        made = []
        for _ in range(number):
            made.append(socket.create_connection(("127.0.0.1", self.server.port), 10))
            made[-1].sendall(sent)
        self.addCleanup(lambda: [one.close() for one in made])
        return made

    def test_idle_and_slow(self):
        """Idle connections and half requests don't keep other clients out."""
        self.connections(550)
        self.connections(250, b"GET /ASHFELD HTTP/1.1\r\nHost: x\r\n")
        self.connections(50, b"POST / HTTP/1.1\r\nHost: x\r\nContent-Length: 60000\r\n\r\nx")
        for _ in range(20):
            began = time.monotonic()
            self.assertEqual(self.ask("/ASHFELD")[0], 200)
            self.assertLess(time.monotonic() - began, 3)

    def test_half_request_ends(self):
        """A request that isn't completed is ended, even if a byte of it comes now and then. So is an idle connection."""
        half, idle = self.connections(1, b"GET /ASHFELD HTTP/1.1\r\n")[0], self.connections(1)[0]
        half.settimeout(1)
        ended = None
        for _ in range(40):
            try:
                half.sendall(b"X")
                if half.recv(100) == b"":
                    ended = True
            except TimeoutError:
                continue
            except OSError:
                ended = True
            if ended:
                break
        self.assertTrue(ended)
        idle.settimeout(10)
        self.assertEqual(idle.recv(1), b"")

    def is_ended(self, connection, seconds):
        """Whether the server closes a connection within this many seconds, although nothing is read from it."""
        def tried():
            try:
                connection.sendall(b"GET / HTTP/1.1\r\n")
            except OSError:
                return True
            time.sleep(0.5)
            return False

        return waited(seconds, tried)

    def test_readers_stop(self):
        """Clients that don't read their answers hold nobody up, and are disconnected."""
        slow = self.connections(8, b"GET /ASHFELD HTTP/1.1\r\nHost: x\r\n\r\n" * 3)
        many = self.connections(8, b"GET /ASHFELD HTTP/1.1\r\nHost: x\r\n\r\n" * 200)
        began = time.monotonic()
        self.assertEqual(self.ask("/ASHFELD")[0], 200)
        self.assertLess(time.monotonic() - began, 15)
        self.assertTrue(all(self.is_ended(one, 5) for one in many))
        self.assertTrue(all(self.is_ended(one, 40) for one in slow))

    def test_great_requests(self):
        self.assertEqual(self.ask("/ASHFELD", headers={"X": "x" * 20000})[0], 431)

    def test_compressed(self):
        for form in ("", ".txt", ".csv", ".json", ".svg"):
            path = f"/ASHFELD/{DAY}{form}"
            plain, packed = self.ask(path), self.ask(path, headers={"Accept-Encoding": "gzip"})
            self.assertEqual((plain[1]["Content-Encoding"], packed[1]["Content-Encoding"], packed[1]["Vary"]), (None, "gzip", "Accept-Encoding" if form else "Accept-Encoding, Cookie"))
            self.assertEqual(re.sub(rb"\d\d:\d\d", b"", gzip.decompress(packed[2])), re.sub(rb"\d\d:\d\d", b"", plain[2]))
            self.assertLess(len(packed[2]), len(plain[2]) / 3)
            self.assertEqual(self.ask(path, headers={"Accept-Encoding": "gzip", "If-None-Match": packed[1]["ETag"]})[0::2], (304, b""))


# The parts from which names of places are made: beginnings, middles and ends.


@pytest.mark.by_itself
class Busy(Office):
    """A place as busy as the busiest of a nation: 3,000 rows, with names at both ends of each, and hundreds of differences."""

    desk = STAND_IN

    @classmethod
    def setUpClass(cls):
        super().setUpClass()
        drawn = random.Random(7)
        text = [record("HDTPS.UDFROC1.PD2406120806242100DFROC1PDFROC1FFA"), record("TIASHFELD         ASHFELD JUNCTION")]
        codes = [f"{''.join(drawn.choice('ABCDEFGHIJKLMNOPRSTUW') for _ in range(7))}" for _ in range(300)]
        text += [record(f"TI{code:<16}{drawn.choice(HEADS)}{drawn.choice(TAILS)}{drawn.choice(ENDS)}") for code in codes]
        for number in range(1500):
            at = drawn.randrange(240, 1380)
            ends = [f"{(at + after) // 60:02}{(at + after) % 60:02}" for after in (-60, 0, 2, 40)]
            first, last = (record(f"L{kind}{drawn.choice(codes):<8}{clock} {clock}2  FL") for kind, clock in (("O", ends[0]), ("T", ends[3])))
            tracks = f"{drawn.choice(('SL', 'FL', 'UGL')):<3}{drawn.choice(('SL', 'FL', 'DM')):<3}"

            def calls(platform):
                return [first, record(f"LIASHFELD {ends[1]} {ends[2]}      {ends[1]}{ends[2]}{platform:<3}{tracks}"), last]

            key, head = f"{drawn.choice('CGLWY')}{number:05}", f"POO{drawn.randrange(1, 6)}{drawn.choice('ABCFHLMNPS')}{drawn.randrange(100):02}"
            text += [record(f"BSN{key}2406032412131111111 {head}", drawn.choice("PPPPPPPN")), *calls(drawn.randrange(1, 25))]
            # On average, of twenty trains one is cancelled on the day, one is at another platform
            # on the day, and one is at another platform all week.
            match drawn.randrange(20):
                case 0:
                    text.append(record(f"BSN{key}2406122406120010000", "C"))
                case 1:
                    text += [record(f"BSN{key}2406122406120010000 {head}", "O"), *calls("26")]
                case 2:
                    text += [record(f"BSN{key}2406102406141111100 {head}", "O"), *calls("27")]
        (cls.folder / "national.cif").write_text("".join([*text, record("ZZ")]))
        run("take", cls.state, str(cls.folder / "national.cif"))

    def test_page(self):
        """The page takes at most 200 KB on the wire, and comes within 0.3 s."""
        self.assertGreater(self.docker().count(b"\n"), 2800)
        body = self.answers_within("/ASHFELD", 0.3)
        self.assertLessEqual(len(body), 200000)
        page = gzip.decompress(body)
        self.assertGreater(page.count(b'<td class="to" title="'), 3000)
        self.assertGreater(page.count(b'<td class="change">'), 500)
        self.assertGreater(page.count(b">cancelled<"), 100)


@unittest.skipUnless(knows(f"permanent ASHFELD {DAY}"), "there is no program desk that knows what is permanent")
class RealBusy(Busy):
    """The same tests with the real program `desk`, which also compares the dockers of both days in little time."""

    desk = REAL

    def test_first(self):
        """The first page after a change of STATE takes less than a second and a half of processor time."""
        run("take", self.state, str(self.folder / "update.cif"))
        before = self.spent()
        self.assertEqual(self.ask("/ASHFELD")[0], 200)
        self.assertLess(self.spent() - before, 1.5)


# A train that runs past midnight, changes its identity, divides, is joined, and has a next working the next day. One train is altered, and one is cancelled.
NIGHT = [
    record("HDTPS.UDFROC1.PD2406110706242100DFROC1FDFROC1EFA"),
    *(record(f"TI{code:<16}{name}") for code, name in (("ASHFELD", "ASHFELD JUNCTION"), ("BRAYTON", "BRAYTON"), ("CORHAM", "CORHAM EXCHANGE"), ("DUNMERE", "DUNMERE TOWN"), ("LONGEST", "LLANFAIRPWLLGWYNGYLLGOGERY"))),
    record("AANT00001T000022406032412131111111JJSCORHAM   TP", "P"), record("AANT00001T000032406032412131111111VVSCORHAM   TP", "P"),
    record("AANT00001T000042406032412131111111NPNDUNMERE  TP", "P"), record("AANT00006T000052406032412131111111JJSASHFELD  TP", "P"),
    record("BSNT000012406032412131111111 POO1M10", "P"), record("LOASHFELD 2310 23103  SL"), record("LIBRAYTON           2325H00000000   FL UM"),
    record("CRCORHAM  OO1M99"), record("LICORHAM  2355H0005      235600054  SL FL"), record("LTDUNMERE 0040 00412  DM"),
    record("BSNT000022406032412131111111 POO2B02", "P"), record("LOBRAYTON 2300 23001"), record("LTCORHAM  2350 23504"),
    record("BSNT000032406032412131111111 POO2C03", "P"), record("LOCORHAM  2358 23584"), record("LTBRAYTON 2359H23591"),
    record("BSNT000042406032412131111111 POO1D04", "P"), record("LODUNMERE 0110 01102"), record("LTASHFELD 0200 02001"),
    record("BSNT000052406032412131111111 POO1E05", "P"), record("LOASHFELD 1200 12001"), record("LTBRAYTON 1220 12201"),
    record("BSNT000052406122406120010000", "C"),
    record("BSNT000062406032412131111111 POO1F06", "P"), record("LOASHFELD 1300 13001"), record("LTFARLEY  1320 13201"),
    record("BSNT000062406122406120010000 POO1F06", "O"), record("LOASHFELD 1307 13071"), record("LTBRAYTON 1327 13271"),
    record("BSNT000072406032412131111111 POO1G07", "P"), record("LOASHFELD 0910 09101"), record("LTLONGEST 0950 09501"),
    record("ZZ"),
]
# The cells of each row up to the train's identity. What the train does there is in a cell of its own.
CALLS = "return [...document.querySelectorAll('#calls tbody tr')].map(row => [...row.cells].filter(cell => cell.className != 'here').map(cell => cell.textContent))"


class Trains(Seen):
    """The page of one train."""

    desk = STAND_IN

    @classmethod
    def setUpClass(cls):
        super().setUpClass()
        (cls.folder / "night.cif").write_text("".join(NIGHT))
        os.remove(cls.state)
        run("new", cls.state)
        run("take", cls.state, str(cls.folder / "night.cif"))

    def test_calls(self):
        made = self.browser(1366, 900)
        made.open(self.address(f"/train/T00001/{DAY}"))
        self.assertEqual(made.run(CALLS), [
            ["Ashfeld Junction", "ASHFELD", "", "23:10", "", "23:10", "3", "", "SL", "1M10"],
            ["Brayton", "BRAYTON", "", "23:25½ passes", "", "", "", "UM", "FL", "1M10"],
            ["Corham Exchange", "CORHAM", "23:55½", "00:05", "23:56", "00:05", "4", "FL", "SL", "1M99 changes here"],
            ["is joined by 2B02 T00002"], ["divides into 2C03 T00003"],
            ["Thursday 13 June 2024"],
            ["Dunmere Town", "DUNMERE", "00:40", "", "00:41", "", "2", "DM", "", "1M99"],
            ["goes on as 1D04 T00004"],
        ])
        self.assertEqual(made.run("return document.getElementById('journey').textContent"), "From Ashfeld Junction to Dunmere Town. Starts on Wednesday 12 June 2024.")
        self.assertEqual(made.run("return document.getElementById('source').textContent"), "STP indicator P, permanent. This schedule runs from 2024-06-03 to 2024-12-13, each day. "
                         "It came with extract DFROC1F of 2024-06-07 21:00, record 11.")
        places = made.run("return [...document.querySelectorAll('#calls .place a')].map(link => link.getAttribute('href'))")
        self.assertEqual(places, [f"/ASHFELD/{DAY}", f"/BRAYTON/{DAY}", f"/CORHAM/{DAY}", f"/DUNMERE/{NEXT}"])

    def test_from_a_row(self):
        """Each row links to its train, on the day on which the train started."""
        made = self.browser(1366, 900)
        made.open(self.address(f"/DUNMERE/{NEXT}"))
        lines = self.docker("DUNMERE", NEXT).decode().split("\n")[1:-2]
        for number, line in enumerate(lines):
            link = made.run(f"return document.querySelectorAll('#day .train a')[{number}].getAttribute('href')")
            status, headers, _ = self.ask(link)
            started = DAY if line[13:19] == "T00001" else NEXT
            self.assertEqual((status, headers["Location"]), (303, f"/train/{line[13:19]}/{started}#DUNMERE"))
        self.assertGreater(len({line[13:19] for line in lines}), 1)
        made.run("document.querySelector('#day .train a').click()")
        self.assertTrue(made.run("return location.pathname").startswith("/train/T0000"))
        # The row of an association links to the other train, which starts the next day.
        made.open(self.address(f"/DUNMERE/{NEXT}"))
        link = made.run("return document.querySelector('#day .link a').getAttribute('href')")
        self.assertEqual(self.ask(link)[1]["Location"], f"/train/T00004/{NEXT}#DUNMERE")

    def test_other_side(self):
        """The page of an associated train says what it joins, what it divides from, or what it was before."""
        for uid, day, words in (("T00002", DAY, "joins 1M99 T00001"), ("T00003", DAY, "divides from 1M99 T00001"), ("T00004", NEXT, "comes from 1M99 T00001")):
            page = self.ask(f"/train/{uid}/{day}")[2].decode()
            found = [re.sub("<[^>]*>", "", row) for row in re.findall(r'<tr class="association">(.*?)</tr>', page, re.S)]
            self.assertEqual(found, [words])

    def test_days(self):
        page = self.ask(f"/train/T00005/{DAY}")[2].decode()
        self.assertIn("It is cancelled on this day.", page)
        self.assertIn(">C</b>, cancelled on this day", page)
        page = self.ask(f"/train/T00006/{DAY}")[2].decode()
        self.assertIn("altered on this day (overlay)", page)
        self.assertIn("<del>13:00</del> <ins>13:07</ins>", page)
        self.assertIn(f'is joined by <a href="/train/T00005/{DAY}?at=ASHFELD.">T00005</a>, which doesn’t run', page)
        self.assertIn("runs from 2024-06-12 to 2024-06-12, Wednesdays", page)
        page = self.ask(f"/train/T00006/{NEXT}")[2].decode()
        self.assertIn("13:00", page)
        # A place that no extract names shows its code.
        self.assertIn(f'<a href="/FARLEY/{NEXT}">FARLEY</a>', page)
        self.assertIn("No schedule of T00009 runs on this day.", self.ask(f"/train/T00009/{DAY}")[2].decode())
        for words in ("X/2024-06-12", "T0000%20/2024-06-12", "T00001/2024-06-31", "T00001/today", "T00001%0a/2024-06-12"):
            self.assertEqual(self.ask(f"/train/{words}")[0], 400, words)

    def test_start_days(self):
        """.json and .csv have the day on which each train started."""
        told = json.loads(self.ask(f"/DUNMERE/{NEXT}.json")[2])["lines"]
        self.assertEqual([(line["kind"], line["uid"], line["start"]) for line in told], [("A", "T00001", DAY), ("N", "T00001", DAY), ("D", "T00004", NEXT)])
        table = self.ask(f"/CORHAM/{NEXT}.csv")[2].decode().splitlines()
        self.assertEqual([row.split(",")[14] for row in table], ["start", DAY] + [NEXT] * (len(table) - 2))


@unittest.skipUnless(REAL, "there is no program desk")
class RealTrains(Trains):
    """The same tests with the real program `desk`."""

    desk = REAL


class NoTrains(Office):
    """Pages without a desk."""

    def test_no_desk(self):
        status, _, body = self.ask(f"/train/C00001/{DAY}")
        self.assertEqual(status, 501)
        self.assertIn(b"needs the program desk", body)
        self.assertNotIn(b'href="/train/', self.ask("/ASHFELD")[2])


class Days(Seen):
    """What a page says about its day."""

    desk = STAND_IN

    def test_other_day(self):
        """A page of another day doesn't look like today's, and links back to today."""
        made = self.browser(1366, 900)
        made.open(self.address(f"/ASHFELD/{DAY}"))
        today = made.run("return getComputedStyle(document.body).backgroundColor")
        self.assertIsNone(made.run("return document.querySelector('.other-day')"))
        self.assertRegex(made.run("return document.getElementById('clock').textContent"), r"^0[89]:\d\d$")
        made.open(self.address("/ASHFELD/2024-06-11"))
        self.assertEqual(made.run("return document.querySelector('.other-day').textContent"),
                         "Not today. This is Tuesday 11 June 2024; today is Wednesday 12 June 2024. To today’s trains")
        self.assertIsNone(made.run("return document.getElementById('clock')"))
        self.assertNotEqual(made.run("return getComputedStyle(document.body).backgroundColor"), today)
        made.run("document.querySelector('.other-day a').click()")
        self.assertEqual(made.run("return [location.pathname, document.documentElement.className]"), ["/ASHFELD", ""])

    def test_early_day(self):
        """A page of a day before the newest full extract says what is missing."""
        for day, is_early in (("2024-06-06", True), ("2024-06-07", False), (DAY, False)):
            self.assertEqual(b'id="early"' in self.ask(f"/ASHFELD/{day}")[2], is_early, day)
        self.assertIn(b"This day lies before the full extract DFROC1F of 2024-06-07 21:00. Trains that ran for the last time before it are missing here.", self.ask("/ASHFELD/2024-06-06")[2])

    def test_updates_alone(self):
        own = self.folder / "kept.state"
        os.rename(self.state, own)
        self.addCleanup(os.replace, own, self.state)
        run("new", self.state)
        self.assertNotIn(b'id="early"', self.ask("/ASHFELD")[2])
        run("take", self.state, str(self.folder / "update.cif"))
        self.assertIn(b"No full extract was taken: most trains are missing here.", self.ask("/ASHFELD")[2])


class Everybody(Trains):
    """A page for any screen, for paper, and for readers who can't see it or have no JavaScript."""

    test_calls = test_from_a_row = test_other_side = test_days = test_start_days = None

    @classmethod
    def setUpClass(cls):
        super().setUpClass()
        run("take", cls.state, str(cls.folder / "busy.cif"))
        cls.pages = (f"/ASHFELD/{DAY}", "/ASHFELD", f"/train/T00001/{DAY}", "/ASHFELD/2024-06-06", "/ASHFELD/2024-12-20", "/NOWHERE", "/", "/?q=a", "/ASHFIELD")

    def unfolded(self, made):
        made.run("document.getElementById('fold')?.click(); for (const it of document.querySelectorAll('details')) it.open = true")
        self.assertTrue(waited(10, lambda: made.run("return [...document.querySelectorAll('.across')].every(it => it.querySelector('svg'))")))

    def test_widths(self):
        """From 320 to 3840 pixels, nothing is wider than the screen, and no text is cut off."""
        made = self.browser(320, 844, True)
        for path in self.pages:
            made.open(self.address(path))
            for width in WIDTHS:
                made.sized(width, width * 9 // 16 if width > 1000 else 844, width < 500)
                self.assertEqual((path, width, made.run("return [innerWidth, document.documentElement.scrollWidth]"), made.run(CUT)), (path, width, [width, width], []))
        for width, height in ((320, 640), (390, 844), (768, 1024), (1366, 768), (1920, 1080)):
            for name, path in (("page", "/ASHFELD"), ("train-page", f"/train/T00001/{DAY}"), ("found", "/?q=a")):
                made.sized(width, height, width < 500)
                made.open(self.address(path))
                if os.environ.get("LOOKS"):
                    made.picture(pathlib.Path(os.environ["LOOKS"]) / f"{name}-{width}.png")

    def test_contrast(self):
        """The contrast of each text with its background is at least 4.5 to 1, on screens and on paper."""
        for width in (390, 1366):
            made = self.browser(width, 900)
            for path in self.pages:
                for media in ("screen", "print"):
                    made.open(self.address(path))
                    made.media(media)
                    self.unfolded(made)
                    self.assertEqual((path, media, made.run(FAINT)), (path, media, []))

    def test_tree(self):
        """In the accessibility tree, every control and every column has a name, a table has a caption, and renewals have a live region."""
        for width in (390, 1366):
            made = self.browser(width, 900)
            for path in self.pages[:3]:
                made.open(self.address(path))
                self.unfolded(made)
                tree = [node for node in made.cdp("Accessibility.getFullAXTree")["nodes"] if not node.get("ignored")]
                told = [(node["role"]["value"], node.get("name", {}).get("value", "")) for node in tree]
                named = [(role, name) for role, name in told if role in ("link", "button", "columnheader", "rowheader", "DisclosureTriangle", "group", "image", "table")]
                self.assertEqual([(role, name) for role, name in named if not re.search(r"\w", name)], [])
                self.assertEqual(len([name for role, name in told if role == "columnheader"]), 12 + made.run("return document.querySelectorAll('#docker thead .change').length") if "ASHFELD" in path else 11, (path, width))
                captions = [name for role, name in told if role == "table"]
                self.assertEqual(len(captions), 1)
                self.assertRegex(captions[0], "Trains at Ashfeld Junction, Wednesday 12 June 2024" if "ASHFELD" in path else "Calls of 1M10 T00001, Wednesday 12 June 2024")
                if "ASHFELD" in path:
                    fold = next(node for node in tree if node["role"]["value"] == "button" and "past" in node["name"]["value"])
                    self.assertIn({"name": "expanded", "value": {"type": "booleanOrUndefined", "value": True}}, fold["properties"])
                    self.assertIn("status", [role for role, _ in told])
                    self.assertTrue({"The day before, Tuesday 11 June 2024", "The day after, Thursday 13 June 2024"} <= {name for role, name in told if role == "link"})

    def test_sheets(self):
        """Each sheet of paper has the station, the day and its number."""
        for path, heading in ((f"/ASHFELD/{DAY}", "Ashfeld Junction, Wednesday 12 June 2024"), (f"/train/T00001/{DAY}", "1M10 T00001, Wednesday 12 June 2024")):
            made = self.browser(718, 1047)
            made.open(self.address(path))
            with tempfile.NamedTemporaryFile(suffix=".pdf") as file:
                file.write(made.paper())
                file.flush()
                sheets = subprocess.run(["pdftotext", "-layout", file.name, "-"], capture_output=True, check=True, text=True).stdout.split("\f")[:-1]
            for number, sheet in enumerate(sheets, 1):
                self.assertRegex(sheet.lstrip().splitlines()[0], rf"^{heading} +page {number} of {len(sheets)}$")
        self.assertEqual(len(sheets), 1)

    def test_no_script(self):
        """Without JavaScript, the page has the age, the day and the time, every train, and a link to the next ones."""
        made = self.browser(1366, 900)
        made.cdp("Emulation.setScriptExecutionDisabled", value=True)
        self.addCleanup(made.cdp, "Emulation.setScriptExecutionDisabled", value=False)
        made.open(self.address("/ASHFELD"))
        tree = [node for node in made.cdp("Accessibility.getFullAXTree")["nodes"] if not node.get("ignored")]
        text = " ".join(node["name"]["value"] for node in tree if node["role"]["value"] == "StaticText")
        for part in ("Wednesday 12 June 2024", "4 days old", "Known up to"):
            self.assertIn(part, text)
        self.assertRegex(text, r"Junction.{0,60} 0[89]:\d\d ")
        self.assertRegex(text, r"The next trains, from 0[89]:\d\d on")
        self.assertEqual(sum(node["role"]["value"] == "row" for node in tree), self.ask("/ASHFELD")[2].count(b"<tr"))
        self.assertRegex(self.ask("/ASHFELD")[2].decode(), r'<tr id="now" class="." data-at="10[78]\d">')
