"""Tests office/screen with the built program: what it answers over HTTP, and how a headless Chromium shows its pages. DOCKER names the program, DESK
the program `desk`."""
import csv
import hashlib
import io
import json
import os
import pathlib
import re
import shutil
import subprocess
import time
import unittest
import xml.etree.ElementTree

import pytest
from offices import OFFICE
from screens import CLOCKS, DAY, LEADS, NAMES, REAL, ROWS, SHOWN, STAND_IN, Office, Seen, knows_places, run, waited

# A browser shows many pages in a case.
pytestmark = pytest.mark.timeout(600)


class Answers(Office):
    """The answers of the server."""

    def test_forms(self):
        text = self.docker()
        for path in (f"/ASHFELD/{DAY}.txt", "/ASHFELD.txt"):
            status, headers, body = self.ask(path)
            self.assertEqual((status, headers["Content-Type"], body), (200, "text/plain; charset=utf-8", text))
        lines = text.decode().split("\n")[1:-2]
        table = list(csv.DictReader(io.StringIO(self.ask(f"/ASHFELD/{DAY}.csv")[2].decode())))
        told = json.loads(self.ask(f"/ASHFELD/{DAY}.json")[2])
        self.assertEqual((told["tiploc"], told["date"], told["description"], told["is_known"]), ("ASHFELD", DAY, "ASHFELD JUNCTION", True))
        self.assertEqual((told["known_up_to"]["date"], told["known_up_to"]["time"], told["known_up_to"]["reference"]), ("2024-06-07", "2100", "DFROC1F"))
        for rows in (table, told["lines"]):
            self.assertEqual(len(rows), len(lines))
            for row, line in zip(rows, lines):
                link = line[6] in LEADS
                expected = {"time": line[:5], "kind": line[6], "train": line[8:12], "uid": line[13:19], "stp": line[20], "suffix": line[22], "platform": line[24:27], "line": line[28:31],
                            "path": line[32:35], "public": line[36:40], "origin": "" if link else line[41:48], "destination": "" if link else line[49:56],
                            "partner": line[41:47] if link else "", "partner_train": line[49:53] if link else "",
                            # One train comes in after midnight.
                            "start": "" if not self.has_trains else "2024-06-11" if line[13:19] == "E00099" else DAY,
                            "origin_name": "" if link else self.names.get(line[41:48].strip(), ""), "destination_name": "" if link else self.names.get(line[49:56].strip(), "")}
                self.assertEqual({name: row[name] for name in expected}, {name: value.strip() for name, value in expected.items()})
        self.assertFalse(json.loads(self.ask(f"/NOWHERE/{DAY}.json")[2])["is_known"])

    def test_tags(self):
        """A page, and each other form, has a tag that changes only with the docker. For a request with that tag, the server sends no body."""
        for form in ("", ".txt", ".csv", ".json", ".svg"):
            path = f"/ASHFELD/{DAY}{form}"
            tag = self.ask(path)[1]["ETag"]
            self.assertEqual(self.ask(path, headers={"If-None-Match": tag})[0::2], (304, b""))
            self.assertEqual(self.ask(path, headers={"If-None-Match": '"another"'})[0], 200)
            self.assertNotEqual(self.ask(f"/ASHFELD/2024-06-13{form}")[1]["ETag"], tag)

    def test_words(self):
        """Words that aren't a place or a day are refused before they are sent."""
        self.calls.write_text("")
        for path in ("/ASHFIELD", "/A%20B", "/A%0aB", "/%00", "/-A", "/%C3%84", "/..%2f..%2fetc", "/ASHFELD/2024-06-31", "/ASHFELD/today", "/ASHFELD/2060-01-01", "/ASHFELD/2024-06-12%0a"):
            for form in ("", ".txt"):
                self.assertIn(self.ask(path + form)[0], (400, 404), path + form)
        # The stand-in lists the files whenever it starts.
        sent = [call for call in self.calls.read_text().splitlines() if self.desk != STAND_IN or not call.startswith("files ")]
        self.assertEqual(sent, [])

    def test_statuses(self):
        """docker's status 2 becomes 400, 1 becomes 409, and 3 and 4 become 503. The answer has docker's line, and a page also says what to do."""
        own = self.folder / "own.state"
        self.addCleanup(shutil.copy, own, self.state)
        shutil.copy(self.state, own)
        run("horizon", self.state, "2024-06-11")
        status, _, body = self.ask(f"/ASHFELD/{DAY}.txt")
        self.assertEqual((status, body), (409, b"docker: day refused: before horizon plus three days\n"))
        status, _, body = self.ask(f"/ASHFELD/{DAY}")
        self.assertEqual(status, 409)
        self.assertIn(b"Take a later day", body)
        self.assertEqual(self.ask("/ASHFELD/2024-06-14.txt")[0], 200)
        poor = self.folder / "poor"
        poor.write_text("")
        status, headers, body = self.ask("/BRAYTON/2024-06-14.txt")
        self.assertEqual((status, headers["Retry-After"], body), (503, "60", b"docker: want of memory\n"))
        poor.unlink()
        self.assertEqual(self.ask("/BRAYTON/2024-06-14.txt")[0], 200)
        os.remove(self.state)
        self.assertEqual(self.ask("/BRAYTON/2024-06-14.txt")[0::2], (503, b"docker: device failed\n"))

    def test_reads_alone(self):
        """No request changes a file. The only commands that requests run are `print` and `files`."""
        run("take", self.state, str(self.folder / "busy.cif"))
        self.calls.write_text("")

        def files():
            return {path.name: hashlib.sha256(path.read_bytes()).hexdigest() for path in self.folder.iterdir() if path != self.calls}

        before = files()
        for path in ("/", "/ASHFELD", f"/ASHFELD/{DAY}", "/take", "/merge", "/new", f"/horizon/{DAY}", "/save", f"/take/{DAY}.txt", "/office.state", "/places", "/serve"):
            for method in ("GET", "HEAD", "POST", "PUT", "DELETE", "PATCH", "OPTIONS"):
                status = self.ask(path, method)[0]
                if method in ("POST", "PUT", "DELETE", "PATCH"):
                    self.assertEqual(status, 405, (method, path))
        self.assertEqual(files(), before)
        self.assertEqual({call.split()[0] for call in self.calls.read_text().splitlines()}, {"print", "files"})

    def test_one_at_a_time(self):
        """An answer is kept. If one docker is asked for a hundred times, STATE is read once for it, and once for the list of files."""
        run("take", self.state, str(self.folder / "busy.cif"))
        self.calls.write_text("")
        for _ in range(50):
            self.ask(f"/CORHAM/{DAY}")
            self.ask(f"/CORHAM/{DAY}.json")
        self.assertEqual(len(self.calls.read_text().splitlines()), 2)

    def test_listens(self):
        """The server listens on 127.0.0.1, both by default and when that is asked for."""
        lines = [line.split() for line in pathlib.Path("/proc/net/tcp").read_text().splitlines()[1:]]
        addresses = {words[1].split(":")[0] for words in lines if int(words[1].split(":")[1], 16) == self.server.port and words[3] == "0A"}
        self.assertEqual(addresses, {"0100007F"})
        self.assertFalse([words for words in map(str.split, pathlib.Path("/proc/net/tcp6").read_text().splitlines()[1:]) if int(words[1].split(":")[1], 16) == self.server.port])
        self.assertIn('"--listen", default="127.0.0.1:', (OFFICE / "screen" / "serve").read_text())

    def test_platforms(self):
        """The graph has a bar from each arrival to its departure, as long as the train stays, and a tick for each pass."""
        picture = xml.etree.ElementTree.fromstring(self.ask(f"/ASHFELD/{DAY}.svg")[2])
        space = "{http://www.w3.org/2000/svg}"
        told = {group.find(f"{space}title").text: group for group in picture.iter(f"{space}g")}
        lines = [line for line in self.docker().decode().split("\n")[1:-2] if line[6] in "APD"]
        self.assertEqual(sum(" passes " in title for title in told), sum(line[6] == "P" for line in lines))
        bar = told["1A02 C00002 P: arrives 05:32, departs 05:37, platform 3"].find(f"{space}rect")
        self.assertEqual((bar.get("x"), bar.get("width")), (str(70 + (5 * 60 + 32) * 4), str(5 * 4)))
        for title in ("2A01 C00001 P: passes 05:21½, platform 2", "2S00 S00000 P: departs 06:05, platform 5", "2E00 E00000 P: arrives 05:52, platform 5", "5E99 E00099 P: arrives 00:07, platform 4"):
            self.assertIn(title, told)
        # Each arrival and each departure is in exactly one shape of the graph.
        self.assertEqual(sum(title.count("arrives") + title.count("departs") for title in told), sum(line[6] in "AD" for line in lines))
        platforms = [text.text for text in picture.findall(f"{space}text") if text.get("x") == "8"]
        self.assertEqual(platforms, ["1", "2", "2A", "3", "4", "5", "6"])


class Pages(Seen):
    """How a browser shows the pages."""

    desk = STAND_IN
    names = NAMES
    listed = ["Ashfeld Junction ASHFELD", "Brayton BRAYTON", "NOWHERE nobody knows this code", "Corham Exchange CORHAM"]

    def test_wall(self):
        """On a wall, the next trains come first, eighteen of them complete. Past trains are folded away, and one click shows them."""
        wall = self.browser(1920, 1080)
        wall.open(self.address("/ASHFELD"))
        rows = wall.run(ROWS)
        self.assertEqual(rows, self.rows())
        self.assertRegex(wall.run("return document.getElementById('clock').textContent"), r"^08:5[5-9]$")
        now = wall.run("return document.getElementById('clock').textContent")
        shown = wall.run(SHOWN)
        self.assertEqual([box is not None for box in shown], [row[0][:5] >= now for row in rows])
        past = sum(box is None for box in shown)
        self.assertGreater(past, 10)
        self.assertEqual(wall.run("return document.getElementById('fold').textContent"), f"▸ show {past} past")
        bottom = wall.run("return innerHeight")
        self.assertGreaterEqual(sum(box is not None and box[1] <= bottom for box in shown), 18)
        self.assertLessEqual(wall.run("return document.documentElement.scrollWidth"), 1920)
        colours = wall.run("return ['P', 'O', 'N'].map(stp => getComputedStyle(document.querySelector(`tr.${stp} .train`)).color)")
        self.assertEqual(len(set(colours)), 3)
        self.assertEqual(colours[1:], wall.run("return ['O', 'N'].map(stp => getComputedStyle(document.querySelector(`#legend .${stp}`)).color)"))
        self.assertIn("Known up to 2024-06-07 21:00, full extract DFROC1F.", wall.run("return document.querySelector('.known').textContent"))
        self.assertEqual(wall.run("return document.getElementById('old').innerText"), "Old data: the newest extract is 4 days old. Nothing that changed since 2024-06-07 21:00 is here.")
        links = [row[1] + " " + row[7] for row in rows if len(row) == 11]
        self.assertEqual(links, ["is joined by 2E04 E00004", "goes on as 2S08 S00008", "divides into 2S12 S00012"])
        wall.run("document.getElementById('fold').click()")
        self.assertTrue(all(wall.run(SHOWN)))

    def test_phone(self):
        """On a phone, each cell of a train is visible, and nothing is wider than the screen."""
        phone = self.browser(390, 844, is_phone=True)
        phone.open(self.address(f"/ASHFELD/{DAY}"))
        self.assertEqual(phone.run("return [innerWidth, document.documentElement.scrollWidth]"), [390, 390])
        self.assertEqual(phone.run(ROWS), self.rows())
        wide = phone.run("""return [...document.querySelectorAll('#docker tr:not(.past) td')].filter(cell => {
            const box = cell.getBoundingClientRect();
            return cell.textContent && (cell.className !== 'suffix') && (box.width === 0 || box.right > innerWidth || cell.scrollWidth > cell.clientWidth + 1) }).map(cell => cell.textContent)""")
        self.assertEqual(wide, [])

    def test_paper(self):
        """On A4, the whole day is printed on white, with the column heads on each page."""
        made = self.browser(718, 1047)
        made.open(self.address(f"/ASHFELD/{DAY}"))
        made.media("print")
        self.assertTrue(all(made.run(SHOWN)))
        self.assertEqual(made.run("return getComputedStyle(document.body).backgroundColor"), "rgb(255, 255, 255)")
        self.assertLessEqual(made.run("return document.documentElement.scrollWidth"), 718)
        made.media("")
        paper = made.paper()
        boxes = [[float(number) for number in box.split()] for box in re.findall(rb"/MediaBox \[([^\]]+)\]", paper)]
        self.assertGreater(len(boxes), 1)
        for box in boxes:
            for number, wanted in zip(box, (0, 0, 595.28, 841.89)):
                self.assertAlmostEqual(number, wanted, delta=1)

    def test_graph(self):
        """The graph opens at the time of the clock, with a line at that minute."""
        made = self.browser(1600, 900)
        made.open(self.address(f"/ASHFELD/{DAY}"))
        made.run("document.querySelector('#platforms summary').click()")
        self.assertTrue(waited(10, lambda: made.run("return document.querySelector('.across .now')")))
        self.assertEqual(made.run("return [...document.querySelectorAll('.names text')].map(text => text.textContent)"), ["1", "2", "2A", "3", "4", "5", "6"])
        now, left, line = made.run("return [document.getElementById('clock').textContent, document.querySelector('.across').scrollLeft, document.querySelector('.now').getAttribute('d')]")
        at = (int(now[:2]) * 60 + int(now[3:])) * 4
        self.assertEqual(left, at - 200)
        self.assertTrue(line.startswith(f"M{at + 70} "))
        self.assertEqual(made.run("return document.querySelectorAll('#platforms g').length"), self.ask(f"/ASHFELD/{DAY}.svg")[2].count(b"<g>"))

    def test_renewal(self):
        """A new docker appears without loading the page again. If the server is gone, the page says so, and keeps the old docker."""
        made = self.browser(1920, 1080)
        made.open(self.address("/ASHFELD#renew=1"))
        made.run("window.isTheSame = true")
        before = made.run(ROWS)
        time.sleep(2.5)
        self.assertEqual(made.run(ROWS), before)
        own = self.folder / "own.state"
        shutil.copy(self.state, own)
        self.addCleanup(shutil.copy, own, self.state)
        run("take", self.state, str(self.folder / "update.cif"))
        for _ in range(40):
            if (after := made.run(ROWS)) != before:
                break
            time.sleep(0.25)
        self.assertEqual(after, self.rows())
        self.assertEqual(len(after), len(before) + 2)
        self.assertTrue(made.run("return window.isTheSame"))
        self.assertIn("update DFROC1H", made.run("return document.querySelector('.known').textContent"))
        self.assertIn("Missing: DFROC1G", made.run("return document.querySelector('p.warning').textContent"))
        self.assertEqual([box is not None for box in made.run(SHOWN)], [row[0][:5] >= made.run("return document.getElementById('clock').textContent") for row in after])
        self.server.dies()
        for _ in range(40):
            if stale := made.run("return document.querySelector('#status.bad')?.textContent"):
                break
            time.sleep(0.25)
        self.assertRegex(stale, r"^Not renewed since 08:5\d: no answer$")
        self.assertEqual(made.run(ROWS), after)
        self.started()

    def test_no_train(self):
        """A place without trains on a day says so. The code of a place that no extract has leads nowhere."""
        made = self.browser(1920, 1080)
        made.open(self.address("/ASHFELD/2024-06-01"))
        self.assertIsNone(made.run("return document.getElementById('unknown')"))
        self.assertEqual(made.run("return document.querySelector('.empty').textContent"), "No train calls here on Saturday 1 June 2024.")
        made.open(self.address("/ASHFIL"))
        self.assertIn("No extract that was taken has a place with the code ASHFIL", made.run("return document.querySelector('.warning').textContent"))
        for form, status in (("", 404), (f"/{DAY}", 404), (f"/{DAY}.txt", 200), (f"/{DAY}.json", 200)):
            self.assertEqual(self.ask(f"/ASHFIL{form}")[0], status, form)

    def test_places(self):
        made = self.browser(1920, 1080)
        self.ask("/NOWHERE")
        self.ask("/ASHFELD")
        made.open(self.address("/"))
        self.assertEqual(made.run("return [...document.querySelectorAll('.places a')].map(link => link.textContent)"), self.listed)
        made.run("document.querySelector('.places a').click()")
        self.assertEqual(made.run("return location.pathname"), "/ASHFELD")
        self.assertEqual(made.run(CLOCKS), sorted(row[0] for row in self.rows()))

    def test_saved(self):
        """A docker as one page of HTML, in a file that needs no server."""
        saved = self.folder / "saved.html"
        with open(saved, "wb") as file:
            subprocess.run([OFFICE / "screen" / "serve", "--page", "ASHFELD", DAY, self.state], env={**os.environ, "DESK": self.desk}, stdout=file, check=True)
        made = self.browser(1920, 1080)
        made.open(saved.as_uri())
        self.assertEqual(made.run(CLOCKS), sorted(row[0] for row in self.rows()))
        self.assertTrue(all(made.run(SHOWN)))
        self.assertEqual(made.run("return document.querySelectorAll('script, link[href^=\"/\"], a').length"), 0)
        ended = subprocess.run([OFFICE / "screen" / "serve", "--page", "ASHFIELD", DAY, self.state], capture_output=True, check=False, text=True)
        self.assertEqual((ended.returncode, ended.stdout), (2, ""))
        self.assertIn("is no place", ended.stderr)


class PagesOfCodes(Pages):
    """The same tests without a desk, and so without names. A docker that was asked for gives the name of its own place."""

    desk = "/nonexistent"
    names = {}
    listed = ["Ashfeld Junction ASHFELD", "BRAYTON", "NOWHERE nobody knows this code", "CORHAM"]
    test_paper = test_graph = test_renewal = test_saved = None


class Midnight(Pages):
    """A page of today that is open at midnight continues with the next day, and never again shows a train of the day before."""

    now = f"{DAY}T23:59:47"
    test_wall = test_phone = test_paper = test_graph = test_renewal = test_no_train = test_places = test_saved = None

    def test_midnight(self):
        made = self.browser(1920, 1080)
        made.open(self.address("/ASHFELD"))
        self.assertEqual(made.run("return document.documentElement.dataset.date"), DAY)
        for _ in range(120):
            shown = any(box and row[0] > "00:07" for row, box in zip(made.run(ROWS), made.run(SHOWN))) and made.run("return document.documentElement.dataset.date") == DAY
            self.assertFalse(shown, "a train of the day before is shown again")
            if made.run("return document.documentElement.dataset.date") != DAY:
                break
            time.sleep(0.25)
        self.assertEqual(made.run(ROWS), self.rows(day="2024-06-13"))
        self.assertRegex(made.run("return document.querySelector('.day').textContent"), "Thursday 13 June 2024")
        self.assertTrue(all(made.run(SHOWN)))


class DeskAnswers(Answers):
    """The same tests with one process of `desk`, for which the stand-in is used."""

    desk = STAND_IN
    has_trains = True
    names = NAMES
    test_statuses = test_one_at_a_time = test_reads_alone = test_tags = test_listens = test_platforms = None

    def test_one_desk(self):
        """The stand-in merges into its own copy, and no request reaches STATE."""
        before = pathlib.Path(self.state).read_bytes()
        for path in ("/ASHFELD", "/take", "/save.txt", f"/merge/{DAY}"):
            self.ask(path)
        self.assertEqual(pathlib.Path(self.state).read_bytes(), before)


@unittest.skipUnless(REAL, "there is no program desk")
class RealDeskAnswers(DeskAnswers):
    desk = REAL
    names = NAMES if knows_places() else {}
