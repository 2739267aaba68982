"""Tests the screen: the names of places, the search for them, and the days that a state covers."""
import json
import os
import random
import re
import shutil
import time
import unittest

import browser
import names as spelled
import pytest
from screens import DAY, ENDS, HEADS, NAMES, REAL, ROWS, STAND_IN, TAILS, Office, Stated, extract, knows_places, place, run, schedule

# A browser shows many pages in a case.
pytestmark = pytest.mark.timeout(600)

TIPS = "return [...document.querySelectorAll('#day tr')].map(row => [...row.querySelectorAll('.from, .to')].map(cell => cell.title))"
FOUND = "return [...document.querySelectorAll('#found a')].map(link => link.getAttribute('href'))"
# Descriptions, and the names that are made from them.
SPELLED = {
    "ASHFELD JUNCTION": "Ashfeld Junction", "LONDON KINGS CROSS": "London Kings Cross", "KING'S LYNN": "King's Lynn", "D'ARCY RD": "D'Arcy Rd",
    "BURTON-ON-TRENT": "Burton-on-Trent", "BETWS-Y-COED": "Betws-y-Coed", "CHESTER-LE-STREET": "Chester-le-Street", "THE HAWTHORNS": "The Hawthorns",
    "CREWE S.S.N.": "Crewe S.S.N.", "HEATHROW T123": "Heathrow T123", "CLAPHAM JN.": "Clapham Jn.", "STRATFORD LL": "Stratford LL", "READING (SP)": "Reading (SP)",
    "WEST HAM (N.LONDON)": "West Ham (N.London)", "ASHBURY T&RSMD": "Ashbury T&RSMD", "NEVILLE HILL EMUD": "Neville Hill EMUD", "LIVERPOOL ST STN": "Liverpool St Stn",
    "HITCHIN UP GDS LOOP": "Hitchin Up Gds Loop", "PLATFORM A": "Platform A", "RHYL": "Rhyl", "A12 JN": "A12 Jn", "GLASGOW CENTRAL H.L.": "Glasgow Central H.L.", "": "",
}


class Spelling(unittest.TestCase):
    """How names are written and found."""

    def test_names(self):
        self.assertEqual({description: spelled.readable(description) for description in SPELLED}, SPELLED)

    def test_lines(self):
        """A line of `places` by its columns."""
        text = b"ASHFELD ASF 12345 ASHFELD JUNCTION                    4\n%-45s%10d\n" % (b"X", 0)
        named = spelled.names_of(text)
        self.assertEqual(named.places["ASHFELD"], ("ASHFELD", "ASF", "12345", "ASHFELD JUNCTION", 4))
        self.assertEqual((named.of("ASHFELD"), named.of("X"), named.of("NOWHERE"), named.known("X")), ("Ashfeld Junction", "X", "NOWHERE", ""))
        self.assertFalse(spelled.names_of(b""))


class Names(Stated):
    """The names of places, and the choice of codes instead."""

    names = {**NAMES, "ASHFELD": "Ashfeld & Holm Junction", "KINGS": "King's Ash"}
    extract = extract(
        place("ASHFELD", "ASHFELD & HOLM JUNCTION", "ASF", "12345"), place("BRAYTON", "BRAYTON", "BRY"), place("CORHAM", "CORHAM EXCHANGE"), place("KINGS", "KING'S ASH"), place("BLANK", ""),
        schedule("C00001", "ASHFELD", "BRAYTON"), schedule("C00002", "ASHFELD", "FARLEY"), schedule("C00003", "BLANK", "ASHFELD"), schedule("C00004", "ASHFELD", "KINGS"),
        schedule("C00005", "ASHFELD", "CORHAM", at="2340"),
    )

    def ends(self, made):
        return {row[9]: row[7:9] for row in made.run(ROWS)}

    def test_rows(self):
        """From and To show names, with the codes as tooltips. A place without a name shows its code."""
        made = self.browser(1366, 900)
        made.open(self.address(f"/ASHFELD/{DAY}"))
        self.assertEqual(made.run(ROWS), self.rows())
        own = self.names["ASHFELD"]
        self.assertEqual(self.ends(made), {"C00001": [own, "Brayton"], "C00002": [own, "FARLEY"], "C00003": ["BLANK", own], "C00004": [own, "King's Ash"], "C00005": [own, "Corham Exchange"]})
        tips = {row[9]: tips for row, tips in zip(made.run(ROWS), made.run(TIPS))}
        self.assertEqual(tips, {"C00001": ["ASHFELD", "BRAYTON"], "C00002": ["ASHFELD", ""], "C00003": ["", "ASHFELD"], "C00004": ["ASHFELD", "KINGS"], "C00005": ["ASHFELD", "CORHAM"]})
        self.assertEqual(made.run("return [document.querySelector('h1').textContent, document.title]"), [f"{own} ASHFELD", f"{own}, Wednesday 12 June 2024"])
        self.assertIn("TPS descriptions", made.run("return document.getElementById('naming').textContent"))

    def test_train(self):
        made = self.browser(1366, 900)
        made.open(self.address(f"/train/C00004/{DAY}"))
        calls = "return [...document.querySelectorAll('#calls tbody tr')].map(row => [row.cells[0].textContent, row.cells[0].firstChild.title, row.cells[1].textContent])"
        self.assertEqual(made.run(calls), [["Ashfeld & Holm Junction", "ASHFELD", "ASHFELD"], ["King's Ash", "KINGS", "KINGS"]])
        self.assertEqual(made.run("return document.getElementById('journey').textContent"), "From Ashfeld & Holm Junction to King's Ash. Starts on Wednesday 12 June 2024.")
        made.open(self.address(f"/train/C00004/{DAY}?show=codes"))
        self.assertEqual(made.run(calls), [["ASHFELD", "Ashfeld & Holm Junction", "Ashfeld & Holm Junction"], ["KINGS", "King's Ash", "King's Ash"]])
        self.assertEqual(made.run("return document.querySelectorAll('#calls thead th')[1].textContent"), "Name")
        made.cdp("Network.clearBrowserCookies")

    def test_choice(self):
        """A link shows codes, with the names as tooltips. Other pages then do so too, until a link shows names again. No script is needed."""
        made = self.browser(1366, 900)
        for is_disabled in (False, True):
            made.cdp("Emulation.setScriptExecutionDisabled", value=is_disabled)
            self.addCleanup(made.cdp, "Emulation.setScriptExecutionDisabled", value=False)
            made.open(self.address(f"/ASHFELD/{DAY}"))
            for shown, cell, tip in (("codes", "BRAYTON", "Brayton"), ("names", "Brayton", "BRAYTON")):
                if is_disabled:
                    # Without scripts, the test follows the link with the keyboard.
                    page = made.cdp("DOM.getDocument")["root"]["nodeId"]
                    made.cdp("DOM.focus", nodeId=made.cdp("DOM.querySelector", nodeId=page, selector="#naming-choice")["nodeId"])
                    made.keys(browser.ENTER)
                    time.sleep(0.5)
                else:
                    made.run("document.getElementById('naming-choice').click()")
                text = self.text(made)
                self.assertIn(f'<td class="to" title="{tip}">{cell}</td>', text)
                self.assertIn(f"show {'names' if shown == 'codes' else 'codes'}</a>", text)
                made.open(self.address(f"/BRAYTON/{DAY}"))
                self.assertIn(f'<td class="to" title="{tip}">{cell}</td>', self.text(made))

    def text(self, made):
        root = made.cdp("DOM.getDocument")["root"]
        return made.cdp("DOM.getOuterHTML", nodeId=root["nodeId"])["outerHTML"]

    def test_address(self):
        """An address may choose names or codes, even without cookies. If a page only asks for a newer version of itself, the choice doesn't change."""
        path = f"/ASHFELD/{DAY}"
        status, headers, body = self.ask(f"{path}?show=codes")
        self.assertIn(b'title="Brayton">BRAYTON<', body)
        self.assertRegex(headers["Set-Cookie"], r"^show=codes; .*HttpOnly; Path=/; SameSite=Lax$")
        self.assertEqual(headers["Vary"], "Accept-Encoding, Cookie")
        cookie = {"Cookie": "show=codes"}
        self.assertIn(b'title="Brayton">BRAYTON<', self.ask(path, headers=cookie)[2])
        self.assertIn(b'title="BRAYTON">Brayton<', self.ask(f"{path}?show=names", headers=cookie)[2])
        self.assertNotEqual(self.ask(path, headers=cookie)[1]["ETag"], self.ask(path)[1]["ETag"])
        status, again, _ = self.ask(f"{path}?show=codes", headers={"If-None-Match": headers["ETag"]})
        self.assertEqual((status, again["Set-Cookie"]), (304, None))
        for wrong in ("?show=all", "?show=", "?show=codes%0d%0aX:y"):
            status, headers, body = self.ask(path + wrong)
            self.assertEqual((status, headers["Set-Cookie"], headers["X"]), (200, None, None))
            self.assertIn(b'title="BRAYTON">Brayton<', body)

    def test_renewal(self):
        """If a page shows codes, a new docker is also shown with codes."""
        own = self.folder / "kept.state"
        shutil.copy(self.state, own)
        self.addCleanup(os.replace, own, self.state)
        made = self.browser(1366, 900)
        made.open(self.address("/ASHFELD?show=codes#renew=1"))
        self.addCleanup(made.cdp, "Network.clearBrowserCookies")
        (self.folder / "more.cif").write_text(extract(schedule("C00009", "ASHFELD", "CORHAM"), date="080624", reference="DFROC1G", indicator="U", last="DFROC1F"))
        before = len(made.run(ROWS))
        run("take", self.state, str(self.folder / "more.cif"))
        for _ in range(60):
            if len(rows := made.run(ROWS)) > before:
                break
            time.sleep(0.25)
        self.assertIn("C00009", [row[9] for row in rows])
        self.assertEqual({row[7] for row in rows}, {"ASHFELD", "BLANK"})

    def test_forms(self):
        """.json and .csv have both names and codes."""
        told = json.loads(self.ask(f"/ASHFELD/{DAY}.json")[2])
        self.assertEqual([told[name] for name in ("tiploc", "description", "name", "crs", "stanox")], ["ASHFELD", "ASHFELD & HOLM JUNCTION", "Ashfeld & Holm Junction", "ASF", "12345"])
        ends = {line["uid"]: [line[name] for name in ("origin", "origin_name", "destination", "destination_name")] for line in told["lines"]}
        self.assertEqual(ends["C00004"], ["ASHFELD", "Ashfeld & Holm Junction", "KINGS", "King's Ash"])
        self.assertEqual(ends["C00002"], ["ASHFELD", "Ashfeld & Holm Junction", "FARLEY", ""])
        table = self.ask(f"/ASHFELD/{DAY}.csv")[2].decode().splitlines()
        self.assertIn(",start,origin_name,destination_name", table[0])
        self.assertTrue(all(row.split(",")[15] in ("Ashfeld & Holm Junction", "") for row in table[1:]))
        # docker's text is unchanged, and the other forms have names even if pages show codes.
        self.assertEqual(self.ask(f"/ASHFELD/{DAY}.txt")[2], self.docker())
        self.assertEqual(self.ask(f"/ASHFELD/{DAY}.csv", headers={"Cookie": "show=codes"})[2].decode().splitlines(), table)

    def test_places(self):
        (self.folder / "places").write_text("ASHFELD\nBLANK\nNOWHERE\n")
        body = self.ask("/")[2].decode()
        listed = [re.sub(r"\s+", " ", re.sub("<[^>]*>", "", link)).strip() for link in re.findall(r'<li>(.*?)</li>', body, re.S)]
        self.assertEqual(listed, ["Ashfeld &amp; Holm Junction ASHFELD", "BLANK BLANK", "NOWHERE nobody knows this code"])

    def test_crs(self):
        """A CRS code leads to its place, and so does a TIPLOC in small letters. The rest of the address stays."""
        for word in ("ASF", "asf", "ashfeld"):
            for path, wanted in ((f"/{word}", "/ASHFELD?rows=lines"), (f"/{word}/{DAY}", f"/ASHFELD/{DAY}?rows=lines"), (f"/{word}/{DAY}.json", f"/ASHFELD/{DAY}.json?rows=lines"),
                                 (f"/{word}/{DAY}/changes?stops=1", f"/ASHFELD/{DAY}/changes?stops=1&rows=lines")):
                status, headers, _ = self.ask(path)
                self.assertEqual((status, headers["Location"]), (303, wanted), path)


@unittest.skipUnless(knows_places(), "there is no program desk that knows places")
class RealNames(Names):
    """The same tests with the real program `desk`."""

    desk = REAL


def network():
    """An extract with 10,000 places, and with schedules that call at some of them."""
    drawn = random.Random(3)
    first = [
        ("ASHFELD", "ASHFELD JUNCTION", "ASF"), ("BRASHLY", "BRASHLEY", "BSH"), ("CORASH", "CORHAM ASH", ""), ("ASHX", "DUNMERE", "ASX"), ("ELSTOW", "ELSTOW", "ASH"),
        ("FASHION", "FARLEY ASHES", ""), ("STPX", "LONDON ST. PANCRAS INTL", "STP"), ("KLYNN", "KING'S LYNN", "KLN"), ("MNCRPIC", "MANCHESTER PICCADILLY", "MAN"),
        ("MNCRVIC", "MANCHESTER VICTORIA", "MCV"), ("BLANK", "", ""),
    ]
    made = [place(*one) for one in first]
    heads = [head for head in HEADS if head not in ("ASH", "KINGS")]
    made += [place(f"Q{number:05}", drawn.choice(heads) + drawn.choice(TAILS) + drawn.choice(ENDS), stanox=f"{number:05}") for number in range(10000 - len(first))]
    # Of the two Manchesters, Victoria has more trains. Of the places that begin with ASH, Ashfeld
    # Junction has the most trains.
    for number, (origin, end) in enumerate([("MNCRVIC", "ASHFELD")] * 3 + [("MNCRPIC", "ASHFELD"), ("CORASH", "FASHION"), ("CORASH", "Q00001")]):
        made.append(schedule(f"C{number:05}", origin, end))
    return extract(*made)


class Search(Stated):
    """The search for a place among 10,000."""

    extract = network()

    def found(self, text):
        body = self.ask(f"/?q={text}")[2].decode()
        return re.findall(r'<li><a href="/([^"]*)"', body[body.index('id="found"'):])

    def test_order(self):
        """First come places whose CRS or TIPLOC equals the text, then names that begin with it, then names with a word that begins with it, then all that
        contain it. Among equals the busier place is first."""
        self.assertEqual(self.found("ash"), ["ELSTOW", "ASHFELD", "CORASH", "FASHION", "ASHX", "BRASHLY"])
        self.assertEqual(self.found("ashx"), ["ASHX"])
        self.assertEqual(self.found("ASHFELD"), ["ASHFELD"])
        self.assertEqual(self.found("manchester"), ["MNCRVIC", "MNCRPIC"])
        self.assertEqual(self.found("man"), ["MNCRPIC", "MNCRVIC"])
        for text in ("kings%20lynn", "King's%20L", "king%E2%80%99s", "lynn", "KLN", "klyn"):
            self.assertEqual(self.found(text), ["KLYNN"], text)
        for text in ("st%20pancras", "St.%20Pancras", "pancras%20lon", "%20%20STPX%20", "ancras"):
            self.assertEqual(self.found(text), ["STPX"], text)
        self.assertEqual(self.found("blank"), ["BLANK"])
        self.assertEqual([self.found(text) for text in ("zzzz", "%27", "manchester%20ash")], [[], [], []])

    def test_many(self):
        """If many places are found, the first ones are shown, with the number of all."""
        body = self.ask("/?q=junction")[2].decode()
        self.assertRegex(body, r'<p id="number" role="status">1 place</p>')
        self.assertEqual(len(self.found("jn")), 50)
        self.assertRegex(self.ask("/?q=jn")[2].decode(), r'role="status">The first 50 of \d{4} places</p>')
        body = self.ask("/?q=q0zz")[2].decode()
        self.assertIn("No place has this in its name, its CRS or its TIPLOC", body)
        self.assertIn('<a href="/Q0ZZ">The docker of the code Q0ZZ all the same</a>', body)

    def test_strange(self):
        """Any text may be searched for."""
        for text in ("%3Cscript%3E", "%22%3E", "%00", "%FF", "a" * 5000, "%0d%0a", "*", "(", "%F0%9F%9A%82", "a&q=b", "-", "a%20" * 1000):
            status, headers, body = self.ask(f"/?q={text}")
            self.assertEqual(status, 200, text)
            self.assertNotIn(b"<script>\"", body)
            self.assertNotIn(b'<script>"', body)
            self.assertEqual(body.count(b"<script>"), 1, text)

    @pytest.mark.by_itself
    def test_time(self):
        """An answer comes within 50 ms."""
        self.ask("/?q=a")
        for text in ("a", "ton", "north%20jn", "zzz", "e"):
            self.answers_within(f"/?q={text}", 0.05)

    def waited(self, made, script, wanted):
        """Waits until a script returns this value."""
        for _ in range(100):
            if (got := made.run(script)) == wanted:
                return
            time.sleep(0.1)
        self.assertEqual(got, wanted)

    def test_keyboard(self):
        """With the keyboard only: places are found while typing, the arrows move among them, and Enter opens one."""
        made = self.browser(1366, 900)
        made.open(self.address("/"))
        self.assertEqual(made.run("return document.activeElement.id"), "text")
        made.keys("manch")
        self.waited(made, FOUND, ["/MNCRVIC", "/MNCRPIC"])
        self.assertEqual(made.run("return document.getElementById('number').textContent"), "2 places")
        made.keys(browser.DOWN + browser.DOWN + browser.DOWN)
        self.assertEqual(made.run("return document.activeElement.getAttribute('href')"), "/MNCRPIC")
        made.keys(browser.UP)
        self.assertEqual(made.run("return document.activeElement.getAttribute('href')"), "/MNCRVIC")
        made.keys(browser.UP)
        self.assertEqual(made.run("return document.activeElement.id"), "text")
        made.keys("ester p")
        self.waited(made, FOUND, ["/MNCRPIC"])
        made.keys(browser.DOWN + browser.ESCAPE)
        self.assertEqual(made.run("return document.activeElement.id"), "text")
        made.keys(browser.DOWN + browser.ENTER)
        self.waited(made, "return location.pathname", "/MNCRPIC")
        # Going back shows again the places that were found.
        made.run("history.back()")
        self.waited(made, "return location.search", "?q=manchester+p")
        self.waited(made, FOUND, ["/MNCRPIC"])

    def test_enter(self):
        """Enter opens the first place that is found for the typed text, without waiting."""
        for text, wanted in (("asf", "/ASHFELD"), ("victoria", "/MNCRVIC"), ("ash", "/ELSTOW")):
            made = self.browser(1366, 900)
            made.open(self.address("/"))
            made.keys(text + browser.ENTER)
            self.waited(made, "return location.pathname", wanted)
        made.open(self.address("/?q=ash"))
        made.keys(browser.ENTER)
        self.waited(made, "return location.pathname", "/ELSTOW")
        made.open(self.address("/"))
        made.keys("zzzz" + browser.ENTER)
        self.waited(made, "return document.getElementById('number')?.textContent", "No place has this in its name, its CRS or its TIPLOC")

    def test_emptied(self):
        """Without a text, the office's list is shown again."""
        made = self.browser(1366, 900)
        made.open(self.address("/"))
        before = made.run(FOUND)
        made.keys("as")
        self.waited(made, "return document.querySelectorAll('#found ol').length", 1)
        made.keys("\ue003\ue003")
        self.waited(made, FOUND, before)
        self.assertEqual(made.run("return [location.search, document.getElementById('number').textContent]"), ["", ""])

    def test_no_script(self):
        """Without JavaScript, a form finds places."""
        made = self.browser(1366, 900)
        made.cdp("Emulation.setScriptExecutionDisabled", value=True)
        self.addCleanup(made.cdp, "Emulation.setScriptExecutionDisabled", value=False)
        made.open(self.address("/"))
        made.keys("corham" + browser.ENTER)
        for _ in range(50):
            tree = [(node["role"]["value"], node["name"]["value"]) for node in made.cdp("Accessibility.getFullAXTree")["nodes"] if not node.get("ignored") and "name" in node]
            if ("link", "Corham Ash CORASH") in tree:
                break
            time.sleep(0.1)
        self.assertIn(("link", "Corham Ash CORASH"), tree)
        self.assertEqual(made.ask("/url", method="GET"), self.address("/?q=corham"))
        text = " ".join(name for role, name in tree if role == "StaticText")
        self.assertIn("1 place", text)
        self.assertNotIn("Enter opens", text)

    def test_server_gone(self):
        """If the server doesn't answer, the page says so."""
        made = self.browser(1366, 900)
        made.open(self.address("/"))
        self.server.dies()
        made.keys("a")
        self.waited(made, "return document.getElementById('number').textContent", "The server gives no answer")
        self.started()

    def test_everybody(self):
        """The box has a name, the accessibility tree has a search and a live region, and each place found has a name."""
        made = self.browser(390, 844, is_phone=True)
        made.open(self.address("/?q=ash"))
        tree = [(node["role"]["value"], node.get("name", {}).get("value", "")) for node in made.cdp("Accessibility.getFullAXTree")["nodes"] if not node.get("ignored")]
        for wanted in (("searchbox", "Find a place or a train"), ("button", "Find"), ("list", "Places found"), ("link", "Ashfeld Junction ASF ASHFELD")):
            self.assertIn(wanted, tree)
        self.assertTrue({"search", "status"} <= {role for role, _ in tree})
        made = self.browser(1366, 768)
        made.open(self.address("/?q=ash"))


@unittest.skipUnless(knows_places(), "there is no program desk that knows places")
class RealSearch(Search):
    """The same tests with the real program `desk`."""

    desk = REAL
    test_server_gone = test_enter = test_emptied = test_everybody = None


class Covered(Stated):
    """What a page says about days that STATE doesn't cover."""

    now = "2024-12-13T20:00"
    extract = extract(place("ASHFELD", "ASHFELD JUNCTION"), schedule("C00001", "ASHFELD", "BRAYTON"), schedule("C00002", "BRAYTON", "ASHFELD", at="2310"))
    late = "This day lies after 2024-12-13, the last day of the schedules that were taken. Most of its trains aren’t known yet."
    early = "This day lies before the full extract DFROC1F of 2024-06-07 21:00. Trains that ran for the last time before it are missing here."

    def told(self, path):
        """The warnings on a page."""
        return [re.sub("<[^>]*>", "", found) for found in re.findall(r'<p class="warning[^>]*>(.*?)</p>', self.ask(path)[2].decode())]

    def test_days(self):
        for day, told in (("2024-06-06", [self.early]), ("2024-06-07", []), ("2024-12-13", []), ("2024-12-14", [self.late]), ("2025-06-01", [self.late])):
            for path in (f"/ASHFELD/{day}", f"/train/C00001/{day}"):
                self.assertEqual([gap for gap in self.told(path) if gap != "No schedule of C00001 runs on this day."], told, path)
            self.assertEqual(json.loads(self.ask(f"/ASHFELD/{day}.json")[2])["warnings"], told)
        self.assertEqual(json.loads(self.ask(f"/ASHFELD/{DAY}.json")[2])["covers"], {"horizon": None, "full": "2024-06-07", "last": "2024-12-13", "schedules": 2})
        self.assertIn(b"No train of this day is known.", self.ask("/ASHFELD/2025-06-01")[2])
        self.assertNotIn(b"No train calls here", self.ask("/ASHFELD/2025-06-01")[2])
        self.assertIn(b'Schedules up to <b>2024-12-13</b>', self.ask(f"/ASHFELD/{DAY}")[2])

    def test_over_midnight(self):
        """The next trains say that tomorrow isn't covered."""
        made = self.browser(1366, 900)
        made.open(self.address("/ASHFELD"))
        self.assertEqual(made.run("return document.querySelector('.midnight').textContent"), "Saturday 14 December 2024: not known yet, because the schedules that were taken end on 2024-12-13")
        made.open(self.address("/ASHFELD/2024-12-20"))

    def test_no_end(self):
        """If schedules have no end, no last day is named."""
        own = self.folder / "kept.state"
        shutil.copy(self.state, own)
        self.addCleanup(os.replace, own, self.state)
        self.takes(extract(place("ASHFELD", "ASHFELD JUNCTION"), schedule("C00001", "ASHFELD", "BRAYTON", days="2406039999991111111"), date="080624", reference="DFROC1K"))
        self.assertEqual(self.told("/ASHFELD/2030-06-01"), [])
        self.assertNotIn(b"Schedules up to", self.ask("/ASHFELD/2030-06-01")[2])
        run("horizon", self.state, "2024-06-11")
        self.assertEqual(json.loads(self.ask("/ASHFELD/2030-06-01.json")[2])["covers"], {"horizon": "2024-06-11", "full": "2024-06-08", "last": None, "schedules": 1})

    def test_no_schedule(self):
        """If all schedules ended before the horizon, no day is covered."""
        own = self.folder / "all.state"
        shutil.copy(self.state, own)
        self.addCleanup(os.replace, own, self.state)
        run("horizon", self.state, "2025-01-01")
        for day in ("2025-01-04", "2025-06-01"):
            self.assertEqual(self.told(f"/ASHFELD/{day}"), ["No schedule is known, so no train is: those that were taken ended before the horizon, or there were none."])
        run("new", self.state)
        self.assertEqual(self.told("/ASHFELD/2025-06-01"), ["No extract that was taken has the code ASHFELD."])


@unittest.skipUnless(knows_places(), "there is no program desk that knows places")
class RealCovered(Covered):
    """The same tests with the real program `desk`."""

    desk = REAL


class Once(Office):
    """Which requests a desk gets."""

    desk = STAND_IN

    def asked(self):
        return (self.folder / "asked").read_text().splitlines()

    def test_once(self):
        """The names are read once after STATE changes, not for each page. So are the days that are covered, and the list of files."""
        for path in ("/", "/?q=ash", f"/ASHFELD/{DAY}", "/ASHFELD", f"/ASHFELD/{DAY}.json", f"/CORHAM/{DAY}.csv", f"/train/C00001/{DAY}", "/?q=cor") * 3:
            self.assertEqual(self.ask(path)[0], 200)
        self.assertEqual([self.asked().count(request) for request in ("places", "known", "files")], [1, 1, 1])
        run("take", self.state, str(self.folder / "update.cif"))
        for path in ("/?q=ash", "/ASHFELD") * 3:
            self.assertEqual(self.ask(path)[0], 200)
        self.assertEqual([self.asked().count(request) for request in ("places", "known", "files", "renew")], [2, 2, 2, 1])


class OldDesk(Office):
    """A desk of an older version has no names; pages show codes, as before."""

    desk = STAND_IN
    environment = {"OLD": "places known permanent"}

    def test_pages(self):
        for path in ("/ASHFELD", f"/ASHFELD/{DAY}"):
            page = self.ask(path)[2].decode()
            self.assertIn('<td class="from">CORHAM</td><td class="to">BRAYTON</td>', page)
            self.assertIn("<h1>Ashfeld Junction <small>ASHFELD</small></h1>", page)
            for word in ("show=", "id=\"naming\"", "Schedules up to", "id=\"late\""):
                self.assertNotIn(word, page)
        self.assertIn('<td class="from">CORHAM</td>', self.ask("/ASHFELD?show=codes")[2].decode())
        self.assertIn("Ashfeld Junction", self.ask("/?q=ash")[2].decode())
        self.assertNotIn(b'class="warning', self.ask("/ASHFELD/2030-01-01")[2])
        told = json.loads(self.ask(f"/ASHFELD/{DAY}.json")[2])
        self.assertEqual((told["name"], told["crs"], told["covers"], told["warnings"]), ("Ashfeld Junction", "", None, []))
        self.assertEqual({line["origin_name"] for line in told["lines"]} | {told["description"]}, {"", "ASHFELD JUNCTION"})
        self.assertEqual(self.ask(f"/train/C00001/{DAY}")[0], 200)
        # The requests `places` and `known` are each made only once as long as STATE doesn't change.
        asked = (self.folder / "asked").read_text().splitlines()
        self.assertEqual((asked.count("places"), asked.count("known")), (1, 1))
