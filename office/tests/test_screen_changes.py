"""Tests the screen: differences from the permanent timetable. The extract below has a train for each kind of difference, and the text that a page
has to show for it."""
import csv
import datetime
import html
import io
import json
import os
import pathlib
import random
import re
import subprocess
import unittest

import changes
import dockers
import lines
import pytest
from offices import OFFICE, record
from screens import CUT, DAY, FAINT, REAL, WIDTHS, Stated, extract, knows, place, rows_of, run, waited

# A browser shows many pages in a case.
pytestmark = pytest.mark.timeout(600)

ALL = "2406032412131111111"
# The Wednesday of the pages, and its week from Monday to Friday.
ONCE, WEEK = "2406122406120010000", "2406102406141111100"
NEXT = "2024-06-13"
NAMES = {"ASHFELD": "Ashfeld Junction", "BRAYTON": "Brayton", "CORHAM": "Corham Exchange", "DUNMERE": "Dunmere Town"}


def basic(uid, indicator, days, identity):
    return record(f"BSN{uid}{days} POO{identity}", indicator)


def origin(code, at, platform="2"):
    return record(f"LO{code:<8}{at:<5}{at[:4]}{platform:<3}FL")


def stop(code, arrives, departs, platform="1", public=None):
    return record(f"LI{code:<8}{arrives:<5}{departs:<5}     {public or arrives[:4] + departs[:4]}{platform:<3}SL FL")


def passes(code, at, platform="1"):
    return record(f"LI{code:<8}          {at:<5}00000000{platform:<3}SL FL")


def end(code, at, platform="2"):
    return record(f"LT{code:<8}{at:<5}{at[:4]}{platform:<3}FL")


def train(uid, indicator, days, *calls, identity=None):
    return "".join([basic(uid, indicator, days, identity or f"1{uid[0]}{uid[-2:]}"), *calls])


def cancelled(uid, days):
    return basic(uid, "C", days, "    ")


def association(base, other, category, indicator, days):
    return record(f"AAN{base}{other}{days}{category}SASHFELD  TP", indicator)


def through(uid, indicator, days, arrives, departs, platform="1", **how):
    """A train from Corham to Brayton that stops at the junction."""
    hour = int(arrives[:2])
    return train(uid, indicator, days, origin("CORHAM", f"{hour - 1:02}30"), stop("ASHFELD", arrives, departs, platform), end("BRAYTON", f"{hour + 1:02}30"), **how)


def short(uid, indicator, days, departs):
    """A train that starts at the junction."""
    return train(uid, indicator, days, origin("ASHFELD", departs, "5"), end("BRAYTON", f"{int(departs[:2]) + 1:02}30"))


def twice(uid, indicator, days, *calls):
    """A train that calls at the junction at these times."""
    return train(uid, indicator, days, origin("CORHAM", "0630"), *(stop("ASHFELD", at, at, platform) for at, platform in calls), end("BRAYTON", "1630"))


# How the calls that differ are shown: the arrival, the departure, the UID, and the text of the change.
CALLED = [
    ("00:20", "00:22", "T00025", "cancelled"), ("00:35", "00:37", "T00027", "was 00:30–00:32, platform 1"), ("08:00", "08:02", "T00001", "cancelled"),
    ("08:15½", "08:17", "T00002", "was 08:10–08:12, platform 1"), ("08:20", "08:22", "T00003", "doesn’t call here"), ("08:30", "08:32", "T00004", "added"),
    ("08:50", "08:50", "T00006", "doesn’t call at this time"), ("09:51", "09:51", "T00006", "was 09:50"), ("11:00", "11:00", "T00007", "was 10:00"),
    ("11:10", "11:10", "T00008", "added"), ("12:00", "12:00", "T00007", "was 11:00"), ("13:01", "13:02", "T00009", "was: passes 13:00½, platform 1"),
    ("pass", "13:11", "T00010", "was: arrives 13:10, departs 13:12, platform 1"), ("13:20", "ends", "T00011", "was line SL, to Brayton"), ("", "13:22", "T00011", "no departure"),
    ("13:30", "", "T00012", "no arrival"), ("starts", "13:32", "T00012", "was line SL, path FL, from Corham Exchange"), ("13:40", "13:42", "T00013", "was 1T13"),
    ("13:55", "ends", "T00016", "cancelled"), ("14:00", "", "T00015", "was by 1T16 T00016"), ("14:10", "", "T00017", "doesn’t take place"), ("14:20", "ends", "T00019", "cancelled"),
    ("14:20", "", "T00019", "cancelled"), ("14:40", "", "T00021", "added"), ("pass", "15:00½", "T00030", "doesn’t pass here"),
    ("23:50", "23:51", "T00026", "calls here on Thursday 13 June at 00:10"), ("23:58", "", "T00028", "cancelled"),
]
EXTRACT = extract(
    *(place(code, name) for code, name in (("ASHFELD", "ASHFELD JUNCTION"), ("BRAYTON", "BRAYTON"), ("CORHAM", "CORHAM EXCHANGE"), ("DUNMERE", "DUNMERE TOWN"))),
    # On 12 June, train 15 is to be joined by train 16, which is cancelled. Train 17 divides into
    # train 18 on the other days only. Train 20 is the next working of train 19, which is cancelled.
    association("T00015", "T00016", "JJ", "P", ALL), association("T00017", "T00018", "VV", "P", ALL), association("T00017", "T00018", "VV", "C", ONCE),
    association("T00019", "T00020", "NP", "P", ALL),
    # Train 21 is joined by train 22 on 12 June only. The association of train 23 with train 24 has
    # an overlay that changes nothing.
    association("T00021", "T00022", "JJ", "N", ONCE), association("T00023", "T00024", "JJ", "P", ALL), association("T00023", "T00024", "JJ", "O", ONCE),
    through("T00001", "P", ALL, "0800", "0802"), cancelled("T00001", ONCE),
    through("T00002", "P", ALL, "0810", "0812"), through("T00002", "O", ONCE, "0815H", "0817", "3"),
    # On 12 June, train 3 takes a route that avoids the junction. Train 4 runs on this day only.
    # Train 5 has an overlay with the same call.
    through("T00003", "P", ALL, "0820", "0822"), train("T00003", "O", ONCE, origin("CORHAM", "0730"), passes("DUNMERE", "0821"), end("BRAYTON", "0930")),
    through("T00004", "N", ONCE, "0830", "0832"),
    through("T00005", "P", ALL, "0840", "0842"), through("T00005", "O", ONCE, "0840", "0842"),
    # Train 6 calls twice, but only once on 12 June. On this day, train 7 is an hour later at each
    # call, and train 8 has one more call.
    twice("T00006", "P", ALL, ("0850", "1"), ("0950", "1")), twice("T00006", "O", ONCE, ("0951", "1")),
    twice("T00007", "P", ALL, ("1000", "1"), ("1100", "1")), twice("T00007", "O", ONCE, ("1100", "1"), ("1200", "1")),
    twice("T00008", "P", ALL, ("1010", "1")), twice("T00008", "O", ONCE, ("1010", "1"), ("1110", "1")),
    # On 12 June, train 9 stops although it permanently passes, and train 10 passes although it
    # permanently stops. Train 11 ends here on this day, and train 12 starts here.
    train("T00009", "P", ALL, origin("CORHAM", "1230"), passes("ASHFELD", "1300H"), end("BRAYTON", "1330")), through("T00009", "O", ONCE, "1301", "1302", "2"),
    through("T00010", "P", ALL, "1310", "1312"), train("T00010", "O", ONCE, origin("CORHAM", "1230"), passes("ASHFELD", "1311", ""), end("BRAYTON", "1430")),
    through("T00011", "P", ALL, "1320", "1322"), train("T00011", "O", ONCE, origin("CORHAM", "1230"), end("ASHFELD", "1320", "1")),
    through("T00012", "P", ALL, "1330", "1332"), train("T00012", "O", ONCE, origin("ASHFELD", "1332", "1"), end("BRAYTON", "1430")),
    # Train 13 has another identity all week. Train 14 is added for the week, and cancelled on
    # 12 June.
    through("T00013", "P", ALL, "1340", "1342"), through("T00013", "O", WEEK, "1340", "1342", identity="5Z13"),
    through("T00014", "N", WEEK, "1350", "1352"), cancelled("T00014", ONCE),
    short("T00015", "P", ALL, "1400"), train("T00016", "P", ALL, origin("CORHAM", "1300"), end("ASHFELD", "1355", "5")), cancelled("T00016", ONCE),
    short("T00017", "P", ALL, "1410"), short("T00018", "P", ALL, "1415"),
    train("T00019", "P", ALL, origin("CORHAM", "1330"), end("ASHFELD", "1420", "5")), cancelled("T00019", ONCE), short("T00020", "P", ALL, "1430"),
    short("T00021", "P", ALL, "1440"), train("T00022", "P", ALL, origin("CORHAM", "1330"), end("ASHFELD", "1435", "5")),
    short("T00023", "P", ALL, "1450"), train("T00024", "P", ALL, origin("CORHAM", "1330"), end("ASHFELD", "1445", "5")),
    # Train 25 comes after midnight, and is cancelled for the week. Train 26 is moved across midnight. Train 27 starts before midnight, and is later all week.
    train("T00025", "P", ALL, origin("CORHAM", "2330"), stop("ASHFELD", "0020", "0022"), end("BRAYTON", "0100")), cancelled("T00025", WEEK),
    train("T00026", "P", ALL, origin("CORHAM", "2310"), stop("ASHFELD", "2350", "2351"), end("BRAYTON", "0030")),
    train("T00026", "O", ONCE, origin("CORHAM", "2310"), stop("ASHFELD", "0010", "0011"), end("BRAYTON", "0050")),
    train("T00027", "P", ALL, origin("CORHAM", "2300"), stop("ASHFELD", "0030", "0032"), end("BRAYTON", "0110")),
    train("T00027", "O", WEEK, origin("CORHAM", "2300"), stop("ASHFELD", "0035", "0037", "4"), end("BRAYTON", "0110")),
    # Train 28 arrives before midnight and departs after it, and is cancelled.
    train("T00028", "P", ALL, origin("CORHAM", "2320"), stop("ASHFELD", "2358", "0003"), end("BRAYTON", "0030")), cancelled("T00028", ONCE),
    # Train 30 permanently passes, and takes another route on 12 June.
    train("T00030", "P", ALL, origin("CORHAM", "1230"), passes("ASHFELD", "1500H"), end("BRAYTON", "1530")),
    train("T00030", "O", ONCE, origin("CORHAM", "1230"), end("BRAYTON", "1530")),
    # The schedule of train 29 has already ended, but train 29 has a cancellation on 12 June.
    through("T00029", "P", "2406032406101111111", "1500", "1502"), cancelled("T00029", ONCE),
    date="110624",
)
# What the page shows of the rows that differ: the time, what happens, the UID, and the text of the change.
REPORTED = [
    ("00:20", "arrives", "T00025", "cancelled"), ("00:22", "departs", "T00025", "cancelled"),
    ("00:35", "arrives", "T00027", "was 00:30, platform 1"), ("00:37", "departs", "T00027", "was 00:32, platform 1"),
    ("08:00", "arrives", "T00001", "cancelled"), ("08:02", "departs", "T00001", "cancelled"),
    ("08:15½", "arrives", "T00002", "was 08:10, platform 1"), ("08:17", "departs", "T00002", "was 08:12, platform 1"),
    ("08:20", "arrives", "T00003", "doesn’t call here"), ("08:22", "departs", "T00003", "doesn’t call here"),
    ("08:30", "arrives", "T00004", "added"), ("08:32", "departs", "T00004", "added"),
    ("08:50", "arrives", "T00006", "doesn’t call at this time"), ("08:50", "departs", "T00006", "doesn’t call at this time"),
    ("09:51", "arrives", "T00006", "was 09:50"), ("09:51", "departs", "T00006", "was 09:50"),
    ("11:00", "arrives", "T00007", "was 10:00"), ("11:00", "departs", "T00007", "was 10:00"),
    ("11:10", "arrives", "T00008", "added"), ("11:10", "departs", "T00008", "added"),
    ("12:00", "arrives", "T00007", "was 11:00"), ("12:00", "departs", "T00007", "was 11:00"),
    ("13:01", "arrives", "T00009", "was: passes 13:00½, platform 1"), ("13:02", "departs", "T00009", "was: passes 13:00½, platform 1"),
    ("13:11", "passes", "T00010", "was: arrives 13:10, departs 13:12, platform 1"),
    ("13:20", "arrives", "T00011", "was line SL, to Brayton"), ("13:22", "departs", "T00011", "no departure"),
    ("13:30", "arrives", "T00012", "no arrival"), ("13:32", "departs", "T00012", "was line SL, path FL, from Corham Exchange"),
    ("13:40", "arrives", "T00013", "was 1T13"), ("13:42", "departs", "T00013", "was 1T13"),
    ("13:55", "arrives", "T00016", "cancelled"),
    ("14:00", "is joined", "T00015", "was by 1T16 T00016"),
    ("14:10", "divides", "T00017", "doesn’t take place"),
    ("14:20", "arrives", "T00019", "cancelled"), ("14:20", "goes on", "T00019", "cancelled"),
    ("14:40", "is joined", "T00021", "added"),
    ("15:00½", "passes", "T00030", "doesn’t pass here"),
    ("23:50", "arrives", "T00026", "calls here on Thursday 13 June at 00:10"), ("23:51", "departs", "T00026", "calls here on Thursday 13 June at 00:10"),
    ("23:58", "arrives", "T00028", "cancelled"),
]
# Like `REPORTED`, for the page of the next day. To the server, this day is tomorrow, not today.
TOLD_NEXT = [
    ("00:03", "departs", "T00028", "cancelled"),
    ("00:10", "arrives", "T00026", "was on Wednesday 12 June at 23:50"), ("00:11", "departs", "T00026", "was on Wednesday 12 June at 23:50"),
    ("00:20", "arrives", "T00025", "cancelled"), ("00:22", "departs", "T00025", "cancelled"),
    ("00:35", "arrives", "T00027", "was 00:30, platform 1"), ("00:37", "departs", "T00027", "was 00:32, platform 1"),
    ("13:40", "arrives", "T00013", "was 1T13"), ("13:42", "departs", "T00013", "was 1T13"),
    ("13:50", "arrives", "T00014", "added"), ("13:52", "departs", "T00014", "added"),
]
COUNTED = "5 cancelled, 2 not calling, 14 altered, 1 added"
# The start days of the trains that don't start on the day of the page.
STARTS = {"T00025": "2024-06-11", "T00027": "2024-06-11"}
COLUMNS = "return [...document.querySelectorAll('#docker thead th')].map(head => head.textContent)"
DECORATED = """return [...document.querySelectorAll('#docker tr[data-at]')].map(row => [row.className.includes('gone'),
    ...[...row.cells].filter(cell => cell.textContent).map(cell => getComputedStyle(cell).textDecorationLine)])"""
PATHS = (f"/ASHFELD/{DAY}", f"/ASHFELD/{DAY}/changes", "/ASHFELD")


def is_gone(words):
    """Whether a row with this text is of a train that isn't on the docker of the day."""
    return words != "" and not words.startswith(("was", "added"))


def rows_of_page(body):
    """The class and the cells of each row of a page, read from its HTML."""
    found = re.findall(r'<tr[^>]* class="([^"]*)" data-at[^>]*>(.*?)</tr>', body, re.S)
    return [(kind, [html.unescape(re.sub("<[^>]*>", "", cell)) for cell in re.findall(r"<td[^>]*>(.*?)</td>", row, re.S)]) for kind, row in found]


def told_of(rows):
    """What a page shows of the rows that differ. The fourth cell from the end is the UID."""
    return [(row[0], row[1], row[-4], row[-1]) for _, row in rows if row[-1]]


def without_short_term(text):
    """An extract without its short-term associations and schedules."""
    kept, is_kept = [], True
    for line in text.splitlines(keepends=True):
        if line[:2] in ("AA", "BS"):
            is_kept = line[79] == "P"
        elif line[:2] not in ("BX", "LO", "LI", "CR", "LT"):
            is_kept = True
        if is_kept:
            kept.append(line)
    return "".join(kept)


class Changed(Stated):
    """An office whose extract has a train for each kind of difference."""

    names = NAMES
    extract = EXTRACT

    @classmethod
    def setUpClass(cls):
        super().setUpClass()
        (cls.folder / "permanent.cif").write_text(without_short_term(cls.extract))
        cls.base = str(cls.folder / "permanent.state")
        run("new", cls.base)
        run("take", cls.base, str(cls.folder / "permanent.cif"))

    def base_rows(self, day=DAY):
        """The cells of the permanent docker, which is printed from a state without short-term records."""
        return rows_of(run("print", self.base, "ASHFELD", day), self.names)

    def page(self, path):
        status, _, body = self.ask(path)
        self.assertEqual(status, 200, path)
        return body.decode()


class Differing(Changed):
    """What a page shows for each train that differs."""

    def test_rows(self):
        """Each row that differs says how. The other rows are the docker's, and rows of missing trains are the permanent docker's. All rows are in order of
        time."""
        for day, told in ((DAY, REPORTED), (NEXT, TOLD_NEXT)):
            rows = rows_of_page(self.page(f"/ASHFELD/{day}"))
            self.assertEqual(told_of(rows), told)
            self.assertEqual([row[:-1] for kind, row in rows if "gone" not in kind], self.rows(day=day))
            base = self.base_rows(day)
            self.assertEqual([row[:-1] for kind, row in rows if "gone" in kind and row[:-1] not in base], [])
            self.assertEqual([row[0] for _, row in rows], sorted(row[0] for _, row in rows))
            self.assertEqual([is_gone(row[-1]) for _, row in rows], ["gone" in kind for kind, _ in rows])

    def test_all(self):
        """A line without a note is on both dockers, the day's and the permanent one, and every other line has a note on its difference. Only the STP indicator
        may differ without a note."""
        def bare(row):
            return row[:-1]

        for day in (DAY, NEXT):
            rows = [row for _, row in rows_of_page(self.page(f"/ASHFELD/{day}"))]
            plain = [bare(row[:-1]) for row in rows if not row[-1]]
            base = [bare(row) for row in self.base_rows(day)]
            self.assertEqual([row for row in plain if row not in base], [])
            # A train without a note has the same lines on both dockers.
            spoken = {row[-4] for row in rows if row[-1]}
            own, others = ([row for row in some if row[-2] not in spoken] for some in (plain, base))
            self.assertEqual(own, others)

    def test_list(self):
        """The count is a link to a list of the differences. It needs no JavaScript."""
        page = self.page(f"/ASHFELD/{DAY}")
        self.assertIn(f'<p id="changes"><a href="/ASHFELD/{DAY}/changes?rows=lines">{COUNTED}</a></p>', page)
        rows = rows_of_page(self.page(f"/ASHFELD/{DAY}/changes"))
        self.assertEqual(told_of(rows), REPORTED)
        self.assertEqual(len(rows), len(REPORTED))
        page = self.page(f"/ASHFELD/{DAY}/changes")
        self.assertIn(f'<p id="changes">{COUNTED}</p>', page)
        self.assertIn('Only what differs from the permanent timetable. <a href="/ASHFELD?rows=lines">All trains</a>', page)
        self.assertIn("<caption>Changes at Ashfeld Junction, Wednesday 12 June 2024</caption>", page)
        page = self.page(f"/ASHFELD/{NEXT}/changes")
        self.assertEqual(told_of(rows_of_page(page)), TOLD_NEXT)
        self.assertIn('<p id="changes">2 cancelled, 3 altered, 1 added</p>', page)
        self.assertIn(f'<a href="/ASHFELD/{NEXT}?rows=lines">All trains</a>', page)
        self.assertIn(f'<a href="/ASHFELD/{DAY}/changes?rows=lines" aria-label="The day before', page)

    def test_nothing(self):
        """If nothing differs, a page says so, and has no column for changes. A page of another place has its own changes."""
        day = "2024-06-20"
        page = self.page(f"/ASHFELD/{day}")
        self.assertIn('<p id="changes">As in the permanent timetable</p>', page)
        self.assertEqual([row for _, row in rows_of_page(page)], self.rows(day=day))
        self.assertIn("Nothing differs from the permanent timetable here on Thursday 20 June 2024.", self.page(f"/ASHFELD/{day}/changes"))
        self.assertEqual(told_of(rows_of_page(self.page(f"/DUNMERE/{DAY}"))), [("08:21", "passes", "T00003", "added")])

    def test_not_covered(self):
        """If data of a day is missing, no page says that nothing differs."""
        for day in ("2024-06-05", "2024-12-20"):
            page = self.page(f"/ASHFELD/{day}")
            self.assertIn('<p class="warning"', page)
            self.assertNotIn("As in the permanent timetable", page)
        self.assertNotIn("Nothing differs", self.page("/ASHFELD/2024-12-20/changes"))

    def test_wall(self):
        """In the list of the next trains, cancelled trains are listed at their permanent times, today and tomorrow."""
        wall = self.browser(1920, 1080)
        wall.open(self.address("/ASHFELD"))
        seen = wall.run("""return [...document.querySelectorAll('#docker tr[data-at]')].filter(row => row.getBoundingClientRect().height)
            .map(row => [...row.cells].map(cell => cell.textContent))""")
        told = [(row[0], row[1], row[-4], row[-1]) for row in seen if row[-1]]
        self.assertEqual(told, [row for row in REPORTED if row[0] >= "08:55"] + TOLD_NEXT)
        self.assertEqual(wall.run(COLUMNS)[-1], "Change")
        bottom = wall.run("return innerHeight")
        self.assertGreaterEqual(len(wall.run("return [...document.querySelectorAll('#docker tr[data-at]')].filter(row => { const box = row.getBoundingClientRect(); "
                                             "return box.height && box.bottom <= arguments[0] })", bottom)), 18)

    def test_links(self):
        """The row of a missing train links to the page of its train, on the day on which the train starts."""
        body = self.page(f"/ASHFELD/{DAY}")
        links = re.findall(r'<tr class="P gone [a-z]+".*?<a href="([^"]*)">', body)
        self.assertEqual(links, [f"/train/{row[2]}/{STARTS.get(row[2], DAY)}" for row in REPORTED if is_gone(row[3])])
        for row, link in zip([row for row in REPORTED if is_gone(row[3])], links):
            self.assertEqual("It is cancelled on this day." in self.page(link), row[3] == "cancelled", link)

    def test_struck(self):
        """A missing train is struck through, and a word says what became of it, so colours aren't needed."""
        made = self.browser(1366, 900)
        for path in PATHS[:2]:
            made.open(self.address(path))
            for is_off, *cells, change in made.run(DECORATED):
                if is_off:
                    self.assertEqual((set(cells), change), ({"line-through"}, "none"))
                else:
                    self.assertNotIn("line-through", [*cells, change])

    def test_whole(self):
        """In the list of differences nothing is folded away, and the page is renewed like any other."""
        made = self.browser(1366, 900)
        made.open(self.address(f"/ASHFELD/{DAY}/changes"))
        self.assertEqual(made.run("return [...document.querySelectorAll('#day tr')].filter(row => row.getBoundingClientRect().height).length"), len(REPORTED))
        self.assertFalse(made.run("return document.getElementById('fold').checkVisibility()"))
        own = self.folder / "kept.state"
        os.link(self.state, own)
        self.addCleanup(os.replace, own, self.state)
        made.open(self.address(f"/ASHFELD/{DAY}/changes#renew=1"))
        (self.folder / "more.cif").write_text(extract(cancelled("T00005", ONCE), date="120624", reference="DFROC1G", indicator="U", last="DFROC1F"))
        run("take", self.state, str(self.folder / "more.cif"))
        rows = waited(20, lambda: (found := made.run("return [...document.querySelectorAll('#day .change')].length")) > len(REPORTED) and found)
        self.assertEqual(rows, len(REPORTED) + 2)
        self.assertEqual(made.run("return document.getElementById('changes').textContent"), COUNTED.replace("5", "6", 1))

    def test_json(self):
        told = json.loads(self.ask(f"/ASHFELD/{DAY}.json")[2])
        self.assertEqual(told["changes"], {"cancelled": 5, "absent": 2, "altered": 14, "added": 1})
        gone = [row for row in REPORTED if is_gone(row[3])]
        self.assertEqual([(line["time"], line["uid"], line["start"]) for line in told["not_here"]],
                         [(row[0].replace(":", "").replace("½", "H"), row[2], STARTS.get(row[2], DAY)) for row in gone])
        self.assertEqual([line["words"] for line in told["not_here"]], [row[3] for row in gone])
        self.assertEqual({line["change"] for line in told["not_here"]}, {"cancelled", "absent", "altered"})
        here = [line for line in told["lines"] if line["change"]]
        self.assertEqual([(line["uid"], line["change"]) for line in here], [(row[2], "added" if row[3] == "added" else "altered") for row in REPORTED if not is_gone(row[3])])
        altered = next(line for line in here if line["uid"] == "T00002")
        self.assertEqual([(was["time"], was["platform"], was["stp"]) for was in altered["was"]], [("0810", "1", "P")])
        self.assertEqual([line for line in told["lines"] if line["uid"] in ("T00005", "T00023") and line["change"]], [])
        self.assertEqual(len(told["lines"]), len(self.rows()))

    def test_csv(self):
        """The line of a missing train has its UID and start, and its permanent fields in columns of their own. So nobody takes it for a train that runs."""
        table = list(csv.DictReader(io.StringIO(self.ask(f"/ASHFELD/{DAY}.csv")[2].decode())))
        self.assertEqual([row["uid"] for row in table if row["change"]], [row[2] for row in REPORTED])
        for row in table:
            if not row["time"]:
                self.assertIn(row["change"], ("cancelled", "absent", "altered"))
                self.assertEqual({name for name, value in row.items() if value and not name.startswith("was_")}, {"uid", "start", "change"})
                self.assertTrue(row["was_time"])
        self.assertEqual([(row["uid"], row["was_time"], row["start"]) for row in table if not row["time"]],
                         [(row[2], row[0].replace(":", "").replace("½", "H"), STARTS.get(row[2], DAY)) for row in REPORTED if is_gone(row[3])])
        self.assertEqual([[row[name] for name in ("time", "platform", "was_time", "was_platform")] for row in table if row["uid"] == "T00002"],
                         [["0815H", "3", "0810", "1"], ["0817", "3", "0812", "1"]])
        self.assertEqual(sum(bool(row["time"]) for row in table), len(self.rows()))

    def test_alone(self):
        """A page saved in a file shows everything, without links."""
        ended = subprocess.run([OFFICE / "screen" / "serve", "--page", "ASHFELD", DAY, self.state], env={**os.environ, "DESK": self.desk}, capture_output=True, check=True)
        self.assertEqual([(*row[:2], row[-3], row[-1]) for _, row in rows_of_page(ended.stdout.decode()) if row[-1]], CALLED)
        self.assertIn(f'<p id="changes">{COUNTED}</p>'.encode(), ended.stdout)

    def test_everybody(self):
        """The pages fit each screen, all texts have enough contrast, and the column has a name."""
        made = self.browser(320, 844, True)
        for path in PATHS:
            made.open(self.address(path))
            for width in WIDTHS:
                made.sized(width, width * 9 // 16 if width > 1000 else 844, width < 500)
                self.assertEqual((path, width, made.run("return [innerWidth, document.documentElement.scrollWidth]"), made.run(CUT)), (path, width, [width, width], []))
            for width in (390, 1366):
                for media in ("screen", "print"):
                    made.sized(width, 900)
                    made.media(media)
                    made.open(self.address(path))
                    made.run("document.getElementById('fold').click()")
                    self.assertEqual((path, width, media, made.run(FAINT)), (path, width, media, []))
            made.media("")
            tree = [(node["role"]["value"], node.get("name", {}).get("value", "")) for node in made.cdp("Accessibility.getFullAXTree")["nodes"] if not node.get("ignored")]
            self.assertEqual(sum(role == "columnheader" for role, _ in tree), 13)
            self.assertIn(("columnheader", "Change"), tree)
            self.assertEqual([(role, name) for role, name in tree if role in ("link", "button", "columnheader", "table") and not re.search(r"\w", name)], [])


@unittest.skipUnless(knows(f"permanent ASHFELD {DAY}"), "there is no program desk that knows what is permanent")
class RealDiffering(Differing):
    """The same tests with the real program `desk`."""

    desk = REAL
    test_everybody = None


class Permanent(Changed):
    """The stand-in's request `permanent`: its answer is the docker of a state of the same extract without short-term records."""

    def test_answers(self):
        reader = dockers.Desk(self.desk, self.state)
        self.addCleanup(reader.close)
        for code in ("ASHFELD", "BRAYTON", "CORHAM", "DUNMERE", "NOWHERE"):
            for day in ("2024-06-02", "2024-06-09", DAY, NEXT, "2024-06-16", "2024-12-14"):
                self.assertEqual(reader.permanent(code, day), (0, run("print", self.base, code, day)), (code, day))
        self.assertEqual(reader.permanent("ASHFIELD", DAY).status, 2)
        self.assertEqual(reader.permanent("ASHFELD", "2024-06-31").status, 2)

    def test_refusal(self):
        """A day before the horizon is refused in the same way as by `print`."""
        state = self.folder / "late.state"
        state.write_bytes(pathlib.Path(self.state).read_bytes())
        run("horizon", str(state), "2024-06-11")
        reader = dockers.Desk(self.desk, str(state))
        self.addCleanup(reader.close)
        self.assertEqual(reader.permanent("ASHFELD", "2024-06-13"), reader.print_docker("ASHFELD", "2024-06-13"))
        self.assertEqual(reader.permanent("ASHFELD", "2024-06-13").status, 1)
        self.assertEqual(reader.permanent("ASHFELD", "2024-06-14").status, 0)


@unittest.skipUnless(knows(f"permanent ASHFELD {DAY}"), "there is no program desk that knows what is permanent")
class RealPermanent(Permanent):
    """The same tests with the real program `desk`."""

    desk = REAL


class NotPermanent(Changed):
    """With a desk that doesn't know the request `permanent`, everything else is unchanged."""

    environment = {"OLD": "permanent"}

    def test_pages(self):
        for path in (f"/ASHFELD/{DAY}", "/ASHFELD"):
            page = self.page(path)
            for word in ("id=\"changes\"", "gone", "Change</th>", "class=\"change", "/changes"):
                self.assertNotIn(word, re.sub(r"<(style|script)>.*?</\1>", "", page, flags=re.S))
        self.assertEqual([row for _, row in rows_of_page(self.page(f"/ASHFELD/{DAY}"))], self.rows())
        self.assertTrue(self.ask(f"/ASHFELD/{DAY}.csv")[2].startswith(b"time,kind,train,uid,stp,suffix,platform,line,path,public,origin,destination,partner,partner_train,start,origin_name,destination_name\n"))
        told = json.loads(self.ask(f"/ASHFELD/{DAY}.json")[2])
        self.assertEqual([name for name in ("changes", "not_here") if name in told] + [name for name in ("change", "was") if name in told["lines"][0]], [])
        status, _, body = self.ask(f"/ASHFELD/{DAY}/changes")
        self.assertEqual(status, 501)
        self.assertIn(b"what differs needs a program desk that knows what is permanent", body)
        # The request is made only once as long as STATE doesn't change.
        self.assertEqual([line.split()[0] for line in (self.folder / "asked").read_text().splitlines()].count("permanent"), 1)


class Poor(Changed):
    """If it isn't known what is cancelled, no page looks as if nothing were cancelled."""

    environment = {"POOR": "permanent"}

    def test_pages(self):
        for path in (f"/ASHFELD/{DAY}", "/ASHFELD", f"/ASHFELD/{DAY}/changes", f"/ASHFELD/{DAY}.json", f"/ASHFELD/{DAY}.csv"):
            status, headers, body = self.ask(path)
            self.assertEqual((status, headers["Retry-After"]), (503, "60"), path)
            self.assertIn(b"docker: want of memory", body)
        self.assertEqual(self.ask(f"/ASHFELD/{DAY}.txt")[0::2], (200, self.docker()))


class NoDesk(Changed):
    """Without a desk, nothing is said about changes."""

    desk = "/nonexistent"

    def test_pages(self):
        self.assertNotIn('id="changes"', self.page(f"/ASHFELD/{DAY}"))
        self.assertEqual(self.ask(f"/ASHFELD/{DAY}/changes")[0], 501)


# Random trains, and what becomes of each, worked out from their times.

CODES = ("ASHFELD", "BRAYTON", "CORHAM", "DUNMERE")


class Journey:
    """The events of a train: place, kind, minutes since the midnight before its start, and platform."""

    def __init__(self, drawn):
        at = drawn.randrange(300, 1430)
        places = [drawn.choice(CODES) for _ in range(drawn.randrange(2, 6))]
        self.events, self.records, seen = [], [], []
        for number, code in enumerate(places):
            platform, clock = str(drawn.randrange(1, 4)), f"{at // 60 % 24:02}{at % 60:02}"
            suffix = str(seen.count(code) + 1) if code in seen else " "
            seen.append(code)
            name = f"{code:<7}{suffix}"
            if number == 0:
                self.stands(name, "D", at, platform, record(f"LO{name}{clock} {clock}{platform:<3}"))
            elif number == len(places) - 1:
                self.stands(name, "A", at, platform, record(f"LT{name}{clock} {clock}{platform:<3}"))
            elif drawn.random() < 0.3:
                self.stands(name, "P", at, platform, record(f"LI{name}          {clock} 00000000{platform:<3}"))
            else:
                leaves = at + drawn.randrange(0, 20)
                departs = f"{leaves // 60 % 24:02}{leaves % 60:02}"
                self.stands(name, "A", at, platform, record(f"LI{name}{clock} {departs}      {clock}{departs}{platform:<3}"))
                self.events.append((code, "D", leaves, platform))
                at = leaves
            at += drawn.randrange(5, 200)

    def stands(self, name, kind, at, platform, text):
        self.events.append((name[:7].strip(), kind, at, platform))
        self.records.append(text)

    def at(self, code, after):
        """What the train does at a place on the day that is `after` days after its start."""
        return [(kind, time % 1440, platform) for place, kind, time, platform in self.events if place == code and time // 1440 == after]


class Drawn:
    """A number of UIDs, most of them with a permanent schedule on every day, and some with other schedules over it."""

    FIRST = datetime.date(2024, 6, 3)

    def __init__(self, seed, number=120):
        drawn = random.Random(seed)
        self.schedules, text = {}, [place(code, f"{code} TOWN") for code in CODES]
        for uid in (f"R{at:05}" for at in range(number)):
            own = [("P", 0, 193, Journey(drawn))] if drawn.random() < 0.85 else []
            own += [(indicator, first, first + drawn.choice((0, 0, 2, 6)), Journey(drawn) if indicator != "C" else None)
                    for indicator, first in sorted({(drawn.choice("OOCCN"), drawn.randrange(4, 12)) for _ in range(drawn.choice((0, 1, 1, 2)))})]
            self.schedules[uid] = own
            for indicator, first, last, journey in own:
                days = "".join((self.FIRST + datetime.timedelta(day)).strftime("%y%m%d") for day in (first, last)) + "1111111"
                text.append(basic(uid, indicator, days, "1R01") + "".join(journey.records if journey else []))
        self.text = extract(*text)

    def chosen(self, uid, start, indicators="CNOP"):
        """The schedule that is chosen for a train: of those that run, the first by indicator, and among these the one that begins last."""
        day = (datetime.date.fromisoformat(start) - self.FIRST).days
        runs = [it for it in self.schedules[uid] if it[0] in indicators and it[1] <= day <= it[2]]
        return min(runs, key=lambda it: (it[0], -it[1]), default=("", 0, 0, None))

    def expected(self, code, date):
        """The trains that differ at a place on a day, by kind of difference."""
        found = {}
        for uid in self.schedules:
            for after in range(3):
                start = changes.date_after(date, -after)
                indicator, _, _, journey = self.chosen(uid, start)
                base = self.chosen(uid, start, "P")[3]
                if kind := self.kind(indicator, journey, base, code, after):
                    found.setdefault(kind, set()).add((uid, start))
        return found

    @staticmethod
    def kind(indicator, journey, base, code, after):
        now, before = (one.at(code, after) if one else [] for one in (journey, base))
        if now == before:
            return None
        if not now:
            return "cancelled" if indicator == "C" else "altered" if any(journey.at(code, day) for day in range(3)) else "absent"
        if not before:
            return "altered" if indicator == "O" and base and any(base.at(code, after + apart) for apart in (-1, 1)) else "added"
        return "altered"


class AtRandom(Changed):
    """Each train that differs is found, on the day on which it started, with what became of it. No permanent line is lost."""

    seeds = (0,)

    def test_trains(self):
        for seed in self.seeds:
            made = Drawn(seed)
            self.takes(made.text)
            reader = dockers.Desk(self.desk, self.state)
            self.addCleanup(reader.close)
            number = 0
            for code in CODES:
                for day in range(5, 15):
                    date = changes.date_after("2024-06-03", day)
                    timetable = changes.Timetable(reader, code)
                    told = changes.changes_of(timetable, date)
                    self.assertEqual({kind: set(those) for kind, those in told.trains.items()}, made.expected(code, date), (seed, code, date))
                    number += sum(map(len, told.trains.values()))
                    self.conserved(timetable, code, date, told)
            self.assertGreater(number, 500)

    def conserved(self, timetable, code, date, told):
        """Each permanent line is on the docker too, or a line there replaces it, or it is shown as missing."""
        own, base = ([line._replace(stp="") for line in lines.docker_of(timetable.text(command, date)).lines] for command in ("print", "permanent"))
        for number, change in told.of.items():
            own[number] = None
            for was in change.was:
                if not change.words.startswith("was on ") and was._replace(stp="") in base:
                    base.remove(was._replace(stp=""))
        for line, _ in told.gone:
            base.remove(line._replace(stp=""))
        self.assertEqual([line for line in own if line], base, (code, date))


@unittest.skipUnless(knows(f"permanent ASHFELD {DAY}"), "there is no program desk that knows what is permanent")
class RealAtRandom(AtRandom):
    """The same tests with the real program `desk`, and with more trains."""

    desk = REAL
    seeds = range(1, 9)
