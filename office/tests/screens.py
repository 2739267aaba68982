"""Helpers for the tests of the screen: an office with a server of its pages, and a browser. DOCKER names the program, DESK the program `desk`."""
import os
import pathlib
import shutil
import subprocess
import tempfile
import time
import unittest

import browser
import serving
from offices import DOCKER, docker as run, record

HERE = pathlib.Path(__file__).resolve().parent
REAL = shutil.which(os.environ.get("DESK") or f"{DOCKER}-desk")
STAND_IN = str(HERE / "desk-of-docker")
DAY = "2024-06-12"
# The names of the busy day's places, as pages show them.
NAMES = {"ASHFELD": "Ashfeld Junction", "BRAYTON": "Brayton", "CORHAM": "Corham Exchange", "DUNMERE": "Dunmere Town", "ELSTOW": "Elstow South"}

# The words that a page shows for each kind of event, and for the link of an association.
WORDS = {"A": "arrives", "P": "passes", "D": "departs", "J": "is joined", "V": "divides", "N": "goes on"}
LEADS = {"J": "by", "V": "into", "N": "as"}
# The cells of each row, without the columns that not every docker has.
CELLS = "row => [...row.cells].slice(0, row.cells.length - document.querySelectorAll('#docker thead :is(.change, .of-operator, .of-words)').length).map(cell => cell.textContent)"
ROWS = f"return [...document.querySelectorAll('#day tr')].map({CELLS})"
# The times of all events in a list of calls.
CLOCKS = "return [...document.querySelectorAll('#day :is(.arr, .dep)')].map(cell => cell.textContent).filter(text => text.includes(':')).sort()"
SHOWN = "return [...document.querySelectorAll('#day tr')].map(row => row.getBoundingClientRect()).map(box => box.height ? [box.top, box.bottom] : null)"

WIDTHS = (320, 360, 390, 480, 600, 701, 760, 761, 768, 800, 912, 1000, 1001, 1024, 1280, 1366, 1600, 1920, 2560, 3840)
# The texts whose contrast is below 4.5 to 1. Past rows are unfolded first.
FAINT = """
const light = colour => { const [r, g, b] = colour.match(/[\\d.]+/g).map(Number).map(part => part / 255).map(part => part <= .03928 ? part / 12.92 : ((part + .055) / 1.055) ** 2.4);
    return .2126 * r + .7152 * g + .0722 * b };
const found = new Set();
const walker = document.createTreeWalker(document.body, NodeFilter.SHOW_TEXT);
while (walker.nextNode()) {
    const element = walker.currentNode.parentElement, style = getComputedStyle(element);
    if (!walker.currentNode.textContent.trim() || !element.checkVisibility() || ['SCRIPT', 'STYLE', 'TITLE', 'NOSCRIPT'].includes(element.tagName.toUpperCase())) continue;
    let back = element, opacity = 1;
    for (let up = element; up; up = up.parentElement) opacity *= Number(getComputedStyle(up).opacity);
    while (back && getComputedStyle(back).backgroundColor === 'rgba(0, 0, 0, 0)') back = back.parentElement;
    const ground = light(back ? getComputedStyle(back).backgroundColor : 'rgb(255, 255, 255)'), ink = light(element.ownerSVGElement ? style.fill : style.color);
    const ratio = (Math.max(ground, ink) + .05) / (Math.min(ground, ink) + .05);
    if (ratio < 4.5 || opacity < 1) found.add(`${element.tagName}.${element.getAttribute('class')}: ${ratio.toFixed(2)}, ${opacity}`);
}
return [...found];
"""
# The elements that are wider than the page, or whose text is cut off.
CUT = """return [...document.querySelectorAll('body *')].filter(it => !it.closest('.across, svg, caption, legend, thead, #status, noscript, .skip, label[for=text]') && it.checkVisibility()).filter(it => {
    const box = it.getBoundingClientRect();
    return box.width && (box.right > innerWidth + .5 || box.left < -.5 || it.scrollWidth > it.clientWidth + 1 && getComputedStyle(it).display !== 'inline') })
    .map(it => `${it.tagName}.${it.className}: ${it.textContent.slice(0, 30)}`)"""
# Parts of names of places.
HEADS = ("ASH", "BAR", "BRAD", "CHAT", "COL", "DON", "EAST", "FARN", "GRAN", "HAR", "KINGS", "LANG", "MAL", "NEW", "NOR", "OAK", "PEN", "RAD", "SAND", "STAN", "THORN", "WAL", "WEST", "YAR")
TAILS = ("BOROUGH", "BRIDGE", "BURY", "BY", "CASTER", "COMBE", "FIELD", "FORD", "GATE", "HAM", "HURST", "LEY", "MERE", "MINSTER", "MOUTH", "PORT", "STEAD", "STOKE", "THORPE", "TON", "WELL", "WORTH")
ENDS = ("", "", " JN", " NORTH JN", " SOUTH JN", " CENTRAL", " PARK", " ROAD", " SIDINGS", " DN LOOP", " UP LOOP", " FRT TERMINAL", " TOWN", " SIGNAL 47", " T&RSMD")


def waited(seconds, ask):
    """Calls `ask` until it returns a value, for at most this many seconds. Returns that value."""
    end = time.monotonic() + seconds
    while not (answer := ask()) and time.monotonic() < end:
        time.sleep(0.2)
    return answer


def place(code, description, crs="", stanox=""):
    return record(f"TI{code:<7}00000000 {description:<26}{stanox:<5}{'':<4}{crs:<3}")


def schedule(uid, origin, end, at="0900", days="2406032412131111111", indicator="P"):
    hour, minute = int(at[:2]), at[2:]
    return (record(f"BSN{uid}{days} POO1{uid[0]}{uid[4:]}", indicator) + record(f"LO{origin:<8}{at} {at}2  FL")
            + record(f"LT{end:<8}{(hour + 1) % 24:02}{minute} {(hour + 1) % 24:02}{minute}1  FL"))


def extract(*records, date="070624", reference="DFROC1F", indicator="F", last="DFROC1E"):
    return "".join([record(f"HDTPS.UDFROC1.PD240607{date}2100{reference}{last}{indicator}A"), *records, record("ZZ")])


def knows(request):
    """Whether the program `desk` knows a request. One of an older version may not."""
    if REAL is None:
        return False
    with tempfile.TemporaryDirectory() as folder:
        run("new", f"{folder}/STATE")
        return subprocess.run([REAL, f"{folder}/STATE"], input=f"{request}\n".encode(), capture_output=True, check=False).stdout.startswith(b"0 ")


def knows_places():
    return knows("places")


def rows_of(text, names=None):
    """The cells that a page must show for each line of a docker's text, by its columns. A place without a name shows its code."""
    rows, names = [], names or {}
    for line in text.decode("ascii").split("\n")[1:-2]:
        at, kind, train, uid, stp = line[0:5], line[6], line[8:12].strip(), line[13:19].strip(), line[20]
        suffix, platform, track, path, public = line[22].strip(), line[24:27].strip(), line[28:31].strip(), line[32:35].strip(), line[36:40].strip()
        clock = at[:2] + ":" + at[2:4] + at[4].replace("H", "½").strip()
        if kind in LEADS:
            other, identity = line[41:47], line[49:53]
            ends = [f"{LEADS[kind]} {other}, which doesn't run" if identity == "????" else f"{LEADS[kind]} {identity} {other}"]
        else:
            ends = [names.get(code, code) for code in (line[41:48].strip(), line[49:56].strip())]
        rows.append([clock, WORDS[kind], train, platform, path, track, public and public[:2] + ":" + public[2:], *ends, uid, suffix, stp])
    return rows


def lined(path):
    """The address that shows the docker's own lines, and not calls, if a path is a docker's."""
    address, mark, part = path.partition("#")
    is_docker = address not in ("", "/") and not address.startswith(("/?", "/train/"))
    return f"{address}{'&' if '?' in address else '?'}rows=lines{mark}{part}" if is_docker else path


class Office(unittest.TestCase):
    """A folder with the state of the busy day, and a server on it whose clock shows 08:55 of that day."""

    desk = "/nonexistent"
    # Whether the desk knows single trains, and so their start days; the names of places; and what else the server's environment has.
    has_trains = False
    names = {}
    environment = {}
    now = f"{DAY}T08:55"
    server = None

    @classmethod
    def setUpClass(cls):
        if not serving.HAS_FLASK:
            raise unittest.SkipTest("there is no flask or no waitress")
        cls.work = tempfile.TemporaryDirectory()
        cls.addClassCleanup(cls.work.cleanup)
        cls.folder = pathlib.Path(cls.work.name)
        cls.state = str(cls.folder / "office.state")
        (cls.folder / "places").write_text("ASHFELD\nBRAYTON\nNOWHERE\n# a remark\nCORHAM")
        for name, words in (("busy.cif", []), ("update.cif", ["update"])):
            (cls.folder / name).write_bytes(subprocess.run([HERE / "busy-day", *words], capture_output=True, check=True).stdout)
        run("new", cls.state)
        run("take", cls.state, str(cls.folder / "busy.cif"))
        cls.addClassCleanup(cls.stopped)
        cls.calls = cls.folder / "calls"
        cls.program = cls.folder / "counted"
        cls.program.write_text(f'#!/bin/sh\necho "$*" >>"{cls.calls}"\n[ ! -e "{cls.folder}/poor" ] || {{ echo "docker: want of memory" >&2; exit 3; }}\nexec "{DOCKER}" "$@"\n')
        cls.program.chmod(0o755)
        cls.started()

    @classmethod
    def started(cls):
        cls.server = serving.Server(cls.folder, cls.now, DOCKER=str(cls.program), DESK=cls.desk, ASKED=str(cls.folder / "asked"), **cls.environment)

    @classmethod
    def stopped(cls):
        if cls.server is not None:
            cls.server.ends()

    def ask(self, path, method="GET", headers=None):
        return self.server.ask(lined(path), method, headers)

    def spent(self):
        """The seconds of processor time that the server has used."""
        fields = pathlib.Path(f"/proc/{self.server.process.pid}/stat").read_text().rsplit(")", 1)[1].split()
        return (int(fields[11]) + int(fields[12])) / os.sysconf("SC_CLK_TCK")

    def answers_within(self, path, seconds):
        """Asks for a page several times, and returns the last answer. The best time counts. If other programs take all processors, the server's processor time
        counts."""
        times, before = [], self.spent()
        for _ in range(12):
            began = time.monotonic()
            status, _, body = self.ask(path, headers={"Accept-Encoding": "gzip"})
            times.append(time.monotonic() - began)
            self.assertEqual(status, 200)
        if os.getloadavg()[0] > os.cpu_count():
            times.append((self.spent() - before) / len(times))
        self.assertLess(min(times), seconds, path)
        return body

    def docker(self, place="ASHFELD", day=DAY):
        return run("print", self.state, place, day)

    def rows(self, place="ASHFELD", day=DAY):
        """The cells that a page must show for a docker."""
        return rows_of(self.docker(place, day), self.names)


class Seen(Office):
    """An office with a browser."""

    @classmethod
    def setUpClass(cls):
        if shutil.which("chromedriver") is None:
            raise unittest.SkipTest("there is no chromedriver")
        cls.made = browser.Browser()
        cls.addClassCleanup(cls.made.close)
        super().setUpClass()

    def browser(self, width, height, is_phone=False):
        """The browser, with an empty page of this size. What an earlier case left, such as the layout for paper, is gone."""
        self.made.open("about:blank")
        self.made.media("")
        self.made.sized(width, height, is_phone)
        return self.made

    def address(self, path):
        return f"http://127.0.0.1:{self.server.port}{lined(path)}"


class Stated(Seen):
    """An office whose state knows one extract."""

    desk = STAND_IN
    extract = ""

    @classmethod
    def setUpClass(cls):
        super().setUpClass()
        cls.takes(cls.extract)

    @classmethod
    def takes(cls, text):
        """Makes a STATE that knows only this extract."""
        (cls.folder / "own.cif").write_text(text)
        os.remove(cls.state)
        run("new", cls.state)
        run("take", cls.state, str(cls.folder / "own.cif"))
