"""A place that is busier than the busiest of a nation: how large its page is, how fast it comes, and how many sheets of paper it takes."""
import os
import pathlib
import random
import re
import time

import pytest

from extracts import DAY, PLACES, WEDNESDAY, basic, call, end, extract, origin, passes, place, train

WEEK = "2406102406141111100"
FIRST = ("ASHBY", "BURTON", "CHESTER", "DONCASTER", "EASTLEIGH", "FARNBOROUGH", "GRANTHAM", "HATFIELD", "KIRKBY STEPHEN", "MELTON MOWBRAY", "NEWTON ABBOT", "STOKE")
SECOND = ("", "", " JN", " NORTH JN", " SOUTH SIDINGS", " CENTRAL", " PARK", " ROAD", " INTERNATIONAL", " SIGNAL 47", " T&RSMD", " FRT TERMINAL")


def clock(minutes):
    return f"{minutes // 60:02}{minutes % 60:02}"


def busy_extract():
    """1,900 trains that stop or pass, one in ten of which differs on Wednesday or in its week. Names are as long as in real extracts."""
    drawn = random.Random(11)
    codes = [f"Q{number:05}" for number in range(300)]
    found = [PLACES, *(place(code, f"{drawn.choice(FIRST)}{drawn.choice(SECOND)}"[:26]) for code in codes)]
    for number in range(1900):
        at, identity = drawn.randrange(70, 1380), f"{drawn.randrange(1, 6)}{drawn.choice('ABCFHLMNPS')}{drawn.randrange(100):02}"
        first, last = origin(drawn.choice(codes), clock(at - 60)), end(drawn.choice(codes), clock(at + 50))
        track = drawn.choice(("SL", "FL", "UGL"))

        def journey(platform, is_stop):
            here = call("ASHFELD", clock(at), clock(at + 2), platform, track) if is_stop else passes("ASHFELD", clock(at), platform, track)
            return first, here, last

        uid, platform, is_stop = f"{drawn.choice('CGLWY')}{number:05}", str(drawn.randrange(1, 25)), drawn.random() < 0.9
        found.append(train(uid, *journey(platform, is_stop), identity=identity))
        match drawn.randrange(30):
            case 0:
                found.append(basic(uid, "C", WEDNESDAY, "    "))
            case 1:
                found.append(train(uid, *journey("26", is_stop), indicator="O", days=WEDNESDAY, identity=identity))
            case 2:
                found.append(train(uid, *journey("27", is_stop), indicator="O", days=WEEK, identity=identity))
    return extract(*found)


@pytest.fixture(scope="module")
def busy(serves):
    return serves(busy_extract(), now=f"{DAY}T08:55")


def spent(server):
    """The seconds of processor time that the server has used."""
    fields = pathlib.Path(f"/proc/{server.process.pid}/stat").read_text().rsplit(")", 1)[1].split()
    return (int(fields[11]) + int(fields[12])) / os.sysconf("SC_CLK_TCK")


def test_wire(busy):
    """A page takes at most 250 KB on the wire, and comes within 0.3 s once its changes are known. If other programs take all processors, the server's processor
    time counts."""
    lines = busy.get(f"/ASHFELD/{DAY}.txt").text.count("\n")
    assert lines > 3500
    for path in ("/ASHFELD", f"/ASHFELD/{DAY}", f"/ASHFELD/{DAY}?rows=lines", f"/ASHFELD/{DAY}?platform=4"):
        raw = busy.get(path, **{"Accept-Encoding": "gzip"})
        assert int(raw.headers["Content-Length"]) <= 250000, path
        times, before = [], spent(busy)
        for _ in range(8):
            began = time.monotonic()
            busy.get(path, **{"Accept-Encoding": "gzip"})
            times.append(time.monotonic() - began)
        best = min(*times, (spent(busy) - before) / len(times))
        print(f"{path}: {raw.headers['Content-Length']} bytes, {best:.3f} s")
        assert best < 0.3, path


def test_sheets(busy, chrome):
    """The docker of a day takes at most 40 sheets of paper, with the columns that are read."""
    chrome.sized(718, 1047)
    chrome.open(busy.address(f"/ASHFELD/{DAY}"))
    paper = chrome.paper()
    sheets = len(re.findall(rb"/MediaBox", paper))
    print(f"{sheets} sheets")
    assert sheets <= 40
    chrome.media("print")
    heads = "return [...document.querySelectorAll('#docker thead th')].filter(head => head.getBoundingClientRect().width).map(head => head.textContent)"
    assert chrome.run(heads) == ["Arr.", "Dep.", "Train", "Plat.", "Path", "Line", "Public", "From", "To", "Change"]
    cut = chrome.run("return [...document.querySelectorAll('#docker td')].filter(cell => cell.scrollWidth > cell.clientWidth + 1 && !cell.matches('.from, .to')).length")
    assert cut == 0


def test_wall(busy, chrome):
    """A screen on a wall shows at least 18 calls, of which none is cut off."""
    chrome.sized(1920, 1080)
    chrome.open(busy.address("/ASHFELD"))
    shown = chrome.run("return [...document.querySelectorAll('#docker tr[data-at]')].map(row => row.getBoundingClientRect()).filter(box => box.height && box.bottom <= innerHeight).length")
    assert shown >= 18
    assert chrome.run("return document.documentElement.scrollWidth") == 1920
