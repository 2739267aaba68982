"""What pages and paper say about when they were made, what is known, and whether their day is covered."""
import json
import re
import subprocess

import pytest

from extracts import DAY, NEXT, PLACES, WEDNESDAY, call, end, extract, origin, train, update
from pages_read import element

# The schedules run from 3 June to 13 December, and the full extract is of 11 June.
TRAINS = PLACES + train("A10001", origin("CORHAM", "0730"), call("ASHFELD", "0800", "0802"), end("BRAYTON", "0830"))
EARLY, LATE = "2024-06-10", "2024-12-14"
MISSING = update(train("A10002", origin("CORHAM", "0930"), end("ASHFELD", "1000"), indicator="N", days=WEDNESDAY), time="2300", reference="DFROC1H", last="DFROC1G")


@pytest.fixture(scope="module")
def served(serves):
    return serves(extract(TRAINS))


def known_of(page):
    found = re.search(r'<p class="known">(.*?)</p>', page, re.S)[1]
    return re.sub("<[^>]*>", "", found).strip()


@pytest.mark.parametrize("day, cover", [(DAY, "This day is covered."), (EARLY, "This day isn’t covered."), (LATE, "This day isn’t covered.")])
def test_each_page_says_it(served, day, cover):
    for path in (f"/ASHFELD/{day}", f"/ASHFELD/{day}/changes", f"/train/A10001/{day}"):
        known = known_of(served.page(path))
        assert re.match(r"Made 2024-06-12 0[89]:\d\d\. Known up to 2024-06-11 21:00", known), path
        assert known.endswith(cover), path
    told = json.loads(served.get(f"/ASHFELD/{day}.json").text)
    assert told["is_covered"] == (day == DAY) and re.match(r"2024-06-12T0[89]:\d\d", told["made"])


def test_the_next_trains_say_it(served):
    assert known_of(served.page("/ASHFELD")).endswith("This day is covered.")


@pytest.mark.parametrize("day, is_said", [(DAY, True), (NEXT, True), (EARLY, False), (LATE, False)])
def test_that_nothing_differs_is_said_only_of_covered_days(served, day, is_said):
    assert ("As in the permanent timetable" in served.page(f"/ASHFELD/{day}")) == is_said
    assert ("Nothing differs" in served.page(f"/ASHFELD/{day}/changes")) == is_said


def test_it_is_not_said_if_an_update_is_missing(serves):
    served = serves(extract(TRAINS), MISSING)
    assert "Missing: DFROC1G" in served.page(f"/ASHFELD/{NEXT}")
    assert "As in the permanent timetable" not in served.page(f"/ASHFELD/{NEXT}")
    assert "Nothing differs" not in served.page(f"/ASHFELD/{NEXT}/changes")


def test_old_data_is_not_overlooked(serves, chrome):
    """Old data has a line across the page, which stands out, and nothing says that all is as in the permanent timetable."""
    for moment, age in (("2024-06-13T08:00", None), ("2024-06-13T10:00", "1 day old"), ("2024-06-20T21:00", "9 days old")):
        served = serves(extract(TRAINS), now=moment)
        for path in ("/ASHFELD", "/ASHFELD/2024-06-20", "/train/A10001/2024-06-20"):
            told = element(served.page(path), "old")
            assert told == (age and f"Old data: the newest extract is {age}. Nothing that changed since 2024-06-11 21:00 is here."), (moment, path)
            assert age is None or "As in the permanent timetable" not in served.page(path)
    for width, height in ((1920, 1080), (390, 844)):
        chrome.sized(width, height, width < 500)
        chrome.open(served.address("/ASHFELD"))
        box, background, size, rest = chrome.run("""const it = document.getElementById('old'), style = getComputedStyle(it), box = it.getBoundingClientRect();
            return [[box.width, box.bottom], style.backgroundColor, parseFloat(style.fontSize), parseFloat(getComputedStyle(document.body).fontSize)]""")
        assert box[0] > width * 0.9 and box[1] < height / 2 and background == "rgb(179, 23, 11)" and size > 1.2 * rest


def test_data_that_gets_old_on_the_wall(serves, chrome):
    """A page that stays open says so when its data gets old, even if the server gives no newer page."""
    served = serves(extract(TRAINS), now="2024-06-13T08:50")
    chrome.open(served.address("/ASHFELD"))
    assert chrome.run("return document.getElementById('old').checkVisibility()") is False
    chrome.run("document.documentElement.dataset.ahead = Number(document.documentElement.dataset.ahead) + 3600e3; tick()")
    assert chrome.run("return document.getElementById('old').innerText") == "Old data: the newest extract is 1 day old. Nothing that changed since 2024-06-11 21:00 is here."


def sheets_of(chrome, folder, address):
    chrome.sized(718, 1047)
    chrome.open(address)
    (folder / "paper.pdf").write_bytes(chrome.paper())
    text = subprocess.run(["pdftotext", "-layout", folder / "paper.pdf", "-"], capture_output=True, check=True, text=True).stdout
    return text.split("\f")[:-1]


def test_paper(served, chrome, tmp_path):
    """Each sheet has the place, the day and its number at the head. Its foot says when it was made, up to when extracts are known, and whether the day is covered.
    Nothing speaks of today."""
    for path, day, cover in ((f"/ASHFELD/{NEXT}", "Thursday 13 June 2024", "is"), ("/ASHFELD", "Wednesday 12 June 2024", "is"), (f"/ASHFELD/{LATE}", "Saturday 14 December 2024", "isn’t")):
        for sheet in sheets_of(chrome, tmp_path, served.address(path)):
            lines = sheet.strip().splitlines()
            assert re.match(rf"Ashfeld Junction, {day} +page 1 of 1$", lines[0]), path
            assert re.match(rf"Made 2024-06-12 0[89]:\d\d\. Known up to 2024-06-11 21:00\. This day {cover} covered\.$", lines[-1].strip()), path
            assert not re.search(r"today|Not today|tomorrow", sheet, re.I), path


def test_paper_of_a_renewed_page(serves, chrome, tmp_path):
    """If a page that is open gets another docker, the margins of its sheets say so too."""
    served = serves(extract(TRAINS))
    chrome.sized(718, 1047)
    chrome.open(served.address("/ASHFELD#renew=1"))
    served.take(update(train("A10002", origin("CORHAM", "0930"), end("ASHFELD", "1000"), indicator="N", days=WEDNESDAY)))
    for _ in range(40):
        if "22:00" in chrome.run("return document.querySelector('.known').textContent"):
            break
        chrome.run("return new Promise(done => setTimeout(done, 250))")
    (tmp_path / "paper.pdf").write_bytes(chrome.paper())
    text = subprocess.run(["pdftotext", "-layout", tmp_path / "paper.pdf", "-"], capture_output=True, check=True, text=True).stdout
    assert re.match(r"Made 2024-06-12 0[89]:\d\d\. Known up to 2024-06-11 22:00\. This day is covered\.$", text.split("\f")[0].strip().splitlines()[-1].strip())


def test_what_is_typed_stays(serves, chrome):
    """A new docker doesn't take away what the reader is typing."""
    served = serves(extract(TRAINS))
    chrome.open(served.address("/ASHFELD#renew=1"))
    chrome.run("document.getElementById('text').focus()")
    chrome.keys("bray")
    served.take(update(train("A10002", origin("CORHAM", "0930"), end("ASHFELD", "1000"), indicator="N", days=WEDNESDAY)))
    for _ in range(40):
        if "22:00" in chrome.run("return document.querySelector('.known').textContent"):
            break
        chrome.run("return new Promise(done => setTimeout(done, 250))")
    assert chrome.run("return [document.querySelector('.known').textContent.includes('22:00'), document.getElementById('text').value, document.activeElement.id]") == [True, "bray", "text"]
