"""Finding a place, a train, a day and a page: the head of each page, the search, and codes in addresses."""
import re

import pytest

import browser
from extracts import DAY, NEXT, PLACES, WEDNESDAY, basic, call, end, extract, origin, place, record, train
from pages_read import element, links_of, text_of
from serving import TESTS, docker

MORE = place("ASHVALE", "ASHVALE", "AHV") + place("BUSY", "CORHAM ROAD", "TWO") + place("CALM", "CORHAM YARD", "TWO") + place("BLANK", "")
FOUND = extract(
    PLACES, MORE,
    train("A10001", origin("CORHAM", "0730"), call("ASHFELD", "0800", "0802"), end("BRAYTON", "0830"), identity="1A10"),
    train("A10002", origin("BRAYTON", "0930"), call("ASHFELD", "1000", "1002"), end("CORHAM", "1030"), identity="1A10"),
    # This train is at the junction only after midnight.
    train("A10003", origin("CORHAM", "2330"), call("ASHFELD", "0010", "0012"), end("BRAYTON", "0030"), identity="5N03"),
    train("A10004", origin("CORHAM", "1130"), end("BRAYTON", "1200"), identity="2C04"),
    train("A10005", origin("CORHAM", "1130"), call("ASHFELD", "1200", "1202"), end("BRAYTON", "1230"), identity="2C05"), basic("A10005", "C", WEDNESDAY, "    "),
    *(train(f"B2000{number}", origin(code, f"1{number}00"), end("BRAYTON", f"1{number}30"), identity="2D00") for number, code in enumerate(("BUSY", "BUSY", "CALM"))),
    train("A10006", origin("CORHAM", "0530"), record("CRASHFELD XX9M07"), call("ASHFELD", "0600", "0602"), end("BRAYTON", "0630"), identity="9M06"),
    # Its place has no record of its own.
    train("B20004", origin("NEWHALT", "1200"), end("BRAYTON", "1230"), identity="2D00"),
)
PATHS = ("/", "/?q=ash", "/ASHFELD", f"/ASHFELD/{NEXT}", f"/ASHFELD/{DAY}/changes", f"/ASHFELD/{DAY}?rows=lines", f"/train/A10001/{DAY}", "/ASHFIELD", "/NOWHERE")


@pytest.fixture(scope="module")
def served(serves):
    return serves(FOUND, places="ASHFELD\nCORHAM\n")


@pytest.mark.parametrize("path", PATHS)
def test_head(served, path):
    """Each page has in its head a link that skips the head, a way home, and the search. A page of another day looks for trains of its day."""
    page = served.get(path).text
    body = page[page.index("<body>"):]
    assert re.match(r'<body>\n<a class="skip" href="#content">Skip to the \w+</a>\n<nav id="tools"', body)
    tools = body[:body.index("</nav>")]
    assert '<a id="home" href="/">' in tools and 'id="text" name="q" type="search"' in tools
    assert ('name="on" value="2024-06-13"' in tools) == (NEXT in path)
    assert '<main id="content">' in body


def test_the_head_has_what_a_reader_needs(served):
    """The forms, the choice of names, the legend and the picture come before the first row, and nothing comes after the last one."""
    page = served.page("/ASHFELD")
    head, rest = page[:page.index('<table id="docker"')], page[page.index("</table>"):]
    for part in ('.csv">', '.txt">', '.json">', '.svg">', 'id="naming-choice"', 'id="legend"', 'id="platforms"', 'type="date"', 'type="time"', 'id="naming"'):
        assert part in head, part
    assert not re.search(r"<(a|input|button|details|footer)\b", rest)


def test_keyboard(served, chrome):
    """The first key leads to the link that skips the head, and from there to the first train. Everything in the head can be reached."""
    chrome.open(served.address(f"/ASHFELD/{DAY}"))
    focused = "const it = document.activeElement; return it.id || it.className || it.textContent"
    chrome.keys(browser.TAB)
    assert chrome.run(focused) == "skip"
    assert chrome.run("const box = document.activeElement.getBoundingClientRect(); return box.width > 50 && box.height > 15")
    reached = []
    for _ in range(40):
        chrome.keys(browser.TAB)
        reached.append(chrome.run(focused))
    for wanted in ("home", "text", "Find", "rows", "naming-choice", ".csv", "Platforms: all", "Show"):
        assert wanted in reached, (wanted, reached)
    chrome.open(served.address(f"/ASHFELD/{DAY}"))
    chrome.keys(browser.TAB + browser.ENTER + browser.TAB)
    assert chrome.run("return document.getElementById('content').contains(document.activeElement)")


SEARCHES = [
    # By UID: the train that starts on the day of the page.
    ("?q=A10001", ["/train/A10001/2024-06-12"]), ("?q=a10001&on=2024-06-13", ["/train/A10001/2024-06-13"]), ("?q=A99999", []),
    # By identity: all trains that run on the day of the page, also those that started before it.
    ("?q=1A10", ["/train/A10001/2024-06-12#CORHAM", "/train/A10002/2024-06-12#BRAYTON"]), ("?q=1a10&on=2024-06-13", ["/train/A10001/2024-06-13#CORHAM", "/train/A10002/2024-06-13#BRAYTON"]),
    ("?q=5N03&on=2024-06-13", ["/train/A10003/2024-06-12#ASHFELD", "/train/A10003/2024-06-13#CORHAM"]), ("?q=5N03&on=2024-06-03", ["/train/A10003/2024-06-03#CORHAM"]),
    ("?q=2C04", ["/train/A10004/2024-06-12#CORHAM"]), ("?q=2D00", [f"/train/B2000{number}/2024-06-12#{code}" for number, code in ((0, "BUSY"), (1, "BUSY"), (2, "CALM"), (4, "NEWHALT"))]),
    ("?q=2C05", []), ("?q=2C05&on=2024-06-13", ["/train/A10005/2024-06-13#CORHAM"]), ("?q=9Z99", []),
    # A train may get its identity on the way.
    ("?q=9M06", ["/train/A10006/2024-06-12#CORHAM"]), ("?q=9M07", ["/train/A10006/2024-06-12#CORHAM"]), ("?q=1A10&on=1960-01-01", []),
    # By name, CRS and TIPLOC.
    ("?q=dunmere", ["/DUNMERE"]), ("?q=bry", ["/BRAYTON"]), ("?q=ASHVALE", ["/ASHVALE"]),
]


@pytest.mark.parametrize("words, expected", SEARCHES)
def test_search(served, words, expected):
    assert links_of(served.page(f"/{words}"), "found") == expected


def test_search_from_a_page(served):
    """A train that is at the place of the page from which the text comes is shown there."""
    assert links_of(served.page("/?q=1A10&at=BRAYTON&on=2024-06-12"), "found") == ["/train/A10001/2024-06-12#BRAYTON", "/train/A10002/2024-06-12#BRAYTON"]
    assert links_of(served.page("/?q=2D00&at=CALM"), "found")[2] == "/train/B20002/2024-06-12#CALM"
    assert '<input type="hidden" name="at" value="ASHFELD">' in served.page("/ASHFELD")


@pytest.mark.parametrize("environment", [{"DESK": str(TESTS / "desk-of-docker"), "OLD": "trains"}, {"DESK": "/nonexistent"}])
def test_search_without_lists_of_trains(serves, environment):
    """If the desk is of an older version, or if there is none, an identity is looked for on the dockers of the office's places and of the page's place."""
    served = serves(FOUND, places="ASHFELD\nCORHAM\n", **environment)
    for words, places in (("1A10", ["A10001/2024-06-12?at=ASHFELD.0800", "A10002/2024-06-12?at=ASHFELD.1000"]), ("5N03&on=2024-06-13", ["A10003/2024-06-13?at=ASHFELD.0010"]), ("2C04", ["A10004/2024-06-12?at=CORHAM.1130"]),
                          ("2D00", []), ("2D00&at=CALM", ["B20002/2024-06-12?at=CALM.1200"])):
        page = served.page(f"/?q={words}")
        assert [link for link in links_of(page, "found") if "/train/" in link] == [f"/train/{place}" for place in places], words
        assert ("Trains at this office’s places on" in page) == bool(places)
    assert element(served.page("/?q=9Z99"), "number") == "No train with this identity is at this office’s places on Wednesday 12 June 2024"


def test_search_before_the_horizon(serves):
    """A day before the horizon has no trains to find, and the page says why."""
    served = serves(FOUND)
    docker("horizon", served.state, "2024-06-11")
    for word in ("A10001", "1A10"):
        page = served.page(f"/?q={word}&on=2024-06-10")
        assert element(page, "number").startswith("docker: day refused: before horizon plus three days: a day before the third day after the horizon. Take a later day: ") and links_of(page, "found") == []
    # The day before the first day is refused, and the first day isn't.
    assert links_of(served.page("/?q=1A10&on=2024-06-11"), "found") == ["/train/A10001/2024-06-11#CORHAM", "/train/A10002/2024-06-11#BRAYTON"]
    assert "needs the program desk" in element(serves(FOUND, DESK="/nonexistent").page("/?q=A10001"), "number")


def test_search_of_very_many_trains(serves):
    """The search shows only the first of very many trains with the same identity, and says so."""
    trains = [train(f"D{number:05}", origin("CORHAM", f"{6 + number // 60:02}{number % 60:02}"), end("BRAYTON", "2300"), identity="0B00", days=WEDNESDAY) for number in range(301)]
    served = serves(extract(PLACES, *trains))
    assert len(links_of(served.page("/?q=0B00"), "found")) == 300
    assert element(served.page("/?q=0B00"), "number") == "The first 300 trains"
    assert element(served.page("/?q=D00300"), "number") == "1 train"


def test_search_says_what_it_found(served):
    for words, said in (("A10005", "cancelled on this day"), ("5N03&on=2024-06-13", "00:10 at Ashfeld Junction, started on Wednesday 12 June"), ("1A10", "1A10 Corham Exchange to Brayton"),
                        ("9M07", "05:30 at Corham Exchange, 9M06 at first"), ("9M07&at=ASHFELD", "06:00 at Ashfeld Junction, 9M06 at first")):
        assert said in text_of(served.page(f"/?q={words}")), words
    assert element(served.page("/?q=A99999"), "number") == "No train with this UID starts on Wednesday 12 June 2024"
    assert element(served.page("/?q=9Z99"), "number") == "No train with this identity runs on Wednesday 12 June 2024"
    assert element(served.page("/?q=1A10"), "number") == "2 trains"


def test_a_found_train_leads_to_its_page(served):
    """A train that is looked for on the day after its start is found on the day on which it started."""
    answer = served.get("/train/A10003/2024-06-13?at=ASHFELD.0010")
    assert (answer.status, answer.headers["Location"]) == (303, f"/train/A10003/{DAY}#ASHFELD")


@pytest.mark.parametrize("path, leads", [
    ("/ASF", "/ASHFELD"), ("/asf", "/ASHFELD"), ("/ashfeld", "/ASHFELD"), (f"/ASF/{DAY}", f"/ASHFELD/{DAY}"), (f"/asf/{DAY}.csv", f"/ASHFELD/{DAY}.csv"),
    (f"/ASF/{DAY}/changes?stops=1", f"/ASHFELD/{DAY}/changes?stops=1"), ("/TWO", "/BUSY"),
])
def test_a_code_leads_to_its_place(served, path, leads):
    answer = served.get(path)
    assert (answer.status, answer.headers["Location"]) == (303, leads)


@pytest.mark.parametrize("path, offers", [
    ("/ASHFIL", ["/ASHFELD"]), ("/corham", None), ("/corhm", ["/CORHAM", "/BUSY", "/CALM"]), ("/Exchang", ["/CORHAM"]), ("/QQQQQQQ", []), (f"/DUNMER/{DAY}", ["/DUNMERE"]),
])
def test_an_unknown_code(served, path, offers):
    """An unknown code is a 404 that offers the places with similar names or codes. It doesn't look like a place without trains."""
    answer = served.get(path)
    if offers is None:
        assert answer.status == 303
        return
    assert answer.status == 404
    assert links_of(answer.text, "offers") == offers
    for words in ("permanent timetable", "No train calls here", "<table"):
        assert words not in answer.text


def test_codes_that_are_known(served):
    """A place without a record of its own is shown if trains call there, and a place without trains if it has a record."""
    assert served.get("/NEWHALT").status == 200
    assert element(served.page("/NEWHALT"), "unknown") == "No extract that was taken has the code NEWHALT. But trains call here."
    assert served.get("/DUNMERE").status == 200
    for form in ("txt", "csv", "json", "svg"):
        assert served.get(f"/NOWHERE/{DAY}.{form}").status == 200


def test_nothing_is_known_yet(serves):
    """A screen on a wall waits for the first extract: it isn't sent away."""
    empty = serves()
    page = empty.page("/ASHFELD")
    assert "Nothing is known: no extract was taken" in page


def test_headers(served):
    """No other site may show a page in a frame."""
    for path in ("/", "/ASHFELD", f"/train/A10001/{DAY}", "/NOWHERE"):
        assert "frame-ancestors 'none'" in served.get(path).headers["Content-Security-Policy"]


def test_formulas(serves):
    """No cell of .csv is a formula for a spreadsheet."""
    served = serves(extract(PLACES, record("TI=1+2    00000000 =CMD                      "), train("A10001", origin("=1+2", "0700"), call("ASHFELD", "0800", "0802", "-1", "@SU", "+FL"), end("BRAYTON", "0830"))))
    text = served.get(f"/ASHFELD/{DAY}.csv").text
    cells = [cell for row in text.splitlines()[1:] for cell in row.split(",")]
    assert not [cell for cell in cells if cell.startswith(("=", "+", "-", "@"))]
    assert {"'=1+2", "'=CMD", "'-1", "'@SU", "'+FL"} <= set(cells)


def test_small_screens(served, chrome):
    """On a phone, the links to the day before and after are large enough for a finger."""
    chrome.sized(390, 844, True)
    chrome.open(served.address("/ASHFELD"))
    sizes = chrome.run("return [...document.querySelectorAll('.day a')].map(link => link.getBoundingClientRect()).map(box => [box.width, box.height])")
    assert len(sizes) == 2 and all(side >= 44 for size in sizes for side in size)
