"""The rows of calls: which arrival stands with which departure, and what the reader's choice leaves."""
import json
import re

import pytest

from extracts import DAY, NEXT, PLACES, WEDNESDAY, call, end, extract, origin, passes, train
from pages_read import calls_of, element, times_of

# Until Tuesday, train T00009 stands here over midnight. From Wednesday on, its new schedule ends
# its call at ten past midnight.
OLD, NEW = "2406032406111111111", "2406122412131111111"
TRAINS = {
    "a stop": (train("T00001", origin("CORHAM", "0730"), call("ASHFELD", "0800", "0802H", "3"), end("BRAYTON", "0830")), [("08:00", "08:02½")]),
    "a pass": (train("T00002", origin("CORHAM", "0730"), passes("ASHFELD", "0805H"), end("BRAYTON", "0830")), [("pass", "08:05½")]),
    "a start": (train("T00003", origin("ASHFELD", "0810"), end("BRAYTON", "0830")), [("starts", "08:10")]),
    "an end": (train("T00004", origin("CORHAM", "0730"), end("ASHFELD", "0812")), [("08:12", "ends")]),
    "two calls": (
        train("T00005", origin("CORHAM", "0730"), call("ASHFELD", "0900", "0902"), passes("DUNMERE", "0910"), call("ASHFELD2", "0920", "0922"), end("BRAYTON", "1000")),
        [("09:00", "09:02"), ("09:20", "09:22")],
    ),
    "a pass between two calls": (
        train("T00006", origin("CORHAM", "0730"), call("ASHFELD", "0930", "0932"), passes("ASHFELD2", "0940"), call("ASHFELD3", "0950", "0952"), end("BRAYTON", "1000")),
        [("09:30", "09:32"), ("pass", "09:40"), ("09:50", "09:52")],
    ),
    # The departure at 00:03 is of the train that started the day before.
    "a call over midnight": (train("T00007", origin("CORHAM", "2330"), call("ASHFELD", "2358", "0003"), end("BRAYTON", "0100")), [("", "00:03"), ("23:58", "")]),
    # It starts and ends here each day, so a departure after an arrival may belong to the next day's train.
    "a circle": (train("T00008", origin("ASHFELD", "0050"), passes("DUNMERE", "1200"), end("ASHFELD", "0020")), [("00:20", "ends"), ("starts", "00:50")]),
    # Two trains of one UID are here at the same time, so it isn't fixed which departs at which time.
    "two trains at once": (
        train("T00009", origin("CORHAM", "2200"), call("ASHFELD", "2350", "0015"), end("BRAYTON", "0100"), days=OLD)
        + train("T00009", origin("CORHAM", "0001"), call("ASHFELD", "0010", "0020"), end("BRAYTON", "0100"), days=NEW),
        [("00:10", ""), ("", "00:15"), ("", "00:20")],
    ),
    # Two location records follow each other, with other platforms.
    "two records": (
        train("T00010", origin("CORHAM", "1000"), call("ASHFELD", "1100", "1101", "1"), call("ASHFELD", "1102", "1105", "2"), end("BRAYTON", "1200")),
        [("11:00", "11:01"), ("11:02", "11:05")],
    ),
}
# On the next day the circle and the two trains at once are the same again, but the train that stands over midnight has gone.
ON_NEXT_DAY = {"two trains at once": [("00:10", "00:20")]}


@pytest.fixture(scope="module")
def served(serves):
    return serves(extract(PLACES, *(text for text, _ in TRAINS.values())))


def uid_of(name):
    return re.search(r"BSN(T\d{5})", TRAINS[name][0])[1]


@pytest.mark.parametrize("name", TRAINS)
@pytest.mark.parametrize("day", [DAY, NEXT])
def test_one_row_a_call(served, name, day):
    expected = ON_NEXT_DAY.get(name, TRAINS[name][1]) if day == NEXT else TRAINS[name][1]
    found = [(arrival, departure) for arrival, departure, uid in times_of(served.page(f"/ASHFELD/{day}")) if uid == uid_of(name)]
    assert found == expected


def test_each_line_is_in_one_row(served):
    """No event is lost or shown twice, and the rows are in the order of their first events."""
    rows = times_of(served.page(f"/ASHFELD/{DAY}"))
    shown = sorted(time for row in rows for time in row[:2] if ":" in time)
    lines = served.get(f"/ASHFELD/{DAY}.txt").text.split("\n")[1:-2]
    assert shown == sorted(f"{line[:2]}:{line[2:4]}{'½' if line[4] == 'H' else ''}" for line in lines)
    firsts = [row[0] if ":" in row[0] else row[1] for row in rows]
    assert firsts == sorted(firsts)


def test_docker_lines_are_one_click_away(served):
    page = served.page(f"/ASHFELD/{DAY}?stops=1")
    address = re.search(r'<a id="rows" href="([^"]*)">docker’s lines</a>', page)[1].replace("&amp;", "&")
    assert address == f"/ASHFELD/{DAY}?rows=lines&stops=1"
    page = served.page(f"/ASHFELD/{DAY}?rows=lines")
    lines = served.get(f"/ASHFELD/{DAY}.txt").text.split("\n")[1:-2]
    assert [(row[0].replace(":", "").replace("½", "H"), row[9]) for row in calls_of(page)] == [(line[:5].strip(), line[13:19]) for line in lines]
    assert re.search(r'<a id="rows" href="([^"]*)">calls</a>', page)[1] == f"/ASHFELD/{DAY}"


CHOSEN = extract(
    PLACES,
    train("C00001", origin("CORHAM", "0730"), call("ASHFELD", "0800", "0802", "4", "SL"), end("BRAYTON", "0830")),
    train("C00002", origin("CORHAM", "0730"), call("ASHFELD", "0810", "0812", "5", "FL"), end("BRAYTON", "0830")),
    train("C00003", origin("CORHAM", "0730"), passes("ASHFELD", "0820", "4", "FL"), end("BRAYTON", "0840")),
    # It is permanently at platform 4, and on Wednesday at platform 5.
    train("C00004", origin("CORHAM", "0730"), call("ASHFELD", "0830", "0832", "4", "SL"), end("BRAYTON", "0850")),
    train("C00004", origin("CORHAM", "0730"), call("ASHFELD", "0830", "0832", "5", "SL"), end("BRAYTON", "0850"), indicator="O", days=WEDNESDAY),
    # It permanently stops, and passes on Wednesday.
    train("C00005", origin("CORHAM", "0730"), call("ASHFELD", "0840", "0842", "6", "SL"), end("BRAYTON", "0850")),
    train("C00005", origin("CORHAM", "0730"), passes("ASHFELD", "0840", "6", "SL"), end("BRAYTON", "0850"), indicator="O", days=WEDNESDAY),
    train("C00006", origin("ASHFELD", "0900", "4", "UGL"), end("BRAYTON", "0950")),
)
CHOICES = [
    ("", "123456"), ("?stops=1", "12456"), ("?platform=4", "1346"), ("?platform=5", "24"), ("?platform=4&platform=5", "12346"), ("?platform=4,5", "12346"), ("?line=FL", "23"),
    ("?line=SL&platform=4", "14"), ("?stops=1&platform=4&line=FL,SL", "14"), ("?platform=9", ""), ("?platform=&line=", "123456"), ("?stops=0", "123456"), ("?rows=lines&platform=5", "2244"),
]


@pytest.fixture(scope="module")
def chosen(serves):
    return serves(CHOSEN)


@pytest.mark.parametrize("words, expected", CHOICES)
def test_choices(chosen, words, expected):
    page = chosen.page(f"/ASHFELD/{DAY}{words}")
    uids = [next(cell for cell in row if re.fullmatch(r"C\d{5}", cell)) for row in calls_of(page)]
    assert "".join(uid[-1] for uid in uids) == expected
    assert (element(page, "filtered") is not None) == (words not in ("", "?platform=&line=", "?stops=0"))


def test_choices_stay_in_the_address(chosen):
    """Each link to another day, list or form of rows keeps what the reader chose, and the form shows it."""
    page = chosen.page(f"/ASHFELD/{DAY}?stops=1&platform=4&platform=5&at=08:15")
    choice = "stops=1&platform=4&platform=5&at=08%3A15"
    for address in (f"/ASHFELD/2024-06-11?{choice}", f"/ASHFELD/2024-06-13?{choice}", f"/ASHFELD/{DAY}/changes?{choice}", f"/ASHFELD/{DAY}?rows=lines&{choice}"):
        assert f'href="{address.replace("&", "&amp;")}"' in page, address
    assert re.findall(r'name="(\w+)" value="([^"]*)" checked', page) == [("stops", "1"), ("platform", "4"), ("platform", "5")]
    assert re.findall(r'name="platform" value="([^"]*)"', page) == ["4", "5", "6"]
    assert re.findall(r'name="line" value="([^"]*)"', page) == ["FL", "SL", "UGL"]
    assert 'name="at" value="08:15"' in page


@pytest.mark.parametrize("words, address", [
    ("date=2024-06-15&at=17:30&stops=1", "/ASHFELD/2024-06-15?stops=1&at=17%3A30#now"), (f"date={DAY}&at=", "/ASHFELD"), (f"date={DAY}&at=0930", "/ASHFELD?at=09%3A30#now"),
    ("date=", "/ASHFELD"), (f"date={DAY}&only=changes", f"/ASHFELD/{DAY}/changes"), ("date=2024-06-31", "/ASHFELD/2024-06-31"), ("date=..%2f..", "/ASHFELD/..%2F.."),
    (f"date={DAY}&only=%2f%2fevil", "/ASHFELD"), (f"date={DAY}&rows=lines&platform=5", "/ASHFELD?rows=lines&platform=5"),
])
def test_a_day_is_picked(chosen, words, address):
    answer = chosen.get(f"/ASHFELD?{words}")
    assert (answer.status, answer.headers["Location"]) == (303, address)


def test_the_tag_has_the_choice(chosen):
    tags = [chosen.get(f"/ASHFELD/{DAY}{words}").headers["ETag"] for words, _ in CHOICES[:8]]
    assert len(set(tags)) == 7  # platform=4&platform=5 and platform=4,5 are one choice


def test_jump_to_a_time(chosen, chrome):
    """The list begins at the chosen time; what comes before is folded away, with and without a script."""
    chrome.open(chosen.address(f"/ASHFELD/{DAY}?at=08:15"))
    shown = "return [...document.querySelectorAll('#day tr')].filter(row => row.getBoundingClientRect().height).map(row => row.cells[1].textContent)"
    assert chrome.run(shown) == ["08:20", "08:32", "08:40", "09:00"]
    assert chrome.run("return document.getElementById('fold').textContent") == "▸ show 2 earlier"
    chrome.run("document.getElementById('fold').click()")
    assert len(chrome.run(shown)) == 6
    assert re.search(r'<tr id="now"[^>]*><td class="arr"><i>pass</i></td><td class="dep">08:20', chosen.page(f"/ASHFELD/{DAY}?at=08:15"))


def test_json_has_all_lines(chosen):
    """A reader's choice changes only pages."""
    assert json.loads(chosen.get(f"/ASHFELD/{DAY}.json?platform=5").text)["lines"] == json.loads(chosen.get(f"/ASHFELD/{DAY}.json").text)["lines"]
