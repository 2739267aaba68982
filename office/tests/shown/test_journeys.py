"""The page of a train that doesn't run as planned, and where a train calls, in a sentence."""
import re

import pytest

from extracts import DAY, NEXT, PLACES, WEDNESDAY, basic, call, end, extract, origin, passes, train
from pages_read import element, text_of

WEEK = "2406102406141111100"
# A permanent schedule on Wednesdays only, and its successor from July on.
SPRING, SUMMER = "2406032406300010000", "2407012412130010000"
PERMANENT = (origin("CORHAM", "0730"), call("ASHFELD", "0800", "0802", "1"), passes("DUNMERE", "0815H"), end("BRAYTON", "0830"))
TRAINS = extract(
    PLACES,
    # Cancelled on Wednesday, and cancelled on each Wednesday.
    train("A10001", *PERMANENT), basic("A10001", "C", WEDNESDAY, "    "),
    train("A10002", *PERMANENT, identity="1A11"), basic("A10002", "C", "2406032412130010000", "    "),
    # Altered on Wednesday: other times, another platform, no call at Dunmere, and a new call at Elstow.
    train("A10003", *PERMANENT, identity="1A12"),
    train("A10003", origin("CORHAM", "0735"), call("ASHFELD", "0805", "0807", "3"), call("ELSTOW", "0820", "0821"), end("BRAYTON", "0830"), indicator="O", days=WEDNESDAY, identity="1Z12"),
    # An overlay that changes nothing.
    train("A10004", *PERMANENT), train("A10004", *PERMANENT, indicator="O", days=WEDNESDAY),
    # Added for the week, and cancelled on Wednesday.
    train("A10005", *PERMANENT, indicator="N", days=WEEK, identity="1X05"), basic("A10005", "C", WEDNESDAY, "    "),
    # Of two permanent schedules, the one that is in force on the day counts.
    train("A10006", *PERMANENT, days=SPRING), train("A10006", origin("CORHAM", "1730"), end("BRAYTON", "1830"), days=SUMMER), basic("A10006", "C", WEDNESDAY, "    "),
    # Its only permanent day is cancelled, so no other day has its journey.
    train("A10007", *PERMANENT, days=WEDNESDAY), basic("A10007", "C", WEDNESDAY, "    "),
    # It passes midnight.
    train("A10008", origin("CORHAM", "2330"), call("ASHFELD", "2358", "0003"), end("BRAYTON", "0030")), basic("A10008", "C", WEDNESDAY, "    "),
    # Sentences: no public time, one stop, no stop but the end, and a working time with a half.
    train("A10009", origin("CORHAM", "0730H", public="0000"), call("ASHFELD", "0800", "0802", public="00000000"), end("BRAYTON", "0830", public="0000")),
    train("A10010", origin("CORHAM", "0730"), passes("ASHFELD", "0800"), end("BRAYTON", "0830")),
    train("A10011", origin("CORHAM", "0730"), call("ASHFELD", "0800", "0802", public="00000000"), call("DUNMERE", "0810", "0812"), end("BRAYTON", "0830")),
    train("A10012", *PERMANENT),
)


@pytest.fixture(scope="module")
def served(serves):
    return serves(TRAINS)


def journey_of(page):
    """Each row of a journey: its class, and the text of its cells up to the train's identity. What was before stands in brackets, and what is new between asterisks."""
    found = re.findall(r'<tbody class="call([^"]*)"[^>]*>\s*<tr>(.*?)</tr>', page, re.S)
    marked = [(kind.strip(), re.sub(r"<ins>(.*?)</ins>", r"*\1*", re.sub(r"<del>(.*?)</del>", r"[\1]", row))) for kind, row in found]
    return [(kind, *(text_of(cell) for cell in re.findall(r"<t[dh][^>]*>(.*?)</t[dh]>", row.partition('<td class="here">')[0], re.S))) for kind, row in marked]


CALLS = [
    ("", "Corham Exchange", "CORHAM", "", "07:30", "", "07:30", "2", "", "FL"), ("", "Ashfeld Junction", "ASHFELD", "08:00", "08:02", "08:00", "08:02", "1", "FL", "SL"),
    ("", "Dunmere Town", "DUNMERE", "", "08:15½ passes", "", "", "", "FL", "SL"), ("", "Brayton", "BRAYTON", "08:30", "", "08:30", "", "2", "FL", ""),
]


@pytest.mark.parametrize("uid, identity", [("A10001", "1A10"), ("A10002", "1A11"), ("A10005", "1X05"), ("A10006", "1A10")])
def test_cancelled(served, uid, identity):
    """The page of a cancelled train has the journey that the train would have had."""
    page = served.page(f"/train/{uid}/{DAY}")
    assert element(page, "cancelled") == "It is cancelled on this day. This is the journey that it would have had."
    assert journey_of(page) == [(*row, identity) for row in CALLS]
    assert element(page, "aloud") == "The 07:30 from Corham Exchange to Brayton would have called at Ashfeld Junction and Brayton."
    assert re.search(r'<table id="calls" class="cancelled">', page)


def test_cancelled_over_midnight(served):
    page = served.page(f"/train/A10008/{DAY}")
    assert [row[1:5] for row in journey_of(page)] == [("Corham Exchange", "CORHAM", "", "23:30"), ("Ashfeld Junction", "ASHFELD", "23:58", "00:03"), ("Brayton", "BRAYTON", "00:30", "")]
    assert "/BRAYTON/2024-06-13" in page


def test_cancelled_on_its_only_day(served):
    """No journey is made up."""
    page = served.page(f"/train/A10007/{DAY}")
    assert element(page, "cancelled") == "It is cancelled on this day. Its journey isn’t known: no other day has it."
    assert journey_of(page) == [] and element(page, "aloud") is None


def test_altered(served):
    """The page of an altered train has both journeys, with what differs marked."""
    assert journey_of(served.page(f"/train/A10003/{DAY}")) == [
        ("", "Corham Exchange", "CORHAM", "", "[07:30] *07:35*", "", "[07:30] *07:35*", "2", "", "FL", "[1A12] *1Z12*"),
        ("", "Ashfeld Junction", "ASHFELD", "[08:00] *08:05*", "[08:02] *08:07*", "[08:00] *08:05*", "[08:02] *08:07*", "[1] *3*", "FL", "SL", "[1A12] *1Z12*"),
        ("gone", "Dunmere Town", "DUNMERE", "", "08:15½ passes", "", "", "", "FL", "SL", "1A12 doesn’t pass here"),
        ("added", "ELSTOW", "ELSTOW", "08:20", "08:21", "08:20", "08:21", "1", "FL", "SL", "1Z12 added"),
        ("", "Brayton", "BRAYTON", "08:30", "", "08:30", "", "2", "FL", "", "[1A12] *1Z12*"),
    ]
    assert element(served.page(f"/train/A10003/{DAY}"), "plan") == "What differs from the permanent schedule is marked: before now."


@pytest.mark.parametrize("uid, day", [("A10004", DAY), ("A10012", DAY), ("A10003", NEXT), ("A10001", NEXT)])
def test_as_planned(served, uid, day):
    """Nothing is marked on the page of a train that runs as planned."""
    page = served.page(f"/train/{uid}/{day}")
    assert [row[:-1] for row in journey_of(page)] == CALLS
    assert "<del>" not in page.replace('<del>before</del>', "") and "<ins>" not in page.replace("<ins>now</ins>", "")


@pytest.mark.parametrize("uid, sentence", [
    ("A10012", "The 07:30 from Corham Exchange to Brayton calls at Ashfeld Junction and Brayton."), ("A10010", "The 07:30 from Corham Exchange to Brayton calls at Brayton only."),
    ("A10009", "The 07:30 from Corham Exchange to Brayton calls at Ashfeld Junction and Brayton, without public times."),
    ("A10011", "The 07:30 from Corham Exchange to Brayton calls at Dunmere Town and Brayton."),
])
def test_sentence(served, uid, sentence):
    assert element(served.page(f"/train/{uid}/{DAY}"), "aloud") == sentence


def test_no_end(serves):
    """A schedule without an end runs on each later day, and the page names no last day."""
    served = serves(extract(PLACES, train("A10001", *PERMANENT, days="2406039999991111111"), basic("A10001", "C", WEDNESDAY, "    ")))
    assert len(journey_of(served.page(f"/train/A10001/{DAY}"))) == 4
    assert "This schedule runs from 2024-06-03, each day." in text_of(served.page(f"/train/A10001/{NEXT}"))


def test_permanent_is_checked(serves):
    """A schedule of another day is the planned one only if the permanent dockers of this day have each of its events. Here a later permanent schedule is in force on Wednesday
    only, which no other day shows."""
    served = serves(extract(
        PLACES, train("A10001", *PERMANENT), train("A10001", origin("CORHAM", "0740"), call("ASHFELD", "0810", "0812"), end("BRAYTON", "0830"), days=WEDNESDAY),
        basic("A10001", "C", WEDNESDAY, "    "),
    ))
    assert element(served.page(f"/train/A10001/{DAY}"), "cancelled").endswith("no other day has it.")
