"""What `station-office` says of days that aren't covered, and what changed since an earlier time: on the command line, in the morning, and on pages."""
import json
import pathlib
import re
import subprocess
import time

import pytest

from extracts import DAY, NEXT, PLACES, WEDNESDAY, basic, call, deleted, end, extract, origin, train, update
from offices_run import Office
from pages_read import element, times_of
from serving import DESK, Server, docker

THIRD = "2024-06-14"
FULL = extract(
    PLACES,
    train("A10001", origin("CORHAM", "0900"), call("ASHFELD", "0935", "0936", "9"), end("BRAYTON", "1000")),
    train("A10002", origin("CORHAM", "1000"), call("ASHFELD", "1035", "1036"), end("BRAYTON", "1100")),
    train("A10003", origin("CORHAM", "1100"), call("ASHFELD", "1135", "1136"), end("BRAYTON", "1200")),
    train("A10004", origin("CORHAM", "1200"), call("ASHFELD", "1235", "1236"), end("BRAYTON", "1300")),
)
# A permanent revision: the short-term plan has no part in it. Train 2 is cancelled on Wednesday,
# train 3 is deleted, and train 5 is new.
REVISION = update(
    deleted("A10001"), deleted("A10003"), basic("A10002", "C", WEDNESDAY, "    "),
    train("A10001", origin("CORHAM", "0900"), call("ASHFELD", "0937", "0938", "12"), end("BRAYTON", "1000")),
    train("A10005", origin("CORHAM", "1300"), call("ASHFELD", "1335", "1336"), end("BRAYTON", "1400"), indicator="N", days=WEDNESDAY),
)
GONE = ["0935  A 1A10 A10001", "0936  D 1A10 A10001", "1035  A 1A10 A10002", "1036  D 1A10 A10002", "1135  A 1A10 A10003", "1136  D 1A10 A10003"]
NEW = ["0937  A 1A10 A10001", "0938  D 1A10 A10001", "1335  A 1A10 A10005", "1336  D 1A10 A10005"]


@pytest.fixture
def office(tmp_path):
    return Office(tmp_path)


def blocks(printed):
    """The dockers that were printed: the lines above each heading, the heading, and the lines below it."""
    found = []
    for line in printed.splitlines():
        if line.startswith("# "):
            if not found or found[-1][1]:
                found.append(([], []))
            found[-1][0].append(line[2:])
        else:
            found[-1][1].append(line)
    return found


def marked(printed, mark, place="ASHFELD"):
    """The lines with a mark under the headings of a place, up to their UIDs."""
    return [line[2:21] for _, (heading, *lines) in blocks(printed) if heading.startswith(f"DOCKER {place}") for line in lines if line.startswith(mark)]


def test_each_docker_says_what_is_known(office):
    office.morning(FULL)
    printed, said = office.run("print", DAY, now=f"{DAY}T06:30")
    assert [heads for heads, _ in blocks(printed)] == [["Made 2024-06-12 06:30. Known up to full extract DFROC1F of 2024-06-11 21:00.", "This day is covered."]] * 2
    assert said == ""
    for place, (_, lines) in zip(("ASHFELD", "BRAYTON"), blocks(printed)):
        assert "\n".join(lines) + "\n" == docker("print", office.state, place, DAY).decode()


@pytest.mark.parametrize("day, why", [
    ("2024-06-10", "This day lies before the full extract DFROC1F of 2024-06-11 21:00. Trains that ran for the last time before it are missing here."),
    ("2024-12-14", "This day lies after 2024-12-13, the last day of the schedules that were taken. Most of its trains aren't known yet."),
])
def test_a_day_that_is_not_covered(office, day, why):
    """A day that isn't covered is reported with status 5, also above its dockers, and nothing says that nothing differs."""
    office.morning(FULL)
    for words in (("print", day), ("changes", day), ("morning", day)):
        printed, said = office.run(*words, status=5)
        assert f"station-office: {day}: it isn't covered. {why}" in said, words
        assert "nothing differs" not in said and "nothing changed" not in said.replace(f"{NEXT}: nothing changed", ""), words
        for heads, _ in blocks(printed):
            assert heads[1:3] == ["This day isn't covered.", why], words
    printed, said = office.run("print", DAY, day, status=5)
    assert len(blocks(printed)) == 4 and f"{DAY}: it isn't covered" not in said
    assert "nothing differs" in office.run("changes", DAY)[1]
    assert "nothing differs" not in office.run("changes", day, status=5)[1]


def test_a_refused_day(office):
    """A day before the horizon is refused with status 1, and isn't also reported as uncovered."""
    office.morning(FULL)
    office.run("horizon", "2024-06-01")
    for words in (("print", "2024-06-03"), ("changes", "2024-06-03")):
        said = office.run(*words, status=1)[1]
        assert "day refused" in said and "isn't covered" not in said
    office.run("print", "2024-06-04", status=5)


def test_nothing_is_known(office):
    printed, said = office.run("print", DAY, status=5)
    assert f"{DAY}: it isn't covered. Nothing is known: no extract was taken." in said
    assert blocks(printed)[0][0] == ["Made 2024-06-12 05:00. Nothing is known.", "This day isn't covered.", "Nothing is known: no extract was taken."]


def test_a_missing_update_is_on_paper(office):
    office.morning(FULL)
    office.morning(update(basic("A10002", "C", WEDNESDAY, "    "), reference="DFROC1H", last="DFROC1G"), status=5)
    assert any(head.startswith("Missing: DFROC1G") for head in blocks(office.run("print", DAY)[0])[0][0])


@pytest.fixture
def revised(office):
    """An office that printed a day before and after a permanent revision. The copy has STATE as it was before."""
    office.morning(FULL, now="2024-06-11T22:30")
    office.run("print", DAY)
    time.sleep(1.1)
    office.before = time.time()
    time.sleep(1.1)
    office.put(REVISION)
    office.run("take")
    return office


def test_nothing_is_written_elsewhere(revised, tmp_path_factory):
    """The earlier STATE is unpacked in the office's folder, and removed again. So is what a run that was killed has left."""
    folder = tmp_path_factory.mktemp("desk")
    wrapper = folder / "desk"
    wrapper.write_text(f'#!/bin/sh\necho "$@" >>{folder}/asked\nexec {DESK} "$@"\n')
    wrapper.chmod(0o755)
    left = revised.folder / ".north.state.since"
    left.mkdir()
    (left / "large").touch()
    revised.since(revised.copies()[-1], revised.state, DAY, DESK=str(wrapper))
    asked = {pathlib.Path(line) for line in (folder / "asked").read_text().splitlines()}
    assert {path.is_relative_to(revised.folder) for path in asked} == {True} and len(asked) == 2
    assert not left.exists()


def british(seconds):
    return subprocess.run(["date", "-d", f"@{seconds}", "+%Y-%m-%dT%H:%M:%S"], env={"TZ": "Europe/London"}, capture_output=True, check=True, text=True).stdout.strip()


@pytest.mark.parametrize("when", ["print", "nothing", "copy", "time"])
def test_a_permanent_revision_is_seen(revised, when):
    """The lines that are gone and new are printed with their numbers, whichever way the earlier time is named."""
    words = {"print": ["print"], "nothing": [], "copy": [revised.copies()[-1]], "time": [british(revised.before)]}[when]
    printed, said = revised.since(*words, revised.state, DAY)
    assert (marked(printed, "-"), marked(printed, "+"), said) == (GONE, NEW, "")
    assert re.match(r"6 lines gone and 4 new since .+", blocks(printed)[0][0][2])
    assert "2024-06-12 05:00, when it was last printed" in printed or when not in ("print", "nothing")
    assert marked(printed, "-", "BRAYTON") == ["1100  A 1A10 A10002", "1200  A 1A10 A10003"]
    # What differs from the permanent timetable is something else: there, train 1 isn't in it.
    printed, _ = revised.run("changes", DAY)
    assert marked(printed, "-") == ["1035  A 1A10 A10002", "1036  D 1A10 A10002"] and marked(printed, "+") == ["1335  A 1A10 A10005", "1336  D 1A10 A10005"]


def test_printing_again_starts_anew(revised):
    """`print` compares with what was printed last, for each day by itself."""
    revised.run("print", DAY, now=f"{DAY}T07:00")
    assert revised.since(revised.state, DAY) == ("", f"station-office: {DAY}: nothing changed since 2024-06-12 07:00, when it was last printed\n")
    printed, said = revised.since(revised.state, DAY, NEXT, status=1)
    assert printed == "" and f"{NEXT}: no docker of this day was printed here: name a copy or a time" in said


def test_a_place_that_was_not_printed(revised):
    (revised.folder / "places").write_text("ASHFELD\nCORHAM\n")
    printed, said = revised.since(revised.state, DAY, status=1)
    assert marked(printed, "+") == NEW and f"CORHAM: its docker of {DAY} wasn't printed here" in said
    # The dockers of other places are kept as they were last printed.
    revised.run("print", DAY)
    (revised.folder / "places").write_text("BRAYTON\n")
    assert marked(revised.since(revised.state, DAY)[0], "-", "BRAYTON") == ["1100  A 1A10 A10002", "1200  A 1A10 A10003"]


@pytest.mark.parametrize("words, status, said", [
    (["nowhere.zst"], 4, "nowhere.zst: there is no such file; a time is written YYYY-MM-DDTHH:MM"), (["2020-01-01T00:00"], 1, "no copy of STATE is that old"),
    (["2099-01-01T00:00"], 0, "nothing changed since 2099-01-01T00:00"),
])
def test_times_without_a_copy(revised, words, status, said):
    assert said in revised.since(*words, revised.state, DAY, status=status)[1]


def test_wrong_words(revised):
    for words in ([], [revised.state], ["print", revised.state], [revised.state, "12/06/2024"]):
        revised.since(*words, status=2)


def test_mornings(office):
    """A morning says what changed today and tomorrow since an earlier morning, and how to print it. The first morning can't say it."""
    said = office.morning(FULL, now="2024-06-11T22:30")[1]
    for day in ("2024-06-11", DAY):
        assert f"{day}: no earlier morning kept its dockers, so what changed since then isn't known" in said
    said = office.morning(now="2024-06-12T05:00")[1]
    assert f"{DAY}: nothing changed since 2024-06-11 22:30" in said and f"{NEXT}: nothing changed since 2024-06-11 22:30" in said
    time.sleep(0.1)
    said = office.morning(REVISION, now="2024-06-13T05:00")[1]
    # On Thursday, trains 1 and 3 lose two lines each at the junction, and train 3 loses one at its end. Train 1 gets two others.
    assert re.search(rf"{NEXT}: 5 lines gone and 2 new at 2 of 2 places since 2024-06-12 05:00; `station-office changes --since (\S+) {office.state} {NEXT}` prints them", said), said
    command = re.search(rf"`station-office (changes --since \S+ \S+ {THIRD})` prints them", said)[1].split()
    printed, _ = office.run(*command)
    assert marked(printed, "-") == [*GONE[:2], *GONE[4:]] and marked(printed, "+") == NEW[:2]


def test_two_mornings_of_a_day(office):
    """A second morning of the same day compares with the day before, too."""
    office.morning(FULL, now="2024-06-11T22:30")
    for hour in ("05", "06"):
        assert "since 2024-06-11 22:30" in office.morning(REVISION if hour == "05" else None, now=f"{DAY}T{hour}:00")[1]


@pytest.fixture
def shown(office):
    """A server of the pages after the mornings of two days. The second one brought the revision."""
    office.morning(FULL, now="2024-06-11T22:30")
    office.morning(REVISION, now=f"{DAY}T05:00")
    (office.folder / "office.state").symlink_to(office.state)
    server = Server(office.folder, f"{DAY}T08:55")
    yield server
    server.ends()


def new_of(page):
    return [row for row, mark in zip(times_of(page), re.findall(r"<tr[^>]*data-at[^>]*>(.*?)</tr>", page, re.S)) if 'class="fresh"' in mark]


def test_pages_mark_what_is_new(shown):
    """Rows that the morning before the last one didn't know are marked. The page counts them, and leads to a list with the lines that were lost."""
    page = shown.page(f"/ASHFELD/{DAY}")
    assert new_of(page) == [("09:37", "09:38", "A10001"), ("10:35", "10:36", "A10002"), ("13:35", "13:36", "A10005")]
    assert element(page, "news") == "4 new and 6 lost lines since Tuesday 11 June, 22:30"
    assert f'<a href="/ASHFELD/{DAY}/new">' in page
    for words in ("", "?rows=lines"):
        page = shown.page(f"/ASHFELD/{DAY}/new{words}")
        assert element(page, "only") == "Only what is new or lost since Tuesday 11 June, 22:30. All trains"
    assert times_of(shown.page(f"/ASHFELD/{DAY}/new")) == [
        ("09:35", "09:36", "A10001"), ("09:37", "09:38", "A10001"), ("10:35", "10:36", "A10002"), ("11:35", "11:36", "A10003"), ("13:35", "13:36", "A10005"),
    ]
    notes = re.findall(r'<td class="change">(.*?)</td>', shown.page(f"/ASHFELD/{DAY}/new"))
    assert [re.sub("<[^>]*>", "", note) for note in notes] == ["no longer", "new", "cancelled new", "no longer", "added new"]


def test_tomorrow_and_other_days(shown):
    """Tomorrow is compared too. Of a day that no earlier morning kept, nothing is said."""
    assert new_of(shown.page(f"/ASHFELD/{NEXT}")) == [("09:37", "09:38", "A10001")]
    page = shown.page("/ASHFELD/2024-06-20")
    assert element(page, "news") is None and "fresh" not in page[page.index("<table"):]
    answer = shown.get("/ASHFELD/2024-06-20/new")
    assert answer.status == 404 and "it isn’t known what is new" in answer.text
    assert shown.get(f"/CORHAM/{DAY}/new").status == 404


def test_json_has_what_is_new(shown):
    told = json.loads(shown.get(f"/ASHFELD/{DAY}.json").text)
    assert (told["news"]["since"], told["news"]["new"]) == ("2024-06-11T22:30:00", 4)
    assert [f"{line['time']:<5} {line['kind']} {line['train']} {line['uid']}" for line in told["news"]["lost"]] == GONE
    assert [f"{line['time']:<5} {line['kind']} {line['train']} {line['uid']}" for line in told["lines"] if line["is_new"]] == NEW
    assert "news" not in json.loads(shown.get("/ASHFELD/2024-06-20.json").text)


def test_nothing_is_new(office):
    """After a morning that brought nothing, the page says that nothing is new."""
    office.morning(FULL, now="2024-06-11T22:30")
    office.morning(now=f"{DAY}T05:00")
    (office.folder / "office.state").symlink_to(office.state)
    server = Server(office.folder, f"{DAY}T08:55")
    try:
        assert "Nothing is new or lost here on Wednesday 12 June 2024." in server.page(f"/ASHFELD/{DAY}/new")
        assert element(server.page(f"/ASHFELD/{DAY}"), "news") is None
        # An update that is taken later on the same day is new too.
        server.take(REVISION)
        assert element(server.page(f"/ASHFELD/{DAY}"), "news") == "4 new and 6 lost lines since Tuesday 11 June, 22:30"
    finally:
        server.ends()
