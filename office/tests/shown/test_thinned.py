"""A docker that a change left with few lines: its page, its other forms and its paper say so, with the file, the place, the day and both numbers."""
import json
import re
import subprocess

import pytest

from extracts import DAY, NEXT, PLACES, WEDNESDAY, basic, call, deleted, end, extract, origin, train, update
from offices_run import Office
from pages_read import links_of, text_of
from serving import Server

UIDS = [f"A1000{number}" for number in range(1, 5)]
FULL = extract(PLACES, *(train(uid, origin("CORHAM", f"0{number}00"), call("ASHFELD", f"0{number}35", f"0{number}36"), end("BRAYTON", f"0{number}59")) for number, uid in enumerate(UIDS, 5)))
THURSDAY = "2406132406130001000"
# Of the eight lines at ASHFELD, and of the four at BRAYTON, one train's are left.
STRIKE = update(*(basic(uid, "C", WEDNESDAY, "    ") for uid in UIDS[:3]))
TOMORROW = update(*(basic(uid, "C", THURSDAY, "    ") for uid in UIDS[:3]))
DELETION = update(*map(deleted, UIDS[:3]))
CAUSE = "update DFROC1G of 2024-06-11 22:00"
SENTENCE = f"The docker of Ashfeld Junction on Wednesday 12 June 2024 has 2 of 8 lines since the {CAUSE}."


@pytest.fixture
def office(tmp_path):
    found = Office(tmp_path)
    found.morning(FULL)
    return found


@pytest.fixture
def shows(tmp_path):
    """Serves the pages of an office."""
    servers = []

    def showing(office, now=f"{DAY}T08:55"):
        (office.folder / "office.state").unlink(missing_ok=True)
        (office.folder / "office.state").symlink_to(office.state)
        servers.append(Server(office.folder, now))
        return servers[-1]

    yield showing
    for server in servers:
        server.ends()


def few(page):
    """What a page says of dockers with few lines."""
    return [text_of(found) for found in re.findall(r'<p class="warning thinned[^"]*">(.*?)</p>', page)]


def taken(office, text, **how):
    office.put(text)
    office.run("take", status=5, **how)


def test_a_page_says_it(office, shows):
    taken(office, STRIKE)
    served = shows(office)
    for path in ("/ASHFELD", f"/ASHFELD/{DAY}", f"/ASHFELD/{DAY}/changes", f"/ASHFELD/{DAY}?rows=lines", "/ASHFELD?platform=9"):
        assert few(served.page(path)) == [f"{SENTENCE} A strike looks like that, and so does a wrong file."], path
    assert few(served.page(f"/BRAYTON/{DAY}")) == [
        f"The docker of Brayton on Wednesday 12 June 2024 has 1 of 4 lines since the {CAUSE}. A strike looks like that, and so does a wrong file."]
    # CORHAM isn't in the office's list, so its dockers aren't judged.
    for path in (f"/ASHFELD/{NEXT}", f"/CORHAM/{DAY}", "/CORHAM"):
        assert few(served.page(path)) == [], path


def test_the_next_day(office, shows):
    """The next trains go on with tomorrow's, so they say it of tomorrow too."""
    taken(office, TOMORROW)
    served = shows(office)
    for path in ("/ASHFELD", f"/ASHFELD/{NEXT}"):
        assert [it[:74] for it in few(served.page(path))] == ["The docker of Ashfeld Junction on Thursday 13 June 2024 has 2 of 8 lines s"], path
    assert few(served.page(f"/ASHFELD/{DAY}")) == []


def test_json_has_it(office, shows):
    taken(office, STRIKE)
    served = shows(office)
    told = json.loads(served.get(f"/ASHFELD/{DAY}.json").text)
    assert told["thinned"] == [{"file": CAUSE, "place": "ASHFELD", "date": DAY, "before": 8, "after": 2}]
    assert told["warnings"] == [f"This docker has 2 of 8 lines since the {CAUSE}."]
    assert json.loads(served.get(f"/ASHFELD/{NEXT}.json").text)["thinned"] == []


def test_it_is_not_said_that_nothing_differs(office, shows):
    """If the permanent schedules themselves are deleted, the docker is as in the permanent timetable, and few lines are left of it."""
    taken(office, DELETION, HELD_BELOW="0")
    served = shows(office)
    for path in ("/ASHFELD", f"/ASHFELD/{DAY}", f"/ASHFELD/{DAY}/changes"):
        assert few(served.page(path))[0].startswith(SENTENCE), path
        assert not re.search("As in the permanent timetable|Nothing differs", served.page(path)), path
    for command in (("changes", DAY), ("morning",)):
        said = office.run(*command, status=0 if command[0] == "changes" else 5)[1]
        assert f"{DAY}: nothing differs" not in said, command
    assert "nothing differs" in office.run("changes", "2024-06-16")[1]


def test_the_list_of_places(office, shows):
    taken(office, STRIKE)
    page = shows(office).page("/")
    assert links_of(page, "found") == ["/ASHFELD", f"/ASHFELD/{DAY}", "/BRAYTON", f"/BRAYTON/{DAY}"]
    assert re.findall(r">(\d+ of \d+ lines on [\d-]+)<", page) == [f"2 of 8 lines on {DAY}", f"1 of 4 lines on {DAY}"]


def test_a_page_is_renewed(office, shows):
    """An open page, and who asks for .json again, get another answer if the file `thinned` changes."""
    taken(office, STRIKE)
    served = shows(office)
    paths = ("/ASHFELD", f"/ASHFELD/{DAY}", f"/ASHFELD/{DAY}.json")
    before = [served.get(path).headers["ETag"] for path in paths]
    (office.folder / "thinned").unlink()
    after = [served.get(path).headers["ETag"] for path in paths]
    assert not set(before) & set(after)
    assert few(served.page("/ASHFELD")) == []


def test_it_ends_with_its_day(office, shows):
    taken(office, STRIKE)
    assert few(shows(office, f"{NEXT}T08:55").page(f"/ASHFELD/{DAY}")) == []


def sheets_of(chrome, folder, address):
    """The text of each sheet, with single spaces."""
    chrome.open(address)
    (folder / "paper.pdf").write_bytes(chrome.paper())
    text = subprocess.run(["pdftotext", "-layout", folder / "paper.pdf", "-"], capture_output=True, check=True, text=True).stdout
    return [re.sub(r"\s+", " ", sheet).strip() for sheet in text.split("\f")[:-1]]


def test_paper(office, shows, chrome, tmp_path):
    """The first sheet has the sentence, and the foot of each sheet has both numbers and the file. What is said of tomorrow isn't on today's sheets."""
    taken(office, STRIKE)
    served = shows(office)
    chrome.sized(718, 1047)
    foot = r"This day is covered\. It has 2 of 8 lines since the update DFROC1G of 2024-06-11 22:00\.$"
    for path, is_few in (("/ASHFELD", True), (f"/ASHFELD/{DAY}", True), (f"/ASHFELD/{NEXT}", False)):
        sheets = sheets_of(chrome, tmp_path, served.address(path))
        assert (SENTENCE in sheets[0]) == is_few, path
        assert all(re.search(foot if is_few else r"This day is covered\.$", sheet) for sheet in sheets), path
    taken(office, update(*(basic(uid, "C", THURSDAY, "    ") for uid in UIDS[:3]), time="2300", reference="DFROC1H", last="DFROC1G"))
    sheets = sheets_of(chrome, tmp_path, served.address("/ASHFELD"))
    assert SENTENCE in sheets[0] and "13 June" not in sheets[0]


def test_files_of_dockers(office):
    """The text and the page in dockers/ say it too."""
    (office.folder / "dockers").mkdir()
    office.morning(STRIKE, status=5)
    day = office.folder / "dockers" / DAY
    assert f"# This docker has 2 of 8 lines since the {CAUSE}.\nDOCKER ASHFELD" in (day / "ASHFELD.txt").read_text()
    assert few((day / "ASHFELD.html").read_text())[0].startswith(SENTENCE)
