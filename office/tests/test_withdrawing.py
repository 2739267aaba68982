"""`withdraw` and `restore` never leave an office empty without --force, and each office gets the newest full extract itself."""
import shutil
import subprocess

import pytest
from offices import STATION, digest, extract

FULL = extract("DFROC1F", "2024-06-07T21:00", "DFROC1E", schedules=20)
MONDAY = extract("DFROC1G", "2024-06-10T21:00", "DFROC1F", kind="U", schedules=2, departs="0905")
TUESDAY = extract("DFROC1H", "2024-06-11T21:00", "DFROC1G", kind="U", schedules=1, prefix="B")


@pytest.fixture
def north(offices):
    """An office that got the full extract by a merge, and the updates itself. None of its copies has the full extract without the updates."""
    north, south = offices.office("north"), offices.office("south")
    north.take("monday.cif", MONDAY)
    south.take("full.cif", FULL)
    south.run("send")
    north.run("merge")
    return north


def test_an_office_is_not_emptied(offices, north):
    """Without a word nothing is changed, and nothing is sent."""
    before = digest(north.state)
    said = north.run("withdraw", "DFROC1G", status=1)[1]
    offices.says(said, "it would have 0 of 20 schedules")
    offices.says(said, "it would lack the full extract DFROC1F of 2024-06-07 21:00")
    offices.says(said, "it would leave 0 of 20 schedules")
    assert (digest(north.state), north.sent().exists(), (north.folder / "withdrawn").exists()) == (before, False, False)
    north.run("withdraw", "DFROC1G", force=True, status=5)
    assert (north.known(), north.sent().exists()) == ([], True)


def test_it_asks_at_a_terminal(offices):
    north = offices.office("north")
    north.take("full.cif", FULL)
    north.take("monday.cif", MONDAY)
    command = f"{STATION} --now 2024-06-12T06:00 withdraw {north.state} DFROC1G"
    for answer, status in (("n", 1), ("y", 0)):
        before = digest(north.state)
        ended = subprocess.run(["script", "-qec", f"env MAX_AGE=999 {command}", "/dev/null"], input=f"{answer}\n", capture_output=True, text=True, check=False)
        offices.says(ended.stdout, "it would have 20 of 20 schedules, 0 of 0 associations, 2 of 2 places")
        offices.says(ended.stdout, "Withdraw DFROC1G? [y/N]")
        assert (ended.returncode, digest(north.state) == before, (north.folder / "withdrawn").exists()) == (status, answer == "n", answer == "y")
    assert north.state.read_bytes() == offices.made_of(FULL)


def test_the_full_extract_is_asked_for(offices):
    """The full extract came with another office's state. Two mornings later it is in taken/, and STATE can be made anew of it."""
    north, south, east = (offices.office(name) for name in ("north", "south", "east"))
    south.put("full.cif", FULL)
    south.morning()
    north.put("monday.cif", MONDAY)
    said = north.morning()[1]
    offices.says(said, "the full extract DFROC1F of 2024-06-07 21:00 came with another office's state, so the other offices are asked for it")
    east.morning()
    requests = sorted(f"2024-06-07-2100-DFROC1F.{office.name()}.wanted" for office in (north, east))
    assert sorted(path.name for path in (offices.swap / "wanted").iterdir()) == requests
    offices.says(south.morning()[1], "another office wants the full extract DFROC1F of 2024-06-07 21:00")
    said = north.morning()[1]
    offices.says(said, "the full extract DFROC1F of 2024-06-07 21:00 is kept in taken/ now")
    east.morning()
    assert [line.split()[2] for office in (north, east) for line in (office.folder / "taken" / "list").read_text().splitlines()] == ["DFROC1G", "DFROC1F", "DFROC1F"]
    south.morning()
    assert list((offices.swap / "wanted").iterdir()) == []
    shutil.rmtree(north.folder / "copies")
    north.run("withdraw", "DFROC1G")
    assert north.state.read_bytes() == offices.made_of(FULL)


@pytest.mark.parametrize("reference", ["A/B.C~D", "..", "%41", " X"])
def test_references_in_names(offices, reference):
    """A reference may have any characters."""
    north, south = offices.office("north"), offices.office("south")
    south.put("full.cif", extract(reference, "2024-06-07T21:00", schedules=20))
    south.morning()
    for office in (north, south, north):
        office.morning()
    assert len(list((offices.swap / "wanted").iterdir())) == 1
    assert len([name for name in north.list("taken") if name != "list"]) == 1
    assert sorted(path.name for path in offices.root.iterdir()) == ["north", "south", "swap"]


def test_another_extract_is_not_kept(offices):
    """What is put into wanted/ has to be what STATE knows."""
    north, south = offices.office("north"), offices.office("south")
    south.put("full.cif", FULL)
    south.morning()
    north.morning()
    place = offices.swap / "wanted" / "2024-06-07-2100-DFROC1F"
    for content in (extract("DFROC1F", "2024-06-07T21:00", "DFROC1E", schedules=19), extract("DFROC1F", "2024-06-06T21:00", schedules=20), FULL[:500]):
        place.write_bytes(content)
        north.morning(status=1)
        assert "list" not in north.list("taken")
        assert place.exists()
    place.write_bytes(FULL)
    north.morning()
    assert "list" in north.list("taken")


def test_a_withdrawn_file_is_not_missing(offices):
    """A withdrawn file isn't reported as missing. A later file with the same reference is, if an update names it and it hasn't come."""
    north = offices.office("north")
    for name, content in (("full.cif", FULL), ("monday.cif", MONDAY), ("tuesday.cif", TUESDAY)):
        north.take(name, content)
    north.run("withdraw", "DFROC1G")
    out, _ = north.run("known")
    assert out.splitlines()[1:] == ["withdrawn: DFROC1G, which comes before the update DFROC1H of 2024-06-11 21:00"]
    offices.says(north.morning()[1], f"station-office: {north.state}: withdrawn: DFROC1G")
    north.take("later.cif", extract("DFROC1K", "2024-06-12T05:00", "DFROC1G", kind="U", schedules=1, prefix="C"))
    offices.says(north.run("known", status=5)[0], "missing: DFROC1G, which comes before the update DFROC1K of 2024-06-12 05:00")


def test_nothing_is_sent_if_swap_is_gone(offices):
    """The file is withdrawn all the same."""
    north = offices.office("north")
    north.take("full.cif", FULL)
    north.take("monday.cif", MONDAY)
    shutil.rmtree(offices.swap)
    offices.says(north.run("withdraw", "DFROC1G", status=4)[1], "swap: it can't be read: No such file or directory")
    assert north.state.read_bytes() == offices.made_of(FULL)
