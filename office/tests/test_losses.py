"""A change of STATE is judged by what it leaves: of STATE, and of the dockers of the office's places."""
import datetime
import os
import subprocess

import pytest
from offices import NOW, PLACES, STATION, digest, docker
from timetable import Call, association, cancellation, deletion, extract, header, place, schedule

UIDS = [f"A{number:05}" for number in range(40)]
TODAY = NOW.date()
# Every train calls at ASHFELD and BRAYTON, and every fourth one at CORHAM too.
CALLS = [Call("ASHFELD", "", "0900"), Call("BRAYTON", "0930", "")]
LONG = [CALLS[0], Call("CORHAM", "0910", "0911"), CALLS[1]]
FULL = extract(
    header("DFROC1F", "2024-06-10T21:00", "DFROC1E", "F"), *map(place, ("ASHFELD", "BRAYTON", "CORHAM", "DUNMERE")),
    *(association(one, other) for one, other in zip(UIDS[:4], UIDS[4:8])), *(schedule(uid, LONG if number < 24 else CALLS) for number, uid in enumerate(UIDS)),
)


def update(*parts, reference="DFROC1G", moment="2024-06-11T21:00", last="DFROC1F"):
    return extract(header(reference, moment, last), *parts)


def deleting(number, **how):
    """An update that deletes this number of schedules."""
    return update(*map(deletion, UIDS[:number]), **how)


CANCELLING = update(*(cancellation(uid, TODAY) for uid in UIDS))


@pytest.fixture
def north(offices):
    """An office that has the full extract."""
    office = offices.office("north")
    office.take("full.cif", FULL)
    return office


def held(offices, office, content, *reason, **how):
    """Checks that a file is held with this reason, that STATE stays as it is, and that the command which the message names takes the file."""
    before = digest(office.state)
    said = office.take("wrong.cif", content, status=1, **how)
    offices.says(said, "in/wrong.cif", *reason)
    path = office.folder / "held" / "wrong.cif.zst"
    offices.says(said, f"`station-office --force take {office.state} {path}` takes it all the same")
    assert (digest(office.state), office.list("in")) == (before, [])
    assert reason[0] in (office.folder / "held" / "wrong.cif.why").read_text()
    office.run("take", path, force=True)
    assert office.state.read_bytes() == offices.made_of(FULL, content)


def test_a_deleting_update_is_held(offices, north):
    held(offices, north, deleting(40), "it would leave 0 of 40 schedules")


def test_half_of_the_schedules_may_go(offices, north):
    """An update that deletes half of the schedules isn't held. One that deletes one more is."""
    north.take("half.cif", deleting(20), HELD_BELOW="50", REPORTED_BELOW="0")
    assert north.known() == ["DFROC1F", "DFROC1G"]
    south = offices.office("south")
    south.take("full.cif", FULL)
    held(offices, south, deleting(21), "it would leave 19 of 40 schedules")


def test_associations_are_counted(offices, north):
    without = [association(one, other, transaction="D") for one, other in zip(UIDS[:3], UIDS[4:8])]
    held(offices, north, update(*without), "it would leave 1 of 4 associations")


def test_places_are_counted(offices, north):
    held(offices, north, update(*(place(code, identity="TD") for code in ("BRAYTON", "CORHAM", "DUNMERE"))), "it would leave 1 of 4 places")


def test_each_place_of_the_office_is_judged(offices, north):
    """Of all schedules more than half stay, but of the 24 that call at CORHAM only 11."""
    (north.folder / "places").write_text(f"{PLACES}CORHAM\n")
    held(offices, north, deleting(13), "of the schedules that call at a place it would leave 11 of 24 at CORHAM")


def test_other_places_are_not_judged(offices, north):
    """CORHAM isn't in the office's list."""
    north.take("other.cif", deleting(13))
    assert north.known() == ["DFROC1F", "DFROC1G"]


def test_small_places_are_not_judged(north):
    """A place with fewer schedules than CALLS_FROM isn't judged."""
    (north.folder / "places").write_text(f"{PLACES}CORHAM\n")
    north.take("other.cif", deleting(13), status=5, CALLS_FROM="25")
    assert north.known() == ["DFROC1F", "DFROC1G"]


def test_a_deleted_place_of_the_office_is_held(offices, north):
    """Nobody could say then how many schedules call there."""
    held(offices, north, update(place("ASHFELD", identity="TD")), "it would delete ASHFELD, where 40 schedules call")


def test_many_places_make_one_line(offices):
    codes = [f"P{number}" for number in range(6)]
    calls = [Call(code, f"09{number}1", f"09{number}2") for number, code in enumerate(codes)]
    full = extract(header("DFROC1F", "2024-06-10T21:00", "", "F"), *map(place, codes), *(schedule(uid, calls) for uid in UIDS))
    north = offices.office("north")
    (north.folder / "places").write_text("".join(f"{code}\n" for code in codes))
    north.take("full.cif", full)
    said = north.take("wrong.cif", deleting(40), status=1)
    offices.says(said, "of the schedules that call at a place it would leave 0 of 40 at P0, 0 of 40 at P1, 0 of 40 at P2, and too few at 3 more places")


def test_a_run_is_judged_as_a_whole(offices, north):
    """Two updates of one morning, each of which leaves more than half, don't leave less together."""
    north.put("one.cif", deleting(16))
    north.put("two.cif", update(*map(deletion, UIDS[16:28]), reference="DFROC1H", last="DFROC1G", moment="2024-06-11T22:00"))
    said = north.run("take", status=1, REPORTED_BELOW="0")[1]
    offices.says(said, "two.cif", "it would leave 12 of 40 schedules")
    assert north.known() == ["DFROC1F", "DFROC1G"]


def test_shares_are_settings(offices, north):
    held(offices, north, deleting(5), "it would leave 35 of 40 schedules", HELD_BELOW="90")
    for name in ("HELD_BELOW", "REPORTED_BELOW"):
        offices.says(north.run("known", status=2, **{name: "101"})[1], name, "'101' is no number from 0 to 100")


def test_a_full_extract_without_a_place_is_held(offices, north):
    """The new extract has as many schedules as the last one, but the trains call somewhere else."""
    elsewhere = [Call("DUNMERE", "", "0900"), CALLS[1]]
    content = extract(
        header("DFROC1T", "2024-06-11T21:00", "", "F"), *map(place, ("ASHFELD", "BRAYTON", "CORHAM", "DUNMERE")),
        *(association(one, other) for one, other in zip(UIDS[:4], UIDS[4:8])), *(schedule(uid, elsewhere) for uid in UIDS),
    )
    said = north.take("wrong.cif", content, status=1)
    offices.says(said, "of the schedules that call at a place it would leave 0 of 40 at ASHFELD")


def test_cancellations_are_reported(offices, north):
    """A strike and a mistake look the same, so the update is taken and reported. The next one may bring the trains back."""
    said = north.take("strike.cif", CANCELLING, status=5)
    offices.says(said, "in/strike.cif", "of the docker of ASHFELD on 2024-06-12 it leaves 0 of 40 lines, and so little at 1 more places and days")
    assert (north.folder / "thinned").read_text() == "".join(f"2024-06-12 {code} {number} 0 update DFROC1G of 2024-06-11 21:00\n" for code, number in (("ASHFELD", 40), ("BRAYTON", 44)))
    for command in ("known", "morning"):
        out, said = north.run(command, status=5)
        offices.says(out + said, "thinned: the docker of ASHFELD on 2024-06-12 has 0 of 40 lines since the update DFROC1G of 2024-06-11 21:00")
    assert out.count("# This docker has 0 of 40 lines since the update DFROC1G of 2024-06-11 21:00.\nDOCKER ASHFELD 2024-06-12") == 1
    assert out.count("# This docker has 0 of 44 lines since the update DFROC1G of 2024-06-11 21:00.\nDOCKER BRAYTON 2024-06-12") == 1
    assert "# This docker has" not in north.run("print", "2024-06-13")[0]
    offices.says(said, "status 5: 2 thinned (status 5)")
    again = update(*(deletion(uid, "C", f"{TODAY:%y%m%d}") for uid in UIDS[:30]), reference="DFROC1H", last="DFROC1G", moment="2024-06-11T22:00")
    north.take("again.cif", again)
    assert not (north.folder / "thinned").exists()
    assert "thinned" not in north.run("known")[0]


def test_half_of_the_lines_may_go(north):
    north.take("half.cif", update(*(cancellation(uid, TODAY) for uid in UIDS[20:])))
    assert not (north.folder / "thinned").exists()
    north.take("more.cif", update(cancellation(UIDS[19], TODAY), reference="DFROC1H", last="DFROC1G", moment="2024-06-11T22:00"))
    assert not (north.folder / "thinned").exists()


@pytest.mark.parametrize(("days", "is_reported"), [(0, True), (1, True), (2, True), (3, False), (-1, False)])
def test_days_that_are_reported(north, days, is_reported):
    """A loss is reported only if it is of today or of the next two days."""
    day = TODAY + datetime.timedelta(days)
    north.take("strike.cif", update(*(cancellation(uid, day) for uid in UIDS)), status=5 if is_reported else 0)
    assert (north.folder / "thinned").exists() == is_reported


def test_a_reported_day_passes(offices, north):
    """A docker is reported until its day is over, and a step down counts from the first number."""
    north.take("strike.cif", update(*(cancellation(uid, TODAY) for uid in UIDS[:25])), status=5)
    north.take("more.cif", update(*(cancellation(uid, TODAY) for uid in UIDS[25:30]), reference="DFROC1H", last="DFROC1G", moment="2024-06-11T22:00"))
    offices.says(north.run("known", status=5)[0], "thinned: the docker of ASHFELD on 2024-06-12 has 10 of 40 lines since the update DFROC1G")
    assert "thinned" not in north.run("known", now=NOW + datetime.timedelta(1))[0]


def test_what_is_forced_is_not_reported(north):
    north.put("strike.cif", CANCELLING)
    north.run("take", force=True)
    assert not (north.folder / "thinned").exists()


def test_a_state_that_empties_is_not_merged(offices, north):
    """The message names the office and the file. The states of other offices are merged all the same."""
    south, west = offices.office("south"), offices.office("west")
    for office, content in ((south, deleting(40)), (west, update(schedule("B00000", CALLS), reference="DFROC1H", moment="2024-06-11T22:00"))):
        office.take("full.cif", FULL)
        office.put("update.cif", content)
        office.run("take", force=True)
        office.run("send")
    before = digest(north.state)
    said = north.run("merge", north.folder / "swap" / south.sent().name, status=1)[1]
    offices.says(said, south.sent().name, f"office {south.name()}: it would leave 0 of 40 schedules")
    offices.says(said, f"office {south.name()}: it has the update DFROC1G of 2024-06-11 21:00")
    offices.says(said, f"`station-office --force merge {north.state} {north.folder}/swap/{south.sent().name}` merges it all the same")
    assert digest(north.state) == before
    said = north.run("merge", status=1)[1]
    offices.says(said, west.sent().name, "it brought the update DFROC1H")
    assert north.known() == ["DFROC1F", "DFROC1H"]
    north.run("merge", north.folder / "swap" / south.sent().name, force=True)
    assert north.known() == ["DFROC1F", "DFROC1G", "DFROC1H"]


def test_the_worst_of_several_files_is_named(offices, north):
    south = offices.office("south")
    south.take("full.cif", FULL)
    south.put("good.cif", update(schedule("B00000", CALLS), deletion(UIDS[39])))
    south.put("wrong.cif", update(*map(deletion, UIDS[:30]), reference="DFROC1H", last="DFROC1G", moment="2024-06-11T22:00"))
    south.run("take", force=True)
    south.run("send")
    said = north.run("merge", status=1)[1]
    offices.says(said, "it would leave 10 of 40 schedules")
    offices.says(said, "most by its update DFROC1H of 2024-06-11 22:00, which deletes or cancels 30")


def test_a_merge_reports_what_it_thins(offices, north):
    south = offices.office("south")
    south.take("full.cif", FULL)
    south.take("strike.cif", CANCELLING, status=5)
    south.run("send")
    said = north.run("merge", status=5)[1]
    offices.says(said, south.name(), "of the docker of ASHFELD on 2024-06-12 it leaves 0 of 40 lines")
    assert "update DFROC1G of 2024-06-11 21:00" in (north.folder / "thinned").read_text()


def test_a_stamp_with_other_content_is_not_merged(offices, north):
    """The same date, time and reference, and one train at another time. Each office finds that, and neither state changes."""
    south = offices.office("south")
    later = [Call("ASHFELD", "", "0959"), Call("BRAYTON", "1030", "")]
    south.take("full.cif", FULL)
    north.take("good.cif", update(schedule("B00000", CALLS), schedule("B00001", CALLS)))
    south.take("wrong.cif", update(schedule("B00000", CALLS), schedule("B00001", later)))
    for office in (north, south):
        office.run("send")
    for office, other in ((north, south), (south, north)):
        before = digest(office.state)
        said = office.run("merge", status=1)[1]
        offices.says(said, f"office {other.name()}: its update DFROC1G of 2024-06-11 21:00 has other content than the file with this stamp that is known here: 1 entries differ")
        offices.says(said, f"`station-office --force merge {office.state}", "merges it all the same")
        assert digest(office.state) == before
    north.run("merge", force=True)
    south.run("merge", force=True)
    assert digest(north.state) == digest(south.state)


def test_a_stamp_with_less_content_is_not_merged(offices, north):
    """One copy of the update lacks a train."""
    south = offices.office("south")
    south.take("full.cif", FULL)
    north.take("good.cif", update(schedule("B00000", CALLS), schedule("B00001", CALLS)))
    south.take("less.cif", update(schedule("B00000", CALLS)))
    for office in (north, south):
        office.run("send")
    for office in (north, south):
        offices.says(office.run("merge", status=1)[1], "1 entries differ")


def test_the_same_files_differ_in_nothing(offices, north):
    """States that know different files, of which later ones replace and delete what earlier ones brought, agree on those that both know. So do states with
    different horizons."""
    south = offices.office("south")
    south.take("full.cif", FULL)
    first = update(schedule("B00000", CALLS), schedule("B00001", CALLS), deletion(UIDS[0]), schedule("B00002", CALLS, last="240605"))
    second = update(schedule("B00000", LONG), deletion("B00001"), reference="DFROC1H", last="DFROC1G", moment="2024-06-11T22:00")
    third = update(schedule(UIDS[0], LONG), reference="DFROC1I", last="DFROC1H", moment="2024-06-11T23:00")
    for office, contents in ((north, (first, second)), (south, (first, third))):
        for content in contents:
            office.take("update.cif", content)
    south.run("horizon", "2024-06-05")
    for office in (north, south):
        office.run("send")
    for office in (north, south):
        office.run("merge")
    assert digest(north.state) == digest(south.state)
    expected = offices.root / "horizon.state"
    expected.write_bytes(offices.made_of(FULL, first, second, third))
    docker("horizon", expected, "2024-06-05")
    assert digest(north.state) == digest(expected)


def test_a_horizon_that_empties_is_held(offices):
    north = offices.office("north")
    north.take("full.cif", extract(header("DFROC1F", "2024-06-10T21:00", "", "F"), *map(place, ("ASHFELD", "BRAYTON")), *(schedule(uid, CALLS, last="240604") for uid in UIDS), schedule("B00000", CALLS)))
    before = digest(north.state)
    offices.says(north.run("horizon", "2024-06-05", status=1)[1], "it would leave 1 of 41 schedules")
    assert digest(north.state) == before
    north.run("horizon", "2024-06-05", force=True)
    assert digest(north.state) != before


def test_a_copy_that_has_less_is_not_put_back(offices, north):
    """The copy is older than the full extract."""
    copy = sorted((north.folder / "copies").iterdir())[0]
    command = f"{STATION} --now 2024-06-12T06:00 restore {north.state} {copy}"
    before = digest(north.state)
    ended = subprocess.run(["script", "-qec", command, "/dev/null"], input="y\n", capture_output=True, text=True, check=False)
    offices.says(ended.stdout, "it would leave 0 of 40 schedules")
    assert (ended.returncode, digest(north.state)) == (1, before)
    said = north.run("restore", copy, force=True)[1]
    offices.says(said, f"{copy} is in its place now")
    assert north.known() == []


def test_a_stamp_with_less_content_is_held(offices, north):
    """The file came by a merge. A copy of it that lacks a train is another file, and a copy with other line ends isn't."""
    south = offices.office("south")
    content = update(schedule("B00000", CALLS), schedule("B00001", CALLS))
    south.take("full.cif", FULL)
    south.take("update.cif", content)
    south.run("send")
    north.run("merge")
    said = north.take("less.cif", update(schedule("B00000", CALLS)), status=1)
    offices.says(said, "less.cif", "another file with its stamp is known, the update DFROC1G of 2024-06-11 21:00, and has other content")
    offices.says(north.take("lines.cif", content.replace(b"\n", b"\r\n")), "lines.cif", "is known already")


@pytest.mark.parametrize("last", ["take", "known", "places", "print"])
def test_a_desk_that_is_killed_changes_nothing(offices, north, last):
    """A desk that ends between a change and its saving isn't asked again without the change."""
    wrapper = offices.root / "killed"
    wrapper.write_text(f"""#!/usr/bin/python3
import os, subprocess, sys
desk = subprocess.Popen([{os.environ["DESK"]!r}, *sys.argv[1:]], stdin=subprocess.PIPE)
taken = False
for line in sys.stdin.buffer:
    word = line.split()[0].decode()
    if word == {last!r} and (taken or word == "take"):
        desk.kill()
        sys.exit(1)
    taken = taken or word == "take"
    desk.stdin.write(line)
    desk.stdin.flush()
""")
    wrapper.chmod(0o755)
    before, content = digest(north.state), update(schedule("B00000", CALLS))
    offices.says(north.take("update.cif", content, status=4, DESK=str(wrapper))[1:], "desk: ended")
    assert (digest(north.state), north.list("in")) == (before, ["update.cif"])
    north.run("take")
    assert north.state.read_bytes() == offices.made_of(FULL, content)


def test_nothing_is_changed_without_a_desk(offices, north):
    """Nobody could say what a change leaves. The dockers are printed all the same."""
    before = digest(north.state)
    north.put("update.cif", update(schedule("B00000", CALLS)))
    dockers, said = north.morning(status=4, DESK="/nonexistent")
    offices.says(said, "desk: STATE is changed by the program desk")
    assert (digest(north.state), north.list("in"), dockers.count("DOCKER")) == (before, ["update.cif"], 2)
