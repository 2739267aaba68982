"""The transcript in examples/office is right: each of its lines is made here without the programs that print it. Remarks and commands come from the script `run`, and each
function below says where its lines come from. The words of messages are written here as docs/MANUAL.md and office/README.md describe them. `tests/examples/test_examples.py` compares what `run`
prints with the transcript."""
import datetime
import re
import shlex

import details
import lists
from offices import EXAMPLES, ROOT

SCRIPT = (EXAMPLES / "run").read_text(encoding="utf-8")
FULL, MONDAY, TUESDAY = ALL = tuple((EXAMPLES / f"{name}.cif").read_text(encoding="ascii") for name in ("full", "monday", "tuesday"))
PLACES = (EXAMPLES / "places").read_text(encoding="utf-8").split()
DAY = datetime.date(2024, 6, 12)
NOW = datetime.datetime.fromisoformat(re.search(r"--now (\S+)", SCRIPT)[1])
SOUTH = "south/south.state"


def said(subject, words):
    return f"station-office: {subject}: {words}"


def stamp_of(text):
    return lists.stamp_of(lists.records_of(text))


def head(text):
    """A line of `docker files`: the fields of an extract's header, by their columns in docs/FORMATS.md."""
    line, at = lists.records_of(text)[0], stamp_of(text)
    return f"{at.day} {at.minute} {line[32:39]} {line[46]} {line[39:46]}".rstrip()


def name(text):
    """An extract in words."""
    at = stamp_of(text)
    return f"{'full extract' if lists.is_full(lists.records_of(text)) else 'update'} {at.reference.strip()} of {at.day} {at.minute[:2]}:{at.minute[2:]}"


def accepted(path, text):
    """What is accepted: the records and the changes of an extract, counted."""
    lines = lists.records_of(text)
    changes = sum(line[:2] in ("TI", "TD", "AA", "BS") for line in lines)
    return said(path, f"accepted: {len(lines)} records, {changes} changes")


def refused(path, number):
    """A file that ends after a number of records, and so before its trailer. docs/FORMATS.md says at which record its fault is, and what the fault means."""
    [row] = re.findall(r"^\| `NoEnd` \| (.*) \|$", (ROOT / "docs" / "FORMATS.md").read_text(encoding="utf-8"), re.M)
    advice = "It is empty, was cut, or was still on its way. Fetch it again, byte for byte, and move it here when it is whole."
    yield said(path, f"docker: file refused: record {number + 1}: NoEnd")
    yield said(path, f"{row.replace('N is', f'{number + 1} is')}. {advice}")
    yield said(path, "it is south/refused/half.cif.zst now, with the reason beside it")


def docker(place):
    """A docker by tests/programs/shared/details.py, a reader of extracts that shares no code with `docker` or the office."""
    return details.docker_part(details.detailed_text(ALL, place, DAY.isoformat())).decode("ascii").splitlines()


def remarks():
    """The lines above each docker: the clock that `run` sets, the newest header, and whether the day is between the full extract and the last day of a schedule."""
    ends = [lists.end_of(key, put.lines) for text in ALL for key, put in lists.puts_of(text) if key[0] == "3" and put.lines]
    assert lists.is_full(lists.records_of(FULL)) and stamp_of(FULL).day <= DAY <= max(end or DAY for end in ends)
    return [f"# Made {NOW:%Y-%m-%d %H:%M}. Known up to {name(max(ALL, key=stamp_of))}.", "# This day is covered."]


def trains(place, is_permanent):
    """The lines of each train on a docker, by its UID and its start day. The column of the STP indicator is left out."""
    found = {}
    for (_, _, uid, start, *_), text in details.rows_of(ALL, place, DAY, is_permanent):
        found.setdefault((uid, start), set()).add(text[:20] + text[21:details.WIDTH])
    return found


def differences():
    """How many trains differ from the permanent timetable, and at how many places: the dockers of all schedules and of the permanent ones."""
    places, changed = 0, {"cancelled": set(), "altered": set(), "added": set()}
    cancelled = {key[1:3] for key in lists.live_of(ALL) if key[0] == "3" and key[-1] == "C"}
    for place in PLACES:
        now, before = trains(place, False), trains(place, True)
        changed["added"] |= now.keys() - before.keys()
        changed["cancelled"] |= before.keys() - now.keys()
        changed["altered"] |= {train for train in now.keys() & before.keys() if now[train] != before[train]}
        places += now != before
    assert changed["cancelled"] <= cancelled
    counted = ", ".join(f"{len(those)} {word}" for word, those in changed.items())
    return said(DAY, f"{counted} at {places} of {len(PLACES)} places; `station-office changes {SOUTH} {DAY}` prints them")


def morning():
    """South's first morning. It takes its files in the order of their names, and gets the full extract from North, so it asks for this extract. Nothing is old or missing, and
    one file was refused."""
    references = [stamp_of(text).reference for text in ALL]
    assert [lists.records_of(text)[0][39:46] for text in ALL[1:]] == references[:-1]
    yield from refused("south/in/half.cif", 3)
    yield accepted("south/in/monday.cif", MONDAY)
    yield accepted("south/in/tuesday.cif.gz", TUESDAY)
    yield said("south/swap/HOST-north-LETTERS.state.zst", f"it brought the {name(FULL)}")
    yield said(SOUTH, f"the {name(FULL)} came with another office's state, so the other offices are asked for it")
    yield said(SOUTH, f"known up to {name(TUESDAY)}")
    for place in PLACES:
        yield from (*remarks(), *docker(place))
    yield differences()
    for day in (DAY, DAY + datetime.timedelta(1)):
        yield said(day, "no earlier morning kept its dockers, so what changed since then isn't known")
    yield said(SOUTH, "status 1: 1 refused (status 1)")
    yield "status 1"


# office/README.md says into which folder a file goes. A file that isn't packed is packed by zstd.
FOLDERS = {
    "south/in": [], "south/refused": ["half.cif.why", "half.cif.zst"], "south/taken": ["list", "monday.cif.zst", "tuesday.cif.gz"],
    "swap": ["HOST-north-LETTERS.state.zst", "HOST-south-LETTERS.state.zst", "wanted"],
}
# What each command prints. The others print nothing.
PRINTED = {
    "docker files south.state": sorted(map(head, ALL)),
    f"docker print south.state ASHFELD {DAY}": docker("ASHFELD"),
    "station-office take north/north.state": [accepted("north/in/full.cif", FULL), accepted("north/in/monday.cif", MONDAY)],
    f'station-office morning {SOUTH} {DAY} || echo "status $?"': list(morning()),
    "ls south/in south/taken south/refused swap": "\n\n".join("\n".join([f"{folder}:", *names]) for folder, names in sorted(FOLDERS.items())).split("\n"),
    "station-office merge north/north.state": [said("north/swap/HOST-south-LETTERS.state.zst", f"it brought the {name(TUESDAY)}")],
}


def lines():
    """The lines of the transcript."""
    for line in SCRIPT.splitlines():
        if line.startswith("shows "):
            command = " ".join(shlex.split(line)[1:])
            yield from (f"$ {command}", *PRINTED.get(command, ()))
        elif line.startswith("echo"):
            yield " ".join(shlex.split(line)[1:])


def test_the_transcript():
    assert list(lines()) == (EXAMPLES / "transcript").read_text(encoding="utf-8").splitlines()


def test_every_output_belongs_to_a_command():
    commands = [line[2:] for line in lines() if line.startswith("$ ")]
    assert PRINTED.keys() <= set(commands)
