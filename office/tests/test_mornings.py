"""Random mornings of three offices. Each gets good and bad files: late, twice, cut, doubled, with wrong dates, with another file's stamp, and updates that delete or cancel
too much. Clocks are wrong, and runs are killed. After each run the office must print what a reader makes of the files
that the office knows, and the office mustn't have lost more than half of anything. The reader is tests/programs/shared/details.py, which shares no code with the office.

`--mornings` is the number of mornings, and another `--seed` chooses other files and times. What happened to files of each kind is counted. If 500 mornings or more are run,
the test fails if anything in WANTED never happened."""
import datetime
import functools
import random
import re
import signal
import time

import details
import lists
import pytest
import timetable
from offices import docker, station

CODES = [f"PLACE{letter}" for letter in "ABCDEF"]
# The first day, the clock of its morning, and the number of mornings of one case.
BEGIN = datetime.datetime(2024, 6, 12, 6, 0)
MORNINGS = 10
YEAR = datetime.timedelta(365)
# The kinds of bad files. Each kind comes once before any comes again.
BAD = ("deleting", "cancelling", "small", "cut", "doubled", "dated", "altered", "noise")
# What a message says of a file in in/, and what happened to the file then.
OUTCOMES = {
    "accepted: ": "taken", "is known already": "known already", "it is older than": "older", "/refused/": "refused", "/held/": "held back", "of the docker of": "reported",
    "lies more than a day ahead": "ahead", "another file with its stamp": "unlike", "it would leave": "less than half", "is withdrawn here": "withdrawn",
}
# What a message says of another office's state, or of the office's own, and what happened then.
EVENTS = {
    "it brought the": "a state brought a file", "it brought nothing new": "a state brought nothing", "it isn't merged": "a state wasn't merged", "has other content than": "a state was unlike",
    "which lies more than a day ahead": "a state was ahead", "which is withdrawn here": "a state had a withdrawn file", ": ahead: ": "a clock was slow", ": old: ": "a clock was fast",
    "it is made anew": "a file was withdrawn", "so it stays as it is": "a withdrawal was held back",
}
# What has to happen to each kind of file.
WANTED = (
    "full: taken", "update: taken", "again: taken", "again: known already", "again: older", "deleting: less than half", "deleting: held back", "cancelling: reported",
    "small: less than half", "small: held back", "cut: refused", "doubled: refused", "dated: ahead", "dated: held back", "altered: unlike", "altered: held back", "noise: refused",
    *EVENTS.values(), "a run was killed before it changed STATE", "a run was killed after it changed STATE",
)


@functools.cache
def records_of(content):
    return lists.records_of(content.decode("ascii"))


def texts(known):
    """The texts of some files, always in the same order."""
    return tuple(sorted(content.decode("ascii") for content in known.values()))


class Feed:
    """A timetable that changes from day to day, and the extracts that are made of it."""

    def __init__(self, chance):
        self.chance = chance
        self.number = 0
        self.last = ""
        self.schedules, self.links = {}, {}
        for number in range(60):
            self.adds(f"A{number:05}")
        for number in range(0, 40, 2):
            base, other = f"A{number:05}", f"A{number + 1:05}"
            at = chance.choice(self.schedules[base, "P", timetable.FIRST].splitlines()[1:])[2:9]
            self.links[base, other, at] = timetable.association(base, other, chance.choice(("NP", "JJ", "VV")), at, indicator=chance.choice("SNP "))

    def journey(self):
        minute, calls = self.chance.randrange(0, 1440), []
        for code in self.chance.sample(CODES, self.chance.randint(2, 4)):
            arrives, minute = minute % 1440, minute + self.chance.randint(0, 5)
            clock = [f"{at // 60:02}{at % 60:02}" for at in (arrives, minute % 1440)]
            calls.append(timetable.Call(code, *clock, str(self.chance.randint(1, 9)), self.chance.random() < 0.2))
            minute += self.chance.randint(3, 60)
        return calls

    def adds(self, uid, stp="P", first=timetable.FIRST, last=timetable.LAST):
        days = "".join(self.chance.choice("1110") for _ in range(7))
        self.schedules[uid, stp, first] = timetable.schedule(uid, self.journey(), stp, first, last, days, f"{self.chance.randint(1, 9)}A{self.chance.randint(0, 99):02}")
        return self.schedules[uid, stp, first]

    def reference(self):
        self.number += 1
        return f"DFROC{self.number:02}"

    def full(self, now, share=1.0):
        """A full extract of the timetable, or of a share of it."""
        moment, reference = now - datetime.timedelta(hours=9), self.reference()
        parts = [text for text in (*self.links.values(), *self.schedules.values()) if self.chance.random() < share]
        if share == 1.0:
            self.last = reference
        return timetable.extract(timetable.header(reference, moment.isoformat(timespec="minutes"), "", "F"), *map(timetable.place, CODES), *sorted(parts))

    def update(self, now, *parts):
        """An update with these records, or with a few random changes of the timetable."""
        moment, reference, last = now - datetime.timedelta(hours=9), self.reference(), self.last
        self.last = reference
        return timetable.extract(timetable.header(reference, moment.isoformat(timespec="minutes"), last), *(parts or sorted(self.changes(now.date()))))

    def changes(self, today):
        """Random changes. Associations come before schedules, since a file is sorted."""
        for _ in range(self.chance.randint(1, 6)):
            uid = f"A{self.chance.randrange(70):05}"
            day = f"{today + datetime.timedelta(self.chance.randint(-1, 4)):%y%m%d}"
            match self.chance.randrange(6):
                case 0 | 1:
                    yield self.adds(uid)
                case 2:
                    yield self.adds(uid, "O", day, day)
                case 3:
                    self.schedules[uid, "C", day] = timetable.schedule(uid, (), "C", day, day)
                    yield self.schedules[uid, "C", day]
                case 4 if self.schedules:
                    key = self.chance.choice(sorted(self.schedules))
                    del self.schedules[key]
                    yield timetable.deletion(*key)
                case 5 if self.links:
                    base, other, at = self.chance.choice(sorted(self.links))
                    del self.links[base, other, at]
                    yield timetable.association(base, other, at=at, transaction="D")

    def deleting(self, now):
        """An update that deletes most schedules."""
        gone = [key for key in sorted(self.schedules) if self.chance.random() < self.chance.choice((0.6, 0.9, 1.1))]
        return self.update(now, *(timetable.deletion(*key) for key in gone))

    def cancelling(self, now):
        """An update that cancels most trains of a day."""
        day = f"{now.date() + datetime.timedelta(self.chance.randint(0, 3)):%y%m%d}"
        return self.update(now, *(timetable.schedule(uid, (), "C", day, day) for uid in sorted({uid for uid, *_ in self.schedules}) if self.chance.random() < 0.9))


class World:
    """Three offices that share a folder, the files that were made, and what each office knows."""

    def __init__(self, offices, seen, seed):
        self.seen = seen
        self.chance = random.Random(seed)
        self.feed = Feed(self.chance)
        self.kinds = []
        self.offices = [offices.office(name) for name in ("a", "b", "c")]
        self.made = []
        # What each office may know, and may have known when it put its state into swap/: files by their stamps. Also the files with each stamp that it ever knew.
        self.known = {office: [{}] for office in self.offices}
        self.sent = {office: (b"", []) for office in self.offices}
        self.ever = {office: {} for office in self.offices}
        # The files that came to each office. One of them may count only after a newer full extract was withdrawn.
        self.came = {office: set() for office in self.offices}
        # How many seconds a run takes.
        self.takes = 0.2
        for office in self.offices:
            (office.folder / "places").write_text("".join(f"{code}\n" for code in self.chance.sample(CODES, 4)))

    def delivers(self, now):
        """Puts files into the folders of the offices."""
        kind, content = ("full", self.feed.full(now)) if not self.made or self.chance.random() < 0.15 else ("update", self.feed.update(now))
        self.made.append(content)
        for office in self.offices:
            files = [(kind, content)] * (self.chance.random() < 0.8)
            files += [("again", self.chance.choice(self.made)) for _ in range(self.chance.choice((0, 0, 1, 2)))]
            if self.chance.random() < 0.35:
                files.append(self.spoiled(now))
            self.chance.shuffle(files)
            for number, (its, text) in enumerate(files):
                office.put(f"{now:%d}-{number}-{its}.cif", text)

    def spoiled(self, now):
        """A bad file, with its kind."""
        self.kinds = self.kinds or self.chance.sample(BAD, len(BAD))
        kind, good = self.kinds.pop(), self.chance.choice(self.made)
        match kind:
            case "deleting":
                content = self.feed.deleting(now)
            case "cancelling":
                content = self.feed.cancelling(now)
            case "small":
                content = self.feed.full(now, self.chance.choice((0.1, 0.3, 0.45)))
            case "cut":
                content = good[:self.chance.randrange(len(good))]
            case "doubled":
                content = good + good
            case "dated":
                later = now + self.chance.choice((-1, 1, 10)) * YEAR
                content = good[:22] + f"{later:%d%m%y}".encode() + good[28:]
            case "altered":
                content = self.same_stamp(good)
            case "noise":
                content = bytes(self.chance.randrange(256) for _ in range(300))
        return kind, content

    def same_stamp(self, good):
        """A file with the stamp of another one, in which some trains have another platform."""
        lines = good.decode("ascii").splitlines(keepends=True)
        return "".join(line[:19] + "X" + line[20:] if line.startswith("LO") and self.chance.random() < 0.5 else line for line in lines).encode()

    def runs(self, office, now):
        """A morning of an office, by a clock that may be wrong and perhaps ended by a signal. Returns its output, or nothing if it was ended, and its messages."""
        clock = now + self.chance.choice((0,) * 8 + (-1, 1)) * YEAR
        seconds = self.takes * self.chance.random() if self.chance.random() < 0.15 else None
        before, begin = office.state.read_bytes(), time.monotonic()
        status, out, said = station().run("--now", f"{clock:%FT%H:%M}", "morning", office.state, f"{now:%F}", seconds=seconds)
        assert "Traceback" not in said, said
        if status == -signal.SIGKILL:
            self.seen[f"a run was killed {'before' if office.state.read_bytes() == before else 'after'} it changed STATE"] += 1
            return b"", said
        assert status in (0, 1, 5), said
        self.takes += (time.monotonic() - begin - self.takes) / 10
        self.notes(said)
        return out, said

    def withdraws(self, office, now):
        """Withdraws a file that the office knows. The command may be held back."""
        stamp = self.chance.choice(sorted(self.known[office][0]))
        moment = f"{stamp.day}T{stamp.minute[:2]}:{stamp.minute[2:]}"
        status, _, said = station().run("--now", f"{now:%FT%H:%M}", "withdraw", office.state, stamp.reference.strip(), moment)
        assert "Traceback" not in said and status in (0, 1, 5), said
        self.notes(said)
        return b"", said

    def notes(self, said):
        """Counts what happened, by the messages of a run."""
        found = set()
        for line in said.splitlines():
            if file := re.search(r"/in/[0-9]+-[0-9]+-([a-z]+)\.cif: (.*)", line):
                found.update((file[0], f"{file[1]}: {outcome}") for words, outcome in OUTCOMES.items() if words in file[2])
            else:
                found.update((line, event) for words, event in EVENTS.items() if words in line)
        self.seen.update(event for _, event in found)

    def learns(self, office):
        """What an office may know after a run: the files that it lists. If it knew a file before the run, the file's content is what it was. The content of any other file
        is one that the office knew earlier, one that came to it, or one that another office knew when it sent its state. If files with one stamp differ, each of them is
        possible until a docker shows which it is."""
        possible = [{}]
        for line in docker("files", office.state).decode("ascii").splitlines():
            stamp = lists.Stamp(datetime.date.fromisoformat(line[:10]), line[11:15], line[16:23])
            contents = self.ever[office].get(stamp, set()) | (set() if stamp in self.known[office][0] else self.sources(office, stamp))
            assert contents, f"nobody made {line}"
            possible = [{**one, stamp: content} for one in possible for content in contents]
        return possible

    def sources(self, office, stamp):
        """The contents of the files with a stamp that an office may have got."""
        found = {it for it in self.came[office] if it.isascii() and it[:2] == b"HD" and records_of(it)[-1][:2] == "ZZ" and lists.stamp_of(records_of(it)) == stamp}
        return found.union(*(self.of_stamp(known, stamp) for other, (_, known) in self.sent.items() if other != office))

    @staticmethod
    def of_stamp(possible, stamp):
        return {known[stamp] for known in possible if stamp in known}

    def checks(self, office, now, out, said):
        """Checks what an office prints after a run, and what it has lost."""
        printed = out or station().run("print", office.state, f"{now:%F}")[1]
        # The lines above each docker say when it was made.
        printed = re.sub(rb"^#.*\n", b"", printed, flags=re.M)
        places = (office.folder / "places").read_text().split()
        possible = [known for known in self.learns(office) if self.dockers(known, places, now.date()) == printed]
        assert possible, said
        assert any(self.losses(before, after, places) == [] for before in self.known[office] for after in possible), (said, self.losses(self.known[office][0], possible[0], places))
        self.known[office] = possible
        self.ever[office].update({stamp: self.of_stamp(possible, stamp) for stamp in possible[0]})
        target = office.sent()
        if target.exists() and target.read_bytes() != self.sent[office][0]:
            self.sent[office] = target.read_bytes(), possible

    @staticmethod
    def dockers(known, places, day):
        return b"".join(details.docker_part(details.detailed_text(texts(known), place, day.isoformat())) for place in places)

    @staticmethod
    def losses(before, after, places):
        """Of what more than half is gone."""
        one, other = (lists.live_of(texts(known)) for known in (before, after))
        kinds = [[sum(key[0] == kind for key in live) for kind in "123"] for live in (one, other)]
        found = [name for name, had, has in zip(("places", "associations", "schedules"), *kinds) if 2 * has < had]
        called = {place: [lists.counts_of(live).get(f"{place:7}", 0) for live in (one, other)] for place in places}
        return found + [place for place, numbers in called.items() if numbers[0] >= 20 and 2 * numbers[1] < numbers[0]]


@pytest.mark.timeout(900)
def test_mornings(offices, seen, seed):
    seen.update(dict.fromkeys(WANTED, 0))
    world, now = World(offices, seen, seed), BEGIN
    for _ in range(MORNINGS):
        world.delivers(now)
        for office in world.chance.sample(world.offices, 3):
            world.came[office].update(path.read_bytes() for path in (office.folder / "in").iterdir())
            world.checks(office, now, *world.runs(office, now))
            if world.known[office][0] and world.chance.random() < 0.1:
                world.checks(office, now, *world.withdraws(office, now))
        now += datetime.timedelta(1)
