"""Random extracts about a few places and trains in June 2024, with records of each kind, in any order. Also the extract of what some files leave."""
import random

import lists
import records

CODES = ["A", "ASH", "ASHFELD", "BRAY", "BRAYTON", "CORHAM", "CORHAM2", "DUNMERE", "ELM"]
DAYS = [f"2024-06-{day:02}" for day in range(8, 18)]
IDENTITIES = ["1A10", "1A11", "2B20", "5Z99"]
WORDS = ["JUNCTION", "EXCHANGE", "", "NORTH  ", "SIDING 1"]


class Plan(random.Random):
    """Random places, schedules and associations. The fewer UIDs there are, the more records change what another record has put."""

    uids = 8

    def uid(self):
        return f"C1{self.randrange(self.uids):04}"

    def dates(self):
        first, last = (f"2406{day:02}" for day in sorted(self.choices(range(8, 17), k=2)))
        return first, self.choice([last] * 9 + [records.NO_END, "591231", "600101"])

    def days(self):
        return self.choice([records.ALWAYS, records.ALWAYS, "1010101", "0101010"])

    def clock(self, minute):
        return f"{minute // 60 % 24:02}{minute % 60:02}{self.choice(' H')}"

    def place(self):
        """A TIPLOC that is inserted, deleted, or amended with a new code or without."""
        identity, code = self.choices(("TI", "TA", "TD"), (6, 3, 1))[0], self.choice(CODES)
        if identity == "TD":
            return records.record(f"TD{code}")
        new = self.choice(["", "", code, self.choice(CODES)]) if identity == "TA" else ""
        word = f"{code} {self.choice(WORDS)}".strip()
        stanox, crs = self.choice([f"{self.randrange(100000):05}", ""]), self.choice(["", "ABC", "XYZ", "Z"])
        text = f"{identity}{code:7}{'00123456X'}{word:26}{stanox:5}{'':4}{crs:3}{word[:16]:16}"
        return records.record(f"{text}{new:7}")

    def call(self, code, minute):
        """An intermediate location, with a change en route before it or without. A train may pass and also arrive or depart."""
        arrives, passes, departs = (self.clock(minute + n) if self.random() < 0.6 else "" for n in range(3))
        public = [self.choice(["0000", "    ", "1234"]) for _ in range(2)]
        tracks, suffix = (f"{self.randrange(9)}", "FL", "SL"), self.choice("  2")
        change = records.change(code, self.choice(IDENTITIES)) if self.random() < 0.3 else ""
        return change + records.intermediate(code, arrives, departs, passes, public, tracks, suffix)

    def schedule(self):
        transaction, stp = self.choices("NRD", (5, 5, 1))[0], self.choice("PPPONC")
        first, last = self.dates()
        if transaction == "D":
            return records.basic("D", self.uid(), first, stp=stp)
        basic = records.basic(transaction, self.uid(), first, last, self.days(), self.choice(IDENTITIES), stp)
        if stp == "C":
            return basic
        minute = self.choice([self.randrange(1440), 1425 + self.randrange(15)])
        along = self.choices(CODES, k=2 + self.randrange(6))
        extra = records.record(f"BX{self.randrange(10 ** 9):9}GWY") if self.random() < 0.5 else ""
        parts = [basic, extra, records.origin(along[0], self.clock(minute), "1", "SL")]
        for code in along[1:-1]:
            minute += self.randrange(300)
            parts.append(self.call(code, minute))
        return "".join(parts) + records.terminus(along[-1], self.clock(minute + self.randrange(300)), "2", "UP")

    def link(self):
        (first, last), rest = self.dates(), {"suffix": self.choice("  2"), "stp": self.choice("PPPONC")}
        if self.random() < 0.1:
            return records.association(self.uid(), self.uid(), first, "", self.choice(CODES), "", "", days="", transaction="D", **rest)
        category, date = self.choice(["JJ", "VV", "NP", "  "]), self.choice("SNP X")
        return records.association(self.uid(), self.uid(), first, last, self.choice(CODES), category, date, days=self.days(), **rest)

    def extract(self, *head, size=40):
        """An extract with this number of schedules, and as many associations."""
        parts = [make() for make in (self.place, self.schedule, self.link) for _ in range(size)]
        self.shuffle(parts)
        return records.extract(records.header(*head), *parts)

    def files(self, size=40):
        """A full extract and an update."""
        return self.extract("240601", "DFROC1A", "F", size=size), self.extract("240602", "DFROC1B", size=size)


def left_by(files):
    """A full extract of what these files leave."""
    parts = []
    for key, lines in lists.live_of(files).items():
        head = {"1": f"TI{key[1]:7}", "2": "AAN", "3": "BSN"}[key[0]]
        parts += [records.record(head + lines[0][len(head):72 if key[0] == "1" else 80]), *map(records.record, lines[1:])]
    return records.extract(records.header("240603", "DFROC1C", "F"), *parts)
