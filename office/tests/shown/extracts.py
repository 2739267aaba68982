"""Builders of extracts for the tests of the screen. Each record has the columns that docs/FORMATS.md gives."""
from offices import record

ALWAYS = "2406032412131111111"
WEDNESDAY = "2406122406120010000"
DAY, NEXT = "2024-06-12", "2024-06-13"


def extract(*records, date="110624", time="2100", reference="DFROC1F", indicator="F", last="DFROC1E"):
    return "".join([record(f"HDTPS.UDFROC1.PD240611{date}{time}{reference}{last}{indicator}A"), *records, record("ZZ")])


def update(*records, date="110624", time="2200", reference="DFROC1G", last="DFROC1F"):
    return extract(*records, date=date, time=time, reference=reference, indicator="U", last=last)


def place(code, description, crs=""):
    return record(f"TI{code:<7}00000000 {description:<26}{'':<9}{crs:<3}")


def basic(uid, indicator="P", days=ALWAYS, identity="1A10", transaction="N"):
    return record(f"BS{transaction}{uid}{days} POO{identity}", indicator)


def deleted(uid, days=ALWAYS):
    """The record that deletes a permanent schedule."""
    return record(f"BSD{uid}{days[:12]}", "P")


def origin(code, at, platform="2", track="FL", public=None):
    return record(f"LO{code:<8}{at:<5}{public or at[:4]}{platform:<3}{track}")


def call(code, arrives, departs, platform="1", track="SL", path="FL", public=None):
    return record(f"LI{code:<8}{arrives:<5}{departs:<5}     {public or arrives[:4] + departs[:4]}{platform:<3}{track:<3}{path}")


def passes(code, at, platform="", track="SL"):
    return record(f"LI{code:<8}          {at:<5}00000000{platform:<3}{track:<3}FL")


def end(code, at, platform="2", public=None):
    return record(f"LT{code:<8}{at:<5}{public or at[:4]}{platform:<3}FL")


def train(uid, *calls, **how):
    return basic(uid, **how) + "".join(calls)


PLACES = (
    place("ASHFELD", "ASHFELD JUNCTION", "ASF") + place("BRAYTON", "BRAYTON", "BRY") + place("CORHAM", "CORHAM EXCHANGE", "CRX") + place("DUNMERE", "DUNMERE TOWN", "DNM")
)
