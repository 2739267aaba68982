"""Records of CIF extracts for the tests of station-office."""
import datetime
from typing import NamedTuple

from offices import record

ALWAYS = "1111111"
# The days on which the schedules of these extracts run, unless a schedule has others.
FIRST, LAST = "240603", "241213"


class Call(NamedTuple):
    """A call of a train: its place, its time of arrival and of departure, its platform, and whether it only passes."""
    place: str
    arrives: str
    departs: str
    platform: str = "1"
    passes: bool = False


def header(reference, moment, last="", kind="U"):
    at = datetime.datetime.fromisoformat(moment)
    return record(f"HDTPS.UDFROC1.PD240609{at:%d%m%y%H%M}{reference:<7}{last:<7}{kind}A")


def place(code, name="", identity="TI"):
    return record(f"{identity}{code:<16}{name or code:<44}")


def schedule(uid, calls, stp="P", first=FIRST, last=LAST, days=ALWAYS, identity="1A00", transaction="N"):
    """A schedule with these calls. A cancellation has none."""
    lines = [record(f"BS{transaction}{uid}{first}{last}{days} POO{identity}", stp)]
    for number, call in enumerate(calls):
        if number == 0:
            lines.append(record(f"LO{call.place:<8}{call.departs:<5}{call.departs[:4]}{call.platform:<3}SL"))
        elif number == len(calls) - 1:
            lines.append(record(f"LT{call.place:<8}{call.arrives:<5}{call.arrives[:4]}{call.platform:<3}FL"))
        elif call.passes:
            lines.append(record(f"LI{call.place:<8}{'':<10}{call.departs:<5}{'':8}{call.platform:<3}SL FL"))
        else:
            lines.append(record(f"LI{call.place:<8}{call.arrives:<5}{call.departs:<5}{'':<5}{call.arrives[:4]}{call.departs[:4]}{call.platform:<3}SL FL"))
    return "".join(lines)


def cancellation(uid, day):
    """The cancellation of a UID on a day."""
    return schedule(uid, (), "C", f"{day:%y%m%d}", f"{day:%y%m%d}")


def deletion(uid, stp="P", first=FIRST):
    return record(f"BSD{uid}{first}", stp)


def association(base, other, category="NP", at="BRAYTON", stp="P", transaction="N", first=FIRST, last=LAST, indicator="S"):
    return record(f"AA{transaction}{base}{other}{first}{last}{ALWAYS}{category}{indicator}{at:<7}  T", stp)


def extract(head, *parts):
    """An extract of a header and these records."""
    return "".join([head, *parts, record("ZZ")]).encode("ascii")
