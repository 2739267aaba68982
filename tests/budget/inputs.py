"""The extract, the updates and the states with which the budget is measured. They are the same on every machine."""
import records
from outcomes import takes, takes_more
from programs import give, held
from states import File, ledger, older, schedule, tiploc

UIDS = 3000
PLACES = 700
# The number of files in the ledger of a state, before the state takes another file.
LEDGER = 200
# The day of the dockers, and the day that is set as a horizon.
DAY = "2024-06-12"
HORIZON = "2024-05-01"
HUB = "ASHFELD"
# The identity of each train that an overlay alters.
OVERLAID = "1X99"


def mixed(number, salt, below):
    """A number below `below` that looks random but is determined by `number` and `salt`."""
    hashed = (number * 2654435761 + salt * 40503 + 12345) & 0xFFFFFFFF
    hashed = ((hashed ^ hashed >> 15) * 0x2C1B3C6D) & 0xFFFFFFFF
    return ((hashed ^ hashed >> 12) * below) >> 32


def place_of(number):
    return HUB if number == 0 else f"P{number:05}X"


def uid_of(number):
    return f"{'CGLPWY'[number % 6]}{number:05}"


def clock(half_minutes):
    minutes, half = half_minutes // 2 % 1440, half_minutes % 2
    return f"{minutes // 60:02}{minutes % 60:02}{'H' if half else ' '}"


def route(number):
    """The places of a train: a stretch of a line of places. One train in five calls at the hub."""
    first, step = mixed(number, 1, PLACES), 1 + mixed(number, 2, 3)
    stops = 3 + mixed(number, 3, 26)
    at = [place_of(1 + (first + step * stop) % (PLACES - 1)) for stop in range(stops)]
    if mixed(number, 4, 5) == 0:
        at[mixed(number, 5, stops)] = HUB
    return at


def journey(number, salt):
    """The locations of a train. One train in ten has a change en route. Some trains run past midnight."""
    at, time = route(number), 2 * mixed(number, salt, 1400)
    lines = [records.origin(at[0], clock(time), "1", "FL")]
    for stop, place in enumerate(at[1:-1]):
        time += 6 + mixed(number + stop, salt + 1, 12)
        if mixed(number * 31 + stop, 6, 70) == 0:
            lines.append(records.record(f"CR{place:8} OO2C{stop:02}"))
        if mixed(number * 31 + stop, 7, 3) == 0:
            lines.append(records.passes(place, clock(time)))
        else:
            lines.append(records.calls(place, clock(time), clock(time + 2)))
    return "".join(lines) + records.terminus(at[-1], clock(time + 9), "2")


def base(number, salt=8, transaction="N"):
    """A permanent schedule. One in three ended before the horizon."""
    last = "240420" if mixed(number, 9, 3) == 0 else "241214"
    days = ("1111100", "1111111", "0000011", "1111110")[mixed(number, 10, 4)]
    train = f"{1 + mixed(number, 11, 9)}{'ABCM'[number % 4]}{number % 100:02}"
    extra = records.record("BX         NTY") if number % 2 else ""
    return records.basic(transaction, uid_of(number), "231210", last, days, train) + extra + journey(number, salt)


def overlay(number):
    first, last = f"2406{1 + mixed(number, 12, 15):02}", f"2406{16 + mixed(number, 12, 15):02}"
    return records.basic("N", uid_of(number), first, last, "1111111", OVERLAID, stp="O") + journey(number, 13)


def cancellation(number):
    day = f"2406{10 + mixed(number, 14, 10):02}"
    return records.basic("N", uid_of(number), day, day, "1111111", stp="C")


def link(number, last="241214"):
    return records.association(uid_of(number), uid_of((number + 1) % UIDS), "231210", last, route(number)[-1])


def full():
    """An extract in the order of a national one: places, associations, and schedules by UID."""
    places = [records.place("TI", place_of(number), f"PLACE {number}") for number in range(PLACES)]
    trains = [base(it) + (overlay(it) if it % 5 == 0 else "") + (cancellation(it) if it % 4 == 0 else "") for it in range(UIDS)]
    return records.extract(records.header("240609", "DFROC1A"), *places, *map(link, range(0, UIDS, 7)), *trains)


def update(date, reference, turn):
    """An update that changes some places, some associations, and the schedules of every twentieth UID."""
    parts = [records.header(date, reference)]
    for number in range(20 + turn, 50, 3):
        new = place_of(number).replace("X", "Y") if number % 2 else ""
        parts.append(records.place("TA", place_of(number), f"PLACE {number}, AGAIN", new))
    parts += [link(number, "240720") for number in range(turn, UIDS, 70)]
    changes = (
        lambda number: base(number, 15, "R"), lambda number: records.basic("D", uid_of(number), "231210"),
        lambda number: cancellation(number + 1), lambda number: base(UIDS + number, 8),
    )
    return records.extract(*parts, *(changes[number // 20 % 4](number) for number in range(turn, UIDS, 20)))


def endless():
    """Texts of states that are cut short. In each, one count is far too great; the text's name is that count."""
    files, one, long_ago = ledger(range(3000)), ledger([0])[:-8], File("2005-09-26", "0000000", last="LASTREF", time="0105")
    places = b"".join(long_ago.put(tiploc(place_of(number)), b"\1" + b" " * 63) for number in range(1, 600))
    records_of_one = records.basic("N", "C00001", "600101", "991231", "1111111") + records.origin(HUB, "0900") + 599 * records.passes(HUB, "0900 ")
    body = b"\1" + (4 * 10**9).to_bytes(4, "big") + records_of_one.replace("\n", "").encode()
    return {
        "files": files[:6] + b"\xff" * 8 + files[14:-8],
        "entries": one + b"\xff" * 8 + places,
        "lines of a schedule": one + (1).to_bytes(8, "big") + long_ago.put(schedule("C00001", "1960-01-01"), body),
    }


def make(folder):
    """Writes all inputs to this folder."""
    for name, text in (("full", full()), ("update", update("240610", "DFROC1B", 0)), ("second", update("240611", "DFROC1C", 7))):
        give(text.encode(), folder / f"{name}.cif")
    for name, first in (("full", 0), ("second", 1)):
        give(ledger(range(first, 2 * LEDGER, 2)), folder / f"{name}.state")
        takes_more(folder / f"{name}.state", folder / f"{name}.cif")
    takes(folder / "empty.state")
    give(older(held(folder / "full.state")), folder / "old.state")
    for name, text in endless().items():
        give(text, folder / f"endless {name}")
        give(older(text), folder / f"endless {name}.old")
