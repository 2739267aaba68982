"""The extracts about which desks are asked."""
import given
from records import ALWAYS, NO_END, association, basic, calls, extract, header, origin, passes, place, terminus


def trip(uid, train, first="240101", last=NO_END, days=ALWAYS, stp="P", hour="09", transaction="N"):
    """A schedule from Ashfeld through Corham to Brayton."""
    return (
        basic(transaction, uid, first, last, days, train, stp)
        + origin("ASHFELD", f"{hour}00", "1", "SL")
        + passes("CORHAM", f"{hour}14H")
        + terminus("BRAYTON", f"{hour}30", "2")
    )


def night(uid, train, first="240101", last=NO_END):
    """A schedule that runs past midnight."""
    return basic("N", uid, first, last, ALWAYS, train) + origin("CORHAM", "2340", "3") + calls("ASHFELD", "0012", "0014") + terminus("BRAYTON", "0100")


PLACES = place("TI", "ASHFELD", "ASHFELD JUNCTION") + place("TI", "BRAYTON", "BRAYTON") + place("TI", "CORHAM", "CORHAM EXCHANGE")


# Good files by name. No two have the same moment.
GOOD = {
    "early": extract(header("240607"), trip("A00001", "1E01", hour="07"), trip("A00009", "1E09")),
    "full": extract(
        header("240609", "DFROC1B", "F"),
        PLACES,
        association("A00001", "A00003", "240610", "240616", "BRAYTON"),
        association("A00002", "A00009", "240101", NO_END, "ASHFELD"),
        trip("A00001", "1A10"),
        trip("A00001", "1A11", "240612", hour="08"),
        trip("A00002", "2B20", days="1111100", hour="10"),
        night("A00003", "5N01", "240601", "240630"),
        trip("A00004", "1O40", "240501", "240531"),
    ),
    "monday": extract(
        header("240610", "DFROC1C"),
        trip("A00001", "1X10", "240610", "240614", stp="O", hour="11"),
        basic("N", "A00002", "240612", "240612", "0010000", stp="C"),
        trip("A00005", "3N55", "240613", "240620", stp="N"),
    ),
    "tuesday": extract(
        header("240611", "DFROC1D"),
        basic("D", "A00001", "240610", stp="O"),
        trip("A00002", "2R20", hour="12", transaction="R"),
        place("TA", "CORHAM", "CORHAM CENTRAL", "CORHAM"),
    ),
    "night": extract(header("240611", "DFROC1E", minute="2359"), night("A00006", "5N06"), place("TD", "BRAYTON")),
    "second": extract(header("240615", "DFROC1F", "F"), PLACES, trip("A00001", "1S10", hour="08"), night("A00007", "5N07")),
    "last": extract(header("240616", "DFROC1G"), basic("N", "A00001", "240618", "240619", ALWAYS, stp="C"), trip("A00002", "2L20")),
    "my file": extract(header("240617", "DFROC1H"), trip("A00008", "1M08")),
    "my file ": extract(header("240617", "DFROC1I", minute="2200"), trip("A00008", "1M09")),
}
# Refused files by name, each with its cause as in docs/FORMATS.md.
BAD = {name: (text, f"record {fault}") for name, text, fault in given.BAD.values()}
UIDS = [f"A0000{n}" for n in range(1, 10)]
