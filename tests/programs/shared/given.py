"""The files and the texts of states that the commands of `docker` read, by name."""
from records import NO_END, association, basic, change, extract, header, intermediate, origin, place, record, terminus
from states import DELETED, LAPSED, File, description, lines, number, older, schedule, state, tiploc, under

HEADER = header("240609")
TRAIN = basic("N", "C10001", "240610", "240614", "1111100", "1A10")
FROM_ASHFELD = origin("ASHFELD", "0900", "1", "SL")
TO_BRAYTON = terminus("BRAYTON", "0930", "2", "FL", public="0932")
TRIP = TRAIN + FROM_ASHFELD + TO_BRAYTON


def trip(hour, minute="00", first=TRAIN):
    """The train at another time. It runs half an hour from Ashfeld to Brayton."""
    end = f"{int(minute) + 30:02}"
    public = f"{hour}{int(minute) + 32:02}"
    return first + origin("ASHFELD", f"{hour}{minute}", "1", "SL") + terminus("BRAYTON", f"{hour}{end}", "2", "FL", public=public)


LATER_TRAIN = basic("N", "C10002", "240610", "240614", "1111100", "1A20")


def goes_on(category, date, *more):
    """A train to Colwell, a train from there after midnight, and their association with this category and this date indicator."""
    return extract(
        HEADER,
        basic("N", "C40001", "240610", "240610", "1000000", "4D40"),
        origin("ASHFELD", "2300", "1", public=""), terminus("COLWELL", "2350", "1", public=""),
        basic("N", "C40002", "240611", "240611", "0100000", "4D42"),
        origin("COLWELL", "0010", "1", public=""), terminus("ASHFELD", "0100", "1", public=""),
        association("C40001", "C40002", "240610", "240610", "COLWELL", category, date, days="1000000"),
        *more,
    )


ONE = extract(HEADER, TRIP)
SHORT = HEADER + f"{'TIASHFELD':79}\n"
# Accepted files.
GOOD = {
    "one": ONE,
    "returns": ONE.replace("\n", "\r\n"),
    "unended": ONE[:-1],
    "deletion": extract(HEADER, basic("D", "C10001", "240610"), origin("ASHFELD", "2400", public=""), TO_BRAYTON),
    "many": extract(HEADER, 2500 * place("TI", "ASHFELD", "PLACE")),
    "revised": extract(header("240610", "DFROC1B", last="DFROC1A"), trip("09", "05", basic("R", "C10001", "240610", "240614", "1111100", "1A10"))),
    "early": extract(header("240605"), basic("D", "C10003", "240610"), TRIP),
    "full": extract(header("240607", "DFROC1B", "F", last="DFROC1A"), trip("10", first=LATER_TRAIN)),
    "late_update": extract(header("240609", "DFROC1C", last="DFROC1B"), trip("11")),
    "deleted": extract(header("240609", "DFROC1B", last="DFROC1A"), basic("D", "C10001", "240610")),
    "before_deleted": extract(header("240608"), TRIP),
    "named": extract(HEADER, place("TI", "ASHFELD", "ASHFIELD CENTRAL")),
    "renamed": extract(header("240610", "DFROC1B", last="DFROC1A"), place("TA", "ASHFELD", "ASHFIELD NEW", "ASHFLDN")),
    "longer": extract(HEADER, basic("N", "C10001", "240610", "240621", "1111100", "1A10"), origin("ASHFELD", "0850", "1", "SL"), TO_BRAYTON),
    "later": extract(HEADER, TRAIN, origin("ASHFELD", "0905", "1", "SL"), TO_BRAYTON),
    "gone_at_once": extract(HEADER, basic("D", "C10001", "240610")),
    "to_july": extract(header("240608"), basic("N", "C10001", "240610", "240731", "1111100", "1A10"), FROM_ASHFELD, TO_BRAYTON),
    # Two hundred places.
    "places": extract(HEADER, *(place("TI", f"T{n}", "PLACE") for n in range(1000, 1200))),
}
# Files from which dockers are printed.
PRINTED = {
    "indicators": extract(
        HEADER,
        basic("N", "C10001", "240610", "240616", "1111111", "1A10"), FROM_ASHFELD, TO_BRAYTON,
        basic("N", "C10001", "240611", "240613", "0101000", "1A10", "O"),
        origin("ASHFELD", "0915", "1", "SL"), TO_BRAYTON,
        basic("N", "C10001", "240614", "240614", "0000100", "1A10", "C"),
    ),
    "midnight": extract(
        HEADER, basic("N", "C20001", "240610", "240610", "1000000", "2B20"),
        origin("ASHFELD", "2355", "1", "SL"),
        intermediate("COLWELL", "0000H", "0000H", "", ("0000", "0001"), ("2", "SL", "FL")),
        intermediate("DUNMERE", passes="0010"),
        terminus("BRAYTON", "0020", "2", "FL", public="0021"),
    ),
    "divides": extract(
        HEADER, basic("N", "C30001", "240610", "240610", "1000000", "3C30"),
        origin("ASHFELD", "1000", "1", public=""),
        intermediate("COLWELL", "1010", "1012", tracks=("3",)),
        intermediate("COLWELL", "1040", "1042", tracks=("4",), suffix="2"),
        terminus("BRAYTON", "1100", "2", public=""),
        basic("N", "C30002", "240610", "240610", "1000000", "3C32"),
        origin("COLWELL", "1045", "5", public=""), terminus("DUNMERE", "1100", "1", public=""),
        association("C30001", "C30002", "240610", "240610", "COLWELL", "VV", "S", "2", days="1000000"),
    ),
    "next_day": goes_on("NP", "N"),
    "same_day": goes_on("NP", "S"),
    "other_category": goes_on("XX", "N"),
    "cancelled": goes_on("NP", "N", basic("N", "C40002", "240611", "240611", "0100000", "4D42", "C")),
    "another_identity": extract(
        HEADER, basic("N", "C50001", "240610", "240610", "1000000", "5E50"),
        origin("ASHFELD", "1200", public=""), change("COLWELL", "5E51"),
        intermediate("COLWELL", passes="1210"), terminus("BRAYTON", "1230", public=""),
    ),
    "without_end": extract(HEADER, basic("N", "C10001", "240610", NO_END, "1111111", "1A10"), FROM_ASHFELD, TO_BRAYTON),
}
# Refused files, each with its fault: the record and the cause.
BAD = {
    "an empty file": ("empty", "", "1: NoEnd"),
    "a file without a header": ("headless", extract(TRIP), "1: Place"),
    "a header that is neither full nor an update": ("neither", extract(header("240609", indicator="X")), "1: Field 47"),
    "a line of 79 characters": ("short", SHORT, "2: Length"),
    "a tab in column 20": ("tabbed", extract(HEADER, place("TI", "ASHFELD", "A\tB")), "2: Byte 20"),
    "a note": ("note", HEADER + record("LN"), "2: Kind"),
    "a record after the trailer": ("after", extract(HEADER) + intermediate("COLWELL", "0910", "0912"), "3: After"),
    "a schedule without an origin": ("no_origin", HEADER + TRAIN + TO_BRAYTON, "3: Place"),
    "a schedule without a journey": ("no_journey", extract(HEADER, TRAIN), "3: Place"),
    "a departure at 2400": ("late", HEADER + TRAIN + origin("ASHFELD", "2400", public=""), "3: Field 11"),
    "a file that ends in a schedule": ("cut", HEADER + TRAIN, "3: NoEnd"),
    "a file without its trailer": ("no_trailer", HEADER + TRIP, "5: NoEnd"),
    "a day that is not in the calendar": ("no_day", HEADER + basic("N", "C10001", "230229", "240614", "1111100", "1A10"), "2: Field 10"),
    "a third midnight": (
        "midnights",
        extract(
            HEADER, basic("N", "C20001", "240610", "240610", "1000000", "2B20"),
            origin("ASHFELD", "2355", public=""), intermediate("A", passes="0010"),
            intermediate("B", passes="0005"), terminus("C", "0001", public=""),
        ),
        "6: Midnights",
    ),
}
FAULTS = {name: fault for name, _, fault in BAD.values()}
FILES = GOOD | PRINTED | {name: text for name, text, _ in BAD.values()}

# The files that the states know.
FIRST = File("2024-06-09", "DFROC1A")
SECOND = File("2024-06-10", "DFROC1B", last="DFROC1A")
FULL = File("2024-06-07", "DFROC1B", "F", last="DFROC1A")
UPDATE = File("2024-06-09", "DFROC1C", last="DFROC1B")
BEFORE = File("2024-06-08", "DFROC1A")
DELETING = File("2024-06-09", "DFROC1B", last="DFROC1A")
KEY = schedule("C10001")
ENTRY = FIRST.put(KEY, lines(TRIP))
REVISION = SECOND.put(KEY, lines(trip("09", "05")))
RENAMING = description(place("TA", "ASHFELD", "ASHFIELD NEW", "ASHFLDN"))
STATE_OF_ONE = state([FIRST], [ENTRY])
STATE_OF_BOTH = state([FIRST, SECOND], [REVISION])
STATES = {
    "no_files": state(),
    "state_of_one": STATE_OF_ONE,
    "state_of_both": STATE_OF_BOTH,
    "state_of_revised": state([SECOND], [REVISION]),
    "state_of_three": state([FULL, UPDATE], [UPDATE.put(KEY, lines(trip("11"))), FULL.put(schedule("C10002"), lines(trip("10", first=LATER_TRAIN)))]),
    "state_of_deleted": state([BEFORE, DELETING], [DELETING.put(KEY, DELETED)]),
    "state_of_renamed": state([FIRST, SECOND], [SECOND.put(tiploc("ASHFELD"), DELETED), SECOND.put(tiploc("ASHFLDN"), RENAMING)]),
    "state_of_lapsed": state([FIRST], [FIRST.put(KEY, LAPSED)], horizon="2024-06-15"),
    "old_state": older(STATE_OF_ONE),
    "old_state_of_both": older(STATE_OF_BOTH),
    "state_of_both_to_june": under("2024-06-14", STATE_OF_BOTH),
}
STATE_OF_REVISED = STATES["state_of_revised"]


def changed(offset, text):
    """The state of one schedule, with this text at this offset."""
    return STATE_OF_ONE[:offset] + text + STATE_OF_ONE[offset + len(text):]


ENDLESS = b"\xff" * 8
# Texts that aren't states, each with the offset and the cause of the fault.
BAD_STATES = {
    "nothing": (b"", 0, "Short"),
    "half a state": (STATE_OF_ONE[:155], 41, "Short"),
    "a state without its last byte": (STATE_OF_ONE[:-1], 41, "Short"),
    "a state and a byte": (STATE_OF_ONE + b"x", 311, "Tail"),
    "the older mark": (changed(0, b"DKS1"), 0, "Mark"),
    "a horizon that is no day": (changed(4, b"\x8e\xad"), 4, "Horizon"),
    "a schedule that ends before the horizon": (changed(4, b"\x5b\xf6"), 41, "Body"),
    "an item that is no day": (changed(14, b"\x8e\xad"), 14, "Item"),
    "a tag of nothing": (changed(41, b"\4"), 41, "Tag"),
    "a stamp of no item": (changed(61, b"\x42"), 41, "Stamp"),
    "an op of nothing": (changed(66, b"\3"), 41, "Body"),
    "a lapsed entry with a body": (changed(66, b"\2"), 67, "Tail"),
    "a body of a revision": (changed(73, b"R"), 41, "Body"),
    "a ledger count without end": (changed(6, ENDLESS), 33, "Item"),
    "an entry twice": (STATE_OF_ONE[:33] + number(2, 8) + 2 * STATE_OF_ONE[41:], 311, "Order"),
    "an entry count without end": (changed(33, ENDLESS), 311, "Short"),
    "a line count without end": (changed(67, b"\xff\xff\xff\xfe"), 41, "Short"),
    "a line count too many": (changed(67, b"\xff\xff\xff\xff"), 41, "Body"),
    "an item twice": (b"DKS2\0\0" + number(2, 8) + 2 * FIRST.item, 33, "Order"),
    "an item below the floor": (b"DKS2\0\0" + number(2, 8) + File("2024-06-05", "DFROC1A").item + FULL.item, 33, "Floor"),
    "a file in place of a state": (ONE.encode(), 0, "Mark"),
}

FILES_LINE = b"2024-06-09 2100 DFROC1A U DFROC1Z\n"
REVISED_FILES_LINE = b"2024-06-10 2100 DFROC1B U DFROC1A\n"


def many_trips(reference, last, date, uids):
    """A file that puts the train under each of these UIDs."""
    return extract(header(date, reference, last=last), *(TRIP.replace("C10001", f"C{uid}") for uid in uids))
