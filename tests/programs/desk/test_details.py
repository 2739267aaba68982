"""Detailed dockers, and dockers without the short-term plan, compared with an independent reading of extracts, and with `print` and `permanent`."""
import plans
import records
from desks import DAY_REFUSED, Answer, Desk, ends_well
from details import DETAILED_WIDTH, detailed_text, docker_part
from docker_lines import LINES
from mirror import give_taken
from outcomes import docker_text
from programs import give
from tables import each

# The request for a docker, and the request for the same docker with its details.
BOTH = (("print", "detail", False), ("permanent", "permanent-detail", True))
# A train with a BX record and a change en route, and an overlay with neither. The train joins another at Brayton.
BASIC = records.basic("N", "C10001", "240610", "240616", "1111111", "1A10")
EXTRA = records.record("BX         GWY")
ORIGIN = records.origin("ASHFELD", "2350", "1", "SL")
CHANGE = records.change("BRAYTON", "1B20")
CALL = records.calls("BRAYTON", "0005", "0007H")
END = records.terminus("CORHAM", "0100", "2")
OVERLAY = records.basic("N", "C10001", "240612", "240612", "0010000", "1Z99", "O")
LINK = records.association("C10001", "C10002", "240610", "240616", "BRAYTON", "JJ", "S")
OTHER = records.basic("N", "C10002", "240610", "240616", "1111111", "2B20")
WORKED = records.extract(records.header("240609"), LINK, BASIC, EXTRA, ORIGIN, CHANGE, CALL, END, OVERLAY, ORIGIN, CALL, END, OTHER, ORIGIN, CALL, END)


def line(front, start, number, *found):
    """A detailed line of these fields. A record that is None stands for spaces."""
    text = " ".join([f"{front:56}", start, f"{number:>10}", *(record[:80] if record else " " * 80 for record in found)])
    assert len(text) == DETAILED_WIDTH
    return text


def text_of(place, day, *lines):
    return "".join(f"{text:{DETAILED_WIDTH}}\n" for text in [f"DOCKER {place:7} {day}", *lines, "END"]).encode()


FULL = (BASIC, EXTRA)
TOLD = {
    "an origin": ("detail ASHFELD 2024-06-11", text_of(
        "ASHFELD", "2024-06-11",
        line("2350  D 1A10 C10001 P   1   SL      2350 ASHFELD CORHAM", "2024-06-11", "1", *FULL, None, ORIGIN, None),
        line("2350  D 2B20 C10002 P   1   SL      2350 ASHFELD CORHAM", "2024-06-11", "1", OTHER, None, None, ORIGIN, None),
    )),
    "a call after midnight, and an association": ("detail BRAYTON 2024-06-12", text_of(
        "BRAYTON", "2024-06-12",
        line("0005  A 1B20 C10001 P   1           0005 ASHFELD CORHAM", "2024-06-11", "2", *FULL, CHANGE, CALL, None),
        line("0005  A 2B20 C10002 P   1           0005 ASHFELD CORHAM", "2024-06-11", "2", OTHER, None, None, CALL, None),
        line("0005  J 1B20 C10001 P   1                C10002  2B20", "2024-06-11", "2", *FULL, CHANGE, CALL, LINK),
        line("0007H D 1B20 C10001 P   1           0007 ASHFELD CORHAM", "2024-06-11", "3", *FULL, CHANGE, CALL, None),
        line("0007H D 2B20 C10002 P   1           0007 ASHFELD CORHAM", "2024-06-11", "3", OTHER, None, None, CALL, None),
    )),
    "an overlay": ("detail CORHAM 2024-06-13", text_of(
        "CORHAM", "2024-06-13",
        line("0100  A 1Z99 C10001 O   2           0100 ASHFELD CORHAM", "2024-06-12", "4", OVERLAY, None, None, END, None),
        line("0100  A 2B20 C10002 P   2           0100 ASHFELD CORHAM", "2024-06-12", "4", OTHER, None, None, END, None),
    )),
    "the schedule below the overlay": ("permanent-detail CORHAM 2024-06-13", text_of(
        "CORHAM", "2024-06-13",
        line("0100  A 1B20 C10001 P   2           0100 ASHFELD CORHAM", "2024-06-12", "4", *FULL, CHANGE, END, None),
        line("0100  A 2B20 C10002 P   2           0100 ASHFELD CORHAM", "2024-06-12", "4", OTHER, None, None, END, None),
    )),
    "no train": ("detail NOWHERE 2024-06-11", text_of("NOWHERE", "2024-06-11")),
}


@each(("asked", "wanted"), TOLD)
def test_details_to_the_letter(asked, wanted):
    give_taken(WORKED)
    with Desk("STATE") as desk:
        desk.gives(Answer(0, wanted), asked)
        ends_well(desk)


def test_days_whose_details_are_refused():
    give_taken(WORKED)
    with Desk("--write", "STATE") as desk:
        desk.does("horizon 2024-06-11")
        for _, detailed, is_permanent in BOTH:
            desk.gives(DAY_REFUSED, *(f"{detailed} BRAYTON {day}" for day in plans.DAYS[:6]))
            desk.gives(Answer(0, detailed_text((WORKED,), "BRAYTON", "2024-06-14", is_permanent)), f"{detailed} BRAYTON 2024-06-14")


def compared(files):
    """Asks for the dockers and the detailed dockers of each place and day, and compares them with the reading of the extracts. Returns the lines of the
    detailed dockers, and how many dockers the short-term plan changes."""
    lines, changed = [], 0
    give_taken(*files)
    with Desk("STATE") as desk:
        for words in (f"{place} {day}" for place in (*plans.CODES, "NOWHERE") for day in plans.DAYS):
            texts = [detailed_text(files, *words.split(), is_permanent) for _, _, is_permanent in BOTH]
            for text, (plain, detailed, _) in zip(texts, BOTH):
                desk.gives(Answer(0, text), f"{detailed} {words}")
                desk.gives(Answer(0, docker_part(text)), f"{plain} {words}")
                lines += text.decode().splitlines()[1:-1]
            changed += texts[0] != texts[1]
    return lines, changed


@each("start", {f"plans from {start} on": start for start in range(0, 30, 10)})
def test_details_of_random_extracts(start):
    lines, changed = [], 0
    for seed in range(start, start + 10):
        more, differing = compared(plans.Plan(f"detail {seed}").files())
        lines, changed = lines + more, changed + differing
    assert {line[6] for line in lines} == set("ADJNPV"), "each kind of line"
    assert changed > 100, "the short-term plan changes dockers"
    assert any("????" in line[:56] for line in lines), "a partner that doesn't run"
    for first, last in ((161, 240), (242, 321), (404, 483)):
        found = sum(bool(line[first - 1:last].strip()) for line in lines)
        assert 100 < found < len(lines), "lines with the record, and lines without it"


def test_a_change_shows_at_once_in_details():
    give_taken(WORKED)
    revised = records.basic("R", "C10001", "240610", "240616", "1111111", "1A11")
    update = records.extract(records.header("240610", "DFROC1B"), revised, EXTRA, ORIGIN, END)
    give(update.encode(), "update")
    request = "detail ASHFELD 2024-06-11"
    with Desk("--write", "STATE") as desk:
        desk.gives(Answer(0, detailed_text((WORKED,), "ASHFELD", "2024-06-11")), request)
        desk.does("take update")
        got = desk.ask(request)
    assert got == Answer(0, detailed_text((WORKED, update), "ASHFELD", "2024-06-11"))
    assert b"BSNC10001240610240616" in got.text, "a revised schedule stands as a new one"


def schedule(uid, first, last, days, stp, at="", along=()):
    """A schedule between two places. A cancellation has only its basic schedule."""
    basic = records.basic("N", uid, first, last, days, "1A10", stp)
    return basic + records.origin(along[0], at, "1", "SL") + records.terminus(along[1], "0930", "2") if along else basic


WEEK = ("240610", "240616", "1111111")
DIRECT = ["ASHFELD", "BRAYTON"]
PERMANENT = schedule("C10001", *WEEK, "P", "0900", DIRECT)
LEAVES = LINES["LEAVES_0900"]


@each(("short", "day", "wanted"), {
    "overlaid": (schedule("C10001", "240611", "240611", "0100000", "O", "0915", DIRECT), 11, [LEAVES]),
    "cancelled": (schedule("C10001", "240611", "240611", "0100000", "C"), 11, [LEAVES]),
    "moved away": (schedule("C10001", "240611", "240611", "0100000", "O", "0915", ["CORHAM", "DUNMERE"]), 11, [LEAVES]),
    "a new train": (schedule("C10009", "240611", "240611", "0100000", "N", "0915", DIRECT), 11, [LEAVES]),
    "a later permanent schedule": (schedule("C10001", "240611", "240611", "0100000", "P", "0910", DIRECT), 11, [LINES["LEAVES_0910"]]),
    "a day without a train": ("", 17, []),
})
def test_a_day_to_the_letter(short, day, wanted):
    give_taken(records.extract(records.header("240609"), records.place("TI", "ASHFELD", "ASHFELD JUNCTION"), PERMANENT, short))
    with Desk("STATE") as now:
        now.gives(Answer(0, docker_text("ASHFELD", f"2024-06-{day}", *wanted, name="ASHFELD JUNCTION")), f"permanent ASHFELD 2024-06-{day}")
        ends_well(now)


def test_days_that_are_refused():
    give_taken(records.extract(records.header("240609"), PERMANENT))
    with Desk("--write", "STATE") as now:
        now.does("horizon 2024-06-12")
        now.gives(DAY_REFUSED, *(f"{verb} ASHFELD 2024-06-{day:02}" for verb in ("permanent", "print") for day in range(8, 15)))
        now.gives(Answer(0, docker_text("ASHFELD", "2024-06-15", LEAVES)), "permanent ASHFELD 2024-06-15")


def test_a_desk_goes_on_with_both():
    """A change shows in both dockers as soon as it is taken, and nothing is saved."""
    give_taken(records.extract(records.header("240609"), PERMANENT))
    overlay = schedule("C10001", "240611", "240611", "0100000", "O", "0915", DIRECT)
    give(records.extract(records.header("240610", "DFROC1B"), overlay).encode(), "update")
    with Desk("--write", "STATE") as now:
        before = now.ask("print ASHFELD 2024-06-11")
        assert now.ask("permanent ASHFELD 2024-06-11") == before
        now.does("take update")
        assert now.ask("permanent ASHFELD 2024-06-11") == before
        assert now.ask("print ASHFELD 2024-06-11") != before
