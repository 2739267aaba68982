"""Makes records as in docs/FORMATS.md: each has 80 characters and a line feed. Dates are YYMMDD; times are HHMM, with an H for half a minute."""


def record(text, last=""):
    """A record with this text, and with this character in its last column."""
    line = f"{text:79}{last}" if last else text
    assert len(line) <= 80, line
    return f"{line:80}\n"


def header(date, reference="DFROC1A", indicator="U", minute="2100", last="DFROC1Z"):
    day_first = date[4:6] + date[2:4] + date[0:2]
    return record(f"HDTPS.UDFROC1.PD240609{day_first}{minute}{reference}{last}{indicator}A")


def basic(transaction, uid, first, last="", days="", train="", stp="P"):
    return record(f"BS{transaction}{uid}{first}{last:6}{days:7} POO{train:4}", stp)


def origin(place, at, platform="", track="", public=None):
    """A train's origin. Its public time is its working time, unless another is given."""
    public = at[:4] if public is None else public
    return record(f"LO{place:7} {at:5}{public:4}{platform:3}{track:3}")


def intermediate(place, arrives="", departs="", passes="", public=("", ""), tracks=(), suffix=""):
    """An intermediate location with its public times, and its platform, line and path."""
    platform, line, path = (*tracks, "", "", "")[:3]
    times = f"{arrives:5}{departs:5}{passes:5}{public[0]:4}{public[1]:4}"
    return record(f"LI{place:7}{suffix:1}{times}{platform:3}{line:3}{path:3}")


def passes(place, at):
    return intermediate(place, passes=at, public=("0000", "0000"))


def calls(place, arrives, departs):
    return intermediate(place, arrives, departs, public=(arrives[:4], departs[:4]), tracks=("1",))


def terminus(place, at, platform="", path="", public=None):
    """A train's terminus. Its public time is its working time, unless another is given."""
    public = at[:4] if public is None else public
    return record(f"LT{place:7} {at:5}{public:4}{platform:3}{path:3}")


def change(place, train):
    """A change en route: from here on the train has another identity."""
    return record(f"CR{place:7} OO{train:4}")


def place(identity, code, description="", new=""):
    text = f"{identity}{code:7}{'':9}{description:26}"
    return record(f"{text:72}{new:7}")


def association(base, other, first, last, at, category="NP", date="S", suffix="", days="1111111", stp="P", transaction="N"):
    """An association of two trains, with its date indicator and the base train's suffix."""
    return record(f"AA{transaction}{base}{other}{first}{last:6}{days:7}{category:2}{date:1}{at:7}{suffix:1} TP", stp)


TRAILER = record("ZZ")
ALWAYS = "1111111"
NO_END = "999999"


def extract(*parts):
    """The text of a file with these records."""
    return "".join(parts) + TRAILER
