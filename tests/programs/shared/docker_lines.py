"""The lines of the dockers that tests expect. The lines by name stand once for all tests, in the
crate `test_records`. A line with a test's own numbers is made from its columns."""
import re

from programs import ROOT

CONSTANT = re.compile(r'^pub const (\w+): &\[u8\] =\s+b"(.{56})";$', re.MULTILINE)
LINES = dict(CONSTANT.findall((ROOT / "crates/test_records/src/dockers.rt").read_text(encoding="utf-8")))
# The docker of COLWELL on 11 June 2024, for `examples/association.cif`.
EVENING_AT_COLWELL = (
    "0004H A 1C65 C60005 P   2           0005 ASHFELD DUNMERE",
    "0006  D 1C65 C60005 P   2           0006 ASHFELD DUNMERE",
    "0725  A 1C60 C60001 P   2   SL      0725 ASHFELD DUNMERE",
    "0725  J 1C60 C60001 P   2                C60002  2C62   ",
    "0728  A 2C62 C60002 P   3           0728 BRAYTON COLWELL",
    "0735  D 1C60 C60001 P   2   SL      0735 ASHFELD DUNMERE",
    "1835  A 1C63 C60003 P   1   FL      1835 DUNMERE ASHFELD",
    "1835  V 1C63 C60003 P   1                C60004  2C64   ",
    "1841  D 1C63 C60003 P   1   FL      1841 DUNMERE ASHFELD",
    "1845  D 2C64 C60004 P   1           1845 COLWELL BRAYTON",
)


def event(time, kind, uid, origin, destination, public="", stp="P"):
    """The line of an event of a train 1A10 that has no platform, line or path there."""
    return f"{time:5} {kind} 1A10 {uid} {stp}{'':15}{public:4} {origin:7} {destination:7}"


def works_on(time, uid, partner, identity="1A10", stp="P"):
    """The line of a train 1A10 that becomes the train with the UID `partner`."""
    return f"{time:5} N 1A10 {uid} {stp}{'':20}{partner}  {identity:7}"
