"""Commands with some of their standard streams closed."""
import os

from given import STATE_OF_BOTH, STATE_OF_ONE
from outcomes import DEVICE, holds_only, keeps, stores
from programs import CLOSED, Ended, docker, give, preloading, redirected
from tables import each

ALL_CLOSED = redirected("<&- >&- 2>&-")
SILENT = Ended(1, b"", b"")


@each("before, file, wanted", {
    "a file that is refused, with all streams closed": (ALL_CLOSED, "short", SILENT),
    "a refused file with standard error closed": (redirected("2>&-"), "short", SILENT),
    "take of standard input that is closed": (redirected("<&-"), "stdin", DEVICE),
})
def test_refused_and_keeps_the_state(before, file, wanted):
    give(STATE_OF_ONE, "office")
    keeps(wanted, "take", "office", file, before=before)


@each("before", {"take with all streams closed": ALL_CLOSED, "take with standard output closed": redirected(">&-")})
def test_done_and_stores(before):
    give(STATE_OF_ONE, "office")
    stores(STATE_OF_BOTH, "take", "office", "revised", before=before)


@each("closed", CLOSED)
def test_each_of_the_streams_closed(device, closed):
    """No file is opened under the number of a closed stream."""
    before = (*redirected(closed), *preloading(device, WRONG="wrong"))
    give(STATE_OF_ONE, "office")
    assert docker("take", "office", "short", before=before).status == 1
    holds_only("office", STATE_OF_ONE)
    stores(STATE_OF_BOTH, "take", "office", "revised", before=before)
    stores(STATE_OF_BOTH, "merge", "office", "state_of_one", before=before)
    assert not os.path.exists("wrong"), "a file has the number of a stream"
