"""Compares values with expected values. A failure shows both."""
import contextlib
import os
import time

# The number of seconds after which anything counts as hanging.
PATIENCE = 20


class Unlike(AssertionError):
    """A value or a result isn't the expected one."""


def shown(value):
    text = repr(value)
    return text if len(text) <= 300 else f"{text[:200]} .. {text[-80:]}"


def same(what, got, wanted):
    """Fails if two values differ. For texts, the message starts where they differ."""
    if got == wanted:
        return
    if isinstance(got, bytes) and isinstance(wanted, bytes):
        first = max(0, len(os.path.commonprefix([got, wanted])) - 60)
        texts = f"{shown(got[first:])}, and not {shown(wanted[first:])}"
        raise Unlike(f"{what}: from byte {first} on {texts}")
    raise Unlike(f"{what}: {shown(got)}, and not {shown(wanted)}")


def holds(what, is_so):
    if not is_so:
        raise Unlike(what)


@contextlib.contextmanager
def named(what):
    """Adds this name to the message of a failure."""
    try:
        yield
    except AssertionError as found:
        raise AssertionError(f"{what}: {found}") from found


def soon(what, is_so):
    """Waits until this holds."""
    last = time.monotonic() + PATIENCE
    while not is_so():
        holds(f"{what}, even after {PATIENCE} seconds", time.monotonic() < last)
        time.sleep(0.002)
