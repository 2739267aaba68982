"""Fixtures for the cases of `docker`: the files and states in a case's folder."""
import os
import typing

import pytest
from given import FILES, STATE_OF_BOTH, STATES, many_trips
from outcomes import takes, takes_more
from programs import give


class Large(typing.NamedTuple):
    """A file of 5,000 schedules, its state, and the state that knows it and two small files."""

    large: bytes
    large_state: bytes
    wanted_large: bytes


@pytest.fixture(autouse=True)
def given(folder):
    """A folder with the given files and states."""
    for name, text in ({name: text.encode() for name, text in FILES.items()} | STATES).items():
        give(text, name)
    os.mkdir("folder")
    return folder


@pytest.fixture(scope="session")
def large_texts(work):
    file, state, joined = (str(work / name) for name in Large._fields)
    text = many_trips("DFROC1A", "DFROC1Z", "240609", range(20000, 25000)).encode()
    give(text, file)
    give(STATE_OF_BOTH, joined)
    return Large(text, takes(state, file), takes_more(joined, file))


@pytest.fixture
def large(given, large_texts):
    """A large file and two states, by the names of their fields."""
    for name, text in large_texts._asdict().items():
        give(text, name)
    return large_texts
