"""Commands that write STATE, when another program does something just before one of their calls of the file system. Each act of shared/comings.py is tried at
each call of each command."""
import os

import pytest
from comings import TEXTS, TO_DRAFT, TO_STATE, WITH_THIRD, Coming, Subject, make_room
from given import STATES
from meetings import calls_of, met
from outcomes import DEVICE
from programs import DOCKER
from states import older, under
from tables import each

TO_JUNE = {text: under("2024-06-12", text) for text in TEXTS}
MIGRATED = {older(text): text for text in TEXTS}
ANEW = dict.fromkeys((None, *TEXTS), STATES["no_files"])
NOTHING = (None, *TEXTS[1:])


def subject(words, stores, texts=TEXTS, **more):
    command = [DOCKER, *words.split()]
    return Subject(command, texts, stores, name=command[2], reads=command[1] != "new", **more)


TAKE = subject("take office ../third", WITH_THIRD)
LINK = {"leading": "office"}
TAKE_BY_LINK = subject("take leading ../third", WITH_THIRD, links=LINK)
NEW_BY_LINK = subject("new leading", ANEW, links=LINK)
SUBJECTS = {
    "take": TAKE,
    "merge": subject("merge office ../state_of_third", WITH_THIRD),
    "horizon": subject("horizon office 2024-06-12", TO_JUNE),
    "migrate": subject("migrate office", MIGRATED, tuple(MIGRATED)),
    "new": subject("new office", ANEW),
    "take beside a left-over draft": TAKE._replace(leaves=True),
    "take by a link": TAKE_BY_LINK,
    "take by a link that changes": TAKE_BY_LINK._replace(at="leading"),
    "new by a link": NEW_BY_LINK,
    "new by a link that changes": NEW_BY_LINK._replace(at="leading"),
    "new where nothing is": subject("new office", ANEW, NOTHING),
    "new by a link to nothing": NEW_BY_LINK._replace(texts=NOTHING),
    "new by a link to nothing that changes": NEW_BY_LINK._replace(texts=NOTHING, at="leading"),
    "new by two links to nothing": subject("new first", ANEW, NOTHING, links={"first": "leading"} | LINK),
}


@pytest.mark.usefixtures("given")
@each("act", TO_STATE | TO_DRAFT)
@each("subject", SUBJECTS)
def test_another_program_comes(device, subject, act):
    make_room()
    Coming(device, subject, act).is_as_promised()


@pytest.mark.usefixtures("given")
@each("act", {name: act for name, act in TO_STATE.items() if act.changes == "a pipe"})
@each("subject", {name: SUBJECTS[name] for name in ("take", "take by a link", "take by a link that changes")})
def test_a_state_that_becomes_a_pipe_before_it_is_read(device, subject, act):
    """The command reads a state from the pipe, and writes nothing to it."""
    make_room()
    subject.make(subject.texts[0])
    calls = calls_of(device, subject.command)
    for number in range(calls.index(f"statx {subject.name}") + 2, calls.index(f"open {subject.name}") + 2):
        subject.make(subject.texts[0])
        gives = f"timeout 5 sh -c 'cat elsewhere >{subject.name}' >/dev/null 2>&1 &"
        assert met(device, number, f"{subject.line(act)}; {gives}", subject.command).ended == DEVICE
        assert not os.path.isfile(subject.name)
        assert not os.path.lexists(subject.draft), "a draft is left"
