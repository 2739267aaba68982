"""Puts another state in STATE's place."""
import os
import shutil
import sys

import dockers

from . import copying, judging, thinned
from .clock import clock_text
from .extracts import stamp_of
from .faults import Fault
from .merging import says_yes


def judges(office, state, has, question, forbidden=frozenset()):
    """Says what the office has with another state in STATE's place, and what it lacks then. Holds the change back if too little would be left, and asks if somebody
    is at a terminal."""
    before = judging.counts_of(office, office.state)
    office.say(office.state, f"it would have {', '.join(f'{has.parts[name]} of {number} {name}' for name, number in before.parts.items())}")
    known = office.files_of(office.state, state)
    lacking = [extract.name for extract in office.files() if extract not in known and stamp_of(extract) not in forbidden]
    if lacking:
        office.say(office.state, f"it would lack the {', the '.join(lacking)}")
    lost = judging.losses(office, before, has)
    if lost and not office.settings.is_forced:
        raise Fault(1, office.state, *lost, "so it stays as it is; --force changes it all the same")
    if not office.settings.is_forced and sys.stdin.isatty() and not says_yes(question):
        raise Fault(1, office.state, "it stays as it is")
    thinned.reports(office, office.state, before, has, f"change by hand at {clock_text(office)}")


def draft_of(office, plain):
    """A file in work/ with the content of another file: that file itself, if it is already there."""
    return plain if plain.parent == office.work else shutil.copyfile(plain, office.work / "draft")


def puts_in_place(office, state, before):
    """Puts a state in STATE's place, unless another command has written STATE since BEFORE."""
    copying.keeps_copy(office)
    if dockers.identity(office.state) != before:
        raise Fault(4, office.state, "another command wrote STATE meanwhile, so this one changed nothing: do it again")
    os.chmod(state, os.stat(office.state).st_mode & 0o777)
    with open(state, "rb") as file:
        os.fsync(file.fileno())
    os.replace(state, office.state)
