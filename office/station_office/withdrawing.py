"""Withdraws a file: STATE becomes what the other files make."""
import os
import re

import dockers

from . import archive, copying, judging, replacing, writing
from .extracts import day_of, horizon_of, stamp_of
from .faults import Fault
from .replacing import draft_of
from .withdrawn import forbids, withdrawn


def withdraws(office, reference, moment=""):
    """Withdraws a file. From now on it is neither taken nor merged, and STATE is what the other files make."""
    stamp = stamp_that_is_meant(office, reference, moment)
    forbidden = withdrawn(office) | {stamp}
    if forbidden.intersection(map(stamp_of, office.files())):
        before = dockers.identity(office.state)
        state, has, made = made_anew(office, forbidden)
        replacing.judges(office, state, has, f"Withdraw {reference}?", forbidden)
        forbids(office, stamp)
        replacing.puts_in_place(office, state, before)
        office.say(office.state, f"it is made anew, {made}")
    else:
        forbids(office, stamp)
        office.say(office.state, f"it doesn't know {reference}, so it stays as it is")
    for extract, path in archive.archived(office):
        if stamp_of(extract) == stamp:
            archive.puts_aside(office, path, "refused", f"{path}: the {extract.name} was withdrawn on {office.settings.now:%Y-%m-%d}\n")


def stamp_that_is_meant(office, reference, moment):
    """The file with this reference. If several have it, the beginning of a moment says which is meant. References recur, so a file that counts in STATE is
    preferred."""
    def named(extracts):
        return sorted({stamp_of(it) for it in extracts if it.reference == reference and written(stamp_of(it)).startswith(moment)})

    found = named(office.files()) or named(it.extract for it in archive.list_of_taken(office))
    if len(found) > 1:
        raise Fault(1, reference, f"several files have this reference: add the moment of the one that you mean, {' or '.join(map(written, found))}")
    if found:
        return found[0]
    if re.fullmatch(r"\S{1,7}", reference) and re.fullmatch(r"\d{4}-\d\d-\d\dT\d\d:\d\d", moment) and dockers.is_date(moment[:10]):
        return moment[:10], moment[11:].replace(":", ""), reference
    raise Fault(1, reference, "no such file is known here. If it shall be refused all the same, add its moment, as in 2024-06-10T21:00")


def written(stamp):
    """The moment of a stamp as a word."""
    date, time, _ = stamp
    return f"{date}T{time[:2]}:{time[2:]}"


def made_anew(office, forbidden):
    """A state of the files that were taken and aren't forbidden, with STATE's horizon. Returns its file, what it has, and words that say what it is made of."""
    state = office.work / "state"
    copy = newest_sound_copy(office, state, forbidden)
    if copy is None:
        office.docker(office.state, "new", state, needs=office.needed())
    desk, paths = writing.Writer(judging.desk_program(), state, office.work), files_to_take(office, state, forbidden)
    try:
        for path in paths:
            writing.carries_out(office, path, desk, "take", office.unpacked(path))
        if horizon_of(state) < horizon_of(office.state):
            writing.carries_out(office, office.state, desk, "horizon", day_of(horizon_of(office.state)))
        has = judging.counts(office, desk)
        writing.saves(office, office.state, desk)
    finally:
        desk.drops()
    return state, has, f"of {copy.relative_to(office.folder)} and {len(paths)} files in taken/" if copy else f"of {len(paths)} files in taken/"


def newest_sound_copy(office, state, forbidden):
    """Unpacks the newest copy of STATE that knows nothing forbidden. Returns None if there is no such copy."""
    for copy in copying.copies(office):
        try:
            plain = office.unpacked(copy)
            if not forbidden.intersection(map(stamp_of, office.files_of(copy, plain))):
                os.replace(draft_of(office, plain), state)
                return copy
        except Fault as fault:
            office.report(fault)
    return None


def files_to_take(office, state, forbidden):
    """The files in taken/ that aren't forbidden and that a state lacks, from the newest full extract on."""
    known = office.files_of(office.state, state)
    kept = sorted((stamp_of(extract), extract, path) for extract, path in archive.archived(office) if stamp_of(extract) not in forbidden)
    fulls = [stamp for stamp, extract, _ in kept if extract.indicator == "F"] + [stamp_of(extract) for extract in known if extract.indicator == "F"]
    floor = max(fulls, default=("",))
    return [path for stamp, _, path in kept if stamp >= floor and stamp not in map(stamp_of, known)]
