"""Merges other offices' states, except those that would do harm."""
import sys

import dockers

from . import archive, judging, swap, thinned, writing
from .clock import ahead_text, is_ahead
from .extracts import DAY, bytes_of, contradicted, day_of, deletions, horizon_of
from .faults import Fault
from .office import digest_of
from .withdrawn import known_of


def merges_all(office, paths, asks=False):
    """Merges each state. A failure is reported, and the other states are merged all the same."""
    for path in paths:
        with office.reporting():
            merges(office, path, asks)


def merges(office, path, asks):
    """Merges a state, unless it knows what is withdrawn or there is a reason to doubt it. Prints what the merge brought."""
    digest = digest_of(path) if path.is_file() else None
    if digest in swap.merged(office) and swap.is_covered(office, path):
        office.say(path, "it brought nothing new")
        return
    joins(office, path, asks)
    if digest:
        swap.notes_merged(office, digest)


def joins(office, path, asks):
    """Has STATE take over what another state knows."""
    plain = office.unpacked(path)
    files = office.files_of(path, plain)
    refuses_withdrawn(office, path, files)
    reason = doubt(office, path, plain, files)
    if reason and not office.settings.is_forced:
        raise not_merged(office, path, [reason])
    looks_at_horizon(office, path, plain, asks)
    if not reason and dockers.grew(dockers.knowledge(plain), dockers.knowledge(office.state)):
        office.say(path, "it brought nothing new")
        return
    known, horizon = office.files(), horizon_of(office.state)
    with writing.changing(office, path, "merge", plain) as (before, after):
        lost = judging.losses(office, before, after)
        new = [extract for extract in files if extract not in known]
        if lost and not office.settings.is_forced:
            raise not_merged(office, path, [*lost, *culprit(plain, new)])
        thinned.reports(office, path, before, after, new[0].name if len(new) == 1 else f"{len(new)} files of the office {swap.office_of(path)}")
    office.say(path, brought(office, known, horizon))


def not_merged(office, path, reasons):
    """The fault of a state that isn't merged."""
    whose = f"office {swap.office_of(path)}: "
    return Fault(1, path, *(f"{whose}{reason}" for reason in reasons), f"it isn't merged. `station-office --force merge {office.state} {path}` merges it all the same")


def culprit(plain, new):
    """Names the file that takes away most, if a new file does: the newest full extract, or the file that deletes and cancels more than the others together."""
    fulls = [extract for extract in new if extract.indicator == "F"]
    deleted = deletions(plain, new)
    most = max(deleted, key=deleted.get, default=None)
    if fulls or len(new) == 1:
        return [f"it has the {(fulls or new)[0].name}"]
    return [f"most by its {most.name}, which deletes or cancels {deleted[most]}"] if most and deleted[most] * 2 > sum(deleted.values()) else []


def refuses_withdrawn(office, path, files):
    """Refuses a state that knows a file which is withdrawn here."""
    if known := known_of(office, files):
        name = known[0].name
        raise Fault(1, path, f"it knows the {name}, which is withdrawn here, so it isn't merged: office {swap.office_of(path)} still has to withdraw it")


def doubt(office, path, plain, files):
    """A reason to doubt a state: the moment of a file that it knows, or a file that is known here with other content."""
    if ahead := [extract for extract in files if is_ahead(office, extract)]:
        return f"it knows the {ahead[0].name}, which {ahead_text(office)}"
    if archive.is_same(plain, office.state):
        return None
    try:
        unlike = contradicted(office.state, plain)
    except (IndexError, KeyError):
        # It isn't a state, and docker says why.
        office.docker(path, "files", plain)
        raise
    if not unlike:
        return None
    (file, number), *more = unlike.most_common()
    name = next(it.name for it in files if bytes_of(it) == file)
    return f"its {name} has other content than the file with this stamp that is known here: {number} entries differ" + (f", and so do {len(more)} more files" if more else "")


def looks_at_horizon(office, path, plain, asks):
    """If the horizon would rise, says so and asks. If nobody can be asked, only a horizon of a week ago or older is taken over."""
    if horizon_of(plain) <= horizon_of(office.state):
        return
    its = day_of(horizon_of(plain))
    office.say(path, f"its horizon is {its}. With it, {office.state} drops for ever what ended before")
    if office.settings.is_forced or asks and says_yes("Merge it?"):
        return
    if asks and sys.stdin.isatty() or is_recent(office, its):
        raise Fault(1, path, "it isn't merged; --force merges it")


def is_recent(office, date):
    """Whether a day is later than a week ago."""
    return dockers.is_date(date) and date > (office.settings.now - 7 * DAY).date().isoformat()


def says_yes(question):
    """Whether somebody at a terminal answers yes."""
    if not sys.stdin.isatty():
        return False
    print(f"{question} [y/N] ", end="", file=sys.stderr, flush=True)
    return sys.stdin.readline().strip().lower().startswith("y")


def brought(office, known, horizon):
    """One line that says what a merge brought."""
    names = [extract.name for extract in office.files() if extract not in known]
    if names:
        return f"it brought the {names[0]}" + (f" and {len(names) - 1} more" if len(names) > 1 else "")
    if horizon_of(office.state) != horizon:
        return "it brought its horizon"
    return "it brought other changes by files that were known: two files with one stamp have different content"
