"""Prints what an office knows, and its dockers."""
import contextlib
import datetime
import os
import sys

import dockers

from . import covering, printed
from .clock import ahead_text, far_text, is_ahead
from .extracts import moment_of, stamp_of
from .faults import REPORTED, Fault
from .places import lines_of_list
from .thinned import thinned
from .withdrawn import known_of, withdrawn

# How many thinned dockers are named.
NAMED = 5


def age_text(age):
    """A duration as people say it."""
    hours = age // datetime.timedelta(hours=1)
    return "1 hour" if hours == 1 else f"{hours} hours" if hours < 72 else f"{hours // 24} days"


def says_known(office, says):
    """Says how recent the newest file is, and what is missing, old, thinned or withdrawn."""
    extracts = office.files()
    says(f"known up to {extracts[-1].name}" if extracts else "nothing is known: no extract was taken")
    for line in (*gaps(office, extracts), *old(office, extracts)):
        says(line)
        if (kind := line.partition(":")[0]) != "withdrawn":
            office.counts(REPORTED, kind)
    if found := thinned(office):
        for line in thin(office, found):
            says(line)
        office.counts(REPORTED, "thinned", len(found))
    if not extracts:
        office.counts(REPORTED, "nothing known")
    for extract in known_of(office, extracts):
        drops = f"`station-office withdraw {office.state} {extract.reference}` drops it"
        office.report(Fault(1, office.state, f"it knows the {extract.name}, which is withdrawn: {drops}"))


def gaps(office, extracts):
    """A line for each update that doesn't follow a known file: the file before it is missing or withdrawn."""
    gone, before = withdrawn(office), {extract: stamp_of(other) for other, extract in zip(extracts, extracts[1:])}
    for reference, extract in dockers.missing(extracts):
        is_gone = any(stamp[2] == reference and before.get(extract, ("",)) < stamp < stamp_of(extract) for stamp in gone)
        yield f"{'withdrawn' if is_gone else 'missing'}: {reference}, which comes before the {extract.name}"


def old(office, extracts):
    """A line if the newest file is older than MAX_AGE, or more than a day ahead of the clock."""
    if not extracts:
        return []
    newest, most = extracts[-1], office.settings.max_age
    age = office.settings.now - moment_of(newest)
    if is_ahead(office, newest):
        return [f"ahead: the {newest.name} {ahead_text(office)}. If it is the extract, `station-office withdraw {office.state} {newest.reference}`"]
    return [f"old: the {newest.name} is {age_text(age)} old by the clock, which says {far_text(office, newest)}; more than {age_text(most)} is too old"] if age > most else []


def thin(office, found):
    """A line for each docker that a file left with few lines, up to a number of dockers."""
    lines = [f"thinned: {it.told(f'the docker of {it.place} on {it.day}')}" for it in found[:NAMED]]
    return lines + ([f"thinned: {len(found) - NAMED} more dockers; {office.folder / 'thinned'} lists them"] if len(found) > NAMED else [])


def places_of(office):
    """The codes in the office's list of places."""
    path = office.folder / "places"
    try:
        found = lines_of_list(office)
    except FileNotFoundError:
        raise Fault(4, path, "there is no such file; it has a timing point's code a line") from None
    if not found:
        office.say(path, "it names no place, so there is no docker")
    return found


def dockers_of(office, reader, date):
    """The dockers of the office's places. If one is refused, that is reported, and the others follow. If STATE or the day is refused, it stops, because the
    others would be refused too."""
    if not dockers.is_date(date):
        says_refusal(office, "print", reader.print_docker("A", date))
        return
    places = places_of(office)
    for place, answer in zip(places, reader.dockers([(place, date) for place in places])):
        if answer.status == 0:
            yield place, answer.text
            continue
        says_refusal(office, place, answer)
        if answer.status == 1:
            return


def prints_places(office, reader, known, date):
    """Writes the dockers of the office's places, each under lines that say how much is known of its day. Keeps what was written, and returns it by place."""
    written, draft = {}, printed.Draft()
    for place, text in draft.adding(date, dockers_of(office, reader, date)):
        with writing():
            sys.stdout.buffer.write(covering.head(office, known, date, place) + text)
            sys.stdout.flush()
        says_unknown(office, place, text)
        written[place] = text
    if written:
        printed.keeps_printed(office, date, draft)
    return written


@contextlib.contextmanager
def writing():
    """If something can't be written, that is a fault, and nothing more is written."""
    try:
        yield
    except OSError as error:
        os.dup2(os.open(os.devnull, os.O_WRONLY), 1)
        raise Fault(4, "standard output", "it was closed before its end" if isinstance(error, BrokenPipeError) else error.strerror) from None


def says_refusal(office, subject, answer):
    """Prints why a docker isn't printed."""
    line = answer.text.decode().strip()
    office.report(Fault(answer.status, subject, line, *filter(None, [dockers.advice(line)])))


def says_unknown(office, place, docker):
    """If a docker's place has no name, prints that nobody knows the code, or that no file has had the name yet."""
    if not dockers.description_of(docker):
        has_trains = docker.count(b"\n") > 2
        office.say(place, "trains call here, but no file has brought its name yet" if has_trains else "nobody knows this code; is it spelled right?")
