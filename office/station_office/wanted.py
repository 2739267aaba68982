"""Asks the other offices for the newest full extract, if this office knows it only from their states. With the extract itself, an office that withdraws a file
can always make STATE anew.

The folder `wanted` in swap/ has a file for each request. Its name begins with the stamp of the extract, and ends with the name of the office that asks. An office
that has the extract in taken/ puts it there, and its name there is only its stamp."""
import contextlib
import os
import shutil
import urllib.parse

from . import archive, swap, taking
from .extracts import stamp_of
from .faults import Fault

REQUEST = ".wanted"
# A reference may have any characters. These have a meaning in names of files.
QUOTED = {".": "%2E", "~": "%7E"}


def stamp_text(extract):
    """The stamp of an extract as a part of a file's name."""
    reference = urllib.parse.quote(extract.reference, safe="")
    return f"{extract.date}-{extract.time}-{''.join(QUOTED.get(letter, letter) for letter in reference)}"


def folder_of(office):
    return archive.readable(office, "swap") / "wanted"


def stamp_in(path):
    """The stamp in the name of a file in the folder."""
    return path.name.partition(".")[0]


def files(office):
    """The requests and the extracts in the folder."""
    found = archive.contents_of(folder_of(office))[0]
    return [path for path in found if path.name.endswith(REQUEST)], [path for path in found if not path.name.endswith(REQUEST)]


def exchanges(office):
    """Takes what was asked for, answers the other offices' requests, and asks for what is lacking now."""
    requests, answers = files(office)
    own = [path for path in requests if path.name.endswith(f".{swap.name_of(office)}{REQUEST}")]
    full = lacking(office)
    for path in answers if full else ():
        if stamp_in(path) == stamp_text(full):
            with office.reporting():
                keeps(office, path, full)
    gives(office, {stamp_in(path) for path in requests if path not in own}, answers)
    asks(office, lacking(office), own)


def gives(office, wanted, answers):
    """Puts the extracts that other offices want into the folder, and removes those that nobody wants any more."""
    requests, _ = files(office)
    for path in answers:
        if stamp_in(path) not in map(stamp_in, requests):
            path.unlink(missing_ok=True)
    for extract, path in archive.kept(office):
        stamp = stamp_text(extract)
        if stamp in wanted.difference(map(stamp_in, answers)):
            part = folder_of(office) / f".{stamp}.part"
            shutil.copyfile(path, part)
            os.replace(part, folder_of(office) / stamp)
            office.say(path, f"it is put into {folder_of(office)}, since another office wants the {extract.name}")


def lacking(office):
    """The newest full extract, if STATE knows it but taken/ doesn't have it."""
    full = next(iter(office.files()), None)
    is_kept = full is None or full.indicator != "F" or any(stamp_of(extract) == stamp_of(full) for extract, _ in archive.kept(office))
    return None if is_kept else full


def keeps(office, path, full):
    """Puts an extract that was asked for into taken/, if it is the one that STATE knows. Does nothing if another office has removed it, because nobody wanted it any
    more."""
    try:
        found = taking.looks_at(office, path)
    except Fault:
        if path.exists():
            raise
        return
    if stamp_of(found.extract) != stamp_of(full) or not taking.has_known_content(office, path, found):
        raise Fault(1, path, f"it isn't the {full.name} that is known here, so it isn't kept")
    taking.keeps(office, path, found)
    office.say(path, f"the {full.name} is kept in taken/ now")


def asks(office, full, own):
    """Leaves a request for an extract in the folder, or none."""
    request = folder_of(office) / f"{stamp_text(full)}.{swap.name_of(office)}{REQUEST}" if full else None
    for path in own:
        if path != request:
            path.unlink(missing_ok=True)
    if request and request not in own:
        with contextlib.suppress(FileExistsError):
            folder_of(office).mkdir()
        request.touch()
        office.say(office.state, f"the {full.name} came with another office's state, so the other offices are asked for it")
