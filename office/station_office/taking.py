"""Takes extracts. Each is checked before it is believed."""
import contextlib
import pathlib
import re
from typing import NamedTuple

import dockers

from . import archive, judging, packing, swap, thinned, waiting, writing
from .clock import ahead_text, is_ahead
from .extracts import contradicted, header_of, stamp_of
from .faults import Fault, Held, PutAside, Refused
from .office import digest_of
from .withdrawn import known_of


class Found(NamedTuple):
    """An extract that docker accepts: a file with its text, its header, its digest, and the number of its changes."""
    accepted: str
    plain: pathlib.Path
    extract: dockers.Extract
    digest: str
    changes: int


def takes_all(office, paths):
    """Takes each extract. A failure is reported, and the other extracts are taken all the same."""
    for path in paths:
        with office.reporting():
            takes(office, path)


def arrived(office):
    """The files in in/ that nobody is writing any more. Folders there are skipped."""
    files, rest = archive.contents_of(archive.writable(office, "in"))
    for path in rest:
        office.say(path, "it is no file, and is passed over")
    return waiting.still(office, files)


def is_own(office, path):
    """Whether a file came through in/ or was held. Such a file goes to another folder."""
    return any(path.parent.resolve() == (office.folder / name).resolve() for name in ("in", "held"))


def takes(office, path):
    """Takes an extract that is whole and believed. A file that came through in/ goes to another folder; if STATE is at fault, the file waits."""
    with archive.packs_ahead(office, path) if is_own(office, path) else contextlib.nullcontext():
        try:
            found = looks_at(office, path)
            if not is_known(office, path, found):
                joins(office, path, found)
            keeps(office, path, found)
        except PutAside as fault:
            puts_aside(office, path, fault)
            raise


def looks_at(office, path):
    """The extract in a file. A file that isn't an extract is refused, by docker or because of its first bytes. A withdrawn file is refused too."""
    plain = office.unpacked(path)
    with open(plain, "rb") as text:
        head = text.read(512)
    if kind := packing.kind_of(head):
        raise Refused(1, path, kind)
    try:
        accepted = office.docker(path, "check", plain).decode("ascii").strip()
    except Fault as fault:
        raise Refused(1, path, *fault.lines) if fault.status == 1 else fault from None
    found = Found(accepted, plain, header_of(head[:80]), digest_of(plain), int(re.search(r"(\d+) changes", accepted)[1]))
    if known_of(office, [found.extract]):
        still = swap.offices_with(office, found.extract)
        raise Refused(1, path, f"the {found.extract.name} is withdrawn here, so it isn't taken", *(f"office {name} still has to withdraw it" for name in still))
    return found


def is_known(office, path, found):
    """Whether STATE knows an extract. An extract with the same stamp and other content is held."""
    if stamp_of(found.extract) not in map(stamp_of, office.files()):
        return False
    digests = {it.digest for it in archive.list_of_taken(office) if stamp_of(it.extract) == stamp_of(found.extract)}
    if found.digest in digests or has_known_content(office, path, found):
        office.say(path, f"the {found.extract.name} is known already, so it brought nothing new")
        return True
    if not office.settings.is_forced:
        raise Held(1, path, f"another file with its stamp is known, the {found.extract.name}, and has other content. If it is taken, both count together")
    return False


def has_known_content(office, path, found):
    """Whether an extract is the one with its stamp that STATE knows, as far as STATE still has its content."""
    probe = office.work / "probe"
    office.docker(path, "new", probe)
    office.docker(path, "take", probe, found.plain, needs=office.needed(found.plain))
    return not contradicted(office.state, probe)


def joins(office, path, found):
    """Has STATE take an extract, unless there is a reason to doubt it."""
    extract, full = found.extract, next(iter(office.files()), None)
    if not office.settings.is_forced and is_ahead(office, extract):
        raise Held(1, path, f"the {extract.name} {ahead_text(office)}")
    if full and full.indicator == "F" and stamp_of(extract) < stamp_of(full):
        office.say(path, found.accepted)
        office.say(path, f"it is older than the {full.name}, so it brought nothing new")
        return
    with writing.changing(office, path, "take", found.plain) as (before, after):
        if not office.settings.is_forced and (lost := judging.losses(office, before, after)):
            raise Held(1, path, *lost)
        thinned.reports(office, path, before, after, extract.name)
    office.say(path, found.accepted)


def keeps(office, path, found):
    """Makes sure that an extract that was taken is in taken/ and in the list there. A file that came through in/ or was held is moved."""
    same = [it for it in archive.list_of_taken(office) if (stamp_of(it.extract), it.digest) == (stamp_of(found.extract), found.digest)]
    if not any((office.folder / "taken" / it.name).exists() for it in same):
        source, name = (path, path.name) if path.is_file() else (found.plain, f"{found.extract.reference}.cif")
        target = archive.stores(office, source, name, "taken", is_moved=is_own(office, path))
        archive.lists(office, archive.Taken(found.extract, found.changes, found.digest, target.name))
    if is_own(office, path):
        archive.removes(path)


def puts_aside(office, path, fault):
    """Puts aside a file that isn't taken: a file in in/ is moved to refused/ or held/. Adds to the fault where the file is now, and what can be done."""
    place = path
    if path.parent.resolve() == (office.folder / "in").resolve():
        place = archive.puts_aside(office, path, fault.folder, "".join(f"{path}: {line}\n" for line in fault.lines))
        fault.lines.append(f"it is {place} now, with the reason beside it")
    if isinstance(fault, Held):
        fault.lines.append(f"`station-office --force take {office.state} {place}` takes it all the same")
