"""How offices exchange states: each puts its state under its own name where the others find it, and merges theirs."""
import contextlib
import os
import re
import secrets
import shutil
import socket

import dockers

from . import packing
from .archive import contents_of, readable, writable
from .extracts import extracts_in, knowledge_in
from .faults import Fault
from .office import digest_of, size_of
from .withdrawn import known_of

# How many digests of merged files are kept.
MERGED = 1000
# Only consonants, so that the random letters don't form a word.
LETTERS = "bcdfghjkmnpqrstvwxz"


def new_name(office):
    """A name that no other office has: the machine's name, STATE's name, and six random letters."""
    parts = (socket.gethostname().split(".")[0], office.state.name.removesuffix(".state"), "".join(secrets.choice(LETTERS) for _ in range(6)))
    return "-".join(re.sub(r"[^A-Za-z0-9_]+", "-", part).strip("-") or "office" for part in parts)


def name_file(office):
    """The file beside STATE with the office's name."""
    return office.folder / f"{office.state.name}.name"


def name_of(office):
    """The office's name. It is made together with STATE, and kept in a file beside it."""
    path = name_file(office)
    with contextlib.suppress(FileNotFoundError):
        if re.fullmatch(r"\w[\w.-]*", name := path.read_text(encoding="utf-8").strip()):
            return name
    name = new_name(office)
    draft = office.work / "name"
    draft.write_text(f"{name}\n", encoding="utf-8")
    os.replace(draft, path)
    return name


def office_of(path):
    """The name of the office whose state this file is."""
    return path.name.removesuffix(".zst").removesuffix(".state")


def own(office):
    """The file in swap/ with this office's name."""
    return office.folder / "swap" / f"{name_of(office)}.state.zst"


def sent(office):
    """Digests of what this office has put into swap/."""
    try:
        return office.beside("sent").read_text(encoding="utf-8").split()
    except FileNotFoundError:
        return []


def is_ours(office, path):
    """Whether this office put a file into swap/. Another office may have its name, from a copy of its folder."""
    return path == own(office) and digest_of(path) in sent(office)


def others(office):
    """The files in swap/ that other offices put there."""
    return [path for path in contents_of(readable(office, "swap"))[0] if not is_ours(office, path)]


def identity_text(office):
    """A text that identifies the file STATE. Another file in its place has another text."""
    return " ".join(map(str, dockers.identity(office.state)))


def sent_state(office):
    """The text that identified STATE when this office last put it into swap/; empty if it never has."""
    with contextlib.suppress(FileNotFoundError):
        return office.beside("sent-state").read_text(encoding="utf-8")
    return ""


def packs(office, target):
    """Packs STATE into a file. If this office has put the same STATE into swap/, that file is packed already."""
    if sent_state(office) == identity_text(office):
        with contextlib.suppress(OSError):
            shutil.copyfile(own(office), target)
            if digest_of(target) in sent(office)[:1]:
                return
    packing.pack(office.state, target)


def looks_at_name(office, target):
    """Makes sure that no other office has this office's name. An office that finds its name taken leaves a note for the other office in the folder `names` in swap/."""
    note, remedy = target.parent / "names" / name_of(office), f"Remove {name_file(office)}, and this office gets a name of its own"
    if target.exists() and not is_ours(office, target):
        note.parent.mkdir(exist_ok=True)
        note.touch()
        raise Fault(1, target, f"it isn't what this office put there, so it stays. Another office has the name {name_of(office)}. {remedy}")
    if note.exists():
        note.unlink()
        office.report(Fault(1, target, f"another office has the name {name_of(office)} too, and its state can't be put here. One of the two has to be renamed. {remedy}"))


def merged(office):
    """Digests of the files that were merged, the newest last."""
    try:
        return office.beside("merged").read_text(encoding="utf-8").split()
    except FileNotFoundError:
        return []


def notes_merged(office, digest):
    """Notes that a file was merged."""
    known = [it for it in merged(office) if it != digest]
    office.beside("merged").write_text("".join(f"{it}\n" for it in [*known, digest][-MERGED:]), encoding="utf-8")


def is_covered(office, path):
    """Whether STATE knows all that a packed state knows. STATE may lack a state that was merged, because it may have been made anew since."""
    with packing.stream_of(path) as stream:
        its = knowledge_in(stream)
    return its is not None and dockers.grew(its, dockers.knowledge(office.state))


def offices_with(office, extract):
    """The offices in swap/ whose states know an extract."""
    found = []
    for path in others(office):
        with contextlib.suppress(Fault, OSError), packing.stream_of(path) as state:
            if (known := knowledge_in(state)) and extract in extracts_in(known):
                found.append(office_of(path))
    return found


def sends(office):
    """Packs STATE into swap/ under the office's name. If another office put a file with that name there, the file stays."""
    if known := known_of(office, office.files()):
        drops = f"`station-office withdraw {office.state} {known[0].reference}` drops it"
        raise Fault(1, office.state, f"it isn't sent: it knows the {known[0].name}, which is withdrawn. {drops}")
    writable(office, "swap")
    target = own(office)
    looks_at_name(office, target)
    if target.exists() and sent_state(office) == identity_text(office):
        return
    part, state = target.with_name(f".{target.name}.part"), identity_text(office)
    try:
        packing.pack(office.state, part, office.meanwhile)
        office.beside("sent").write_text("\n".join([digest_of(part), *sent(office)[:1]]) + "\n", encoding="utf-8")
        os.replace(part, target)
        office.beside("sent-state").write_text(state, encoding="utf-8")
    except OSError as error:
        part.unlink(missing_ok=True)
        needs = size_of(target) or size_of(office.state) // 4
        raise Fault(4, office.state, f"it can't be put into {target.parent}: {error.strerror or error}", *office.shortage(needs, target.parent)) from None
