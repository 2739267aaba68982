"""What an office remembers of the files that it fetched. Its server is asked only for something newer, and the morning says what came."""
import contextlib
import datetime
import hashlib
import json
import os
from typing import NamedTuple

from .extracts import DAY
from .office import size_text


class Last(NamedTuple):
    """The last file from a source, and the last try to get a newer one. `etag` and `modified` are the server's words about that file. `fault` says why the last
    try failed; it is empty if the try didn't fail. Times are British, as texts."""
    address: str = ""
    etag: str = ""
    modified: str = ""
    file: str = ""
    size: int = 0
    came: str = ""
    tried: str = ""
    fault: str = ""


def digest(address):
    """A text that changes whenever an address does. An address may have a secret in it, so it isn't remembered."""
    return hashlib.sha256(address.encode("utf-8", "surrogateescape")).hexdigest()


def remembered(office):
    """What is remembered of each source. It is empty if nothing was fetched, or if the file was damaged: then files that are known are fetched again."""
    with contextlib.suppress(OSError, ValueError, TypeError, AttributeError):
        found = {name: Last(**last) for name, last in json.loads(office.beside("fetched").read_text(encoding="utf-8")).items()}
        for last in found.values():
            datetime.datetime.fromisoformat(last.came or "1960-01-01")
        return found
    return {}


def remembers(office, found):
    """Replaces what is remembered."""
    draft = office.beside("fetched.new")
    draft.write_text(json.dumps({name: last._asdict() for name, last in found.items()}, indent=1), encoding="utf-8")
    os.replace(draft, office.beside("fetched"))


def says_fetched(office):
    """Prints for each source what came within a day, or that nothing did, and why the last try failed."""
    for name, last in remembered(office).items():
        if last.came and office.settings.now - datetime.datetime.fromisoformat(last.came) < DAY:
            office.say(f"source {name}", f"{last.file} came on {last.came} ({size_text(last.size)})")
        elif not last.fault:
            office.say(f"source {name}", f"it had nothing new on {last.tried}" + (f"; the last file came on {last.came}" if last.came else ""))
        if last.fault:
            office.say(f"source {name}", f"the try on {last.tried} failed: {last.fault}")
