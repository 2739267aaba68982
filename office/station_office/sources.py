"""The file `sources` beside STATE: where `fetch` gets files, and the user and password that it needs there."""
import configparser
import os
import re
from typing import NamedTuple
from urllib.parse import urlsplit

from .faults import Fault

# The settings of a source, with the words that count if a setting isn't there.
DEFAULTS = {"address": "", "user": "", "password": "", "into": "in", "authority": "", "tries": "6", "pause": "15", "patience": "60", "limit": "1800"}
FOLDERS = ("in", "swap")
# The permissions of the group and of all other users.
OTHERS = 0o077


class Source(NamedTuple):
    """A source: its name, its address, the user and the password to send, and the folder for what comes. `authority` is a file with the certificates to trust, or empty. `pause` is the
    time before the second try. `patience` is the time for which the server may send nothing, and `limit` the time that a try may take. Times are in seconds."""
    name: str
    address: str
    user: str
    password: str
    folder: str
    authority: str
    tries: int
    pause: float
    patience: float
    limit: float


def sources_of(office):
    """The sources in the office's file; none if there is no such file."""
    path = office.folder / "sources"
    try:
        text = private_text(path)
    except FileNotFoundError:
        return []
    parser = configparser.ConfigParser(DEFAULTS, delimiters=("=",), comment_prefixes=("#",), interpolation=None)
    try:
        parser.read_string(text)
    except configparser.Error as error:
        # The text of the error could have a password in it.
        numbers = [number for number, _ in getattr(error, "errors", ())] or [error.lineno]
        raise Fault(4, path, f"line {numbers[0]} isn't what belongs there: a name in brackets, or a setting, an equals sign and a value, each once") from None
    return [source_of(office, path, parser[name]) for name in parser.sections()]


def private_text(path):
    """The text of a file that only its owner may read."""
    with open(path, encoding="utf-8", errors="surrogateescape") as file:
        if os.fstat(file.fileno()).st_mode & OTHERS:
            raise Fault(4, path, f"other users may read or write it, and it has passwords: `chmod 600 {path}`")
        return file.read()


def source_of(office, path, settings):
    """The source that a part of the file describes."""
    def wrong(why):
        return Fault(4, path, f"[{settings.name}]: {why}")

    if not re.fullmatch(r"[A-Za-z0-9][A-Za-z0-9._-]*", settings.name):
        raise wrong("a name has letters, digits, dots, hyphens and underscores")
    if unknown := sorted(set(settings) - set(DEFAULTS)):
        raise wrong(f"there is no setting {unknown[0]}")
    if not is_address(settings["address"]):
        raise wrong("the address begins with https:// and the name of a host; the user and the password have settings of their own")
    if bool(settings["user"]) != bool(settings["password"]):
        raise wrong("a user needs a password, and a password needs a user")
    if settings["into"] not in FOLDERS:
        raise wrong("`into` is in or swap")
    authority = str(office.folder / settings["authority"]) if settings["authority"] else ""
    tries, *seconds = (number_of(settings[name], wrong, name) for name in ("tries", "pause", "patience", "limit"))
    return Source(settings.name, settings["address"], settings["user"], settings["password"], settings["into"], authority, int(tries), *seconds)


def is_address(word):
    """Whether a word is an address whose answers nobody on the way can read or change, without a user or a password in it."""
    try:
        parts = urlsplit(word)
        return parts.scheme == "https" and bool(parts.hostname) and parts.username is None and parts.port != 0
    except ValueError:
        return False


def number_of(word, wrong, name):
    """The value of a setting that has to be a number above 0."""
    if not re.fullmatch(r"\d{1,6}(\.\d+)?", word, re.ASCII) or float(word) == 0 or name == "tries" and "." in word:
        raise wrong(f"{name} is a {'whole ' if name == 'tries' else ''}number above 0")
    return float(word)
