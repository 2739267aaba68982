"""The folder dockers/. It has a folder for each day, with the docker of each place as text and as a page. They are written only if the folder is there."""
import datetime
import importlib.util
import os
import shutil
import subprocess
import urllib.parse

import dockers

from . import covering, locking
from .faults import Fault

SCREEN = dockers.HERE / "screen" / "serve"


def folder_of(office):
    return office.folder / "dockers"


def days_of(office):
    """The days that have a folder, from the earliest on."""
    folder = folder_of(office)
    return sorted(path.name for path in folder.iterdir() if dockers.is_date(path.name)) if folder.is_dir() else []


def writes(office, reader, date, places):
    """Writes the dockers of some places on a day, and removes days that are too old."""
    if not folder_of(office).is_dir():
        return
    with locking.locked(office, "filing"):
        removes_old(office)
        if places:
            day = folder_of(office) / date
            day.mkdir(exist_ok=True)
            known = covering.days_known(reader)
            for place in places:
                answer = reader.print_docker(place, date)
                if answer.status == 0:
                    replaces(day / f"{urllib.parse.quote(place, safe='')}.txt", covering.head(office, known, date, place) + answer.text)
            writes_pages(office, day, date)


def removes_old(office):
    """Removes the days before the last DOCKER_DAYS days."""
    floor = (office.settings.now.date() - datetime.timedelta(office.settings.docker_days)).isoformat()
    for day in days_of(office):
        if day < floor:
            shutil.rmtree(folder_of(office) / day)


def replaces(path, content):
    """Replaces a file as a whole. A reader sees the old content or the new one."""
    draft = path.with_name(f".{path.name}.new")
    try:
        draft.write_bytes(content)
        os.replace(draft, path)
    finally:
        draft.unlink(missing_ok=True)


def writes_pages(office, day, date):
    """Has the screen write a page beside each docker of a day. A page that it couldn't write is removed, because it could contradict the text."""
    words = ["--now", office.settings.now.isoformat(timespec="minutes"), "--pages", date, day, office.state]
    try:
        if importlib.util.find_spec("flask") is None:
            office.say(day, "no pages are written: they need Debian's python3-flask and python3-waitress")
        elif status := subprocess.run([SCREEN, *words], stdin=subprocess.DEVNULL, check=False).returncode:
            raise Fault(4, day, f"not all pages could be written: the screen ended with status {status}")
    finally:
        for page in day.glob("*.html"):
            text = page.with_suffix(".txt")
            if not text.exists() or os.stat(page).st_mtime_ns < os.stat(text).st_mtime_ns:
                page.unlink()
