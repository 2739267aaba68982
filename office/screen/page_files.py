"""Writes pages of dockers into a folder."""
import contextlib
import pathlib
import urllib.parse

import pages
from station_office.filing import replaces


def writes(folder, page_of):
    """Writes a page beside each text of a docker in a folder. The name of the text, without its ending, is the place. A place that nobody knows has no page."""
    for text in sorted(pathlib.Path(folder).glob("*.txt")):
        with contextlib.suppress(pages.Nowhere):
            replaces(text.with_suffix(".html"), page_of(urllib.parse.unquote(text.stem)).encode())
