"""Reads the pages of the screen from their HTML."""
import html
import re


def text_of(fragment):
    return html.unescape(re.sub("<[^>]*>", "", fragment)).strip()


def calls_of(page):
    """The cells of each row of calls on a page."""
    found = re.findall(r'<tr[^>]* class="([^"]*)" data-at[^>]*>(.*?)</tr>', page, re.S)
    return [[text_of(cell) for cell in re.findall(r"<td[^>]*>(.*?)</td>", row, re.S)] for _, row in found]


def times_of(page):
    """The arrival, the departure and the UID of each row. The UID is the third cell from the end, or the second if there is no column for changes."""
    has_notes = '<th scope="col" class="change">' in page
    return [(row[0], row[1], row[-3 if has_notes else -2]) for row in calls_of(page)]


def element(page, name):
    """The text of the element with this id; None if there is none, or if it is hidden."""
    found = re.search(rf'<(\w+)[^>]* id="{name}"([^>]*)>(.*?)</\1>|<(\w+) id="{name}"([^>]*)>(.*?)</\4>', page, re.S)
    if found is None:
        return None
    attributes, text = (found[2], found[3]) if found[1] else (found[5], found[6])
    return None if " hidden" in attributes else re.sub(r"\s+", " ", text_of(text))


def links_of(page, name):
    """The addresses of the links in the element with this id."""
    found = re.search(rf'id="{name}".*?</(?:p|ol|ul|nav|div|table)>', page, re.S)
    return [html.unescape(address) for address in re.findall(r'href="([^"]*)"', found[0])] if found else []
