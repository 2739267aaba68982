"""The names of places, from the answer of `desk` to `places`, written as people write names. Also the search for a place by any part of its name, CRS code or
TIPLOC."""
import difflib
import hashlib
import re
from typing import NamedTuple

# The first and the last column of each field in a line of `places`, by the names in docs/FORMATS.md.
COLUMNS = {"TIPLOC": (1, 7), "CRS": (9, 11), "STANOX": (13, 17), "description of the TIPLOC": (19, 44), "how many live schedules": (46, 55)}

WORD = re.compile(r"[A-Z]+(?:'[A-Z]+)*")
# Words that are written in small letters within a name, as in Burton-on-Trent or Betws-y-Coed.
SMALL = {"A", "AND", "AT", "BY", "CUM", "DE", "FOR", "IN", "LA", "LE", "NEXT", "OF", "ON", "SUPER", "THE", "TO", "UNDER", "UPON", "WITH", "Y", "YR"}
# Short forms that are written as words although they have no vowel, such as Jn and St.
SHORT = {
    "BDG", "BR", "BRDG", "CH", "CT", "CTL", "CTR", "CWM", "DN", "DPT", "FD", "FRT", "FT", "GDNS", "GDS", "GRN", "HD", "HL", "JCN", "JCT", "JN", "JNC", "JNS", "LN", "LNE", "LP", "LPS",
    "MKT", "MR", "MRS", "MT", "MTN", "NTH", "PK", "PKWY", "PL", "PLT", "PT", "RD", "RDS", "SCH", "SDG", "SDGS", "SDNGS", "SQ", "ST", "STH", "STN", "STR", "TML", "TN", "TRML", "WD",
    "WKS", "XNG", "YD", "YDS",
}
# Abbreviations that stay in capitals although they have a vowel.
CAPITALS = {
    "AC", "CE", "DC", "DMU", "DMUD", "EC", "ECS", "EMU", "EMUD", "EWS", "GE", "HQ", "HSTMD", "IC", "IECC", "IEP", "II", "III", "IV", "LUL", "MOD", "MPVSD", "NE", "OHLE", "OLE", "RAF", "ROF",
    "SE", "TOPS", "UFL", "UGL", "UK", "UPL", "USL", "VI", "VQ",
}
# The number of places that are offered for an unknown code.
NEAR = 8


def written(word, is_first):
    """A word of a description as people write it, such as `Junction`, `Jn`, `TMD`, `on`, `King's` or `O'Connell`."""
    if word in SMALL and not is_first:
        return word.lower()
    if len(word) == 1 or word in CAPITALS or word not in SHORT and not set(word) & set("AEIOUY"):
        return word
    before, apostrophe, after = word.partition("'")
    if len(before) == 1 and apostrophe and len(after) > 1:
        return f"{before}'{after.capitalize()}"
    return word.capitalize()


def readable(description):
    """A TPS description, which has only capitals, as people write it. A word with a digit, such as T123 or SN109, stays unchanged, and so do letters between
    dots."""
    def one(found):
        start, end = found.span()
        around = description[max(start - 1, 0):start] + description[end:end + 1]
        if any(letter.isdigit() for letter in around):
            return found[0]
        # A single letter is written small only between hyphens or spaces: Betws-y-Coed, but L.N.W.
        # and PLATFORM A.
        is_within = start > 0 and description[start - 1] in " -" and description[end:end + 1] in (" ", "-")
        return written(found[0], is_first=not is_within)

    return WORD.sub(one, description)


def folded(text):
    """A text as it is compared: only letters and digits, in one case and without apostrophes. Anything else becomes a space."""
    return " ".join(re.findall(r"[A-Z0-9]+", re.sub(r"['’]", "", text.upper())))


class Place(NamedTuple):
    """A timing point, from its line of `places`. A description, CRS code or STANOX that isn't known is empty. `schedules` is the number of schedules that call
    there."""
    tiploc: str
    crs: str
    stanox: str
    description: str
    schedules: int

    @property
    def name(self):
        return readable(self.description)


class Sought(NamedTuple):
    """What a search compares: the CRS code and the TIPLOC, the name, and the words of all three, each after a space."""
    codes: tuple
    name: str
    words: str
    place: Place


class Names:
    """The names of the places of a STATE. A place without a name is shown by its code. A desk of an older version has no list of places; then a name becomes
    known when a docker of the place is read."""

    def __init__(self, places, tag=b""):
        # The tag changes whenever a name changes.
        self.tag = tag
        self.places = {place.tiploc: place for place in places}
        self.written = {}
        # Busier places come first, so that they are found first among equals.
        self.sought = [self.sought_of(place) for place in sorted(places, key=lambda place: (-place.schedules, place.description or place.tiploc, place.tiploc))]

    @staticmethod
    def sought_of(place):
        code, crs, name = folded(place.tiploc), folded(place.crs), folded(place.description)
        return Sought((crs, code), name, f" {name}\n {code}\n {crs}\n", place)

    def __bool__(self):
        return bool(self.places)

    def of(self, tiploc):
        """The name of a place, or its code if it has none."""
        if tiploc not in self.written:
            place = self.places.get(tiploc)
            self.written[tiploc] = place.name if place and place.description else tiploc
        return self.written[tiploc]

    def learns(self, tiploc, description):
        """Learns a name from the heading of a docker, if there is no list of places."""
        if description and tiploc not in self.places:
            self.written[tiploc] = readable(description)

    def known(self, tiploc):
        """The name of a place in the list; empty if there is none."""
        return self.of(tiploc) if tiploc in self.places and self.places[tiploc].description else ""

    def of_crs(self, crs):
        """The places with a CRS code, the busiest first."""
        return [it.place for it in self.sought if it.place.crs and it.place.crs == crs]

    def near(self, word):
        """A few places whose name or code has this text, or is nearly spelled so."""
        spelled = {}
        for codes, name, _, place in self.sought:
            for text in {*codes, *name.split(), name}:
                spelled.setdefault(text, []).append(place)
        alike = difflib.get_close_matches(folded(word), filter(None, spelled), NEAR, 0.7)
        return list(dict.fromkeys([*self.find(word), *(place for text in alike for place in spelled[text])]))[:NEAR]

    def find(self, text):
        """The places whose name, CRS code or TIPLOC has this text, the best first. The order is: an equal code, a name that begins with the text, a name with a
        word that begins with it, any other match. Last come places that have, for each word of the text, a word that begins with it. Among equals the busier
        place comes first."""
        wanted = folded(text)
        if not wanted:
            return []
        ranks = [[], [], [], [], []]
        beginning, parts = f" {wanted}", [f" {word}" for word in wanted.split()]
        for codes, name, words, place in self.sought:
            if wanted in words:
                rank = 0 if wanted in codes else 1 if name.startswith(wanted) else 2 if beginning in words else 3
            elif len(parts) > 1 and parts[0] in words and all(part in words for part in parts):
                rank = 4
            else:
                continue
            ranks[rank].append(place)
        return [place for those in ranks for place in those]


def place_of(line):
    tiploc, crs, stanox, description, schedules = (line[first - 1:last].strip() for first, last in COLUMNS.values())
    return Place(tiploc, crs, stanox, description, int(schedules))


def names_of(text):
    """The names in an answer to `places`."""
    return Names([place_of(line) for line in text.decode("ascii").splitlines()], hashlib.sha256(text).digest())


class Labels(NamedTuple):
    """How a page shows places: by name, or by code if its reader chose codes."""
    names: Names
    is_codes: bool

    def of(self, tiploc):
        return tiploc if self.is_codes else self.names.of(tiploc)

    def other(self, tiploc):
        """The other way to show a place, its code or its name. Empty if both are the same."""
        name = self.names.of(tiploc)
        return "" if name == tiploc else name if self.is_codes else tiploc
