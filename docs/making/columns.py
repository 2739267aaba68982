"""Checks that each field of a printed line has the columns that FORMATS.md gives. It reads the definitions of the printed texts, and the tables with which the
office and its screen read dockers, lists of files and lists of places. The code is proved to write what the definitions say, and the manual page is made from
FORMATS.md.

A definition joins its pieces with `++`. PIECES gives each piece its name in FORMATS.md, and the table there gives its width."""
import ast
import re

from making.markdown import section, table, text

FORMATS = "docs/FORMATS.md"
DEFINED = "crates/docker_model/specs/docker/DockerText.antt"
DETAILED = "crates/docker_model/specs/docker/DetailedText.antt"
SCREEN = "office/screen/lines.py"
READER = "office/dockers.py"
NAMES = "office/screen/names.py"
# A column in a cell: `what 1-7, what 9 (when), ..`.
COLUMN = re.compile(r"([^,()]+?) (\d+)(?:-(\d+))?(?: \([^)]*\))?(?:, |$)")
# Each piece of a definition, with its name in FORMATS.md.
PIECES = {
    "place": "TIPLOC", "day_text day": "date `YYYY-MM-DD`", "description_in (live (tiploc_key place))": "description of the TIPLOC",
    "time_text line.time": "time", "occasion_text line.occasion": "kind", "line.identity": "train identity", "line.uid": "UID",
    "line.indicator": "STP indicator", "line.suffix": "suffix", "line.platform": "platform", "line.track": "line", "line.path": "path",
    "line.public_time": "public time", "origin": "origin TIPLOC", "destination": "destination TIPLOC", "uid": "associated UID",
    "identity": "its train identity", "day_text item.stamp.moment.day": "date of extract", "minute_text item.stamp.moment.minute": "time of extract",
    "item.stamp.reference": "current file reference", "item.indicator": "update indicator", "item.last_reference": "last file reference",
    "day_text start": "start day of the train", "number_text event.number": "number of the event in the journey", "first_record lines": "basic schedule",
    "record_text (extra_record lines)": "extra details", "record_text (change_at lines event)": "change en route", "event_line lines event": "location",
    "record_text association": "association",
}
# Each definition, with the kind of line in FORMATS.md that it describes, its first and last column, and its file.
DEFINITIONS = (
    ("heading live place day", "heading", 1, 56, DEFINED),
    ("line_text line", "event, association", 1, 41, DEFINED),
    ("detail_text (ends origin destination)", "event", 42, 56, DEFINED),
    ("detail_text (partner uid identity)", "association", 42, 56, DEFINED),
    ("last_line", "last", 1, 56, DEFINED),
    ("file_text item", "file", 1, 33, DEFINED),
    ("origin_text start lines event association", "detail", 57, 483, DETAILED),
)
# The tables in the screen and in the reader of dockers, each with the kind of line that it describes.
TABLES = {
    (SCREEN, "HEADING"): "heading", (SCREEN, "COLUMNS"): "event, association", (SCREEN, "ENDS"): "event", (SCREEN, "PARTNER"): "association",
    (READER, "FILE"): "file", (READER, "HEADING"): "heading", (NAMES, "COLUMNS"): "place",
}
# The reader takes only the description from a heading.
TAKEN = {(READER, "HEADING"): {"description of the TIPLOC"}}


def tables():
    """The columns of each kind of line, from the tables in FORMATS.md."""
    listed = {kind: COLUMN.findall(cell) for kind, cell in table(section(FORMATS, "A docker"), "Line", "Columns")}
    found = {kind: {what: (int(first), int(last or first)) for what, first, last in columns} for kind, columns in listed.items()}
    for kind, heading in (("file", "What `files` writes"), ("place", "What `places` writes"), ("detail", "What `detail` and `permanent-detail` write")):
        rows = table(section(FORMATS, heading), "Columns", "")
        found[kind] = {re.split(r",| have ", what)[0]: tuple(int(it) for it in (place.split("-") * 2)[:2]) for place, what in rows}
    return found


def pieces_of(definition, defined):
    """The pieces that a definition in this file joins. The part before a `∷` is a piece of one byte."""
    found = re.search(rf"^{re.escape(definition)} =\s+(.*?)(?=\n\n|\n\S|\Z)", text(defined), re.M | re.S)
    return [" ".join(piece.split()) for piece in re.split(r"\+\+|∷", found[1])] if found else []


def unlike_definition(definition, columns, first, last, defined):
    """Where a definition doesn't put its pieces into these columns, or leaves a piece out."""
    at, left = first, dict(columns)
    for piece in pieces_of(definition, defined):
        if blank := re.fullmatch(r"spaces (\d+)", piece):
            at += int(blank[1])
            continue
        if piece.startswith("detail_text "):
            break
        word = re.fullmatch(r'codes "(.*)"', piece)
        name = f"`{word[1]}`" if word else PIECES.get(piece, piece)
        if left.get(name, (0, 0))[0] != at:
            yield f"{definition.split()[0]} has {name} from column {at}, and {FORMATS} from {left.get(name, ('nowhere',))[0]}"
            return
        at = left.pop(name)[1] + 1
    if left or at != last + 1:
        yield f"{definition.split()[0]} ends at column {at - 1} without {', '.join(left) or 'more'}"


def unlike_readers(found):
    """Where the tables in the screen, or in the reader of dockers, differ from FORMATS.md."""
    told = {}
    for name in {name for name, _ in TABLES}:
        for node in ast.parse(text(name)).body:
            if isinstance(node, ast.Assign) and (reader := (name, ast.unparse(node.targets[0]))) in TABLES:
                told[reader] = ast.literal_eval(node.value)
    for reader, kind in TABLES.items():
        wanted = {what.split(" `")[0]: place for what, place in found[kind].items() if not what.startswith("`")}
        wanted = {what: place for what, place in wanted.items() if what in TAKEN.get(reader, wanted)}
        if told.get(reader) != wanted:
            yield f"{reader[0]} has {told.get(reader)} of a line of the kind {kind}, and {FORMATS} has {wanted}"


def unlike():
    """Where the definitions, the screen or the reader of dockers differ from FORMATS.md."""
    found = tables()
    yield from (line for definition, kind, *rest in DEFINITIONS for line in unlike_definition(definition, found[kind], *rest))
    yield from unlike_readers(found)
