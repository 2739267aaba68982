"""Writes `office/causes`, the table in which station-office finds what to do about a fault. It has each fault of docs/FORMATS.md without numbers, its meaning on that
page, and what to do."""
from making import markdown
from making.sources import DOCS, ROOT, Fault, read

CAUSES = ROOT / "office" / "causes"

AGAIN = "Fetch it again, byte for byte"
DAMAGED = "Ask the other office to send it again. If it is your own STATE, put back the newest of the copies"

ADVICE = {
    "file refused: TooMany": "Ask the sender what this is: no extract has that many records.",
    "file refused: After": f"Two files were joined, or something was added at the end, even a blank line. {AGAIN}.",
    "file refused: Length": "At record 1 this is no CIF extract, or it is packed, begins with a byte order mark, or lost the blanks at the ends of its lines; "
    f"later a line was cut or edited. {AGAIN}, and open it in no editor.",
    "file refused: Byte": f"CIF allows no tab, accent or byte order mark. {AGAIN}; if it comes so, tell the sender the record and the column.",
    "file refused: Kind": "docker doesn't read such records, among them the notes LN and TN. Ask the sender for the extract without them.",
    "file refused: Place": f"Lines are missing, doubled or in another order. {AGAIN}, and don't sort, cut or join it.",
    "file refused: Field": "Tell the sender the record and the column: that field doesn't hold what it should.",
    "file refused: Midnights": "Tell the sender the record: no train passes midnight three times.",
    "file refused: NoEnd": f"It is empty, was cut, or was still on its way. {AGAIN}, and move it here when it is whole.",
    "state refused: Mark": "This is no state of today's format. If it is an extract, `take` it; if it is an older state, its office has to `docker migrate` it.",
    **{f"state refused: {cause}": f"It was damaged. {DAMAGED}." for cause in ("Horizon", "Item", "Order", "Floor", "Tag", "Stamp", "Body")},
    "state refused: Short": f"It is empty, was cut, or was still on its way. {DAMAGED}.",
    "state refused: Tail": f"Two states were joined, or something was added at the end. {DAMAGED}.",
    "state refused: Long": "Ask the other office what this is: no state has that many bytes.",
    "day refused: before horizon plus three days": "Take a later day: STATE has dropped what ended before its horizon. An older copy of STATE may still print the day.",
    "usage": "Look at the words: a place has one to seven characters, and a day is YYYY-MM-DD, from 1960 to 2059.",
    "want of memory": "End other programs, or take a machine with more memory: with a national extract each command needs 1 GB.",
    "device failed": "A file isn't there, can't be read or written, the disk is full, or another command wrote STATE meanwhile. Look with `ls -l` and `df`.",
}


def plain(cell):
    """A cell without backquotes and other marks."""
    return cell.replace("\\|", "|").replace("`", "")


def faults(formats):
    """Each fault, as the line of docker without its numbers, and its meaning."""
    for cause, means in markdown.table(formats, "CAUSE", "Means"):
        yield f"file refused: {plain(cause).split()[0]}", plain(means)
    for cause, means, _ in markdown.table(formats, "Cause", "Means", "Offset"):
        yield f"state refused: {plain(cause)}", plain(means)
    for fault, line, _ in markdown.table(formats, "Fault", "Line", "Status"):
        if "CAUSE" not in line:
            text = plain(line).removeprefix("docker: ")
            yield ("usage" if text.startswith("usage") else text), fault


def made():
    found = dict(faults(read(DOCS / "FORMATS.md")))
    if unlike := found.keys() ^ ADVICE.keys():
        raise Fault(f"docs/FORMATS.md and the advice in docs/making/causes.py differ in: {', '.join(sorted(unlike))}")
    return {CAUSES: "".join(f"{fault}\t{means}\t{ADVICE[fault]}\n" for fault, means in found.items())}
