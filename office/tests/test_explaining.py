"""Tests `station-office explain`: for each cause for which docker refuses a file, it shows the record, marks its columns, names the field, and says what would be
good. The files are made from an example by one change. DOCKER names the program."""
import gzip
import os
import pathlib
import re
import subprocess

import pytest

ROOT = pathlib.Path(__file__).resolve().parent.parent.parent
STATION = ROOT / "office" / "station-office"
GOOD = (ROOT / "examples" / "office" / "full.cif").read_text(encoding="ascii").splitlines()
# The numbers of records of the example: from 6 on a train from ASHFELD by CORHAM to BRAYTON, from 13 on one that passes midnight.
HEADER, TIPLOC, LINK, BASIC, ORIGIN, CALL, TERMINUS, NEXT, NIGHT, LAST = 1, 2, 5, 6, 7, 8, 9, 10, 13, 19
RULER = "12345678901234567890123456789012345678901234567890123456789012345678901234567890"


def with_columns(number, first, text):
    """The example with this text from this column of a record on."""
    line = GOOD[number - 1]
    return [*GOOD[:number - 1], line[:first - 1] + text + line[first - 1 + len(text):], *GOOD[number:]]


def without(number):
    return [*GOOD[:number - 1], *GOOD[number:]]


def explain(folder, lines, status=1, program=None, name="wrong.cif"):
    """What `explain` prints of a file with these lines."""
    path = folder / name
    path.write_bytes(lines if isinstance(lines, bytes) else "".join(f"{line}\n" for line in lines).encode("latin-1"))
    env = {**os.environ, "DOCKER": str(program or os.environ["DOCKER"])}
    ended = subprocess.run([STATION, "explain", path], env=env, cwd=folder, stdin=subprocess.DEVNULL, capture_output=True, text=True, check=False)
    assert ended.returncode == status, ended.stderr
    assert sorted(it.name for it in folder.iterdir() if it.name != "docker") == [name]
    return ended.stdout if status < 2 else ended.stderr


def marked(said):
    """The record under the ruler, and the columns that are marked."""
    lines = said.splitlines()
    at = lines.index(RULER)
    marks = lines[at + 2]
    assert set(marks) <= {" ", "^"}
    return lines[at + 1], (marks.index("^") + 1, len(marks))


# Each checked field of each kind of record: the record, the column at which a bad text is put, and the text. Then the field's columns, its name and its good
# content, as docs/FORMATS.md gives them.
FIELDS = {
    "date of extract": (HEADER, 23, "320624", (23, 28), "HD, header: date of extract.", "for a day of the calendar"),
    "time of extract": (HEADER, 29, "2460", (29, 32), "HD, header: time of extract.", "HHMM"),
    "update indicator": (HEADER, 47, "X", (47, 47), "HD, header: update indicator.", "F for a full extract, or U for an update"),
    "TIPLOC": (TIPLOC, 3, " ", (3, 9), "TI, TIPLOC insert, amend, delete: TIPLOC.", "seven characters, of which the first isn't a space"),
    "new TIPLOC": (TIPLOC, 1, "TA" + GOOD[TIPLOC - 1][2:72] + " X", (73, 79), "TA, TIPLOC insert, amend, delete: the new TIPLOC.", "seven spaces if the code doesn't change"),
    "transaction of an association": (LINK, 3, "X", (3, 3), "AA, association: transaction.", "N new, D delete, R revise"),
    "start date of an association": (LINK, 16, "240631", (16, 21), "AA, association: start date.", "for a day of the calendar"),
    "end date of an association": (LINK, 22, "24x213", (22, 27), "AA, association: end date.", "999999 for no end"),
    "days of an association": (LINK, 28, "1111112", (28, 34), "AA, association: days.", "seven digits 0 or 1, Monday first"),
    "location of an association": (LINK, 38, " ", (38, 44), "AA, association: location.", "of which the first isn't a space"),
    "STP indicator of an association": (LINK, 80, "Q", (80, 80), "AA, association: STP indicator.", "P permanent, N new, O overlay, C cancellation"),
    "transaction": (BASIC, 3, "X", (3, 3), "BS, basic schedule: transaction.", "N new, D delete, R revise"),
    "runs from": (BASIC, 10, "249903", (10, 15), "BS, basic schedule: runs from.", "for a day of the calendar"),
    "runs to": (BASIC, 16, "999998", (16, 21), "BS, basic schedule: runs to.", "999999 for no end"),
    "days": (BASIC, 22, "       ", (22, 28), "BS, basic schedule: days.", "seven digits 0 or 1, Monday first"),
    "STP indicator": (BASIC, 80, " ", (80, 80), "BS, basic schedule: STP indicator.", "P permanent, N new, O overlay, C cancellation"),
    "origin": (ORIGIN, 3, " ", (3, 9), "LO, origin: location.", "of which the first isn't a space"),
    "scheduled departure of an origin": (ORIGIN, 11, "     ", (11, 15), "LO, origin: scheduled departure.", "HHMM, followed by H for half a minute or by a space"),
    "public departure of an origin": (ORIGIN, 16, "09 0", (16, 19), "LO, origin: public departure.", "HHMM or four spaces"),
    "place of a call": (CALL, 3, " ", (3, 9), "LI, intermediate location: location.", "of which the first isn't a space"),
    "scheduled arrival": (CALL, 11, "2500 ", (11, 15), "LI, intermediate location: scheduled arrival.", "five spaces are also good"),
    "scheduled departure": (CALL, 16, "0960 ", (16, 20), "LI, intermediate location: scheduled departure.", "five spaces are also good"),
    "scheduled pass": (CALL, 21, "0914X", (21, 25), "LI, intermediate location: scheduled pass.", "five spaces are also good"),
    "public arrival": (CALL, 26, "000 ", (26, 29), "LI, intermediate location: public arrival.", "HHMM or four spaces"),
    "public departure": (CALL, 30, "9999", (30, 33), "LI, intermediate location: public departure.", "HHMM or four spaces"),
    "terminus": (TERMINUS, 3, " ", (3, 9), "LT, terminating location: location.", "of which the first isn't a space"),
    "scheduled arrival at a terminus": (TERMINUS, 11, "0930x", (11, 15), "LT, terminating location: scheduled arrival.", "HHMM, followed by H"),
    "public arrival at a terminus": (TERMINUS, 16, "0 32", (16, 19), "LT, terminating location: public arrival.", "HHMM or four spaces"),
}


@pytest.mark.parametrize("name", FIELDS)
def test_a_field_that_is_not_good(tmp_path, name):
    number, first, text, columns, named, good = FIELDS[name]
    lines = with_columns(number, first, text)
    said = explain(tmp_path, lines)
    assert said.startswith(f"file refused: record {number}: Field {columns[0]}\n")
    assert marked(said) == (lines[number - 1].rstrip(), columns)
    assert named in said
    assert re.search(rf"It holds {re.escape(repr(lines[number - 1][columns[0] - 1:columns[1]]))}\. A good one holds .*{re.escape(good)}", said)


def test_each_checked_field_is_tried():
    """The table above has a row for each checked field that `office/records` has."""
    rows = [row.split("\t") for row in (ROOT / "office" / "records").read_text(encoding="utf-8").splitlines()]
    checked = {(row[0], int(row[1]), int(row[2])) for row in rows if len(row) == 5 and row[4]}
    tried = {(("TA" if text.startswith("TA") else GOOD[number - 1][:2]), *columns) for number, _, text, columns, _, _ in FIELDS.values()}
    # A TA and a TD have the code of a TI.
    assert checked - {("TA", 3, 9), ("TD", 3, 9)} == tried


def test_a_byte_that_is_not_printable(tmp_path):
    said = explain(tmp_path, with_columns(TIPLOC, 22, "\xc9"))
    assert said.startswith("file refused: record 2: Byte 22\n")
    assert marked(said) == ("TIASHFELD         ASH?ELD JUNCTION", (22, 22))
    assert "Column 22 holds the byte 0xC9. A good one is from 0x20, a space, to 0x7E, a tilde." in said
    assert "It belongs to the field in columns 19 to 44 of TI, TIPLOC insert, amend, delete: the TPS description." in said


def test_a_record_that_is_too_short(tmp_path):
    said = explain(tmp_path, [*GOOD[:CALL - 1], GOOD[CALL - 1].rstrip(), *GOOD[CALL:]])
    assert said.startswith("file refused: record 8: Length\n")
    assert marked(said) == (GOOD[CALL - 1].rstrip(), (len(GOOD[CALL - 1].rstrip()) + 1, 80))
    assert "It has 38 bytes and not 80" in said
    assert f"Record 7, before it:\n{GOOD[ORIGIN - 1].rstrip()}\n" in said


def test_a_record_that_is_too_long(tmp_path):
    said = explain(tmp_path, [GOOD[0] + GOOD[1], *GOOD[2:]])
    assert said.startswith("file refused: record 1: Length\n")
    assert "It has 160 bytes and not 80. Only the first 80 are shown." in said


@pytest.mark.parametrize("text, why", [
    (b"\xef\xbb\xbf" + "\n".join(GOOD).encode(), "It begins with a byte order mark"),
    (b"DKS2" + bytes(100), "it is an office's state"),
    (b'{"JsonScheduleV1": 1}\n', "it is JSON"),
])
def test_a_file_that_is_no_extract(tmp_path, text, why):
    said = explain(tmp_path, text)
    assert said.startswith("file refused: record 1: Length\n")
    assert why in said


def test_a_kind_that_is_not_read(tmp_path):
    said = explain(tmp_path, with_columns(CALL, 1, "LN"))
    assert said.startswith("file refused: record 8: Kind\n")
    assert marked(said)[1] == (1, 2)
    assert "Columns 1 to 2 hold 'LN'. Good ones are: HD, header; TI, " in said


def test_a_record_at_a_wrong_place(tmp_path):
    said = explain(tmp_path, without(ORIGIN))
    assert said.startswith("file refused: record 7: Place\n")
    assert f"Record 6, before it:\n{GOOD[BASIC - 1].rstrip()}\n" in said
    assert "It is LI, intermediate location. After BS, basic schedule, may come: BX or LO; after a deletion" in said


def test_a_file_without_its_header(tmp_path):
    said = explain(tmp_path, GOOD[1:])
    assert said.startswith("file refused: record 1: Place\n")
    assert "It is TI, TIPLOC insert, amend, delete. The first record has to be HD, header." in said


def test_a_record_after_the_trailer(tmp_path):
    said = explain(tmp_path, [*GOOD, GOOD[TIPLOC - 1]])
    assert said.startswith("file refused: record 20: After\n")
    assert "It comes after record 19, ZZ, trailer of a file, which ends the file. After it comes nothing." in said


def test_a_journey_that_passes_midnight_three_times(tmp_path):
    times = ("0800", "0700", "0600", "0500")
    calls = [f"{'LICORHAM':10}{it:5}{it:5}{'':5}{it}{it}" for it in times]
    said = explain(tmp_path, [*GOOD[:ORIGIN], *(f"{it:80}" for it in calls), *GOOD[TERMINUS - 1:]])
    # The origin departs at 0900, so the calls in records 8, 9 and 10 each pass midnight.
    assert said.startswith("file refused: record 10: Midnights\n")
    assert marked(said)[1] == (11, 15)
    assert "The train of the basic schedule in record 6 passes midnight" in said
    for fall in ("from 0900 in record 7 to 0800 in record 8", "from 0800 in record 8 to 0700 in record 9", "from 0700 in record 9 to 0600 in record 10"):
        assert fall in said


def test_a_file_without_its_trailer(tmp_path):
    said = explain(tmp_path, GOOD[:-1])
    assert said.startswith("file refused: record 19: NoEnd\n")
    assert "The last record is record 18, LT, terminating location:" in said
    assert "The last record has to be ZZ, trailer of a file." in said


def test_an_empty_file(tmp_path):
    assert "The file is empty." in explain(tmp_path, b"")


def test_a_file_with_too_many_records(tmp_path):
    """A file with this fault has 343 GB, so another program says the line of docker."""
    program = tmp_path / "docker"
    program.write_text("#!/bin/sh\necho 'docker: file refused: record 4294967295: TooMany' >&2\nexit 1\n", encoding="ascii")
    program.chmod(0o755)
    said = explain(tmp_path, GOOD, program=program)
    assert said.splitlines()[:2] == ["file refused: record 4294967295: TooMany", "No record is shown. A good file has fewer records."]


def test_each_cause_says_what_to_do(tmp_path):
    """The last line is what the table of causes advises."""
    advice = next(row.split("\t")[2] for row in (ROOT / "office" / "causes").read_text(encoding="utf-8").splitlines() if row.startswith("file refused: NoEnd\t"))
    assert explain(tmp_path, GOOD[:-1]).splitlines()[-1] == advice


def test_each_cause_is_explained():
    """`explaining.py` knows each cause that docs/FORMATS.md lists."""
    causes = {row.split("\t")[0].removeprefix("file refused: ") for row in (ROOT / "office" / "causes").read_text(encoding="utf-8").splitlines() if row.startswith("file refused: ")}
    known = set(re.findall(r'"(\w+)": of_\w+', (ROOT / "office" / "station_office" / "explaining.py").read_text(encoding="utf-8")))
    assert causes == known


def test_carriage_returns_and_a_packed_file(tmp_path):
    """A record's line end isn't part of the record, and a packed file is unpacked elsewhere."""
    lines = with_columns(CALL, 11, "2500 ")
    said = explain(tmp_path, gzip.compress("".join(f"{line}\r\n" for line in lines).encode("ascii")), name="wrong.cif.gz")
    assert said.startswith("file refused: record 8: Field 11\n")
    assert marked(said) == (lines[CALL - 1].rstrip(), (11, 15))


def test_the_example_of_the_page(tmp_path):
    """docs/FIRST-EXTRACT.md shows what `explain` prints of the example with another scheduled departure."""
    page = (ROOT / "docs" / "FIRST-EXTRACT.md").read_text(encoding="utf-8")
    shown = next(it for it in re.findall(r"^```\n(.*?)^```$", page, re.M | re.S) if it.startswith("$ station-office explain"))
    assert shown.split("\n", 1)[1] == explain(tmp_path, with_columns(ORIGIN, 11, "9000 "))


# What docs/FIRST-EXTRACT.md says of differences that are accepted: the bytes of the example with each of them.
ACCEPTED = {
    "carriage returns and line feeds": "".join(f"{line}\r\n" for line in GOOD),
    "no line end after the last line": "\n".join(GOOD),
    "no public time": "\n".join(with_columns(ORIGIN, 16, "    ")),
    "no scheduled time of an intermediate location": "\n".join(with_columns(CALL, 21, "     ")),
    "no new TIPLOC": "\n".join(with_columns(TIPLOC, 1, "TA")),
    "no platform, line or path": "\n".join(with_columns(CALL, 34, " " * 9)),
    "an unknown category": "\n".join(with_columns(LINK, 35, "QQ")),
    "no train identity": "\n".join(with_columns(BASIC, 33, "    ")),
    "other content of a BX": "\n".join([*GOOD[:BASIC], f"{'BX' + '~' * 60:80}", *GOOD[BASIC:]]),
    "a deletion without an end date and days": "\n".join([*GOOD[:-1], f"{'BSDA10001240603':79}P", GOOD[-1]]),
}


@pytest.mark.parametrize("name", ACCEPTED)
def test_a_difference_that_is_accepted(tmp_path, name):
    assert explain(tmp_path, ACCEPTED[name].encode("ascii"), status=0, name="other.cif").startswith("accepted: ")


def test_a_good_file(tmp_path):
    assert explain(tmp_path, GOOD, status=0, name="good.cif") == "accepted: 19 records, 8 changes\n"


def test_a_file_that_is_not_there(tmp_path):
    ended = subprocess.run([STATION, "explain", tmp_path / "none.cif"], stdin=subprocess.DEVNULL, capture_output=True, text=True, check=False)
    assert (ended.returncode, ended.stdout) == (4, "")
    assert "none.cif: there is no such file" in ended.stderr
