"""Writes `office/records`, from which `station-office explain` takes the names and columns of records and fields. FORMATS.md names them, and says what a good
field contains and which records may follow one another. The checked fields there have to be the checked fields of the definition, with the same columns.

A row has a record's identity. Then a row of a record has its name and what may follow it. A row of a field has its first and last column, its name, and what a
good field contains, which is empty if the field isn't checked."""
import re

from making import markdown
from making.sources import DOCS, ROOT, Fault, read

TABLE = ROOT / "office" / "records"
DEFINED = ROOT / "crates" / "docker_model" / "specs" / "records" / "Field.antt"
# The kinds of records in the definition, by their identities.
KINDS = {
    "header": "HD", "tiploc_insert": "TI", "tiploc_amend": "TA", "tiploc_delete": "TD", "association": "AA", "basic_schedule": "BS", "extra_details": "BX",
    "origin_location": "LO", "intermediate_location": "LI", "terminating_location": "LT", "change_en_route": "CR", "trailer": "ZZ",
}
# The tests in the definition, with the row of FORMATS.md that says what passes the test.
TESTS = {
    "is_date_day_first": "date", "is_clock": "time of extract", "is_update_indicator": "update indicator", "is_tiploc": "TIPLOC", "is_new_tiploc": "new TIPLOC",
    "is_transaction": "transaction", "is_date": "date", "is_end_date": "end date", "is_days": "days", "is_stp_indicator": "STP indicator",
    "is_present_time": "scheduled time", "is_scheduled_time": "scheduled time", "is_public_time": "public time",
}


def checked():
    """The checked fields of the definition: the identity, the columns, and the test."""
    for kind, body in re.findall(r"^checked_fields (\w+) line =\s*(.*?)(?=^\S|\Z)", read(DEFINED), re.M | re.S):
        for first, last, test in re.findall(r"checked (\d+) (\d+) (\w+)", body):
            yield (KINDS[kind], int(first), int(last)), test


def fields(page):
    """The fields on the page: the identity and the columns, with the field's name, and whether it is checked."""
    identities = []
    for record, columns, name, mark in markdown.table(page, "Record", "Columns", "Field", "Checked"):
        if begins := re.match(r"\*\*(.*?)\*\*", record):
            identities = begins[1].split(", ")
        first, _, last = columns.partition("-")
        only = re.search(r", only on a (\w\w)$", name)
        for identity in [only[1]] if only else identities:
            yield (identity, int(first), int(last or first)), re.split("[,.] ", name)[0], mark.startswith("yes")


def records(page):
    """The records on the page: the identity, the name, and what may follow."""
    follows = {identity: after for record, after in markdown.table(page, "Record", "What may follow") for identity in record.split(", ")}
    for identity, name in markdown.table(page, "Identity", "Kind"):
        names = dict(re.findall(r"\*\*(\w\w)\*\* ([^|]+?) +\|", page))
        for it in identity.split(", "):
            yield it, names.get(it, name), follows[it]


def made():
    page = read(DOCS / "FORMATS.md")
    good = dict(markdown.table(page, "Field", "What a good field contains"))
    tests, listed = dict(checked()), list(fields(page))
    if unlike := {it for it, _, is_checked in listed if is_checked} ^ tests.keys():
        raise Fault(f"docs/FORMATS.md and {DEFINED.relative_to(ROOT)} differ in the checked fields: {', '.join(f'{it[0]} {it[1]}-{it[2]}' for it in sorted(unlike))}")
    rows = [*records(page)]
    rows += [(*place, name, good[TESTS[tests[place]]] if place in tests else "") for place, name, _ in listed]
    return {TABLE: "".join("\t".join(map(str, row)).replace("`", "") + "\n" for row in rows)}
