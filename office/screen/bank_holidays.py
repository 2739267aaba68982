"""The bank holidays in England and Wales and in Scotland from 1978 on, as https://www.gov.uk/bank-holidays lists them. Holidays with a rule follow from the rule, and
the others are listed here."""
import datetime
import functools

FIRST = 1978
DAY = datetime.timedelta(1)
ENGLAND, SCOTLAND = "England and Wales", "Scotland"
# Holidays of a single year, and holidays that were moved: the day by the rule, and the day instead of it.
EXTRA = ("1981-07-29", "1999-12-31", "2002-06-03", "2011-04-29", "2012-06-05", "2022-06-03", "2022-09-19", "2023-05-08")
MOVED = {"1995-05-01": "1995-05-08", "2002-05-27": "2002-06-04", "2012-05-28": "2012-06-04", "2020-05-04": "2020-05-08", "2022-05-30": "2022-06-02"}


def easter(year):
    """The date of Easter Sunday, by the rule of the Gregorian calendar."""
    golden, century, rest = year % 19, year // 100, year % 100
    epact = (19 * golden + century - century // 4 - (century - (century + 8) // 25 + 1) // 3 + 15) % 30
    weekday = (32 + 2 * (century % 4) + 2 * (rest // 4) - epact - rest % 4) % 7
    late = (golden + 11 * epact + 22 * weekday) // 451
    month, day = divmod(epact + weekday - 7 * late + 114, 31)
    return datetime.date(year, month, day + 1)


def monday(year, month, day):
    """The first Monday from a date on."""
    date = datetime.date(year, month, day)
    return date + (-date.weekday() % 7) * DAY


def working(date, *taken):
    """The date itself, or if it is on a weekend or taken, the next date that is neither."""
    while date.weekday() > 4 or date in taken:
        date += DAY
    return date


def pair(first):
    """Two holidays on following dates. A holiday on a weekend moves to the next weekday on which there is none."""
    second = first + DAY
    if first.weekday() == 6:
        return working(first, second), second
    return (one := working(first)), working(second, one)


@functools.cache
def of_year(year):
    """The holidays of a year, by the part of the country."""
    both = [easter(year) - 2 * DAY, monday(year, 5, 1), monday(year, 5, 25), *pair(datetime.date(year, 12, 25))]
    england = [working(datetime.date(year, 1, 1)), easter(year) + DAY, monday(year, 8, 25)]
    scotland = [*pair(datetime.date(year, 1, 1)), monday(year, 8, 1), *([working(datetime.date(year, 11, 30))] if year >= 2007 else [])]
    extra = [datetime.date.fromisoformat(date) for date in EXTRA if date.startswith(str(year))]
    return {
        name: {datetime.date.fromisoformat(MOVED.get(date.isoformat(), date.isoformat())) for date in (*both, *own, *extra)}
        for name, own in ((ENGLAND, england), (SCOTLAND, scotland))
    }


def regions(date):
    """The parts of the country in which a date is a bank holiday."""
    return [name for name, dates in of_year(date.year).items() if date in dates] if date.year >= FIRST else []


def note(date, day):
    """A sentence that says where a day is a bank holiday; empty if it is none. `day` is the day in words."""
    found = regions(date)
    return f"{day} is a bank holiday in {' and in '.join(found)}." if found else ""
