"""Days, months and periods as words, and the moments at which they begin in a house's time zone."""

import argparse
import datetime
import re
import zoneinfo

from psycopg2.extras import DateRange

MONTH, YEAR = re.compile(r"\d{4}-\d\d"), re.compile(r"\d{4}")
PERIOD = re.compile(r"(\d{4}-\d\d-\d\d)\.\.(\d{4}-\d\d-\d\d)")
DAY = datetime.timedelta(days=1)


def day_word(text: str, what: str = "day, as 2025-01-31", of: str = "{}") -> datetime.date:
    """A day, as 2025-01-31."""
    try:
        return datetime.date.fromisoformat(of.format(text))
    except ValueError:
        raise argparse.ArgumentTypeError(f"no {what}: {text!r}") from None


def month_word(text: str) -> datetime.date:
    """The first day of a month, as 2025-01."""
    return day_word(text, "month, as 2025-01", "{}-01" if MONTH.fullmatch(text) else "")


def period_word(text: str) -> DateRange:
    """The days of a period: a year, a month, or DAY..DAY."""
    found = PERIOD.fullmatch(text)
    if found:
        first, last = day_word(found[1]), day_word(found[2])
        if first > last:
            raise argparse.ArgumentTypeError(f"no period: it ends before it begins: {text!r}")
        return DateRange(first, last + DAY)
    first = month_word(f"{text}-01" if YEAR.fullmatch(text) else text)
    return DateRange(first, later_month(first, 12 if YEAR.fullmatch(text) else 1))


def later_month(month: datetime.date, count: int) -> datetime.date:
    """The month so many months after a month, or before it where the count is negative."""
    number = month.year * 12 + month.month - 1 + count
    return datetime.date(number // 12, number % 12 + 1, 1)


def next_month(month: datetime.date) -> datetime.date:
    return later_month(month, 1)


def begin_of(day: datetime.date, zone: str) -> datetime.datetime:
    """The moment at which a day begins in a time zone."""
    local = datetime.datetime.combine(day, datetime.time(), zoneinfo.ZoneInfo(zone))
    return local.astimezone(datetime.timezone.utc)
