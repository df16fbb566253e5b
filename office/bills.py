"""Bills: the rows of a house and a period, as they are computed now and as they went out."""

import datetime
import zoneinfo
from typing import Any, Dict, Iterable, Iterator, List, NamedTuple, Optional, Tuple

from psycopg2.extras import DateRange, Json

from database import Cursor, Database, Row as DatabaseRow, row_of, rows_of, value_of
from exporting import (FORMAT, NONE, SHOWN_UNITS, Facts, Readings, Writer, bodies_in, file_of, span_line, struck_of,
                       use_lines, user_lines)
from months import (MEASURED, PROVISIONAL, ZERO, Period, Split, around, differences, graded, kept_month, lock,
                    shown_line, splits_of, window_at)
from periods import begin_of, later_month
from program import KEY, AtFault, Key, NotComputed, Published, filled
from supply import Value, seconds

HEADER = ("house", "flat", "use", "place", "tenancy", "user", "from", "to", "amount", "smallest_unit", "consumption",
          "unit", "meter", "first_at", "first_value", "last_at", "last_value", "value_unit", "serials", "grade",
          "estimated", "weight", "HCA")
NAMES = ("flat", "use", "place", "from", "to")  # of a row
# The smallest unit of a quantity, and the unit that people read
SHOWN = {"energy": ("mJ", "kWh"), "volume": ("ml", "m3"), "allocation": ("0.001 units", "count")}
QUANTITIES = {smallest: quantity for quantity, (smallest, _) in SHOWN.items()}
DECIMALS = 3
SMALLEST = "smallest"
HELD = "held"
PRINTED = f"""
SELECT p.tenancy, {KEY}, p.text FROM published p
WHERE (p.house, p.days, p.version) = (%s, %s, %s) AND p.audit IS NOT DISTINCT FROM %s ORDER BY p.id"""
OUT = "SELECT audit FROM bills WHERE (house, days, version) = (%s, %s, %s) AND out_at IS NOT NULL"
VERSION = "SELECT version, out_at IS NOT NULL FROM bills_now WHERE (house, days) = (%s, %s)"
ZONE = "SELECT zone FROM houses WHERE house = %s"
# The months of a period with a number that a person has to see first
HELD_MONTHS = """
SELECT place, begins, ends FROM month_kwh WHERE house = %s AND part = 0 AND grade = 'held'
AND %s && daterange(month, (month + interval '1 month')::date)"""
TO_CHECK = "SELECT house, days, version FROM bills_now WHERE is_to_check AND out_at IS NOT NULL AND house = ANY (%s)"
CHECKED = """
UPDATE bills SET is_to_check = false, changed = %(says)s,
    left_why = CASE WHEN changed = %(says)s THEN left_why END, left_by = CASE WHEN changed = %(says)s THEN left_by END
WHERE (house, days, version) = (%(house)s, %(days)s, %(version)s)"""


class Row(NamedTuple):
    """A row of a bill: whose it is, and its cells by column."""
    tenancy: Optional[int]
    cells: Dict[str, str]

    @property
    def name(self) -> str:
        return " ".join(self.cells[name] for name in NAMES)

    def key(self, column: str) -> Key:
        flat, use, place, begins, ends = (self.cells[name] for name in NAMES)
        return Key(column, flat, use, int(place), f"{begins} {ends}")


class Asked(NamedTuple):
    """A row whose amounts are asked for: its other cells, by column the lines that ask, and the values at its ends."""
    tenancy: Optional[int]
    cells: Dict[str, str]
    lines: Dict[str, str]
    ends: Dict[str, Value]
    zone: zoneinfo.ZoneInfo

    def row(self, lines: List[str], ends: Dict[str, str]) -> Row:
        """The row as the filled lines say. What is provisional or held is never in a bill."""
        numbers = [line.split(",")[-2:] for line in lines]
        grade = graded(*numbers[0]).grade if numbers else HELD
        texts = {column: text for column, (text, _) in zip(self.lines, numbers) if text != NONE
                 and grade != PROVISIONAL}
        for name, line in ends.items():
            _, _, moment, texts[f"{name}_value"], _ = line.split(",")
            texts[f"{name}_at"] = local(int(moment), self.zone)
        cells = {**self.cells, **texts, "grade": grade, "estimated": "yes" if grade == "estimated" else "no"}
        return Row(self.tenancy, {name: cells[name] for name in HEADER if cells.get(name)})


class Bill(NamedTuple):
    """An audit file in which the amounts of a bill are asked for, and its rows.
    Each has the places of its first line, and of the values at its ends."""
    lines: List[str]
    rows: List[Tuple[int, Dict[str, int], Asked]]

    def filled(self, lines: List[str]) -> List[Row]:
        """The rows as the filled file says."""
        return [row.row(lines[at:at + len(row.lines)], {name: lines[end] for name, end in ends.items()}) for at, ends,
                row in self.rows]

    def read(self, lines: List[str]) -> List[Published]:
        """What the filled file publishes."""
        return [(row.tenancy, row.key(column), text, row.cells["grade"]) for row in self.filled(lines)
                for column, text in row.cells.items()]


def asked_row(one: Split, period: Period, held: List[DatabaseRow]) -> Asked:
    """A row, whose amounts aren't asked for where a month of the place is held."""
    smallest, unit = SHOWN[one.place.quantity]
    zone = zoneinfo.ZoneInfo(one.place.zone)
    entries = [entry for entry in one.entries if entry.fitting.begins <= period.begins
               and (entry.fitting.ends is None or period.begins < entry.fitting.ends)]
    ends = {"first": around(entries, period.begins)[0], "last": around(entries, period.ends)[-1]} if entries else {}
    serials = [str(it.telegram[2]) for it in ends.values() if it.telegram is not None]
    cells = {"house": one.place.house, "flat": one.place.flat, "use": one.place.use, "place": str(one.place.number),
             "from": local(seconds(period.begins), zone), "to": local(seconds(period.ends), zone),
             "smallest_unit": smallest, "unit": unit, "meter": entries[0].fitting.identity if entries else "",
             "value_unit": entries[0].unit if entries else "", "serials": " ".join(serials),
             "weight": f"{one.place.weight:f}"}
    units = {"amount": (SMALLEST, 0), "consumption": (unit, DECIMALS),
             **({"HCA": ("HCA", DECIMALS)} if unit == "count" else {})}
    is_held = any(it.place == one.place.id and it.begins < period.ends and period.begins < it.ends for it in held)
    return Asked(period.tenancy, cells, {} if is_held
                 else {column: shown_line(period, *of_unit) for column, of_unit in units.items()}, ends, zone)


def is_dropped(cursor: Cursor, days: DateRange) -> Optional[datetime.date]:
    """The month up to which values of days were dropped, where a bill needs some of them."""
    kept = kept_month(cursor)
    return kept if kept is not None and days.lower.replace(day=1) <= kept else None


def bill_of(cursor: Cursor, house: str, days: DateRange) -> Bill:
    """A bill by what is known now, by flat, use and place. Raises LookupError where values of its days were dropped."""
    dropped = is_dropped(cursor, days)
    if dropped is not None:
        raise LookupError(
            f"the values of days up to {dropped:%Y-%m} were dropped: a bill can't be computed from what is left")
    splits = sorted(splits_of(cursor, [house], days.lower, days.upper, at_exchanges=True),
                    key=lambda it: (it.place.flat, it.place.use, it.place.number))
    held, zone = rows_of(cursor, HELD_MONTHS, house, days), value_of(cursor, ZONE, house)
    windows = [window_at(it, days.lower, days.upper) for it in splits]
    writer = Writer(bodies_in(cursor, windows),
                    struck_of(cursor, house, seconds(begin_of(days.lower, zone)), seconds(begin_of(days.upper, zone))))
    writer.lines += [f"{FORMAT},{days.lower:%Y-%m}", span_line(1, days.lower, days.upper, zone),
                     *use_lines(cursor, windows), *user_lines(cursor, house, windows, days.lower, days.upper)]
    found: List[Tuple[int, Dict[str, int], Asked]] = []
    for split, window in zip(splits, windows):
        asked = [asked_row(split, period, held) for period in split.parts]
        readings: Readings = {it.key: (it.shown, it.unit) for row in asked for it in row.ends.values()}
        lines = [line for row in asked for line in row.lines.values()]
        at = writer.place({1: window}, lines, readings)
        places = {key: place for place, key in enumerate(readings, at + len(lines))}
        for row in asked:
            found.append((at, {name: places[end.key] for name, end in row.ends.items()}, row))
            at += len(row.lines)
    writer.lines += ["totals", "end"]
    return Bill(writer.lines, found)


def computed(cursor: Cursor, house: str, days: DateRange) -> List[Row]:
    """The rows of a bill by what is known now. Raises NotComputed, and as bill_of."""
    bill = bill_of(cursor, house, days)
    return bill.filled(filled(bill.lines).lines)


def printed(cursor: Cursor, house: str, days: DateRange, version: int) -> List[Row]:
    """The rows of a version that is out, as they were printed.

    Raises LookupError where it isn't out, and NotComputed, as compared."""
    out = row_of(cursor, OUT, house, days, version)
    if out is None:
        raise LookupError(f"version {version} of this bill isn't out")
    return compared(cursor, house, days, version, out.audit)


def accepted(cursor: Cursor, house: str, days: DateRange, version: int) -> Optional[List[Row]]:
    """The rows of the present version as they were audited; None without an audit. Raises NotComputed, as compared."""
    audit = value_of(cursor, "SELECT id FROM audits_now WHERE (house, days) = (%s, %s)", house, days)
    return None if audit is None else compared(cursor, house, days, version, audit)


def compared(cursor: Cursor, house: str, days: DateRange, version: int, audit: Optional[int]) -> List[Row]:
    """The rows of a version by its audit. Raises NotComputed where one has a number that the audit's file, if it is
    kept, doesn't have."""
    found = rows_in(rows_of(cursor, PRINTED, house, days, version, audit))
    lines, zone = file_of(cursor, audit), zoneinfo.ZoneInfo(value_of(cursor, ZONE, house))
    wrong = None if lines is None else Facts(lines, lambda it: local(int(it), zone)).lacks(
        it for row in found for it in numbers_of(row))
    if wrong:
        raise NotComputed(f"the bill isn't printed: {wrong} isn't in its audit file")
    return found


def numbers_of(row: Row) -> Iterator[Published]:
    """What a row says that an audit file has to say."""
    cells, mark = row.cells, MEASURED if row.cells["grade"] == ZERO else row.cells["grade"]
    period, units = f"{cells['from']} {cells['to']}", {"amount": SMALLEST, "consumption": cells["unit"], "HCA": "HCA"}
    yield from ((row.tenancy, Key("place", cells["flat"], cells["use"], 0, period, SHOWN_UNITS.get(unit, unit)),
                 cells[column], mark) for column, unit in units.items() if column in cells)
    yield from ((None, Key("reading", use=cells["meter"], period=cells[f"{it}_at"]), cells[f"{it}_value"], "reading")
                for it in ("first", "last") if f"{it}_value" in cells)


def local(moment: int, zone: zoneinfo.ZoneInfo) -> str:
    return f"{datetime.datetime.fromtimestamp(moment, zone):%Y-%m-%dT%H:%M}"


def rows_in(cells: Iterable[Tuple[Any, ...]]) -> List[Row]:
    """Rows from their cells: tenancy, key and text, where the column is the kind."""
    found: Dict[Tuple[str, ...], Row] = {}
    for tenancy, column, *name, text in cells:
        found.setdefault(tuple(name), Row(tenancy, {})).cells[column] = text
    return list(found.values())


def present(cursor: Cursor, house: str, days: DateRange) -> Tuple[int, bool]:
    """The present version of a bill, and whether it is out."""
    version, is_out = row_of(cursor, VERSION, house, days) or (1, False)
    return version, is_out


def lock_bill(cursor: Cursor, house: str, days: DateRange) -> None:
    """No other transaction writes or releases a month of a bill, or the bill, until this one ends."""
    month = days.lower.replace(day=1)
    while month < days.upper:
        lock(cursor, month, [house])
        month = later_month(month, 1)


def check(database: Database, houses: List[str]) -> None:
    """Of these houses' bills that are out and of which a month was computed since: notes which would be another now."""
    with database.transaction() as cursor:
        bills = rows_of(cursor, TO_CHECK, houses)
    for house, days, version in bills:
        with database.transaction() as cursor:
            lock_bill(cursor, house, days)
            says = changed(cursor, house, days, version)
            cursor.execute(CHECKED, {"house": house, "days": days, "version": version, "says": says})


def changed(cursor: Cursor, house: str, days: DateRange, version: int) -> Optional[Json]:
    """How a bill that is out would be another now.
    A row without a user isn't compared: a user may have been forgotten."""
    if is_dropped(cursor, days) is not None:
        return None
    try:
        bills = printed(cursor, house, days, version), computed(cursor, house, days)
    except AtFault as fault:
        return Json({"text": str(fault)})
    quantities = {row.name: QUANTITIES[row.cells["smallest_unit"]] for bill in bills for row in bill}
    out, now = ({row.name: (int(row.cells["amount"]) if "amount" in row.cells else None, row.cells["grade"])
                 for row in bill if row.tenancy is not None} for bill in bills)
    return differences(out, now, lambda name: (name, quantities[name]))
