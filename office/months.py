"""The consumption of a month: its parts by users, computed and graded by `mbdc audit`, and written to `month_use`."""

import bisect
import collections
import contextlib
import datetime
import functools
import itertools
import multiprocessing
import statistics
from typing import Any, Callable, Dict, Iterator, List, Mapping, NamedTuple, Optional, Sequence, Tuple

from psycopg2.extras import Json

from command import SECONDS
from database import Cursor, Database, Row, column_of, grouped, insert, rows_of, value_of
from exporting import FORMAT, NONE, Part, Window, Writer, asked, bodies_in, span_line, use_lines, window_of
from periods import begin_of, later_month, next_month
from program import AtFault, filled
from supply import DUE_DATE, ENDED, FITTED, REMOVED, RESTARTED, Place, Value, needed, places_of, seconds, tenancies_of

LEAP, LEAP_AT_EXCHANGE = 10, 5  # times the usual day
FEWEST_DAYS, FEWEST_STEPS = 10, 3  # of what is usual at a place
# A day's use that is never held where it is known what is usual at the place: 100 kWh, a cubic metre, 60 units. By
# other places, a tenth.
LITTLE = {"energy": 360_000_000_000, "volume": 1_000_000, "allocation": 60_000}
MEASURED, ZERO, PROVISIONAL, UNCLEAR = "measured", "zero", "provisional", "unclear"
AT_EXCHANGES = (FITTED, REMOVED, RESTARTED, ENDED, DUE_DATE)


class Period(NamedTuple):
    """A part of a month at a place, or the whole (part 0), and whose it is."""
    part: int
    begins: datetime.datetime
    ends: datetime.datetime
    tenancy: Optional[int]


Graded = NamedTuple("Graded", [("amount", Optional[int]), ("grade", str)])  # an amount only of a grade that is a number


def graded(text: str, mark: str) -> Graded:
    """An amount of the smallest unit and its mark, as an audit file has them."""
    amount = None if text == NONE else int(text)
    return Graded(amount, ZERO if (amount, mark) == (0, MEASURED) else mark)


def around(entries: List[Value], moment: datetime.datetime) -> List[Value]:
    """The last entry at a moment or before it and, where that one is before it, the next."""
    after = bisect.bisect_right(entries, moment, key=lambda entry: entry.at)
    is_at = after > 0 and entries[after - 1].at == moment
    return entries[max(after - 1, 0):after + (0 if is_at else 1)]


def basis_of(entries: List[Value], period: Period) -> List[Value]:
    """The entries around both boundaries, and those at exchanges between them, in order."""
    chosen = {id(entry) for moment in (period.begins, period.ends) for entry in around(entries, moment)}
    return [entry for entry in entries if id(entry) in chosen
            or entry.source in AT_EXCHANGES and period.begins < entry.at <= period.ends]


class Step(NamedTuple):
    """What a meter counted from an entry to the next one."""
    one: Value
    other: Value

    @property
    def days(self) -> float:
        return (self.other.at - self.one.at).total_seconds() / 86400

    @property
    def use(self) -> float:
        """A day; nothing of a fall, which is another matter."""
        return max(self.other.amount - self.one.amount, 0) / max(self.days, 0.5)

    @property
    def is_at_exchange(self) -> bool:
        return self.one.source in (FITTED, RESTARTED) or self.other.source in (REMOVED, ENDED)


def steps_of(entries: Sequence[Value]) -> List[Step]:
    return [Step(one, other) for one, other in zip(entries, entries[1:])
            if one.key[0] == other.key[0] and one.at < other.at]


def usual_day(steps: List[Step]) -> float:
    """The median of the days of steps, each as often as it has days; 0 where there are too few."""
    days = sum(step.days for step in steps)
    if len(steps) < FEWEST_STEPS or days < FEWEST_DAYS:
        return 0
    ordered = sorted(steps, key=lambda step: step.use)
    before = itertools.accumulate(step.days for step in ordered)
    return next(step.use for step, until in zip(ordered, before) if until >= days / 2)


def is_held(place: Place, entries: List[Value], period: Period, elsewhere: float) -> bool:
    """Whether a person has to say why a step of the period is right. It is ten times a usual day of the place, per day
    of its length, or five times at an exchange. Where nothing is usual there, as in an empty flat: ten times a day of
    the year before or of other flats (`elsewhere`), or more than is never held where that isn't known either."""
    steps, little = steps_of(entries), LITTLE[place.quantity]
    usual = usual_day(steps)
    touching = [step for step in steps if period.begins < step.other.at and step.one.at < period.ends]
    if usual == 0:
        return any(step.use > little / 10 and step.use >= LEAP * elsewhere if elsewhere > 0 else step.use > little
                   for step in touching)
    return any(step.use >= LEAP * usual and step.use > little or step.use >= LEAP_AT_EXCHANGE * usual
               and step.is_at_exchange for step in touching)

HOUSES_A_TURN = 25  # whose values are in memory at once
MONTH_USE = "month_use (month, place, part, begins, ends, tenancy, amount, grade, is_held, basis, version)"
FROZEN = "frozen_values (month, place, version, entries, evidence, meters)"
VERSIONS = """
SELECT h.house, n.version, v.out_at IS NOT NULL AS is_out
FROM houses h CROSS JOIN version_of(h.house, %(month)s) AS n (version)
LEFT JOIN versions v ON (v.house, v.month, v.version) = (h.house, %(month)s, n.version)
WHERE h.house = ANY (%(houses)s) ORDER BY h.house"""
OPEN_ROWS = (
    "DELETE FROM {} k USING places p WHERE p.id = k.place AND k.month = %s AND k.version = version_of(p.house, %s)"
    " AND p.house = ANY (%s)")
# What is out
OUT = """
SELECT u.place, u.part, u.begins, u.ends, u.tenancy, u.amount, u.grade FROM month_now u JOIN places p ON p.id = u.place
WHERE u.month = %s AND p.house = %s"""
# What was used a day in a month at a place
BEFORE = """
SELECT place, amount / (extract(epoch FROM ends - begins) / 86400)::float FROM month_now
WHERE month = %s AND place = ANY (%s) AND part = 0 AND amount > 0 AND ends > begins AND grade IN ('measured', 'hand')
  AND NOT is_held"""
CHANGED = """
INSERT INTO changes AS c (house, month, says) VALUES (%s, %s, %s)
ON CONFLICT (house, month) DO UPDATE SET says = excluded.says, seen_at = now(), left_why = NULL, left_by = NULL
WHERE c.says <> excluded.says"""
# Bills that are out and may be others now (office/close looks)
BILLS = """
UPDATE bills SET is_to_check = true WHERE out_at IS NOT NULL AND house = ANY (%s) AND NOT is_to_check
AND days && daterange(%s, %s)"""
# An audit of an open month that is computed anew says nothing of it any more
VOID = "UPDATE audits SET void_at = now() WHERE month = %s AND house = ANY (%s) AND void_at IS NULL"
VOID_BILLS = """
UPDATE audits a SET void_at = now() WHERE house = ANY (%s) AND days && daterange(%s, %s) AND void_at IS NULL
AND NOT EXISTS (SELECT FROM bills b WHERE b.audit = a.id)"""
KEPT = "SELECT date_trunc('month', since)::date FROM kept"
# Of a month of houses one is written or released at a time
LOCKED = "SELECT pg_advisory_xact_lock(hashtext(h || %s)) FROM (SELECT h FROM unnest(%s::text[]) h ORDER BY h) k (h)"
LONGEST_CHANGE = 5  # places that are named
GRADES = ("measured", "zero", "hand", "provisional", "estimated", "missing", "disturbed", "unclear")
# The months that are over and to be computed, with their houses
WAITING = """
SELECT c.month, array_agg(c.house ORDER BY c.house) FROM to_compute c JOIN houses h ON h.house = c.house
WHERE c.house = ANY (%s) AND day_begins((c.month + interval '1 month')::date, h.zone) <= now()
  AND c.month > coalesce((SELECT date_trunc('month', since) FROM kept), '-infinity') GROUP BY 1 ORDER BY 1"""
# Whoever adds a row waits for this, or is waited for
TAKEN = ("SELECT FROM to_compute WHERE month = %s AND house = ANY (%s) ORDER BY house FOR UPDATE",
         "DELETE FROM to_compute WHERE month = %s AND house = ANY (%s)")
PLACE_NAMES = """
SELECT p.id, concat_ws('/', p.house, p.flat, p.use, p.number) AS place, u.quantity FROM places p
JOIN uses u ON u.use = p.use WHERE p.house = %s"""
Counts = Dict[str, int]  # of places, by grade
Work = Callable[[Database, List[str]], Any]  # over some houses
Number = Tuple[Optional[int], str]  # amount in the smallest unit, and grade


class Split(NamedTuple):
    """A place, its entries around a month, and the month's periods: the whole, then each user's part."""
    place: Place
    entries: List[Value]
    periods: List[Period]

    @property
    def parts(self) -> List[Period]:
        """Those that add up to the whole."""
        return self.periods[1:] or self.periods


def split(place: Place, first: datetime.date, after: datetime.date, tenancies: List[Row],
          at_exchanges: bool = False) -> Split:
    """The periods of these days in which the place had a meter: by users and, if wanted, by meters."""
    last = place.fittings[-1].ends
    begins = max(begin_of(first, place.zone), place.fittings[0].begins)
    ends = begin_of(after, place.zone)
    ends = min(ends, last) if last is not None else ends
    cuts = {begins, ends, *(moment for it in tenancies for moment in (it.begins, it.ends) if moment is not None)}
    if at_exchanges:
        cuts |= {fitting.begins for fitting in place.fittings}
    moments = [moment for moment in sorted(cuts) if begins <= moment <= ends]
    parts = [Period(number, one, other, user_at(tenancies, one))
             for number, (one, other) in enumerate(zip(moments, moments[1:]), 1)]
    whole = Period(0, begins, ends, parts[0].tenancy if len(parts) == 1 else None)
    entries = place.entries()
    earliest, latest = needed((it.at for it in entries), (it.at for it in entries if it.telegram), begins, ends)
    return Split(place, [entry for entry in entries if earliest <= entry.at <= latest],
                 [whole, *parts] if len(parts) > 1 else [whole])


def user_at(tenancies: List[Row], moment: datetime.datetime) -> Optional[int]:
    return next((it.id for it in tenancies if it.begins <= moment and (it.ends is None or moment < it.ends)), None)


def window_at(one: Split, first: datetime.date, after: datetime.date) -> Window:
    """What decides a split of the days from the first one to the one before `after`."""
    parts = [Part(seconds(it.begins), seconds(it.ends), it.tenancy) for it in one.parts]
    return window_of(one.place, one.entries, parts, *(seconds(begin_of(day, one.place.zone)) for day in (first, after)))


def graded_periods(cursor: Cursor, splits: List[Split], first: datetime.date,
                   after: datetime.date) -> Iterator[Tuple[Split, Period, Graded]]:
    """Each period of the days from the first one to the one before `after`, with its amount and grade. Where a house's
    file is at fault, all of it is unclear. Raises NotComputed."""
    # whose parts are nobody's: amounts and grades don't depend on it
    nobodys = {one.place.id: window._replace(parts=[part._replace(user=None) for part in window.parts])
               for one in splits for window in [window_at(one, first, after)]}
    bodies = bodies_in(cursor, nobodys.values())
    for of_house in grouped((one.place.house, one) for one in splits).values():
        writer = Writer(bodies, {})
        writer.lines += [f"{FORMAT},{first:%Y-%m}", span_line(1, first, after, of_house[0].place.zone),
                         *use_lines(cursor, [nobodys[it.place.id] for it in of_house])]
        begins = [writer.place({1: nobodys[it.place.id]},
                               [shown_line(period, "smallest", 0) for period in it.periods], {}) for it in of_house]
        try:
            lines = filled([*writer.lines, "totals", "end"]).lines
        except AtFault:  # office/publish says which one
            lines = []
        for one, begin in zip(of_house, begins):
            for at, period in enumerate(one.periods, begin):
                yield one, period, graded(*lines[at].split(",")[-2:]) if lines else Graded(None, UNCLEAR)


def shown_line(period: Period, unit: str, decimals: int) -> str:
    """The line that asks for a period's amount and mark."""
    return f"shown,1,{seconds(period.begins)},{seconds(period.ends)},{unit},{asked(decimals)},?"


def splits_of(cursor: Cursor, houses: List[str], first: datetime.date, after: datetime.date,
              at_exchanges: bool = False) -> List[Split]:
    """The places of these houses with their periods from a day to the day before another."""
    tenancies = tenancies_of(cursor, houses, first, after)
    return [split(place, first, after, tenancies.get((place.house, place.flat), []), at_exchanges)
            for place in places_of(cursor, houses, first, after)]


def write_month(cursor: Cursor, month: datetime.date, houses: List[str]) -> Counts:
    """Computes a month of these houses. Where it is open its rows are written anew; where it is out, and would be
    another now, that is noted (`changes`). Counts the grades."""
    lock(cursor, month, houses)
    versions = versions_of(cursor, month, houses)
    open_houses = [house for house, it in versions.items() if not it.is_out]
    splits = splits_of(cursor, houses, month, next_month(month))
    found = list(graded_periods(cursor, splits, month, next_month(month)))
    elsewhere = days_elsewhere(cursor, month, splits)
    for table in ("frozen_values", "month_use"):
        cursor.execute(OPEN_ROWS.format(table), (month, month, open_houses))
    insert(cursor, MONTH_USE, [(month, one.place.id, *period, number.amount, number.grade,
         is_held(one.place, one.entries, period, elsewhere.get(one.place.id, 0)),
         Json([it.basis() for it in basis_of(one.entries, period)]), versions[one.place.house].version)
        for one, period, number in found if not versions[one.place.house].is_out])
    insert(cursor, FROZEN, [(month, one.place.id, versions[one.place.house].version, *frozen(one))
                            for one in splits if not versions[one.place.house].is_out])
    cursor.execute(VOID, (month, open_houses))
    for house in versions.keys() - set(open_houses):
        note_change(cursor, month, house, [(one.place.id, *period, *number) for one, period, number in found
                                           if one.place.house == house])
    for query in (BILLS, VOID_BILLS):
        cursor.execute(query, (houses, month, next_month(month)))
    return collections.Counter(number.grade for _, period, number in found if period.part == 0)


def versions_of(cursor: Cursor, month: datetime.date, houses: List[str]) -> Dict[str, Row]:
    """Of each of these houses the present version of a month, and whether it is out."""
    return {it.house: it for it in rows_of(cursor, VERSIONS, month=month, houses=houses)}


def days_elsewhere(cursor: Cursor, month: datetime.date, splits: List[Split]) -> Dict[int, float]:
    """A day of each place in the same month of the year before, else the median one of the other flats of its use."""
    means: Dict[Tuple[str, str], Dict[int, float]] = collections.defaultdict(dict)
    for one in splits:
        steps = steps_of(one.entries)
        mean = sum(step.use * step.days for step in steps) / (sum(step.days for step in steps) or 1)
        means[one.place.house, one.place.use][one.place.id] = mean
    others = {place: [it for other, it in of_use.items() if other != place and it > 0] for of_use in means.values()
              for place in of_use}
    before = dict(rows_of(cursor, BEFORE, later_month(month, -12), list(others)))
    return {**{place: statistics.median(days) for place, days in others.items() if days}, **before}


def lock(cursor: Cursor, month: datetime.date, houses: List[str]) -> None:
    """No other transaction writes or releases the month of these houses until this one ends."""
    cursor.execute(LOCKED, (f" {month:%Y-%m}", houses))


def frozen(one: Split) -> Tuple[str, Json, Json]:
    """What a place's month is computed from: entries, one after the other; where each comes from; and the runs."""
    entries = ",".join(str(number) for entry in one.entries for number in entry.line)
    return f"{{{entries}}}", Json([entry.evidence for entry in one.entries]), Json(one.place.runs)


def note_change(cursor: Cursor, month: datetime.date, house: str, now: List[Tuple[Any, ...]]) -> None:
    """Notes whether a month that is out would be another."""
    places = {it.id: it for it in rows_of(cursor, PLACE_NAMES, house)}
    found = differences(by_period(rows_of(cursor, OUT, month, house)), by_period(now),
                        lambda key: (places[key[0]].place, places[key[0]].quantity))
    if found is None:
        cursor.execute("DELETE FROM changes WHERE (house, month) = (%s, %s)", (house, month))
    else:
        cursor.execute(CHANGED, (house, month, found))


def differences(out: Mapping[Any, Number], now: Mapping[Any, Number],
                named: Callable[[Any], Tuple[str, str]]) -> Optional[Json]:
    """The first numbers that went out and would be others now, and how many more; None where there is none."""
    wrong = sorted(key for key in now.keys() | out.keys() if now.get(key) != out.get(key))
    first = [{"place": named(key)[0], "quantity": named(key)[1], "out": out.get(key), "now": now.get(key)}
             for key in wrong[:LONGEST_CHANGE]]
    return Json({"numbers": first, "more": len(wrong) - len(first)}) if wrong else None


def by_period(found: Sequence[Tuple[Any, ...]]) -> Dict[Any, Number]:
    """Amount and grade of each place's month and of each known user's part, by place, begin and end."""
    return {(place, begins, ends): (amount, grade) for place, part, begins, ends, tenancy, amount, grade in found
            if part == 0 or tenancy is not None}


def kept_month(cursor: Cursor) -> Optional[datetime.date]:
    """The first month of which the values of all days are there; None where none were dropped."""
    month: Optional[datetime.date] = value_of(cursor, KEPT)
    return month


def waiting(cursor: Cursor, houses: List[str]) -> Dict[datetime.date, List[str]]:
    """The months that are to be computed, with their houses, of these."""
    return dict(rows_of(cursor, WAITING, houses))


def taken(cursor: Cursor, month: datetime.date, houses: List[str]) -> Counts:
    """Takes a month of some houses out of what is to be computed, and writes it."""
    for statement in TAKEN:
        cursor.execute(statement, (month, houses))
    return write_month(cursor, month, houses)


def written(month: datetime.date, database: Database, houses: List[str]) -> Counts:
    """The same, in a transaction of its own."""
    with database.transaction() as cursor:
        return taken(cursor, month, houses)


def computed(database: Database, month: datetime.date, houses: List[str], workers: int) -> Counts:
    """Writes a month of houses, in so many processes."""
    none: "collections.Counter[str]" = collections.Counter()
    return sum(in_turns(database, workers, functools.partial(written, month), houses), none)


def counted(month: datetime.date, counts: Counts) -> str:
    """The line of a month."""
    told = ", ".join(f"{counts[grade]} {grade}" for grade in GRADES if counts.get(grade))
    return f"{month:%Y-%m}: {sum(counts.values())} places{': ' if told else ''}{told}"


def in_turns(database: Database, workers: int, work: Work, houses: List[str]) -> Iterator[Any]:
    """What a work makes of these houses, some at a time, in so many processes; each has a connection of its own."""
    database.close()
    with multiprocessing.Pool(min(workers, max(1, -(-len(houses) // HOUSES_A_TURN)))) as pool:
        yield from pool.imap_unordered(functools.partial(a_turn, database.name, work), turns(houses))


def a_turn(name: str, work: Work, houses: List[str]) -> Any:
    with contextlib.closing(Database(name, SECONDS)) as database:
        return work(database, houses)


def turns(houses: List[str]) -> Iterator[List[str]]:
    """The houses, so many at a time."""
    rest = iter(houses)
    while turn := list(itertools.islice(rest, HOUSES_A_TURN)):
        yield turn


def houses_of(database: Database, named: Sequence[str]) -> List[str]:
    """The houses with these names, or all of them. Raises LookupError where there is none of a name."""
    with database.transaction() as cursor:
        houses = column_of(cursor, "SELECT house FROM houses ORDER BY house")
    for name in named:
        if name not in houses:
            raise LookupError(f"no house: {name}")
    return sorted(named) if named else houses
