"""The supply points of houses (places), the meters at them, their values, and who used them: from the database."""

import bisect
import datetime
from typing import Any, Dict, Iterable, List, NamedTuple, Optional, Tuple, TypeVar

from database import Cursor, Row, grouped, rows_of
from periods import begin_of

MARGIN = datetime.timedelta(days=10)  # in which the values around a period are looked for first
# Moments of values, and again of telegrams' values alone: `measured` is what these give by themselves
BEFORE = 3  # at or before a period: two for the mark after a doubtful step, one to spare
AFTER = 2  # at or after its end: the last step's, and the next one's
STORED, READ, ESTIMATED, BY_HAND = "stored", "read", "estimated", "by hand"  # sources of a value
FITTED, REMOVED, RESTARTED, ENDED = "fitted", "removed", "restarted", "ended"
DUE_DATE = "due date"  # why the office noted a restart by itself
RUNS = 1000  # of a meter, at most
PLACES = """
SELECT p.id, p.house, p.flat, p.use, p.number, h.zone, u.quantity, p.weight, f.id AS fitting, f.identity,
       lower(f.during) AS begins, upper(f.during) AS ends, f.unit, f.first_value AS first, f.last_value AS last,
       f.first_amount, f.last_amount, f.first_is_estimated, f.last_is_estimated, coalesce(f.most, l.most) AS most,
       f.size, f.vib
FROM places p JOIN houses h ON h.house = p.house JOIN uses u ON u.use = p.use JOIN fittings f ON f.place = p.id
LEFT JOIN limits l ON l.use = p.use
WHERE p.house = ANY (%(houses)s) AND EXISTS (
    SELECT FROM fittings o WHERE o.place = p.id
    AND o.during && tstzrange(day_begins(%(begin)s, h.zone), day_begins(%(after)s, h.zone)))
ORDER BY p.id, lower(f.during)"""
# (One whose telegram was dropped decides nothing any more: no audit would have evidence of it.)
VALUES = """
SELECT fitting, at, amount, value, unit, source, id, box, month::text, serial, part FROM day_values
WHERE fitting = ANY (%s) AND struck_at IS NULL AND day BETWEEN %s AND %s
  AND (month IS NULL OR month >= (SELECT first_month())) ORDER BY fitting, day"""
RESTARTS = """
SELECT fitting, at, unit, last_amount, last, first_amount, first, is_estimated, why FROM restarts
WHERE fitting = ANY (%s) ORDER BY fitting, at"""
TENANCIES = """
SELECT t.house, t.flat, t.id, day_begins(lower(t.days), h.zone) AS begins, day_begins(upper(t.days), h.zone) AS ends
FROM tenancies t JOIN houses h ON h.house = t.house
WHERE t.house = ANY (%s) AND t.days && daterange(%s, %s) ORDER BY t.house, t.flat, t.days"""
BODIES = """
SELECT month::text, box, serial, bodies FROM readings WHERE (month, box, serial) IN (
    SELECT k.month::date, k.box, k.serial
FROM unnest(%s::text[], %s::text[], %s::bigint[]) AS k (month, box, serial))"""
FIRST_DAY, LAST_DAY = datetime.date(1, 1, 1), datetime.date(9999, 12, 31)
Telegram = Tuple[str, str, int, int]  # month, box, serial, part
Bodies = Dict[Tuple[str, str, int], List[bytes]]  # by month, box and serial
Moment = TypeVar("Moment", int, datetime.datetime)


class Value(NamedTuple):
    """What a meter stood at, in a run of its counter."""
    fitting: "Fitting"
    at: datetime.datetime
    amount: int  # in the smallest unit
    shown: str  # the value as a decimal number
    unit: str
    source: str  # of a value of a day or of a fitting; ended and restarted: of a counter that began anew
    is_estimated: bool
    id: Optional[int] = None  # of day_values
    telegram: Optional[Telegram] = None
    run: int = 0

    @property
    def key(self) -> Tuple[int, int]:
        """The number of its run, and its moment in Unix seconds."""
        return self.fitting.id * RUNS + self.run, seconds(self.at)

    @property
    def line(self) -> Tuple[int, int, int, int, int]:
        """As `frozen_values.entries` has it: with what the meter can count in an hour, and where it goes on at 0."""
        return (*self.key, self.amount, self.fitting.most, self.fitting.size)

    @property
    def evidence(self) -> List[Any]:
        """As `frozen_values.evidence` has it."""
        month, box, *of = self.telegram or (None, None)
        return [self.source, self.shown, self.unit, self.is_estimated, box, *([month, *of] if self.telegram else [])]

    def basis(self) -> Dict[str, Any]:
        """As `month_use.basis` has it."""
        source, shown, unit, is_estimated, box, *telegram = self.evidence
        meter, _, amount, most, size = self.line
        return {"at": self.at.isoformat(), "value": shown, "unit": unit, "source": source, "estimated": is_estimated,
                "meter": self.fitting.identity, "box": box, "id": self.id, "telegram": telegram or None,
                "amount": amount, "fitting": meter, "most": most, "size": size}


# A counter that began anew: what it stood at before and after
Restart = NamedTuple("Restart", [("last", Value), ("first", Value)])


# A meter's counter from one moment to another (None: still).
Run = NamedTuple("Run", [("number", int), ("identity", str), ("begins", int), ("ends", Optional[int]), ("most", int),
    ("size", int), ("vib", Optional[str])])


class Fitting:
    """A meter at a place, and its values."""

    def __init__(self, row: Row) -> None:
        self.id, self.identity, self.vib = row.fitting, row.identity, row.vib
        self.begins, self.ends = row.begins, row.ends
        self.most, self.size = row.most or 0, row.size or 0
        self.first = [] if row.first is None else [Value(
            self, row.begins, row.first_amount, plain_number(row.first), row.unit, FITTED, row.first_is_estimated)]
        self.last = [] if row.last is None or row.ends is None else [Value(
            self, row.ends, row.last_amount, plain_number(row.last), row.unit, REMOVED, row.last_is_estimated)]
        self.values: List[Value] = []
        self.restarts: List[Restart] = []

    def all_values(self) -> List[Value]:
        """Its values in its time in order, with the first and the last one; an estimate until a reading follows it."""
        values = [*self.first, *sorted((it for it in self.values if self.begins <= it.at and (
            self.ends is None or it.at <= self.ends)), key=lambda value: value.at), *self.last]
        known = [value.at for value in values if value.source != ESTIMATED]
        return [value for value in values if value.source != ESTIMATED or not known or value.at > known[-1]]

    def runs(self) -> List[Run]:
        """Its counter, and what it was after each restart."""
        begins = [seconds(self.begins), *(seconds(it.first.at) for it in self.restarts)]
        ends = [*begins[1:], None if self.ends is None else seconds(self.ends)]
        return [Run(self.id * RUNS + number, self.identity, begin, end, self.most, self.size, self.vib)
                for number, (begin, end) in enumerate(zip(begins, ends))]

    def entries(self) -> List[Value]:
        """Its values in its runs: a restart ends one, and begins another."""
        moments = [it.last.at for it in self.restarts]
        found = [value._replace(run=bisect.bisect_left(moments, value.at)) for value in self.all_values()]
        for run, restart in enumerate(self.restarts):
            found += [restart.last._replace(run=run), restart.first._replace(run=run + 1)]
        return sorted(found, key=lambda it: (it.run, it.at))


class Place:
    """A supply point of a flat."""

    def __init__(self, row: Row) -> None:
        self.id, self.house, self.flat, self.use, self.number, self.zone, self.quantity, self.weight = row[:8]
        self.fittings: List[Fitting] = []

    @property
    def name(self) -> str:
        return f"{self.house}/{self.flat}/{self.use}/{self.number}"

    @property
    def runs(self) -> List[Run]:
        return [run for fitting in self.fittings for run in fitting.runs()]

    def entries(self) -> List[Value]:
        """All values at the place in order of moment; at an exchange the old meter's come first."""
        return sorted((it for fitting in self.fittings for it in fitting.entries()), key=lambda it: it.at)


def seconds(moment: datetime.datetime) -> int:
    return int(moment.timestamp())


def plain_number(number: Any) -> str:
    return f"{number.normalize():f}"


def places_of(cursor: Cursor, houses: List[str], first: datetime.date, after: datetime.date,
              has_values: bool = True) -> List[Place]:
    """The places that had a meter on a day from the first one to the one before `after`, with the values around."""
    places: Dict[int, Place] = {}
    for row in rows_of(cursor, PLACES, houses=houses, begin=first, after=after):
        places.setdefault(row.id, Place(row)).fittings.append(Fitting(row))
    found = list(places.values())
    read_restarts(cursor, found)
    if has_values:
        read_values(cursor, found, first - MARGIN, after + MARGIN)
        read_values(cursor, [place for place in found if not is_covered(place, first, after)], FIRST_DAY, LAST_DAY)
    return found


def fittings_of(places: Iterable[Place]) -> Dict[int, Fitting]:
    return {fitting.id: fitting for place in places for fitting in place.fittings}


def read_values(cursor: Cursor, places: Iterable[Place], first: datetime.date, last: datetime.date) -> None:
    """Reads the values of these days."""
    by_id = fittings_of(places)
    of_fittings = grouped((it.fitting, it) for it in rows_of(cursor, VALUES, list(by_id), first, last)) if by_id else {}
    for number, fitting in by_id.items():
        fitting.values = [Value(fitting, it.at, it.amount, plain_number(it.value), it.unit, it.source,
                                it.source == ESTIMATED, it.id,
                                None if it.month is None else (it.month, it.box, it.serial, it.part))
                          for it in of_fittings.get(number, [])]
        if any(it.amount >= fitting.size for it in fitting.values):
            fitting.size = 0  # its counter goes on at another value


def bodies_of(cursor: Cursor, telegrams: Iterable[Optional[Telegram]]) -> Bodies:
    """The telegrams of the readings of these, as far as they are there."""
    keys = sorted({it[:3] for it in telegrams if it is not None})
    found = rows_of(cursor, BODIES, *([key[at] for key in keys] for at in range(3)))
    return {(it.month, it.box, it.serial): [bytes(body) for body in it.bodies] for it in found}


def read_restarts(cursor: Cursor, places: Iterable[Place]) -> None:
    by_id = fittings_of(places)
    for it in rows_of(cursor, RESTARTS, list(by_id)):
        fitting, sources = by_id[it.fitting], (DUE_DATE, DUE_DATE) if it.why == DUE_DATE else (ENDED, RESTARTED)
        fitting.restarts.append(Restart(*(
            Value(fitting, it.at, amount, plain_number(shown), it.unit, source, it.is_estimated)
            for amount, shown, source in zip((it.last_amount, it.first_amount), (it.last, it.first), sources))))


def is_covered(place: Place, first: datetime.date, after: datetime.date) -> bool:
    """Whether the values that were read decide the consumption and the marks of these days, or there are no others.
    (A later reading may put an estimate out of force: then all values are read.)"""
    begins, ends = begin_of(first, place.zone), begin_of(after, place.zone)
    values = [it for fitting in place.fittings for it in fitting.values if it.telegram is not None or it.is_estimated]
    is_begun = (sum(value.at <= begins for value in values) >= BEFORE
                or place.fittings[0].begins >= begins - MARGIN + datetime.timedelta(days=2))
    is_ended = sum(value.at >= ends for value in values) >= AFTER or (
        ends + MARGIN > datetime.datetime.now(datetime.timezone.utc))
    return is_begun and is_ended and not any(value.is_estimated for value in values)


def tenancies_of(cursor: Cursor, houses: List[str], first: datetime.date, after: datetime.date) -> Dict[Any, List[Row]]:
    """By house and flat who used it in these days: id, begins, ends (None: still)."""
    return grouped(((it.house, it.flat), it) for it in rows_of(cursor, TENANCIES, houses, first, after))


def needed(moments: Iterable[Moment], told: Iterable[Moment], begins: Moment, ends: Moment) -> Tuple[Moment, Moment]:
    """The first and last moment of the values that decide a period's consumption and marks. told: of telegrams'."""
    firsts, lasts = [begins], [ends]
    for distinct in (sorted(set(moments)), sorted(set(told))):
        firsts += distinct[:bisect.bisect_right(distinct, begins)][-BEFORE:]
        lasts += distinct[bisect.bisect_left(distinct, ends):][:AFTER]
    return min(firsts), max(lasts)
