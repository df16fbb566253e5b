"""Stores readings with their points, in the transaction of their collection."""

import bisect
import datetime
import itertools
from typing import Dict, List, NamedTuple, Optional, Sequence, Set, Tuple

import psycopg2
import psycopg2.extras

from database import Cursor, insert, rows_of
from decoding import Point, due_days, points_of
from link import Reading

Moment = datetime.datetime
SLACK = datetime.timedelta(hours=1)  # by which a clock may be wrong
LONGEST = datetime.timedelta(hours=26)  # between two collections for a reading's moment to be that of the second
EARLIEST = datetime.datetime(2020, 1, 1, tzinfo=datetime.timezone.utc)  # no box is older


class Window(NamedTuple):
    """Between which moments a collection's readings were made.

    after: of the last collection that took all of the box's readings; None where none did."""
    after: Optional[Moment]
    before: Moment

    def has(self, stamp: Moment) -> bool:
        return max(EARLIEST, EARLIEST if self.after is None else self.after - SLACK) <= stamp <= self.before + SLACK

    @property
    def instead(self) -> Optional[Moment]:
        """The moment of a reading whose stamp isn't taken; None where nobody knows."""
        return self.before if self.after is not None and self.before - self.after <= LONGEST else None


def moments_of(stamps: Sequence[Moment], window: Window) -> List[Optional[Moment]]:
    """The moments of the readings of a collection, in the order of their reading numbers.
    A stamp outside of the window isn't taken, nor one that isn't of the longest part of them that never falls."""
    inside = [place for place, stamp in enumerate(stamps) if window.has(stamp)]
    taken = {inside[number] for number in rising_part([stamps[place] for place in inside])}
    return [stamp if place in taken else window.instead for place, stamp in enumerate(stamps)]


def rising_part(moments: Sequence[Moment]) -> Set[int]:
    """The places of a longest part that never falls."""
    ends: List[Moment] = []  # the least last moment of such a part, by its length
    places: List[int] = []  # where it stands
    before: List[Optional[int]] = []
    for place, moment in enumerate(moments):
        length = bisect.bisect_right(ends, moment)
        before.append(places[length - 1] if length else None)
        ends[length:length + 1], places[length:length + 1] = [moment], [place]
    found: Set[int] = set()
    at = places[-1] if places else None
    while at is not None:
        found.add(at)
        at = before[at]
    return found

# Whose records are in memory at once: a page may have 3,200, of 120 records each; as frames of at most 523 bytes they
# are below the 1 MiB that an input of the decoder may have
TELEGRAMS_A_TURN = 256
STATUS_BYTE = 9  # of a telegram: after identification number, manufacturer, version, medium, access number
PERMANENT, APPLICATION, APPLICATION_ERROR = 8, 3, 2  # in it (EN 13757-3)
STORED = "SELECT serial, identity, flat, heard, bodies FROM readings WHERE box = %s AND serial BETWEEN %s AND %s"
READINGS = "readings (box, serial, identity, flat, heard, at, bodies)"
POINTS = ("points (box, serial, part, place, storage, function, tariff, subunit, vib, quantity, shown, unit, value,"
          " due)")
DUE_READINGS = "due_readings (box, identity, due, serial)"
LATER_DUE = ("ON CONFLICT (box, identity, due) DO UPDATE SET serial = excluded.serial, month = excluded.month"
             " WHERE due_readings.serial < excluded.serial")
LAST_READINGS = (
    "UPDATE meters m SET serial = v.serial, heard = v.heard, at = v.at, stored_at = now(), status = v.status"
    " FROM (VALUES %s) AS v (box, identity, serial, heard, at, status)"
    " WHERE m.box = v.box AND m.identity = v.identity")
LAST_READING = "(%s, %s, %s::bigint, %s::timestamptz, %s::timestamptz, %s::smallint)"
# Readings before a page that may be of the same collection, whose stamps are looked at with its own
LOOKED_BACK = 1000
EARLIER = ("SELECT serial, heard[1] AS heard, at FROM readings WHERE box = %s AND serial BETWEEN %s AND %s"
           " AND (%s IS NULL OR stored_at > %s) ORDER BY serial")
WRONG_CLOCK = "UPDATE boxes SET clock = %s, clock_at = now() WHERE name = %s"
RIGHT_CLOCK = ("UPDATE boxes SET clock = NULL, clock_at = NULL WHERE name = %s"
               " AND clock_at <= coalesce(collected_at, now())")



def stored(cursor: Cursor, box: str, first: int, last: int) -> Dict[int, Reading]:
    """The readings of the box that are in the database, by serial, of these serials."""
    return {it.serial: Reading(it.serial, it.identity, it.flat, tuple(it.heard), tuple(map(bytes, it.bodies)))
            for it in rows_of(cursor, STORED, box, first, last)}


def store_readings(cursor: Cursor, box: str, readings: List[Reading], window: Window) -> None:
    """Stores readings, in the order of their serials. The database refuses a second one of the same box and serial."""
    counts = itertools.accumulate(len(reading.bodies) for reading in readings)
    rows = zip(readings, stamped(cursor, box, readings, window), counts)
    turns = itertools.groupby(rows, lambda it: it[2] // TELEGRAMS_A_TURN)
    for _, turn in turns:
        store_turn(cursor, box, [(reading, moment) for reading, moment, _ in turn])


def store_turn(cursor: Cursor, box: str, turn: List[Tuple[Reading, Optional[Moment]]]) -> None:
    """Stores some readings of a page, each with its moment."""
    parts = iter(points_of([body for reading, _ in turn for body in reading.bodies]))
    points = [(reading, *row) for reading, _ in turn for row in numbered_points([next(parts) for _ in reading.bodies])]
    insert(cursor, READINGS, [(box, reading.serial, reading.identity, reading.flat, list(reading.heard), moment,
                               list(map(psycopg2.Binary, reading.bodies))) for reading, moment in turn])
    insert(cursor, POINTS, [(box, reading.serial, part, place, *point[:-1], point.value, day)
                            for reading, part, place, point, day in points])
    due = {(box, reading.identity, day): reading.serial for reading, part, _, _, day in points
           if day and not has_error(reading.bodies[part - 1])}
    insert(cursor, DUE_READINGS, [(*key, last) for key, last in due.items()], LATER_DUE)
    last_of = {reading.identity: (reading, moment) for reading, moment in turn}
    psycopg2.extras.execute_values(cursor, LAST_READINGS, [
        (box, identity, reading.serial, reading.heard[-1], moment, status_of(reading.bodies[-1]))
        for identity, (reading, moment) in last_of.items()], template=LAST_READING)


def stamped(cursor: Cursor, box: str, readings: List[Reading], window: Window) -> List[Optional[datetime.datetime]]:
    """The moments of readings. Those of the same collection that are stored already get others where these say so.
    Notes at the box whether its clock is wrong."""
    if not readings:
        return []
    first = readings[0].serial
    earlier = rows_of(cursor, EARLIER, box, first - LOOKED_BACK, first - 1, window.after, window.after)
    stamps = [*(heard for _, heard, _ in earlier), *(reading.heard[0] for reading in readings)]
    moments = moments_of(stamps, window)
    for (serial, _, before), moment in zip(earlier, moments):
        if before != moment:
            cursor.execute("SELECT move_reading(%s, %s, %s)", (box, serial, moment))
    wrong = [stamp for stamp, moment in zip(stamps, moments) if moment != stamp]
    if wrong:
        clock = {"wrong": len(wrong), "of": len(stamps), "first": f"{wrong[0]:%Y-%m-%d %H:%M}"}
        cursor.execute(WRONG_CLOCK, (psycopg2.extras.Json(clock), box))
    else:
        cursor.execute(RIGHT_CLOCK, (box,))
    return moments[len(earlier):]


def status_of(body: bytes) -> Optional[int]:
    return body[STATUS_BYTE] if len(body) > STATUS_BYTE else None


def has_error(body: bytes) -> bool:
    """Whether the status says that the values don't hold: a permanent or an application error (`has_error` in SQL)."""
    status = status_of(body) or 0
    return bool(status & PERMANENT) or status & APPLICATION == APPLICATION_ERROR


def numbered_points(parts: List[List[Point]]) -> List[Tuple[int, int, Point, Optional[str]]]:
    """The points of a reading's telegrams: part and place, both from 1, the point, and its due date or None."""
    points = [(part, place, point) for part, of_part in enumerate(parts, 1) for place, point in enumerate(of_part, 1)]
    return [(*row, day) for row, day in zip(points, due_days([point for *_, point in points]))]
