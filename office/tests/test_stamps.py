"""The moments of readings: one bad stamp hides no good reading."""

import datetime
import time
from typing import Any, List, Optional, Tuple

import pytest
from conftest import Box, Office, telegram
from supplied import HEAT, Supplied, at

from storing import Window, moments_of, rising_part

UTC = datetime.timezone.utc
METER = "11111111.PAD.01.07"


def hour(number: float) -> datetime.datetime:
    return datetime.datetime(2025, 1, 1, tzinfo=UTC) + datetime.timedelta(hours=number)


def moments(stamps: List[float], after: Optional[float], before: float) -> List[Optional[float]]:
    """The moments in hours."""
    window = Window(None if after is None else hour(after), hour(before))
    found = moments_of([hour(it) for it in stamps], window)
    return [None if it is None else (it - hour(0)).total_seconds() / 3600 for it in found]


@pytest.mark.parametrize("stamps, after, before, wanted", [
    ([1, 2, 3], 0, 24, [1, 2, 3]),
    ([1, 2, 2, 3], 0, 24, [1, 2, 2, 3]),
    ([-0.9, 24.9], 0, 24, [-0.9, 24.9]),  # an hour is no fault
    ([-1.1, 5, 25.1], 0, 24, [24, 5, 24]),
    ([1, 2, 20, 3, 4], 0, 24, [1, 2, 24, 3, 4]),  # one is ahead
    ([10, 11, 1, 12, 13], 0, 24, [10, 11, 24, 12, 13]),  # one is behind
    ([5, 6, 7, 2, 3], 0, 24, [5, 6, 7, 24, 24]),  # the clock fell back for good
    ([1, 2, 20, 3], 0, 72, [1, 2, None, 3]),  # nobody knows when, in three days
    ([-200_000, 3], 0, 24, [24, 3]),  # 2000
    ([-200_000, 3], None, 24, [None, 3]),
    ([-9000, 3], None, 24, [-9000, 3]),  # the first collection: a year ago
    ([], 0, 24, []),])
def test_moments(stamps: List[float], after: Optional[float], before: float, wanted: List[Optional[float]]) -> None:
    assert moments(stamps, after, before) == wanted


def test_the_longest_part_that_never_falls() -> None:
    """Against every choice of some of up to seven moments."""
    for number in range(3 ** 7):
        stamps = [hour(number // 3 ** place % 3) for place in range(7)]
        found = sorted(rising_part(stamps))
        assert [stamps[place] for place in found] == sorted(stamps[place] for place in found)
        longest = max((bin(chosen).count("1") for chosen in range(2 ** 7) if is_rising(stamps, chosen)), default=0)
        assert len(found) == longest


def is_rising(stamps: List[datetime.datetime], chosen: int) -> bool:
    of_it = [stamp for place, stamp in enumerate(stamps) if chosen >> place & 1]
    return of_it == sorted(of_it)


def heard(box: Box, *stamps: float) -> None:
    """Readings of a meter with these stamps."""
    box.tells(*((METER, stamp, [telegram(number)]) for number, stamp in enumerate(stamps)))


def test_a_collection_notes_a_wrong_clock(office: Office, box: Box) -> None:
    """The readings count at a moment that may be, what the box said stays; the next collection ends the alarm."""
    now = time.time()
    heard(box, now - 90_000)
    assert office.collect().status == 0
    office.sql("UPDATE boxes SET collected_at = now() - interval '20 hours'")
    office.sql("UPDATE readings SET stored_at = now() - interval '21 hours'")
    heard(box, now - 50_000, 946_684_800, now - 40_000)
    assert office.collect().status == 0
    rows = office.sql("SELECT at = heard[1], abs(extract(epoch FROM stored_at - at)) < 1, extract(year FROM"
                      " heard[1])::integer FROM readings ORDER BY serial")
    assert [row[0] for row in rows] == [True, True, False, True]
    assert rows[2] == (False, True, 2000)
    assert office.sql("SELECT clock FROM boxes") == [({"wrong": 1, "of": 3, "first": "2000-01-01 00:00"},)]
    printed = office.run("alarms").printed
    assert "NEW clock house-1: The box's clock is wrong: 1 of 3 stamps can't be, as 2000-01-01 00:00" in printed
    assert "house-1: 0 readings" in office.collect().printed
    assert office.sql("SELECT count(clock) FROM boxes") == [(1,)]  # nothing has been heard since
    heard(box, time.time())
    assert office.collect().status == 0
    assert "END clock house-1" in office.run("alarms").printed
    assert office.sql("SELECT (SELECT at FROM meters WHERE identity = r.identity) = r.at FROM readings r"
                      " ORDER BY serial DESC LIMIT 1") == [(True,)]


def test_pages_of_one_collection(office: Office, box: Box) -> None:
    """150 readings, in the middle of which the clock falls back by two days: more than half are right. And 150, of
    which the first ones were ahead, which is seen only with the second page."""
    now = time.time()
    office.sql("UPDATE boxes SET collected_at = now() - interval '40 days'")
    heard(box, *(now - 30 * 86_400 + 3600 * number for number in range(100)))
    heard(box, *(now - 30 * 86_400 + 3600 * (number - 48) for number in range(100, 150)))
    assert office.collect().status == 0
    assert office.sql("SELECT count(at), count(*) FROM readings") == [(103, 150)]
    office.sql("UPDATE boxes SET collected_at = now() - interval '40 days'")
    office.sql("UPDATE readings SET stored_at = now() - interval '50 days'")
    heard(box, *(now - 86_400 + 60 * number for number in range(10)), *(now - 20 * 86_400 + 3600 * it
                                                                        for it in range(140)))
    assert office.collect().status == 0
    assert office.sql("SELECT serial FROM readings WHERE at IS NULL AND serial > 150") == [
        (it,) for it in range(151, 161)]
    assert office.sql("SELECT count(*) FROM (SELECT at < lag(at) OVER (ORDER BY serial) AS falls FROM readings"
                      " WHERE at IS NOT NULL) AS k WHERE falls") == [(0,)]


def day_of(office: Office) -> List[Tuple[Any, ...]]:
    assert office.run("close").status == 0
    return office.sql("SELECT value::float, source FROM day_values WHERE day = '2025-01-31' AND struck_at IS NULL")


def test_one_bad_stamp_hides_no_good_reading(office: Office, elm: Supplied) -> None:
    meter = elm.meter(1, HEAT, "A1")
    for moment, value in (("2025-01-31T06:00", 1000), ("2025-01-31T18:00", 1010), ("2025-02-01T06:00", 1020)):
        elm.reads(meter, at(moment), value)
    office.sql("UPDATE readings SET heard = '{2020-05-05}', at = NULL WHERE serial = 2")
    elm.reads(meter, at("2025-02-02T06:00"), 1030)
    office.sql("UPDATE readings SET heard = '{2038-05-05}', at = NULL WHERE serial = 4")
    assert day_of(office) == [(1000.0, "read")]


def test_the_next_best_value_counts(office: Office, elm: Supplied) -> None:
    """What is struck is passed over, and what has an error."""
    meter = elm.meter(1, HEAT, "A1")
    for hours, value, status in ((6, 1000, 0), (12, 1005, 0), (15, 1006, 4), (18, 9010, 8), (20, 9020, 2),
                                 (21, 9030, 10)):
        elm.reads(meter, at(f"2025-01-31T{hours:02}:00"), value, status=status)
    assert day_of(office) == [(1006.0, "read")]
    office.sql("SELECT strike(id, 'read on another display') FROM day_values")
    assert day_of(office) == [(1005.0, "read")]
    elm.reads(meter, at("2025-02-01T06:00"), 1020, ("2025-01-31", 1009), status=8)
    assert day_of(office) == [(1005.0, "read")]
    elm.reads(meter, at("2025-02-01T07:00"), 1020, ("2025-01-31", 1009), status=4)
    assert day_of(office) == [(1009.0, "stored")]
    office.sql("SELECT strike(id, 'the meter''s clock is wrong') FROM day_values WHERE struck_at IS NULL")
    assert day_of(office) == [(1005.0, "read")]
