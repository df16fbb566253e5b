"""office/close works off what was stored, whenever it comes, and computes the months that it decides."""

import contextlib
import subprocess
import time
from typing import Any, List, Tuple

from conftest import OFFICE, Office
from supplied import HEAT, WH, Supplied, at

MONTHS = """
SELECT to_char(month, 'YYYY-MM'), amount, grade::text FROM month_use
WHERE part = 0 AND month >= '2024-12-01' ORDER BY 1"""
WAITS = "SELECT count(*) > 0 FROM pg_stat_activity WHERE wait_event_type = 'Lock' AND datname = current_database()"


def closed(office: Office, *words: str, status: int = 0, **environment: str) -> List[str]:
    return office.run("close", *words, **environment).ok(status).splitlines()


def months(office: Office) -> List[Tuple[Any, ...]]:
    return office.sql(MONTHS)


def test_late_readings_come_to_be_values(office: Office, elm: Supplied) -> None:
    """A month gets its number when the readings come, whenever that is; and an alarm says that they were late."""
    meter = elm.meter(1, HEAT, "A1")
    elm.reads(meter, at("2024-12-31T18:00"), 1000)
    elm.reads(meter, at("2025-02-05T06:00"), 1350)
    closed(office)
    assert months(office)[1][2] == "estimated"
    for day in (1, 2, 3):
        elm.reads(meter, at(f"2025-01-0{day}T18:00"), 1000 + 10 * day)
    elm.reads(meter, at("2025-01-31T18:00"), 1300, ("2024-12-31", 1002))
    elm.reads(meter, at("2025-02-01T06:00"), 1310, ("2025-01-31", 1306))
    closed(office)
    assert months(office)[1] == ("2025-01", 304 * WH, "measured")
    told = [line for line in office.run("alarms").printed.splitlines() if "NEW late" in line]
    assert told == [
        "NEW late elm-1: Readings came late: 6 values of 1 meters, from 2024-12-31 on, came more than three days after"
        " the day."]
    assert closed(office)[0] == "0 days of meters in 0 houses, 0 values written"
    assert office.sql("SELECT count(*) FROM to_close") == [(0,)]


def test_the_next_month_decides_the_one_before(office: Office, elm: Supplied) -> None:
    """And where a close failed, what it closed is computed by the next one."""
    meter = elm.meter(1, HEAT, "A1")
    for moment, value in (("2024-12-31T18:00", 1000), ("2025-01-01T18:00", 1010), ("2025-01-31T18:00", 1310)):
        elm.reads(meter, at(moment), value)
    closed(office, status=3, MBDC="/bin/false")
    assert office.sql("SELECT count(*) FROM to_close") == [(0,)] and months(office) == []
    assert "2025-01: 1 places: 1 missing" in closed(office)
    assert closed(office)[1:] == []
    elm.reads(meter, at("2025-02-01T18:00"), 1322)
    assert "2025-01: 1 places: 1 provisional" in closed(office)
    elm.reads(meter, at("2025-02-02T18:00"), 1332)
    assert "2025-01: 1 places: 1 measured" in closed(office)


def test_what_people_say_is_computed(office: Office, elm: Supplied) -> None:
    """A value that is struck, one that is put, other values at an exchange, and other users."""
    meter = elm.meter(1, HEAT, "A1")
    for day, value in (("2024-12-31", 1000), ("2025-01-31", 1310), ("2025-02-28", 1590)):
        elm.reads(meter, at(f"{day}T23:00"), value, (day, value) if day != "2025-01-31" else None)
    for day, value in (("2025-01-10", 90), ("2025-03-01", 1600)):
        elm.reads(meter, at(f"{day}T23:00"), value)
    closed(office)
    assert months(office)[1][2] == "disturbed"
    office.sql("SELECT strike(id, 'a digit was lost') FROM day_values WHERE value = 90")
    assert "2025-01: 1 places: 1 estimated" in closed(office)
    office.sql("SELECT put_value(%s, '2025-01-31', 1312, 'Wh', 'read at the meter')", meter)
    closed(office)
    assert months(office)[1] == ("2025-01", 312 * WH, "hand")
    elm.tenancy("A1", "2025-01-11", None)
    closed(office)
    assert office.sql("SELECT count(*) FROM month_use WHERE month = '2025-01-01'") == [(3,)]
    office.sql("UPDATE fittings SET unit = 'Wh', first_value = 990, during = '[2024-12-31 12:00Z,)'")
    closed(office)
    assert months(office)[0] == ("2024-12", 10 * WH, "hand")


def test_all_once_more(office: Office, elm: Supplied) -> None:
    meter = elm.meter(1, HEAT, "A1")
    elm.reads(meter, at("2025-01-30T18:00"), 1000)
    elm.reads(meter, at("2025-01-31T18:00"), 1010, ("2024-12-31", 700))
    closed(office)
    office.sql("DELETE FROM day_values")
    assert closed(office)[0].endswith(" 0 values written")
    assert closed(office, "--all", "--since", "2025-01-02")[0].endswith(" 2 values written")
    assert closed(office, "--all", "--since", "2024-12-01")[0].endswith(" 1 values written")
    for words in (("--all",), ("--since", "2025-01-01")):
        assert office.run("close", *words).status == 2


def test_a_reading_that_is_stored_meanwhile(office: Office, elm: Supplied) -> None:
    """Its transaction began before the close: the close waits for it, and no day is forgotten."""
    meter = elm.meter(1, HEAT, "A1")
    closed(office)
    elm.reads(meter, at("2025-01-31T06:00"), 1000)
    office.connection.autocommit = False
    elm.reads(meter, at("2025-01-31T18:00"), 1010)
    closing = subprocess.Popen([OFFICE / "close", "--database", office.name], env=office.environment,
                               stdout=subprocess.PIPE, text=True)
    with contextlib.closing(office.server.connect(office.connection.info.dbname)) as other, other.cursor() as cursor:
        is_waiting = False
        while not is_waiting and closing.poll() is None:
            time.sleep(0.1)
            cursor.execute(WAITS)
            is_waiting = cursor.fetchone()[0]
    assert is_waiting
    office.connection.commit()
    assert closing.communicate(timeout=60)[0].startswith("1 days of meters in 1 houses, 1 values written")
    office.connection.autocommit = True
    assert office.sql("SELECT value::float FROM day_values") == [(1010.0,)]


def test_a_month_is_computed_once_it_is_over(office: Office, elm: Supplied) -> None:
    meter = elm.meter(1, HEAT, "A1")
    closed(office)
    office.sql("SELECT put_value(%s, (now() AT TIME ZONE 'Europe/Berlin')::date, 1000, 'Wh', 'read')", meter)
    lines = closed(office)
    this = office.sql("SELECT to_char(now() AT TIME ZONE 'Europe/Berlin', 'YYYY-MM')")[0][0]
    assert not any(line.startswith(this) for line in lines)
    assert (this,) in office.sql("SELECT to_char(month, 'YYYY-MM') FROM to_compute")
