"""What the database itself refuses and shows."""

import datetime
import time
from typing import Any

import psycopg2
import pytest
from conftest import FITS, MOMENT, Box, Office, telegram

CONFIRM = "INSERT INTO orders (box, line, confirms, number, state) VALUES ('house-1', %s, %s, 3, 'pending')"
ORDER = "INSERT INTO orders (box, key, line) VALUES ('house-1', 'k', %s)"
DUE = "1F3C"  # 2024-12-31
CROWD = 20_000


def refused(office: Office, query: str, *values: Any, role: str = "office") -> str:
    """The error that a statement ends with."""
    with pytest.raises(psycopg2.Error) as caught:
        office.sql(query, *values, role=role)
    return str(caught.value)


def test_a_confirm_needs_its_serial_and_its_readings(office: Office, box: Box) -> None:
    assert "is_a_command" in refused(office, CONFIRM, "CONFIRM 5", None)
    assert "are not stored" in refused(office, CONFIRM, "CONFIRM 5", 4)
    assert "are not stored" in refused(office, CONFIRM, "CONFIRM 1", 1)
    box.hears(2)
    assert office.collect().status == 0
    assert "is_a_line" in refused(office, CONFIRM, "OUT 11111111.PAD.01.07", 1)
    assert "are not stored" in refused(office, "UPDATE orders SET state = 'pending', number = 9, answer = NULL,"
                                       " line = 'CONFIRM 3', confirms = 3 WHERE confirms = 2")


def test_lines_that_are_no_commands(office: Office, box: Box) -> None:
    """CONFIRM is none, not even for who owns the tables: a clerk's CONFIRM would lose readings."""
    assert "check constraint" in refused(office, "INSERT INTO box_commands VALUES ('CONFIRM', 1)")
    for line in ("CONFIRM 1", "HEAR 1 E5", "OUT", "OUT a b", "FIT a 1 2", "FIT a 1 2 3 4", "OUTER x"):
        assert "is_a_command" in refused(office, ORDER, line), line
    for line in ("OUT x\nHEAR 1 E5", "OUT  x", "OUT ", "out x", "", "OUT " + "x" * 97):
        assert "is_a_line" in refused(office, ORDER, line), line
    office.sql(ORDER, "OUT 11111111.PAD.01.07", role="clerk")
    assert office.sql("SELECT line, state::text, made_by FROM orders WHERE key = 'k'") == [
        ("OUT 11111111.PAD.01.07", "queued", "office")]  # made_by is who logged in


def test_a_reading_is_stored_once_in_all_months(office: Office, box: Box) -> None:
    """Also once older months are dropped."""
    box.hears(2)
    assert office.collect().status == 0
    again = ("INSERT INTO readings (month, box, serial, identity, flat, heard, bodies)"
             " VALUES ((this_month() + interval '1 month')::date, 'house-1', 2, 'x', 'x', '{now}', '{a}')")
    assert "stored before" in refused(office, again)
    assert office.sql("SELECT stored FROM boxes") == [(2,)]
    assert office.sql("SELECT drop_months_before(this_month())") == []
    dropped = office.sql("SELECT drop_months_before((this_month() + interval '1 month')::date)")
    assert sorted(row[0].partition("_")[0] for row in dropped) == ["points", "readings"]
    assert office.sql("SELECT count(*) FROM readings") == [(0,)]
    box.hears(1, first=9)
    assert office.collect().status == 0
    assert office.sql("SELECT serial FROM readings") == [(3,)] and box.confirmed() == 3


def test_open_orders_are_found_by_their_index(office: Office, box: Box) -> None:
    office.sql("INSERT INTO orders (box, key, line, number, state, answer)"
               " SELECT 'house-1', 'old' || n, 'OUT x', n + 2,"
               " 'done', 'OK' FROM generate_series(1, %s) n", CROWD)
    office.sql(ORDER, "OUT 11111111.PAD.01.07")
    office.sql("ANALYZE orders")
    query = "SELECT id FROM orders WHERE box = 'house-1' AND state IN ('pending', 'queued') ORDER BY id LIMIT 1"
    plan = "\n".join(row[0] for row in office.sql(f"EXPLAIN {query}"))
    assert "using open_orders" in plan, plan


def test_due_dates_energy_and_status(office: Office, box: Box) -> None:
    for number, status in ((1, 4), (2, 0x0C)):
        box.tells(("11111111.PAD.01.07", MOMENT + number, [telegram(7, status, DUE)]))
    office.collect().ok()
    assert office.sql("SELECT due, flat, value = 0.001, serial FROM due_values") == [
        (datetime.date(2024, 12, 31), "A1", True, 1)]  # and not of the meter in error
    assert office.sql("SELECT says FROM meter_states WHERE identity LIKE '1%'") == [("power low, permanent error",)]
    for value, unit, kwh in ((218370, "Wh", 218.37), (3, "MWh", 3000), (7200000, "J", 2), (18, "GJ", 5000),
                             (1, "m3", None)):
        office.sql("UPDATE points SET value = %s, unit = %s", value, unit)
        assert office.sql("SELECT kwh::float FROM due_values") == [(kwh,)]


def test_overdue_meters(office: Office, box: Box) -> None:
    """Never heard, and silent; one whose stamp lies in the future was heard: its box's clock is wrong."""
    later = datetime.datetime.now(datetime.timezone.utc) + datetime.timedelta(days=3)
    assert office.sql("SELECT * FROM overdue") == []
    assert {row[5] for row in office.sql("SELECT * FROM overdue_at(%s)", later)} == {"never heard"}
    box.hears(2, moment=int(later.timestamp()))
    assert office.collect().status == 0
    assert office.sql("SELECT * FROM overdue") == []
    watched = office.run("watch").printed
    assert "clock: house-1 2 of 2 stamps can't be, as " in watched and "meter:" not in watched
    office.order("house-1", "SWAP 11111111.PAD.01.07 55555555.PAD.01.07 1")
    box.hears(2, first=50, moment=int(time.time()) - 100)
    assert office.collect().status == 0
    assert office.sql("SELECT * FROM overdue") == []
    shown = office.sql("SELECT identity, why, last_heard < stored_at FROM overdue_at(%s)", later)
    assert {row[1:] for row in shown} == {("silent", True)} and len(shown) == 2


def test_stale_boxes_and_watch(office: Office, box: Box) -> None:
    """A box that was never reached, one that failed, one without meters; an order that waits; and that no collection
    came to its end."""
    office.box("empty")
    office.sql("INSERT INTO boxes (name, command, made_at) VALUES ('never', 'false', now() - interval '3 days')")
    assert "collector: no collection of all boxes ended" in office.run("watch").ok(1)
    assert office.collect("--tries", "1").status == 1
    assert office.sql("SELECT box, why FROM stale_boxes ORDER BY box") == [
        ("empty", "no meters"), ("never", "never collected")]
    office.sql("UPDATE boxes SET collected_at = now() - interval '2 days' WHERE name = 'house-1'")
    watched = office.run("watch")
    assert "collector:" not in watched.printed and "box: house-1 not collected" in watched.printed
    office.sql("DELETE FROM boxes WHERE name = 'never'")
    office.sql("UPDATE boxes SET active = false WHERE name = 'empty'")
    assert office.collect().status == 0
    office.sql(ORDER, FITS[0])
    assert office.run("watch") == office.run("watch", "--hours", "1") and office.run("watch").status == 0
    office.sql("UPDATE orders SET made_at = made_at - interval '2 days' WHERE key = 'k'")
    assert f"order: house-1 {FITS[0]} queued" in office.run("watch").ok(1)
    office.sql("UPDATE collections SET ended_at = ended_at - interval '27 hours'")
    assert office.run("watch").ok(1).startswith("collector: no collection of all boxes ended in 26")
