"""What meters count: device types, what a person decides, units, errors, and uses that are only rows."""

import datetime
import pathlib
from typing import Dict, List, Optional

from conftest import Box, Office
from supplied import ALLOCATOR, COLD, HEAT, WATER, WH, Supplied, at, dated, header, record
from test_boxes import housed
from test_schema import refused
from test_sheets import faults, published, sheet_of
from world.frames import type_g

import storing
from database import Database
from link import Reading

NOON = ("alarms", "--at", "2025-02-01T12:00+00:00")


def told(office: Office, kind: str) -> List[str]:
    return [line for line in office.run(*NOON).printed.splitlines() if line.split(" ", 1)[1].startswith(kind)]


def test_each_device_type_and_unit(office: Office) -> None:
    uses = {"heat": ("04", "0C", "0D"), "cooling": ("0A", "0B"), "warm water": ("06", "15"), "cold water": ("07", "16"),
            "electricity": ("02",), "gas": ("03",), "allocator": ("08",)}
    wanted: Dict[str, Optional[str]] = {medium: use for use, media in uses.items() for medium in media}
    wanted.update({f"{number:02X}": None for number in (*range(0x1A, 0x20), *range(0x20, 0x28), *range(0x30, 0x40))})
    assert {row[0]: row[1] for row in office.sql("SELECT medium, use FROM device_types")} == wanted
    assert office.sql("SELECT use FROM uses_of('elm', '1.PAD.01.31')") == []
    assert office.sql("SELECT count(*) FROM units WHERE smallest(step, unit) IS NOT NULL") == [(6,)]
    assert "check constraint" in refused(office, "UPDATE units SET smallest = 1000 WHERE unit = 'Wh'")


def test_a_use_is_a_row(office: Office, elm: Supplied, tmp_path: pathlib.Path) -> None:
    """Months are computed, audited and printed with one that nobody heard of."""
    office.sql("INSERT INTO uses (use, quantity) VALUES ('rain water', 'volume')")
    office.sql("INSERT INTO device_types VALUES ('E7', 'rain water')")
    meter = elm.meter(1, "E7", "A1")
    elm.days(elm.meter(2, HEAT, "A1"), "2024-12-25", 45, 1000, 10)
    elm.days(meter, "2024-12-25", 30, 1, 1, "m3")
    elm.tenancy("A1", "2024-01-01", None)
    assert [row[3] for row in elm.month("2025-01")] == ["measured", "missing"]
    assert "not estimated" in office.run("estimate", "2025-01").printed
    elm.days(meter, "2025-01-24", 15, 31, 1, "m3")
    assert elm.month("2025-01")[1] == ("A1", 0, 31_000_000, "measured")
    assert office.run(*NOON).status in (0, 1)
    published(office)
    assert office.run("sheets", "2025-01", "--out", str(tmp_path), "--pdf", "none").status == 0
    path = sheet_of(office, tmp_path, office.sql("SELECT id FROM tenancies")[0][0])
    page = path.read_text(encoding="utf-8")
    assert "rain water" in page and "31,00" in page and not faults(path)
    assert '<address data-fixed="contact">decided in the office</address>' in page
    published(office, "2025-01", "--bill")
    assert ",rain water,1," in office.run("bill", "elm-1", "2025-01").printed
    lines = b"".join(bytes(row[0]) for row in office.sql("SELECT file FROM audits")).decode().splitlines()
    assert [line for line in lines if line.startswith("use,")] == ["use,heat,energy", "use,rain water,volume"] * 2
    assert "check constraint" in refused(office, "INSERT INTO uses (use, quantity) VALUES ('Rain, water', 'volume')")
    assert "cold water has no factor" in refused(office, "INSERT INTO factors (house, use, months, kwh_per_unit)"
                                         " VALUES ('elm-1', 'cold water', '[2025-01-01,)', 2)")


def test_a_house_that_cannot_be_audited_stops_no_other(office: Office, elm: Supplied) -> None:
    """Its use has a word of an older database that no audit file takes."""
    oak = Supplied(office, "oak-2")
    oak.days(oak.meter(9, HEAT, "B1"), "2024-12-25", 45, 1000, 10)
    office.sql("ALTER TABLE uses DROP CONSTRAINT is_a_word")
    office.sql("INSERT INTO uses (use, quantity) VALUES ('Rain, water', 'volume')")
    office.sql("INSERT INTO device_types VALUES ('E7', 'Rain, water')")
    elm.days(elm.meter(1, "E7", "A1"), "2024-12-25", 45, 1, 1, "m3")
    assert [row[2:] for row in (*elm.month("2025-01"), *oak.month("2025-01"))] == [(None, "unclear"),
                                                                                   (310 * WH, "measured")]
    ended = office.run("publish", "-", "2025-01")
    assert ended.status == 5 and "elm-1: refused: LINE 3 FAULT 2 Row" in ended.printed
    assert "1 published, 1 refused" in ended.printed


def test_a_device_type_that_nobody_knows(office: Office, box: Box) -> None:
    """It is asked for until a person decides; one that consumes nothing isn't."""
    housed(office)
    for number, medium in ((3, "0E"), (4, "0F"), (5, "31")):
        assert office.order("house-1", f"FIT 0000000{number}.PAD.01.{medium} 1 {number} A1").status == 0
    lines = [f"no use elm 0000000{number}.PAD.01.{medium}" for number, medium in ((3, "0E"), (4, "0F"))]
    assert told(office, "no use") == [f"NEW {line}: What does this meter count? (flat A1): Device type {line[-2:]} has"
                                      " no use. The meter is read and counts nowhere." for line in lines]
    for identity, use in (("00000003.PAD.01.0E", "heat"), ("00000004.PAD.01.0F", None)):
        office.sql("SELECT decide_use('elm', %s, %s)", identity, use, role="clerk")
    assert told(office, "no use") == [f"END {line}" for line in lines]
    assert office.sql("SELECT p.use, p.flat, f.identity FROM fittings f JOIN places p ON p.id = f.place WHERE"
                      " f.identity >= '0'"
                      " AND f.identity < '1'") == [("heat", "A1", "00000003.PAD.01.0E")]
    office.sql("SELECT decide_use('elm', '00000003.PAD.01.0E', NULL)")
    assert office.sql("SELECT count(*) FROM fittings WHERE upper_inf(during) AND identity LIKE '00000003%%'") == [(0,)]


def second(office: Office, vib: str, value: int) -> None:
    """The last reading has another record."""
    office.sql("INSERT INTO points (month, box, serial, part, place, storage, function, tariff, subunit, vib, shown,"
               " value, unit)"
               " SELECT month, box, serial, 1, 9, 0, 0, 0, 0, %s, %s, %s, 'Wh' FROM readings ORDER BY serial DESC"
               " LIMIT 1", vib, str(value), value)


def test_heat_and_cooling(office: Office, elm: Supplied) -> None:
    """With one register it is heat; with two there is no value until a person names the record of each place."""
    meter = elm.meter(1, "0D", "A1")
    elm.reads(meter, at("2025-01-30T06:00"), 1000, unit="Wh")
    elm.reads(meter, at("2025-01-31T06:00"), 1010, unit="Wh")
    second(office, "863C", 55)
    assert office.run("close").status == 0
    assert office.sql("SELECT value::float FROM day_values") == [(1000.0,)]
    assert told(office, "no use") == ["NEW no use elm-1 00000001.PAD.01.0D: Which register counts? (flat A1): The"
                                      " meter sends two energies, heat and cold."]
    office.sql("SELECT decide_use('elm-1', '00000001.PAD.01.0D', 'heat', '03')")
    office.sql("SELECT decide_use('elm-1', '00000001.PAD.01.0D', 'cooling', '863C')")
    office.sql("UPDATE fittings SET during = '[2024-01-01Z,)'")
    assert office.run("close").status == 0
    assert office.sql("SELECT p.use, d.value::float FROM day_values d JOIN fittings f ON f.id = d.fitting JOIN places p"
                      " ON p.id = f.place WHERE d.day = '2025-01-31' ORDER BY 1") == [("cooling", 55.0),
                                                                                      ("heat", 1010.0)]
    assert told(office, "no use") == ["END no use elm-1 00000001.PAD.01.0D"]
    office.sql("DELETE FROM meters")
    assert office.sql("SELECT count(*) FROM fittings WHERE upper_inf(during)") == [(0,)]


def test_a_meter_without_a_record_of_its_use(office: Office, elm: Supplied) -> None:
    meter, other = elm.meter(1, HEAT, "A1"), elm.meter(2, HEAT, "A2")
    elm.reads(meter, at("2025-01-31T06:00"), 3, unit="m3")
    elm.reads(other, at("2025-01-31T06:00"), 3)
    assert office.run("close").status == 0
    assert told(office, "no use") == ["NEW no use elm-1 00000001.PAD.01.04: A meter doesn't send its consumption (flat"
                                      " A1): No record of Heating in its telegram."]
    elm.reads(meter, at("2025-02-01T06:00"), 3000)
    assert office.run("close").status == 0
    assert told(office, "no use") == ["END no use elm-1 00000001.PAD.01.04"]
    elm.reads(meter, at("2025-02-02T06:00"), 1000, status=8)  # a day in error has no value
    assert " 0 values written" in office.run("close").printed
    assert office.sql("SELECT why FROM gaps ORDER BY day DESC LIMIT 1") == [("error",)]
    office.sql("UPDATE meters SET status = 8 WHERE identity LIKE '%%1.PAD%%'")
    assert told(office, "error") == ["NEW error elm-1 00000001.PAD.01.04: A meter reports an error (flat A1):"
                                     " permanent error. With a permanent error its"
                                      " values don't count."] and not told(office, "no use")


def test_a_telegram_of_another_day_does_not_count(office: Office, elm: Supplied) -> None:
    """A meter whose clock is wrong, or that knows a later day than that of its reading: no audit takes its value."""
    meter, moment = elm.meter(1, COLD, "A1"), at("2024-12-28T20:00")
    database, readings = Database(office.name, 60), []
    for number, days in enumerate([0] * 7 + [30, 0, -9] + [0] * 27):
        read, own = (moment + datetime.timedelta(number + it) for it in (0, days))
        clock = bytes([0x04, 0x6D, own.minute, own.hour]) + type_g(own)
        due = dated("2025-02-20") + record("m3", 5, 1) if number == 20 else b""
        readings.append(Reading(number + 1, "00000001.PAD.01.07", "A1", (read,), (
            header("00000001.PAD.01.07", 0, number) + record("m3", 100 + number) + clock + due,)))
    with database.transaction() as cursor:
        storing.store_readings(cursor, elm.box, readings, storing.Window(None, moment + datetime.timedelta(60)))
    database.close()
    assert office.run("close").status == 0
    assert office.sql("SELECT extract(day FROM day)::int, why FROM gaps ORDER BY day") == [
        (4, "other date"), (6, "other date"), (17, "other date")]
    assert office.sql("SELECT count(*) FROM day_values WHERE fitting = %s", meter) == [(34,)]
    assert elm.month("2025-01") == [("A1", 0, 31_000_000, "measured")]
    published(office)


def test_18_digits(office: Office, elm: Supplied) -> None:
    """A value that has more is none, and an amount neither."""
    meter, most = elm.meter(1, COLD, "A1"), 999_999_999_999
    elm.reads(meter, at("2025-01-30T06:00"), most, unit="m3")
    elm.reads(meter, at("2025-01-31T06:00"), most + 1, unit="m3")
    assert office.run("close").status == 0
    assert office.sql("SELECT value FROM day_values") == [(most,)]
    assert told(office, "too large") == ["NEW too large elm-1 00000001.PAD.01.07: A reading is too large (flat A1):"
                                         " More than 18 digits of the smallest unit, Cold water."]
    allocator = elm.meter(2, ALLOCATOR, "A2")
    new = elm.meter(3, ALLOCATOR, "A2")
    office.sql("DELETE FROM limits")
    elm.values(allocator, {"2024-12-31": 0, "2025-01-31": most * 1000, "2025-02-01": most * 1000}, "HCA")
    elm.values(new, {"2024-12-31": 0, "2025-01-31": 1, "2025-02-01": 1}, "HCA")
    assert elm.month("2025-01")[1:] == [("A2", 0, most * 1_000_000, "measured"), ("A2", 0, 1000, "measured")]


def test_units_of_another_quantity(office: Office, elm: Supplied) -> None:
    meter = elm.meter(1, WATER, "A1")
    assert "Wh is no unit of what meter" in refused(office, "SELECT put_value(%s, '2025-01-31', 1, 'Wh', 'x')", meter)
    assert "is no unit of what meter" in refused(office, "SELECT put_value(%s, '2025-01-31', 1, 'bar', 'x')", meter)
    office.sql("SELECT put_value(%s, '2025-01-31', 1, 'm3', 'x')", meter)
    assert "Wh is no unit" in refused(office, "UPDATE fittings SET unit = 'Wh', first_value = 1")
    office.sql("UPDATE fittings SET unit = 'm3', first_value = 1")
