"""office/close: values of days, and consumption of months with its grades. office/estimate: what no meter gave."""

import datetime

from conftest import Office
from supplied import COLD, HEAT, WATER, WH, Supplied, at
from test_schema import refused
from test_sheets import published


def days_of(office: Office) -> object:
    return office.sql("SELECT day::text, value::float, source FROM day_values WHERE struck_at IS NULL AND day <"
                      " '2025-02-02' ORDER BY day")


def test_a_day_has_the_stored_value_or_the_last_reading(office: Office, elm: Supplied) -> None:
    meter = elm.meter(1, HEAT, "A1")
    elm.reads(meter, at("2025-01-30T06:00"), 1000)
    elm.reads(meter, at("2025-01-30T18:00"), 1010)
    elm.reads(meter, at("2025-02-01T06:00"), 1040, ("2025-01-31", 1030))
    printed = office.run("close").ok()
    assert printed.startswith("5 days of meters in 1 houses, 3 values written\n")
    assert "2025-01: 1 places: 1 missing\n2025-02: 1 places: 1 missing\n" in printed
    assert days_of(office) == [("2025-01-30", 1010.0, "read"), ("2025-01-31", 1030.0, "stored"),
                               ("2025-02-01", 1040.0, "read")]
    assert office.sql("SELECT at FROM day_values WHERE day = '2025-01-31'") == [(at("2025-02-01T00:00"),)]
    assert " 0 values written" in office.run("close").printed


def test_late_readings_and_what_people_put(office: Office, elm: Supplied) -> None:
    """A stored value that comes later takes the place of the reading; one by hand stays; a struck one stays away."""
    meter = elm.meter(1, HEAT, "A1")
    elm.reads(meter, at("2025-01-31T18:00"), 1010)
    assert office.run("close").status == 0
    elm.reads(meter, at("2025-02-02T06:00"), 1040, ("2025-01-31", 1030))
    assert " 2 values written" in office.run("close").printed
    assert days_of(office) == [("2025-01-31", 1030.0, "stored")]
    office.sql("SELECT strike(id, 'the meter''s clock was wrong') FROM day_values WHERE day = '2025-01-31'")
    elm.reads(meter, at("2025-02-03T06:00"), 1050, ("2025-01-31", 1030))
    assert office.run("close").status == 0
    assert days_of(office) == [("2025-01-31", 1010.0, "read")]
    office.sql("SELECT put_value(%s, '2025-01-31', 1025, 'Wh', 'read at the meter')", meter)
    assert " 0 values written" in office.run("close").printed
    assert days_of(office) == [("2025-01-31", 1025.0, "by hand")]
    assert office.sql("SELECT count(*), count(struck_by) FROM day_values WHERE struck_at IS NOT NULL") == [(2, 2)]
    elm.reads(meter, at("2025-02-04T06:00"), 1060, ("2025-01-31", 1031))
    assert "2 days of meters in 1 houses, 1 values written" in office.run("close").printed
    assert days_of(office) == [("2025-01-31", 1025.0, "by hand")]


def test_a_month_of_stored_values(office: Office, elm: Supplied) -> None:
    meter = elm.meter(1, HEAT, "A1")
    elm.days(meter, "2024-12-25", 45, 1000, 10)
    assert elm.month("2025-01") == [("A1", 0, 310 * WH, "measured")]
    basis = office.sql("SELECT basis FROM month_use")[0][0]
    assert [(it["value"], it["at"][:16]) for it in basis] == [("1060", "2024-12-31T23:00"),
                                                              ("1370", "2025-01-31T23:00")]
    assert office.sql("SELECT kwh::float, units FROM month_kwh") == [(0.31, None)]


def test_a_user_moves_in_mid_month(office: Office, elm: Supplied) -> None:
    """The parts are each user's, and add up to the month, to the last millijoule."""
    meter = elm.meter(1, HEAT, "A1")
    elm.values(meter, {"2024-12-30": 1000, "2024-12-31": 1007, "2025-01-09": 1090, "2025-01-20": 1101,
                       "2025-02-03": 1200})
    one, other = elm.tenancy("A1", "2024-01-01", "2025-01-13"), elm.tenancy("A1", "2025-01-18", None)
    rows = elm.month("2025-01")
    assert [row[:2] for row in rows] == [("A1", number) for number in range(4)]
    assert rows[0][2] == sum(row[2] for row in rows[1:])
    assert [row[0] for row in office.sql("SELECT tenancy FROM month_use ORDER BY part")] == [None, one, None, other]
    assert rows[0][3] == "estimated"  # over days without a value around the end of January


def test_an_exchange(office: Office, elm: Supplied) -> None:
    """SWAP ends a fitting and begins one at the same place; without their values the month is unclear, and a typing
    error is held."""
    old = elm.meter(1, HEAT, "A1")
    elm.days(old, "2024-12-25", 20, 1000, 10)
    new = elm.exchange(old, 2, at("2025-01-15T11:00"), None, None)
    fittings = office.sql("SELECT place, upper_inf(during) FROM fittings ORDER BY id")
    assert fittings == [(fittings[0][0], False), (fittings[0][0], True)]
    elm.days(new, "2025-01-15", 20, 5, 10)
    assert elm.month("2025-01") == [("A1", 0, None, "unclear")]
    office.sql("UPDATE fittings SET first_value = 0 WHERE id = %s", new)
    for last, is_held in ((1305, True), (1205, False)):
        office.sql("UPDATE fittings SET last_value = %s WHERE id = %s", last, old)
        elm.month("2025-01")
        assert office.sql("SELECT is_held FROM month_use") == [(is_held,)]
    assert elm.month("2025-01") == [("A1", 0, (1205 - 1060 + 165) * WH, "hand")]
    sources = [it["source"] for it in office.sql("SELECT basis FROM month_use")[0][0]]
    assert sources == ["stored", "removed", "fitted", "stored"]


def test_a_meter_that_was_removed_counts_no_more(office: Office, elm: Supplied) -> None:
    """Whatever it says later: what a person says of an exchange holds."""
    old = elm.meter(1, COLD, "A1")
    new = elm.exchange(old, 2, at("2025-01-10T12:00"), 9, 0, "m3")
    elm.values(old, {"2024-12-30": 4, "2024-12-31": 5, "2025-01-20": 8}, "m3")
    elm.values(new, {"2025-01-31": 7, "2025-02-01": 7}, "m3")
    assert elm.month("2025-01") == [("A1", 0, 11_000_000, "hand")]
    published(office)


def test_a_meter_that_is_fitted_or_removed_in_a_month(office: Office, elm: Supplied) -> None:
    meter = elm.meter(1, HEAT, "A1", since=at("2025-01-10T12:00"))
    elm.days(meter, "2025-01-10", 40, 3, 10)
    assert elm.month("2025-01") == [("A1", 0, None, "missing")]
    office.sql("UPDATE fittings SET unit = 'Wh', first_value = 0")
    assert elm.month("2025-01") == [("A1", 0, 213 * WH, "hand")]
    office.sql("UPDATE fittings SET during = tstzrange(lower(during), %s), last_value = 400", at("2025-02-20T00:00"))
    office.sql("DELETE FROM day_values WHERE day > '2025-02-18'")
    assert elm.month("2025-02") == [("A1", 0, (400 - 213) * WH, "hand")]
    assert elm.month("2025-03") == []


def test_words(office: Office, elm: Supplied) -> None:
    this = datetime.date.today()
    for words, said in (("2025-13", "no month"), (f"{this:%Y-%m}", "isn't over"), ("x", "no month")):
        ended = office.run("close", "--month", words)
        assert ended.status == 2 and said in ended.printed, ended.printed
    assert office.run("close", "--month", "2025-01", "--house", "nowhere").status == 2
    elm.days(elm.meter(1, HEAT, "A1"), "2024-12-25", 45, 1000, 10)
    assert "audit ended with status 1" in office.run("close", "--month", "2025-01", MBDC="/bin/false").ok(3)
    assert office.sql("SELECT count(*) FROM month_use") == [(0,)]


def test_what_the_tables_refuse(office: Office, elm: Supplied) -> None:
    meter = elm.meter(1, HEAT, "A1")
    elm.tenancy("A1", "2025-01-01", "2025-02-01")
    for query in ("INSERT INTO tenancies (house, flat, days, person) VALUES ('elm-1', 'A1', '[2025-01-31,)', 'x')",
                  "INSERT INTO fittings (place, house, identity, during) SELECT place, house, identity, '[2025-01-01,)'"
                  " FROM fittings", "UPDATE houses SET zone = 'Nowhere'", "UPDATE flats SET area_m2 = 0",
                  "UPDATE places SET weight = -1",
                  "UPDATE fittings SET unit = 'Wh', last_value = 1",
                  "UPDATE fittings SET unit = 'Wh', first_value = 0.0000001",
                  *(f"INSERT INTO day_values (fitting, day, at, value, unit, source) VALUES ({meter}, '2025-01-01',"
                    f" now(), {it})" for it in ("-1, 'Wh', 'by hand'", "1, 'W', 'by hand'", "1, 'Wh', 'read'")),
                  "INSERT INTO factors VALUES ('elm-1', 'heat', '[2025-01-01,)', 1)",
                  "INSERT INTO month_use SELECT '2025-01-01', place, 0, '2025-01-01', '2025-02-01', NULL, 5,"
                  " 'disturbed', false, '[]' FROM fittings"):
        assert refused(office, query), query


# ---- estimates: marked, and out of force when the meter is read again

def test_by_the_year_before(office: Office, elm: Supplied) -> None:
    meter = elm.meter(1, HEAT, "A1")
    elm.days(meter, "2023-12-30", 40, 1000, 20)
    elm.values(meter, {"2024-12-31": 9000})
    assert elm.month("2024-01") == [("A1", 0, 620 * WH, "measured")]
    assert elm.month("2025-01") == [("A1", 0, None, "missing")]
    ended = office.run("estimate", "2025-01")
    assert (ended.status, ended.printed) == (0, "2025-01 elm-1/A1/heat/1: 9620 Wh by year before\n")
    assert elm.month("2025-01") == [("A1", 0, 620 * WH, "estimated")]
    assert office.run("estimate", "2025-01").printed == ""


def test_by_comparable_flats(office: Office, elm: Supplied) -> None:
    """By area; a second house of the category serves where the own one has nothing."""
    dead = elm.meter(1, HEAT, "A1", area=40)
    elm.values(dead, {"2024-12-31": 100, "2025-01-10": 110})
    oak = Supplied(office, "oak-2")
    for number, area in ((2, 50), (3, 70)):
        elm.days(oak.meter(number, HEAT, f"B{number}", area=area), "2024-12-30", 40, 0, area)
    elm.month("2025-01")
    ended = office.run("estimate", "2025-01", "--house", "elm-1")
    assert ended.printed == f"2025-01 elm-1/A1/heat/1: {110 + 40 * 21} Wh by flats of the category\n"
    assert elm.month("2025-01") == [("A1", 0, (10 + 40 * 21) * WH, "estimated")]


def test_a_later_reading_puts_it_out_of_force(office: Office, elm: Supplied) -> None:
    """The month is then what the readings around it say, and the months still add up."""
    dead = elm.meter(1, WATER, "A1")
    elm.days(elm.meter(2, WATER, "A2"), "2024-12-30", 70, 0, 1, "m3")
    elm.values(dead, {"2024-12-30": 0, "2024-12-31": 1}, "m3")
    elm.month("2025-01")
    assert "by flats of the house" in office.run("estimate", "2025-01").printed
    assert elm.month("2025-01")[0] == ("A1", 0, 31_000_000, "estimated")
    elm.values(dead, {"2025-02-28": 60}, "m3")
    assert elm.month("2025-02")[0] == ("A1", 0, 28_000_000, "estimated")
    assert elm.month("2025-01")[0] == ("A1", 0, 31_000_000, "estimated")
    elm.values(dead, {"2025-02-01": 3}, "m3")
    both = [elm.month(month)[0][2] for month in ("2025-01", "2025-02")]
    assert sum(both) == 59_000_000 and both[0] == 2_000_000 * 31 // 32
