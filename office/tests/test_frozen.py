"""A month or a bill that is out stays as it is; another number is another version, with a reason."""

import csv
import datetime
import io
import pathlib
from typing import Any, List, Tuple

import pytest
from conftest import Office
from supplied import ALLOCATOR, HEAT, WH, Supplied, at
from test_schema import refused
from test_sheets import published, read_sheet, sheet_of

ROWS = ("SELECT month::text, place, part, version, amount, grade, begins, ends FROM month_use WHERE out_at IS NOT NULL"
        " ORDER BY 1, 2, 3, 4")
DECEMBER = "2024-12-30"


def released(office: Office, out: pathlib.Path, month: str) -> None:
    published(office, month)
    office.run("sheets", month, "--out", str(out), "--pdf", "none", "--release").ok()


def closed(office: Office, *months: str) -> str:
    """Closes, with these months to be computed again."""
    office.sql("INSERT INTO to_compute SELECT 'elm-1', m FROM unnest(%s::date[]) m",
               [f"{month}-01" for month in months])
    return office.run("close").ok()


def rows(office: Office) -> List[Tuple[Any, ...]]:
    return office.sql(ROWS)


@pytest.fixture
def january(office: Office, elm: Supplied, tmp_path: pathlib.Path) -> Tuple[int, int]:
    """January is out, with 10 kWh a day: the meter and its user."""
    meter, tenancy = elm.meter(1, HEAT, "A1"), elm.tenancy("A1", "2024-01-01", None)
    elm.days(meter, DECEMBER, 60, 1_000_000, 10_000)
    elm.month("2025-01")
    released(office, tmp_path, "2025-01")
    return meter, tenancy


def test_what_is_out_is_frozen(office: Office, january: Tuple[int, int], tmp_path: pathlib.Path) -> None:
    """The rows, the values behind them, and every number as it was printed."""
    tenancy, before = january[1], rows(office)
    assert before[0][3:6] == (1, 310_000 * WH, "measured")
    for query in ("UPDATE month_use SET amount = 1", "DELETE FROM month_use", "UPDATE month_use SET grade = 'hand'",
                  "UPDATE month_use SET out_at = NULL", "UPDATE frozen_values SET entries = '{}'",
                  "UPDATE month_use SET tenancy = 99, amount = 1"):
        assert "is out" in refused(office, query), query
    text = sheet_of(office, tmp_path, tenancy).read_text(encoding="utf-8")
    numbers = office.sql("SELECT text, mark, version FROM published WHERE tenancy = %s", tenancy)
    assert ("310.0", "measured", 1) in numbers and all(row[0].replace(".", ",") in text for row in numbers)
    assert office.sql("SELECT house, version, why, made_by FROM versions WHERE out_at IS NOT NULL") == [
        ("elm-1", 1, "first", "office")]
    released(office, tmp_path, "2025-01")
    assert rows(office) == before and office.sql("SELECT count(*) FROM versions") == [(1,)]
    assert office.sql("SELECT count(*) FROM published WHERE kind = 'month' AND period = '2025-01'") == [(1,)]


def test_another_number_is_another_version(office: Office, january: Tuple[int, int], tmp_path: pathlib.Path) -> None:
    """A value is struck after the month is out: it stays, somebody is asked, and a version with a reason comes out."""
    (meter, tenancy), before = january, rows(office)
    office.sql("SELECT put_value(%s, '2025-01-31', 1325000, 'Wh', 'read at the meter')", meter)
    assert "2025-01: 1 places: 1 hand" in office.run("close").ok() and rows(office) == before
    printed = office.run("alarms").printed
    said = [line for line in printed.splitlines() if "NEW changed" in line]
    assert said == ["NEW changed elm-1 2025-01: A month that went out would be another now: elm-1/A1/heat/1: 310.0 kWh"
                    " (measured) went out, now 315.0 kWh (read by a person)."]
    assert office.sql("SELECT amount FROM month_kwh WHERE part = 0 AND month = '2025-01-01'") == [(310_000 * WH,)]
    assert office.run("close", "--month", "2025-01").status == 0 and rows(office) == before
    corrected = office.run("correct", "elm-1", "2025-01", "--why", "read at the meter")
    assert (corrected.status, corrected.printed) == (0, "2025-01: 1 places: 1 hand; version 2 of elm-1\n")
    assert rows(office) == before
    released(office, tmp_path, "2025-01")
    assert [row[3:5] for row in rows(office)] == [(1, 310_000 * WH), (2, 315_000 * WH)]
    cell = read_sheet(office, tmp_path, tenancy).cells["heat", "2025-01-01"]
    assert cell.split()[0] == "315,0"
    assert office.sql("SELECT version, why FROM versions ORDER BY 1") == [(1, "first"), (2, "read at the meter")]
    assert office.sql("SELECT version, text FROM published WHERE kind = 'month' AND period = '2025-01' ORDER BY 1") == [
        (1, "310.0"), (2, "315.0")]
    assert "END changed" in office.run("alarms").printed
    assert office.run("correct", "elm-1", "2025-02", "--why", "x").status == 4
    # a month may be left, until it would be another one again
    assert office.run("correct", "elm-1", "2025-01", "--leave", "--why", "x").status == 4
    office.sql("SELECT put_value(%s, '2025-01-31', 1319000, 'Wh', 'read')", meter)
    assert office.run("close").status == 0
    assert office.run("correct", "elm-1", "2025-01", "--leave", "--why", "1 kWh").status == 0
    closed(office, "2025-01")
    assert "changed" not in office.run("alarms").printed
    office.sql("SELECT put_value(%s, '2025-01-31', 1318000, 'Wh', 'read')", meter)
    assert office.run("close").status == 0 and "NEW changed" in office.run("alarms").printed
    assert len(rows(office)) == 2


def test_forget_leaves_what_decides_months(office: Office, elm: Supplied, tmp_path: pathlib.Path) -> None:
    """A meter that is read weekly, never on a month's last day, and a move in mid-month: no number becomes another."""
    meter, one = elm.meter(1, HEAT, "A1", since=at("2024-12-01T00:00")), elm.tenancy("A1", "2024-01-01", "2025-02-12")
    elm.tenancy("A1", "2025-02-12", None)
    for week in range(16):
        elm.reads(meter, at("2024-12-09T20:00") + datetime.timedelta(7 * week), 10_000 * week + 500 * week * week)
    assert office.run("close").status == 0
    for month in ("2024-12", "2025-01", "2025-02"):
        released(office, tmp_path, month)
    before = rows(office)
    assert len(before) == 5 and office.run("forget", str(one)).status == 0
    assert office.sql("SELECT array_agg(extract(day FROM day)::int ORDER BY day) FROM day_values WHERE day BETWEEN"
                      " '2025-01-01' AND '2025-02-15'") == [([6, 27, 3, 10],)]
    closed(office, "2024-12", "2025-01", "2025-02")
    assert rows(office) == before and office.sql("SELECT count(*) FROM changes") == [(0,)]


def computed_again(entries: List[int], begins: int, ends: int) -> int:
    """An amount from frozen values (meter, moment, value, most, size) that lie at both ends."""
    values = dict(zip(entries[1::5], entries[2::5]))
    return values[ends] - values[begins]


def bill(office: Office, *words: str, status: int = 0) -> str:
    assert office.run("publish", "elm-1", words[0], "--bill").status in (0, 2)
    return office.run("bill", "elm-1", *words).ok(status)


def cells(printed: str, *names: str) -> List[Tuple[str, ...]]:
    return [tuple(row[name] for name in names) for row in csv.DictReader(io.StringIO(printed))]


def test_a_bill_that_is_out(office: Office, elm: Supplied) -> None:
    """It is printed as it was, whatever the office knows since; another number is another version."""
    meter, other = elm.meter(1, HEAT, "A1"), elm.meter(2, ALLOCATOR, "A2")
    elm.tenancy("A1", "2024-01-01", "2025-01-18", "=x")
    tenancy = elm.tenancy("A1", "2025-01-18", None, "B. Smith")
    elm.days(meter, DECEMBER, 100, 1_000_000, 10_000)
    elm.days(other, DECEMBER, 100, 100, 2, "HCA")
    office.sql("UPDATE places SET weight = 1.7 WHERE flat = 'A2'")
    draft = bill(office, "2025-01-01..2025-02-28")
    before = bill(office, "2025-01-01..2025-02-28", "--release")
    assert before == draft and bill(office, "2025-01-01..2025-02-28", "--release") == before
    assert cells(before, "user", "consumption", "HCA") == [("'=x", "170.000", ""), ("B. Smith", "420.000", ""),
                                                           ("", "118.000", "200.600")]
    assert office.sql("SELECT text, mark FROM published WHERE tenancy = %s AND kind = 'consumption'", tenancy) == [
        ("420.000", "measured")]
    for query in ("UPDATE bills SET out_at = NULL", "DELETE FROM bills", "UPDATE bills SET why = 'x'"):
        assert "is out: office/correct" in refused(office, query), query
    for query in ("UPDATE published SET text = '1'", "DELETE FROM published", "UPDATE published SET tenancy = 1"):
        assert "is out" in refused(office, query), query
    office.sql("SELECT put_value(%s, '2025-02-28', 1595000, 'Wh', 'read at the meter')", meter)
    assert office.run("close").status == 0
    assert bill(office, "2025-01-01..2025-02-28") == before
    name = "A1 heat 1 2025-01-18T00:00 2025-03-01T00:00"
    assert (f"NEW changed elm-1 bill 2025-01-01..2025-02-28: A bill that went out would be another now: {name}: 420.0"
            " kWh (measured)"
            " went out, now 415.0 kWh (read by a person).\n" in office.run("alarms").printed)
    left = office.run("correct", "elm-1", "2025-01-01..2025-02-28", "--bill", "--leave", "--why", "5 kWh")
    assert left.status == 0 and "END changed elm-1 bill" in office.run("alarms").printed
    closed(office, "2025-01", "2025-02")
    assert "changed" not in office.run("alarms").printed
    corrected = office.run("correct", "elm-1", "2025-01-01..2025-02-28", "--bill", "--why", "read at the meter")
    assert (corrected.status, corrected.printed) == (0, "a bill; version 2 of elm-1\n")
    again = bill(office, "2025-01-01..2025-02-28", "--release")
    assert cells(again, "consumption", "grade")[1] == ("415.000", "hand")
    assert bill(office, "2025-01-01..2025-02-28") == again
    assert bill(office, "2025-01-01..2025-02-28", "--version", "1") == before
    assert office.sql("SELECT version, why FROM bills ORDER BY 1") == [(1, "first"), (2, "read at the meter")]
    assert bill(office, "2025-01-01..2025-02-28", "--version", "3", status=2) != ""
    assert office.run("correct", "elm-1", "2025-01", "--bill", "--why", "x").status == 4
    assert office.run("correct", "elm-1", "2025", "--why", "x").status == 2


def test_neither_retain_nor_forget_changes_a_number(office: Office, elm: Supplied, tmp_path: pathlib.Path) -> None:
    """Of three months and a bill that are out, with a move in the second, the days, the user and the user's sheets go,
    and the numbers stay as they were printed."""
    elm.days(elm.meter(1, HEAT, "A1", since=at("2020-01-01T00:00")), "2020-12-29", 130, 1_000_000, 10_000)
    one, other = elm.tenancy("A1", "2020-01-01", "2021-02-11", "S. Secret"), elm.tenancy("A1", "2021-02-11", None)
    months, quarter = ("2021-01", "2021-02", "2021-03"), "2021-01-01..2021-03-31"
    elm.months(*months)
    early = office.run("forget", str(one)).ok(3)
    assert "2021-01 of tenancy" in early and "isn't out" in early
    billed = bill(office, quarter, "--release")
    for month in months:
        released(office, tmp_path, month)
    before = rows(office)
    assert len(before) == 5 and len(list(tmp_path.glob("sheets/*/*.html"))) == 4
    frozen = office.sql("SELECT entries FROM frozen_values WHERE month = '2021-01-01'")[0][0]
    office.sql("SELECT correct_bill('elm-1', '[2021-01-01,2021-04-01)', 'x')")
    assert f"the bill {quarter} of tenancy" in office.run("forget", str(one)).ok(3)
    bill(office, quarter, "--release")
    assert office.run("forget", str(other)).status == 3
    assert "2 sheets" in office.run("forget", str(one)).ok() and office.run("forget", str(one)).status == 2
    office.run("work", "--only", "erase", "--out", str(tmp_path), "--link", "https://office.example").ok()
    assert len(list(tmp_path.glob("**/sheets/*/*.html"))) == 2
    assert office.sql("SELECT count(*) FROM tenancies WHERE person LIKE 'S%%'") == [(0,)]
    closed(office, *months)
    assert office.run("close", "--month", "2021-01").status == 0
    assert rows(office) == before and office.sql("SELECT count(*) FROM changes") == [(0,)]
    assert office.sql("SELECT amount, basis FROM month_use WHERE month = '2021-01-01'") == [(310_000 * WH, [])]
    assert office.sql("SELECT count(tenancy) FROM published") != office.sql("SELECT count(*) FROM published")
    assert computed_again(frozen, int(before[0][6].timestamp()), int(before[0][7].timestamp())) == before[0][4]
    assert office.sql("SELECT changed, is_to_check FROM bills_now") == [(None, False)]
    after = bill(office, quarter)
    assert after == billed.replace(f",{one},S. Secret,", ",,,")
    assert office.run("retain").status == 0
    assert office.sql("SELECT count(*) FROM frozen_values WHERE month < '2022-01-01'") == [(0,)]
    assert "were dropped" in office.run("close", "--month", "2021-01").ok(2)
    assert "2021" not in closed(office, *months)
    assert rows(office) == before and office.sql("SELECT count(*) FROM changes") == [(0,)]
    assert bill(office, quarter) == after and "changed" not in office.run("alarms").printed
    assert "were dropped" in office.run("publish", "elm-1", "2021", "--bill").printed
    assert "no audit" in bill(office, "2021", status=5)


def test_a_value_counts_as_long_as_its_telegram_is_there(office: Office, elm: Supplied, tmp_path: pathlib.Path) -> None:
    """The ends of months stay where a user is forgotten; without their telegrams they decide no month and no bill."""
    meter, silent = elm.meter(1, HEAT, "A1"), elm.meter(2, HEAT, "A2")
    elm.reads(silent, at("2024-10-31T20:00"), 7_000)
    for day, value in (("2024-10-31", 10_000), ("2024-11-30", 40_000), ("2024-12-31", 71_000), ("2025-01-01", 72_000),
                       ("2025-01-31", 102_000), ("2025-02-01", 103_000), ("2025-02-02", 104_000)):
        elm.reads(meter, at(f"{day}T20:00"), value)
    assert office.run("close").status == 0
    office.sql("SELECT drop_months_before('2024-12-01')")
    assert office.sql("SELECT count(*) FROM day_values WHERE day < '2024-12-01'") == [(3,)]
    assert elm.month("2025-01") == [("A1", 0, 31_000 * WH, "measured"), ("A2", 0, None, "missing")]
    released(office, tmp_path, "2025-01")
    assert cells(bill(office, "2025-01", status=1), "consumption", "grade") == [("31.000", "measured"), ("", "missing")]


def test_a_bill_has_no_number_that_is_held(office: Office, elm: Supplied) -> None:
    """Until a person says why it is right; of a bill that is out that is another version."""
    meter = elm.meter(1, HEAT, "A1")
    elm.tenancy("A1", "2024-01-01", None)
    elm.days(meter, DECEMBER, 20, 1_000_000, 10_000)
    elm.days(meter, "2025-01-19", 60, 1_400_000, 10_000)
    elm.month("2025-01")
    assert cells(bill(office, "2025-01", "--release", status=1), "amount", "grade") == [("", "held")]
    assert office.sql("SELECT see_number('2025-01-01', place, 'a burst pipe') FROM fittings") == [(1,)]
    assert office.run("close").status == 0
    assert "NEW changed elm-1 bill 2025-01-01..2025-01-31" in office.run("alarms").printed
    assert office.run("correct", "elm-1", "2025-01", "--bill", "--why", "a burst pipe").status == 0
    assert cells(bill(office, "2025-01", "--release"), "grade") == [("measured",)]
