"""The grades by both steps around a boundary, turns, restarts, and numbers that are held."""

import datetime
import pathlib
from typing import Any, List

import pytest
from conftest import Office
from supplied import ALLOCATOR, COLD, HEAT, WH, Supplied, at
from test_bills import billed
from test_schema import refused
from test_sheets import published, read_sheet, sheet_of, written

from program import audited

FEBRUARY = ("2025-01", "2025-02", "2025-03")


def grades(elm: Supplied, *months: str) -> List[str]:
    return [elm.month(month)[0][3] for month in months]


@pytest.mark.parametrize("day, value, wanted", [
    ("2025-01-30", 5000, ["disturbed", "disturbed", "measured"]),  # too high before the month's end
    ("2025-02-01", 10, ["disturbed", "disturbed", "measured"]),  # too low after it
    ("2025-01-15", 5000, ["disturbed", "measured", "measured"])])
def test_a_false_value_marks_both_its_steps(office: Office, elm: Supplied, day: str, value: int,
                                            wanted: List[str]) -> None:
    """Too high or too low, the months that it decides have no number, until it is struck; then they are right."""
    meter = elm.meter(1, HEAT, "A1")
    elm.days(meter, "2024-12-20", 110, 1000, 10)
    elm.tells(meter, {day: value})
    assert grades(elm, *FEBRUARY) == wanted
    office.sql("SELECT strike(id, 'read wrong') FROM day_values WHERE value = %s", value)
    assert [elm.month(month)[0][2:] for month in FEBRUARY] == [
        (days * 10 * WH, "measured") for days in (31, 28, 31)]


def test_a_number_is_provisional_until_the_next_step(office: Office, elm: Supplied, tmp_path: pathlib.Path) -> None:
    """It is in no bill, and its month waits for the step after its end, or a person says why it needn't."""
    meter = elm.meter(1, HEAT, "A1")
    tenancy = elm.tenancy("A1", "2024-01-01", None)
    elm.days(meter, "2024-12-25", 38, 1000, 10)  # to 31 January
    assert elm.month("2025-01") == [("A1", 0, 310 * WH, "provisional")]
    assert billed(office, "elm-1", "2025-01", status=1)[0]["amount"] == ""
    written(office, tmp_path, "--pdf", "none")
    cell = read_sheet(office, tmp_path, tenancy).cells["heat", "2025-01-01"]
    assert cell.split()[:2] == ["0,3", "vorläufig:"]
    words = ("sheets", "2025-01", "--out", str(tmp_path), "--pdf", "none", "--release")
    assert "2025-01 waits for readings after its end: elm-1" in office.run(*words).ok(5)
    assert office.sql("SELECT ready_houses('2025-01-01')") == []
    assert "waits for readings" in refused(office, "SELECT release_month('elm-1', '2025-01-01')")
    assert not (tmp_path / "sheets").exists() and sheet_of(office, tmp_path, tenancy).exists()
    assert "no number elm-1" not in office.run("alarms", "--at", "2025-02-03T12:00+00:00").printed
    assert "NEW no number elm-1/A1/heat/1 2025-01: No reading came after the month" in office.run(
        "alarms", "--at", "2025-02-07T12:00+00:00").printed
    elm.values(meter, {"2025-02-01": 1380})
    assert elm.month("2025-01") == [("A1", 0, 310 * WH, "measured")]
    office.sql("DELETE FROM day_values WHERE day = '2025-01-31'")
    assert grades(elm, "2025-01") == ["provisional"]
    elm.values(meter, {"2025-02-02": 1390})
    assert grades(elm, "2025-01") == ["measured"]
    office.sql("DELETE FROM day_values WHERE day = '2025-02-02'")
    elm.month("2025-01")
    published(office)
    office.sql("SELECT desk.see_number(place, '2025-01-01', 'the meter was removed') FROM fittings")
    assert office.sql("SELECT ready_houses('2025-01-01')") == [("elm-1",)]
    assert office.run(*words).status == 0 and (tmp_path / "sheets").exists()


def test_a_turn(office: Office, elm: Supplied) -> None:
    """Of a counter whose digits a person, or the list of models, declares; what they explain is proposed."""
    meter = elm.meter(1, COLD, "A1")
    for day, value in ((29, "99999.800"), (30, "99999.900"), (31, "0.050")):
        elm.reads(meter, at(f"2025-01-{day}T23:00"), value)
    for day in (1, 2):
        elm.reads(meter, at(f"2025-02-0{day}T23:00"), f"0.{day}50")
    elm.reads(meter, at("2024-12-31T23:00"), "99995.000")
    elm.reads(meter, at("2024-12-30T23:00"), "99994.900")
    assert office.run("close").status == 0
    assert grades(elm, "2025-01") == ["disturbed"]
    printed = office.run("alarms", "--at", "2025-02-02T23:30+00:00").printed
    assert "NEW turn elm-1 00000001.PAD.01.07: Has the counter rolled over? (flat A1): " in printed
    assert "a counter of 8 digits" in printed
    office.sql("SELECT declare_counter('elm-1', '00000001.PAD.01.07', 8)", role="clerk")
    assert office.sql("SELECT size FROM fittings") == [(10 ** 8 * 1000,)]
    assert office.run("close").status == 0
    assert office.sql("SELECT grade, amount BETWEEN 5000000 AND 5200000 FROM month_use WHERE month = '2025-01-01'") == [
        ("estimated", True)]
    assert "END turn" in office.run("alarms", "--at", "2025-02-02T23:30+00:00").printed
    elm.tells(meter, {"2025-01-30": 500}, "m3")  # 500 m3 in a day is no turn
    assert grades(elm, "2025-01") == ["disturbed"]
    elm.tells(meter, {"2025-01-30": "99999.9"}, "m3")
    assert "has digits" in refused(office, "SELECT declare_counter('elm-1', '00000001.PAD.01.07', 7)")
    office.sql("INSERT INTO models VALUES ('PAD', '01', '07', 8)")
    elm.reads(elm.meter(2, COLD, "A2"), at("2025-01-30T23:00"), "99999.900")
    assert office.run("close").status == 0
    assert office.sql("SELECT DISTINCT size FROM fittings") == [(10 ** 8 * 1000,)]


def read_daily(elm: Supplied, meter: int, first: str, values: List[Any], due: Any = None) -> None:
    moment = at(f"{first}T20:00")
    for number, value in enumerate(values):
        elm.reads(meter, moment.replace(day=moment.day + number), value, due)


def test_an_allocator_begins_its_year(office: Office, elm: Supplied) -> None:
    """It stored its value at the due date, and goes on at 0: December and January both have their number."""
    meter = elm.meter(1, ALLOCATOR, "A1")
    read_daily(elm, meter, "2024-11-28", [700, 707])
    read_daily(elm, meter, "2024-12-01", [721 + 7 * number for number in range(30)])
    read_daily(elm, meter, "2025-01-01", [4 + 7 * number for number in range(31)], ("2024-12-31", 930))
    read_daily(elm, meter, "2025-02-01", [221, 228])
    assert office.run("close").status == 0
    assert office.sql("SELECT last, first, why, at FROM restarts") == [(930, 0, "due date", at("2025-01-01T00:00"))]
    rows = office.sql("SELECT month, amount, grade FROM month_use WHERE month >= '2024-12-01' ORDER BY 1 LIMIT 2")
    assert [row[2] for row in rows] == ["measured", "measured"]
    assert rows[1][1] == 214_000 + 7_000 * 4 // 24 and 930_000 - 721_000 < rows[0][1] < 930_000 - 707_000
    elm.reads(meter, at("2025-02-03T20:00"), 235, ("2024-12-31", 930))
    assert office.run("close").status == 0
    assert office.sql("SELECT count(*) FROM restarts") == [(1,)]
    assert billed(office, "elm-1", "2025-01")[0]["unit"] == "count"


def test_a_restart_that_a_person_declares(office: Office, elm: Supplied) -> None:
    meter = elm.meter(1, HEAT, "A1")
    elm.days(meter, "2024-12-25", 20, 1000, 10)  # to 13 January: 1190
    elm.days(meter, "2025-01-14", 40, 5, 10)
    assert grades(elm, "2025-01") == ["disturbed"]
    begun = "SELECT restart('elm-1', '00000001.PAD.01.04', '2025-01-14 11:00Z', %s, 0, 'Wh', 'a new board')"
    office.sql(begun, 1195, role="clerk")
    assert elm.month("2025-01") == [("A1", 0, (1195 - 1060 + 175) * WH, "hand")]
    office.sql("UPDATE restarts SET last = 1100")  # below the value before it
    assert grades(elm, "2025-01") == ["disturbed"]
    office.sql("DELETE FROM restarts")
    office.sql(begun, None)
    assert elm.month("2025-01") == [("A1", 0, (1190 - 1060 + 175) * WH, "estimated")]
    assert "no meter" in refused(office, "SELECT restart('elm-1', '00000001.PAD.01.04', now(), 1, 0, 'm3', 'x')")


def test_the_same_telegram_again_is_an_estimate(office: Office, elm: Supplied, tmp_path: pathlib.Path) -> None:
    """Of a meter that stands still, and doesn't number its answers; also in the file of who moved in meanwhile."""
    meter = elm.meter(1, COLD, "A1")
    users = [elm.tenancy("A1", "2024-01-01", "2025-01-11"), elm.tenancy("A1", "2025-01-11", None)]
    for day in range(45):
        elm.reads(meter, at("2024-12-25T20:00") + datetime.timedelta(day), 7 + max(0, day - 25))
    office.sql("UPDATE readings SET bodies = (SELECT bodies FROM readings WHERE serial = 1) WHERE serial <= 25")
    assert office.run("close").status == 0
    assert elm.month("2025-01")[1:] == [("A1", 1, 0, "estimated"), ("A1", 2, 12 * 10**6 + 166_666, "estimated")]
    written(office, tmp_path, "--pdf", "none")
    for user in users:
        lines = sheet_of(office, tmp_path, user, form="audit").read_text(encoding="ascii").splitlines()
        assert audited(lines).holds and sum(line.endswith(",estimated") for line in lines) == 2


def test_a_number_is_held_until_a_person_says_why(office: Office, elm: Supplied, tmp_path: pathlib.Path) -> None:
    """It is on no sheet and in no average; then it is, until another amount comes."""
    meter = elm.meter(1, COLD, "A1")
    tenancy = elm.tenancy("A1", "2024-01-01", None)
    elm.days(meter, "2024-12-20", 30, 10, 1, "m3")
    elm.days(meter, "2025-01-19", 60, 60, 1, "m3")
    assert elm.month("2025-01")[0][2:] == (51_000_000, "measured")
    written(office, tmp_path, "--pdf", "none")
    cell = read_sheet(office, tmp_path, tenancy).cells["cold water", "2025-01-01"]
    assert "auffällig hoch" in cell and not any(it.isdigit() for it in cell)
    assert office.sql("SELECT grade, amount FROM month_kwh") == [("held", None)]
    printed = office.run("alarms", "--at", "2025-02-02T23:30+00:00").printed
    assert "NEW no number elm-1/A1/cold water/1 2025-01: Unusually high consumption (flat A1)" in printed
    assert office.sql("SELECT see_number('2025-01-01', place, 'a burst pipe') FROM fittings", role="clerk") == [(1,)]
    assert office.sql("SELECT why, made_by FROM seen") == [("a burst pipe", "office")]
    written(office, tmp_path, "--pdf", "none")
    assert read_sheet(office, tmp_path, tenancy).cells["cold water", "2025-01-01"].split() == ["51,00"]
    elm.tells(meter, {str(day): value + 1 for day,
                      value in office.sql("SELECT day, value FROM day_values WHERE day >= '2025-01-19'")}, "m3")
    elm.month("2025-01")
    assert office.sql("SELECT grade FROM month_kwh") == [("held",)]


def test_a_leap_in_an_empty_flat_is_held(office: Office, elm: Supplied) -> None:
    """Its usual day is none: what counts is a cubic metre a day or, where others are known, ten times their day."""
    empty = elm.meter(1, COLD, "A1")
    elm.days(empty, "2024-12-20", 30, 7, 0, "m3")
    elm.days(empty, "2025-01-19", 30, 86, 0, "m3")
    later = [row[0] for row in office.sql("SELECT day::text FROM day_values WHERE day >= '2025-01-19' ORDER BY 1")]
    assert elm.month("2025-01") == [("A1", 0, 79_000_000, "measured")]
    assert office.sql("SELECT grade FROM month_kwh") == [("held",)]
    elm.tells(empty, {day: "7.9" for day in later}, "m3")  # less than a cubic metre
    elm.month("2025-01")
    assert office.sql("SELECT grade FROM month_kwh") == [("measured",)]
    for number in (2, 3, 4):
        elm.values(elm.meter(number, COLD, f"A{number}"), {str(
            datetime.date(2024, 12, 20) + datetime.timedelta(day)): f"{7 + 0.05 * day:.2f}" for day in range(60)}, "m3")
    elm.month("2025-01")
    assert office.sql("SELECT flat, grade FROM month_kwh ORDER BY 1") == [("A1", "held"), ("A2", "measured"),
                                                                          ("A3", "measured"), ("A4", "measured")]
    # somebody moves in
    elm.tells(empty, {day: f"{7.15 + number * 0.15:.2f}" for number, day in enumerate(later)}, "m3")
    elm.month("2025-01")
    assert office.sql("SELECT grade FROM month_kwh WHERE flat = 'A1'") == [("measured",)]


def test_a_leap_in_a_house_that_is_read_weekly_is_held(office: Office, elm: Supplied) -> None:
    """And not what is much, and usual there."""
    meter, large = elm.meter(1, COLD, "A1"), elm.meter(2, COLD, "A2")
    weeks = [str(datetime.date(2024, 12, 9) + datetime.timedelta(7 * week)) for week in range(10)]
    elm.values(meter, {day: f"{100 + week * 0.7:.3f}" for week, day in enumerate(weeks)}, "m3")
    elm.values(large, {day: 14 * week for week, day in enumerate(weeks)}, "m3")
    elm.month("2025-01")
    assert office.sql("SELECT grade FROM month_kwh") == [("estimated",)] * 2
    elm.tells(meter, {day: f"{150 + week * 0.7:.3f}" for week, day in enumerate(weeks) if day >= "2025-01-20"}, "m3")
    elm.month("2025-01")
    assert office.sql("SELECT flat, grade FROM month_kwh ORDER BY 1") == [("A1", "held"), ("A2", "estimated")]
