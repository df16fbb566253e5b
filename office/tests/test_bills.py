"""office/bill, office/alarms, office/forget and office/retain."""

import csv
import datetime
import email
import io
import pathlib
from typing import Dict, List

from conftest import Office, sendmail
from supplied import COLD, HEAT, WATER, WH, Supplied, at


def billed(office: Office, *words: str, status: int = 0) -> List[Dict[str, str]]:
    office.run("publish", *words, "--bill").ok()
    printed = office.run("bill", *words).ok(status)
    return list(csv.DictReader(io.StringIO(printed)))


def test_a_bill(office: Office, elm: Supplied) -> None:
    """A row a user and meter; the rows add up, and each names its readings; a hole has no number."""
    old = elm.meter(1, HEAT, "A1", since=at("2023-12-01T00:00"))
    elm.days(old, "2023-12-30", 100, 1000, 10)
    elm.days(elm.exchange(old, 2, at("2024-04-08T12:00"), 1997, 2), "2024-04-08", 300, 10, 10)
    one, other = elm.tenancy("A1", "2023-05-01", "2024-03-01", "=cmd()"), elm.tenancy("A1", "2024-03-01", None)
    rows = billed(office, "elm-1", "2024")
    assert [(row["tenancy"], row["meter"][:8], row["from"], row["to"]) for row in rows] == [
        (str(one), "00000001", "2024-01-01T00:00", "2024-03-01T00:00"),
        (str(other), "00000001", "2024-03-01T00:00", "2024-04-08T12:00"),
        (str(other), "00000002", "2024-04-08T12:00", "2025-01-01T00:00")]
    assert [int(row["amount"]) for row in rows] == [600 * WH, (1997 - 1610) * WH, (10 + 267 * 10 - 2) * WH]
    assert rows[0]["user"] == "'=cmd()" and rows[0]["consumption"] == "0.600"
    assert (rows[1]["first_value"], rows[1]["last_value"], rows[2]["first_value"]) == ("1610", "1997", "2")
    assert {row["estimated"] for row in rows} == {"no"}
    quarters = [billed(office, "elm-1", f"2024-{first:02}-01..2024-{first + 2:02}-{last}")
                for first, last in ((1, 31), (4, 30), (7, 30), (10, 31))]
    assert sum(int(row["amount"]) for rows in quarters for row in rows) == sum(int(row["amount"]) for row in rows)
    hole = billed(office, "elm-1", "2025", status=1)[0]
    assert (hole["amount"], hole["consumption"], hole["grade"]) == ("", "", "missing")
    for words in (["elm-1", "2124"], ["elm-1", "2024-02-01..2024-01-01"], ["oak-2", "2024"]):
        assert office.run("bill", *words).status == 2


def test_alarms_are_told_once_until_they_end(office: Office, elm: Supplied, tmp_path: pathlib.Path) -> None:
    falling, leaping, still = elm.meter(1, HEAT, "A1"), elm.meter(2, HEAT, "A2"), elm.meter(3, COLD, "A3")
    elm.tenancy("A3", "2024-01-01", None)
    elm.days(falling, "2025-01-01", 20, 1000, 10)
    elm.values(falling, {"2025-01-21": 5})
    elm.days(leaping, "2025-01-01", 20, 1000, 10)
    elm.values(leaping, {"2025-01-21": 2000})
    elm.days(still, "2024-11-25", 60, 7, 0, "m3")
    office.sql("UPDATE boxes SET made_at = '2024-01-01'")
    office.sql("UPDATE meters SET status = 12, since = '2024-01-01', heard = '2025-01-20', stored_at = '2025-01-20'")
    office.sql("INSERT INTO collections (begun_at, ended_at, boxes) VALUES ('2025-01-18', '2025-01-18', 1)")
    mail = sendmail(tmp_path)
    words = ("--at", "2025-01-21T12:00+00:00", "--mail", "a@example.org", "--sendmail")
    failing = office.run("alarms", *words, "/bin/false")
    assert failing.status == 3
    ended = office.run("alarms", *words, mail)
    told = [line.split(":")[0] for line in ended.printed.splitlines()]
    assert ended.status == 1 and told == [
        "NEW collector office/collect", "NEW box elm-1",
        *(f"NEW power elm-1 0000000{number}.PAD.01.{kind}" for number, kind in ((1, "04"), (2, "04"), (3, "07"))),
        "NEW disturbed elm-1 00000001.PAD.01.04", "NEW leap elm-1 00000002.PAD.01.04",
        "NEW no consumption elm-1 00000003.PAD.01.07"], ended.printed
    (kept,) = tmp_path.glob("mail.*")
    text = email.message_from_bytes(kept.read_bytes()).get_payload(decode=True).decode()
    assert "A meter reports low power (flat A1): power low, permanent error." in text
    again = office.run("alarms", *words, mail)
    assert (again.status, again.printed) == (0, "")
    office.sql("SELECT strike(id, 'disturbed') FROM day_values WHERE value = 5")
    office.sql("UPDATE meters SET status = 0 WHERE identity LIKE '%%1.PAD%%'")
    ended = office.run("alarms", *words, mail)
    assert (ended.status,
            ended.printed) == (0, "END disturbed elm-1 00000001.PAD.01.04\nEND power elm-1 00000001.PAD.01.04\n")
    silent = office.run("alarms", "--at", "2025-01-24T12:00+00:00")
    assert "silent" not in silent.printed  # what is to be seen to is the box, which has its alarm
    office.sql("UPDATE boxes SET collected_at = '2025-01-24'")
    office.sql("UPDATE meters SET heard = '2025-01-24', stored_at = '2025-01-24' WHERE identity LIKE '%%2.PAD%%'")
    silent = office.run("alarms", "--at", "2025-01-24T12:00+00:00")
    assert [line for line in silent.printed.splitlines() if "silent" in line] == [
        f"NEW silent elm-1 0000000{number}.PAD.01.{kind}: A meter is silent (flat A{number}): The last telegram came"
        " 19 Jan 2025, 24:00." for number, kind in ((1, "04"), (3, "07"))]
    office.sql("UPDATE alarms SET known_by = 'me'")


def test_water_at_night(office: Office, elm: Supplied) -> None:
    leaking, tight = elm.meter(1, WATER, "A1"), elm.meter(2, WATER, "A2")
    for night in range(1, 10):
        for hour in (1, 4):
            moment = at(f"2025-01-{night:02}T{hour:02}:00")
            elm.reads(leaking, moment, f"{night}.{hour:03}")
            elm.reads(tight, moment, night)
        elm.reads(tight, at(f"2025-01-{night:02}T20:00"), night + 1)
    assert office.run("close").status == 0
    assert office.sql("SELECT fitting, count(*), sum(amount) FROM night_use GROUP BY 1 ORDER BY 1") == [
        (leaking, 9, 27_000), (tight, 9, 0)]
    printed = office.run("alarms", "--at", "2025-01-09T12:00+00:00").printed
    assert [line for line in printed.splitlines() if "night" in line] == [
        "NEW night elm-1 00000001.PAD.01.06: Water runs every night (flat A1): Between 0:00 and 5:00 in 7 nights, Warm"
        " water."]


def test_one_alarm_a_cause(office: Office, elm: Supplied) -> None:
    """The meters of a box that isn't collected, or hears none of them, are counted in its alarm."""
    for number in (1, 2, 3):
        elm.meter(number, HEAT, f"A{number}")
    office.sql("UPDATE boxes SET made_at = '2024-01-01'")
    office.sql("UPDATE meters SET since = '2024-01-01', heard = '2025-01-20', stored_at = '2025-01-20'")
    office.sql("UPDATE meters SET heard = '2025-01-24', stored_at = '2025-01-24' WHERE identity LIKE '%%1.PAD%%'")
    words = ("alarms", "--at", "2025-01-25T12:00+00:00")
    printed = office.run(*words).printed
    assert "NEW box elm-1: Box was never collected: 2 meters without values.\n" in printed
    assert "NEW silent" not in printed
    office.sql("UPDATE meters SET heard = '2025-01-20', stored_at = '2025-01-20'")
    office.sql("UPDATE boxes SET collected_at = '2025-01-25'")
    assert office.run(*words).printed == ""  # the cause is another, and the box the same
    assert office.sql("SELECT kind, subject FROM alarms WHERE ended_at IS NULL AND kind <> 'collector'") == [("box",
                                                                                                              "elm-1")]
    office.sql("UPDATE meters SET heard = '2025-01-25', stored_at = '2025-01-25' WHERE identity LIKE '%%1.PAD%%'")
    printed = office.run(*words).printed
    assert "END box elm-1" in printed and printed.count("NEW silent") == 2


def test_an_office_that_was_down_is_one_item(office: Office) -> None:
    """The boxes that the last collection reached are behind by one cause; one that it didn't reach has its own."""
    office.sql("INSERT INTO collections (boxes, begun_at, ended_at, failed, readings) VALUES (4, '2025-01-23 06:30Z',"
               " '2025-01-23 06:40Z', 1, 0)")
    for number in range(4):
        Supplied(office, f"elm-{number}").meter(number, HEAT, "A1")
    office.sql("UPDATE boxes SET collected_at = CASE name WHEN 'elm-3' THEN timestamptz '2025-01-15 06:35Z' ELSE"
               " '2025-01-23 06:35Z' END")
    office.sql("UPDATE meters SET since = '2024-01-01', heard = '2025-01-20', stored_at = '2025-01-20'")
    printed = office.run("alarms", "--at", "2025-01-25T12:00+00:00").printed.splitlines()
    assert [line.partition(":")[0] for line in printed] == ["NEW collector office/collect", "NEW box elm-3"], printed
    assert "3 boxes with 3 silent meters are behind since." in printed[0]


def test_a_leap_is_divided_by_its_days(office: Office, elm: Supplied) -> None:
    """Twenty days without a value, and then what was used in them, is no leap."""
    meter, leaping = elm.meter(1, HEAT, "A1"), elm.meter(2, HEAT, "A2")
    for one, later in ((meter, 200), (leaping, 2100)):
        elm.days(one, "2025-01-01", 12, 1000, 10)
        elm.values(one, {"2025-02-01": 1110 + later})
    printed = office.run("alarms", "--at", "2025-02-01T12:00+00:00").printed
    assert [line for line in printed.splitlines() if "leap" in line] == [
        "NEW leap elm-1 00000002.PAD.01.04: Far more used than usual (flat A2): On 1 Feb 2025 11 times a usual day, to"
        " 3.21 kWh."]


def test_statistics(office: Office, elm: Supplied) -> None:
    """A table that has grown to ten times its pages is analyzed, once."""
    elm.days(elm.meter(1, HEAT, "A1"), "2022-01-01", 1000, 1000, 10)
    assert ("day_values",) in office.sql("SELECT analyze_days()")
    assert ("day_values",) not in office.sql("SELECT analyze_days()")
    office.sql("SELECT analyze_days()", role="closer")


def test_what_is_kept(office: Office, elm: Supplied) -> None:
    meter = elm.meter(1, HEAT, "A1", since=at("2020-01-01T00:00"))
    elm.days(meter, "2020-12-30", 40, 1000, 10)
    elm.month("2021-01")
    elm.reads(meter, at("2021-01-05T06:00"), 5)
    dry = office.run("retain", "--dry-run")
    assert dry.status == 0 and "table readings_2021_01" in dry.printed and "--dry-run" in dry.printed
    assert office.sql("SELECT count(*) FROM readings") == [(41,)]
    ended = office.run("retain")
    assert ended.printed == dry.printed.replace("nothing was dropped: --dry-run\n", "")
    assert office.sql("SELECT count(*) FROM readings WHERE month < '2025-01-01'") == [(0,)]
    assert office.sql("SELECT day FROM day_values ORDER BY day") == [
        (datetime.date(2020, 12, 31),), (datetime.date(2021, 1, 31),)]
    assert office.sql("SELECT amount, basis FROM month_use") == [(310 * WH, [])]
    assert office.run("close", "--month", "2021-01").status == 2
    assert office.sql("SELECT amount, grade FROM month_use") == [(310 * WH, "measured")]
    assert office.run("retain", "--days", "3").status == 2
