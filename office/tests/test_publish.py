"""office/publish: no number reaches a person but those that were computed again from the meters' telegrams."""

import datetime
import hashlib
import pathlib
import re
from typing import List, Tuple

import pytest
from conftest import Office
from supplied import ALLOCATOR, COLD, HEAT, WATER, Supplied, at
from test_schema import refused
from test_sheets import Page, faults, published, sheet_of

import program
import rendering
from catalogue import Catalogue
from database import Database
from exporting import Reader, month_files
from program import Key

GAS = "03"
SINCE = at("2023-12-01T00:00")
NAMES = re.compile(r"\d{1,2} [A-Z][a-z]{2} \d{4}(, \d{2}:\d{2})?|\b20\d{2}\b|(meters|hand|estimates|audit) \(?\d+|"
                   r"\d{8}\.PAD\.01\.\d{2}|Elm Street 1|\bA\d\b|elm-\d|(Heating|allocators|water) [23]\b")
CHEATS = (  # what is in a page once at least, what stands there instead, and what is wrong then
    ('data-user="1"', 'data-user="2"', "Line"), ('data-label="2025-01"', 'data-label="2025-02"', "Main"),
    ("<h2", "<h2>9</h2><h2", "Digits"), ("<h2", "<h2>&#57;</h2><h2", "Digits"),
    ("<h2", "<h2>\uff19</h2><h2", "Digits"), ("<h2", '<h2 title="9"', "Element"),
    ("<style>", "<style>h2::after { content: '9' }", "Digits"), ("<h2", "<!-- 9 --><h2", "Element"),
    ("<h2", "<script></script><h2", "Element"), ("<h2", '<p data-fixed="contact">9</p><h2', "Fixed"),
    ("<h2", '<b data-fixed="date">99,5</b><h2', "Element"), ("<h2", '<p data-fixed="date">99,5</p><h2', "Fixed"),
    ("<h2", '<p data-fixed="hash">9</p><h2', "Fixed"), ("<h2", '<p data-fixed="2024-12">9</p><h2', "Fixed"),
    ("<h2", '<p data-fixed="identity">00000099.PAD.01.04</p><h2', "Fixed"), (">333,6<", ">333,7<", "Number"),
    (">333,6<", ">333,6 5<", "Number"), (">3.307,50<", ">3,307.50<", "Number"), (">-4<", ">4<", "Number"))


@pytest.fixture
def elm(office: Office) -> Supplied:
    return elm_of(office)


def elm_of(office: Office) -> Supplied:
    """Three flats with heat, allocators, and water of one; a move in mid-month."""
    made = Supplied(office)
    for number in (1, 2, 3):
        for first, days in (("2023-12-29", 40), ("2024-11-25", 75)):
            if first == "2023-12-29":
                heat = made.meter(number, HEAT, f"A{number}", since=SINCE)
            made.days(heat, first, days, 1_000_000 if days == 40 else 5_000_000, 11_234 * number)
        made.days(made.meter(10 + number, ALLOCATOR, f"A{number}", since=SINCE), "2024-11-25", 75, 0, 3, "HCA")
    made.values(made.meter(20, WATER, "A1", since=SINCE), {"2024-12-31": "22.5", "2025-01-31": 26, "2025-02-01": 26},
                "m3")
    office.sql("UPDATE places SET weight = 1.7 WHERE use = 'allocator'")
    office.sql("INSERT INTO factors (house, use, months, kwh_per_unit) VALUES ('elm-1', 'warm water', '[2023-01-01,)',"
               " 52.25)")
    office.sql("UPDATE houses SET co2_g_per_kwh = 201.5, shows_costs = true, postcode = '10115'")
    office.sql("INSERT INTO prices (house, use, months, unit, cents) VALUES ('elm-1', 'heat', '[2025-01-01,)', 'kWh',"
               " 11.45)")
    office.sql("INSERT INTO degree_days VALUES ('10115', '2024-01-01', 500, 'DWD'), ('10115', '2025-01-01', 400,"
               " 'DWD')")
    return made


def test_a_key_says_what_its_line_says() -> None:
    """Whose a number is, of which month, and in which unit, is read from the lines that were audited."""
    lines = ["audit,2,2025-01", "span,1,2024-12-31,60,2025-01-31,60", "span,2,2024-11-30,60,2024-12-31,60",
             "use,heat,energy",
             "price,heat,kWh,1,11.5", "user,7,A1,50", "place,1,A1,heat,1", "window,1", "part,1,10,20,7",
             "part,1,20,30,-",
             "shown,1,10,20,kWh,348.3,measured", "shown,1,20,30,kWh,1.0,hand", "value,1,20,412,kWh", "window,2",
             "part,2,1,10,7", "totals", "of_user,1,7,heat,kWh,348.3,measured", "of_user,2,7,heat,kWh,99.0,measured",
             "of_flat,1,A1,heat,kWh,349.3,hand", "of_house,1,heat,kWh,349.3,1,2", "mean,1,7,heat,kWh,-",
             "change,1,2,7,heat,kWh,252", "end"]
    assert sorted(Reader([(3, [9])]).read(lines), key=str) == [
        (7, Key("change", "A1", "heat", 0, "2024-12"), "252", "change"),
        (7, Key("month", "A1", "heat", 0, "2024-12", "kWh"), "99.0", "measured"),
        (7, Key("month", "A1", "heat", 0, "2025-01", "kWh"), "348.3", "measured"),
        (7, Key("place", "A1", "heat", 3, "10 20", "kWh"), "348.3", "measured"),
        (7, Key("price", "A1", "heat"), "11.5", "declared"),
        (None, Key("flat", "A1", "heat"), "349.3", "hand"), (None, Key("house", use="heat"), "349.3", "1 2"),
        (None, Key("place", "A1", "heat", 3, "20 30", "kWh"), "1.0", "hand"),
        (None, Key("reading", place=9, period="20"), "412", "reading")]


def test_each_digit_was_accepted(office: Office, elm: Supplied, tmp_path: pathlib.Path) -> None:
    """Of all sheets, in both languages: a number is that of a line of the sheet's own file, and no other digit stands
    there; of the house's page: it is published, or in a date or a name."""
    furnish(office, elm)
    office.sql("UPDATE tenancies SET language = 'en' WHERE id % 2 = 0")
    audit_months(office, elm)
    assert office.run("sheets", "2025-01", "--out", str(tmp_path), "--pdf", "none", "--language", "en").status == 0
    pages = [sheet_of(office, tmp_path, tenancy) for tenancy in (1, 2, 3, 4)]
    for path in pages:
        assert not faults(path), path
    text, lines = (pages[0].with_suffix(it).read_text(encoding="utf-8") for it in (".html", ".audit"))
    carbon = 1 + next(at for at, line in enumerate(lines.splitlines()) if line.startswith("carbon,1,1,heat,"))
    named = f'data-line="{carbon}"'
    for right, wrong, fault in (*CHEATS, (named, named.replace(str(carbon), "1"), "Line")):
        found = faults(pages[0], text.replace(right, wrong, 1))
        assert right in text and any(it.endswith(f" {fault}") for it in found), (wrong, found)
    assert f"PAGE lacks line {carbon}" in faults(pages[0], text.replace(named, "id=\"x\""))
    known = {Catalogue("en", "UTC").printed(row[0]) for row in office.sql("SELECT text FROM published UNION SELECT"
             " unnest(string_to_array(mark, ' ')) FROM published WHERE kind = 'house'")}
    seen = NAMES.sub(" ", " ".join(Page((tmp_path / "houses/elm-1.html").read_text(encoding="utf-8")).seen))
    digits = {number.rstrip(".,") for number in re.findall(r"\d[\d.,]*", seen)}
    assert len(digits) > 10 and digits <= known, digits - known


def test_what_is_stored(office: Office, elm: Supplied, tmp_path: pathlib.Path) -> None:
    """Nothing goes out without an audit: the file, its hash, the program and its hash; the file lies beside the sheets;
    the same numbers are one audit."""
    tenancy = elm.tenancy("A1", "2023-01-01", None)
    elm.months()
    for query in ("SELECT release_month('elm-1', '2025-01-01')", "SELECT release_bill('elm-1',"
                  " '[2025-01-01,2025-02-01)')",
                  f"INSERT INTO sheets (tenancy, month, form, path, sha256) VALUES ({tenancy}, '2025-01-01', 'html',"
                  " 'x', 'x')"):
        assert '"has_an_audit"' in refused(office, query), query
    assert office.run("bill", "elm-1", "2025-01").status == 5
    published(office)
    published(office)
    for query in ("UPDATE audits SET says = 'numbers 1, differ 0, refused 0,'", "DELETE FROM audits", "UPDATE audits"
                  " SET file = 'x'"):
        assert "is out" in refused(office, query), query
    file, sha256, program, program_sha256, says = office.sql("SELECT file, sha256, program, program_sha256, says FROM"
                                                             " audits")[0]
    assert hashlib.sha256(bytes(file)).hexdigest() == sha256 and program.startswith("mbdc ")
    assert len(program_sha256) == 64
    assert says.startswith("numbers ") and "differ 0" in says and "refused 0" in says
    assert office.run("sheets", "2025-01", "--out", str(tmp_path), "--pdf", "none").status == 0
    assert (tmp_path / "audits/elm-1/2025-01.audit").read_bytes() == bytes(file)
    assert office.sql("SELECT DISTINCT s.audit = a.id FROM sheets s, audits a") == [(True,)]
    lines = bytes(file).decode().splitlines()
    assert lines[0] == "audit,2,2025-01" and lines[-1] == "end" and sum(line.startswith("span,") for line in lines) == 3
    for columns in ("convert_to('other', 'UTF8'), sha256", "file, repeat('0', 64)", "NULL, sha256"):
        query = ("INSERT INTO audits (house, month, version, file, sha256, program, program_sha256, says)"
                 f" SELECT house, month, version, {columns}, program, program_sha256, says FROM audits")
        assert re.search("is_its_file|without its file", refused(office, query, role="publisher")), columns
    elm.month("2025-01")  # computed anew: what was accepted says nothing of it
    assert office.run("sheets", "2025-01", "--out", str(tmp_path), "--pdf", "none").status == 5
    assert office.sql("SELECT count(*) FROM audits_now") == [(0,)]


def test_a_house_that_is_refused(office: Office, elm: Supplied, tmp_path: pathlib.Path) -> None:
    """A telegram that doesn't show what the database has: no sheets of that house, an item, and the others go on."""
    oak = Supplied(office, "oak-2")
    oak.days(oak.meter(40, HEAT, "B1"), "2024-12-25", 60, 1000, 10)
    elm.tenancy("A1", "2023-01-01", None)
    oak.tenancy("B1", "2024-01-01", None)
    elm.months()
    elm.month("2025-01")
    assert office.run("sheets", "2025-01", "--out", str(tmp_path), "--pdf", "none").status == 5
    assert not list(tmp_path.glob("sheets/*/*"))
    body = office.sql("SELECT r.bodies[1] FROM readings r JOIN day_values d ON (d.month, d.box, d.serial) = (r.month,"
                      " r.box, r.serial)"
                      " WHERE d.day = '2025-01-31' AND r.identity = '00000001.PAD.01.04'")[0][0]
    wrong = bytes(body)[:-8] + (int.from_bytes(bytes(body)[-8:], "little") + 1000).to_bytes(8, "little")
    office.sql("UPDATE readings SET bodies = ARRAY[%s::bytea] WHERE bodies[1] = %s AND identity = '00000001.PAD.01.04'",
               wrong, bytes(body))
    ended = office.run("publish", "-", "2025-01")
    assert ended.status == 5 and "2025-01 elm-1: refused: DIFFERS line" in ended.printed
    assert "1 published, 1 refused" in ended.printed
    assert office.sql("SELECT DISTINCT house FROM audits") == office.sql("SELECT DISTINCT house FROM published") == [
        ("oak-2",)]
    ended = office.run("sheets", "2025-01", "--out", str(tmp_path), "--pdf", "none", "--release")
    assert ended.status == 5 and "no audit of 2025-01 (office/publish): elm-1" in ended.printed
    assert [path.name for path in tmp_path.glob("houses/*")] == ["oak-2.html"]
    assert len(list(tmp_path.glob("sheets/*/*.html"))) == 1
    assert office.sql("SELECT house FROM versions WHERE out_at IS NOT NULL") == [("oak-2",)]
    moment = datetime.datetime(2025, 2, 3, tzinfo=datetime.timezone.utc).isoformat()
    assert "NEW audit elm-1 2025-01: The audit refused the numbers: 2025-01: DIFFERS" in office.run("alarms", "--at",
                                                                                                    moment).printed
    assert office.sql("SELECT waits FROM morning WHERE kind = 'audit'") == [(1,)]
    office.sql("UPDATE readings SET bodies = ARRAY[%s::bytea] WHERE bodies[1] = %s", bytes(body), wrong)
    published(office)
    assert "END audit elm-1 2025-01" in office.run("alarms", "--at", moment).printed


def test_no_lie_is_published(office: Office, elm: Supplied, monkeypatch: pytest.MonkeyPatch) -> None:
    """Whatever was filled in, a number and a mark (demo/same has each kind of them)."""
    elm.tenancy("A1", "2023-01-01", None)
    elm.months()
    of, database = program.Of("elm-1", datetime.date(2025, 1, 1), None, 1, "2025-01"), Database(office.name, 600)
    with database.transaction() as cursor:
        file = next(month_files(cursor, "elm-1", datetime.date(2025, 1, 1), {}))
        made = program.filled(file.lines)
        for true, false in ((",348.3,measured", ",348.4,measured"), (",348.3,measured", ",348.3,hand")):
            lines = [line.replace(true, false) for line in made.lines]
            assert lines != made.lines
            monkeypatch.setattr(program, "filled", lambda _, lines=lines: made._replace(lines=lines))
            assert "DIFFERS line" in (program.publish(cursor, of, file) or ""), false
        monkeypatch.setattr(program, "filled", lambda _: made)
        assert program.publish(cursor, of, file) is None
        cursor.execute("SELECT count(DISTINCT audit) FROM published")
        assert cursor.fetchall() == [(1,)]
    database.close()


def test_an_average_over_several_houses(office: Office, elm: Supplied, tmp_path: pathlib.Path) -> None:
    """It is declared, as the sheet says: of the category's measured flats, by their areas and allocators' weights."""
    tenancy = elm.tenancy("A1", "2023-01-01", None, language="en")
    oak = Supplied(office, "oak-2")
    oak.days(oak.meter(40, HEAT, "B1", area=40), "2024-12-25", 60, 0, 10_000)
    oak.days(oak.meter(41, ALLOCATOR, "B1", area=40), "2024-12-25", 60, 0, 2, "HCA")
    oak.values(oak.meter(42, HEAT, "B2", area=70), {"2024-12-31": 0, "2025-01-28": 700_000, "2025-02-03": 800_000})
    elm.month("2025-01")
    published(office)
    lines = bytes(office.sql("SELECT file FROM audits WHERE house = 'elm-1'")[0][0]).decode().splitlines()
    assert sorted(line for line in lines if line.startswith("average,")) == [
        # (3 * 93 * 1.7 + 62) / 190, (6 * 31 * 11.234 + 310) / 190
        "average,allocator,HCA,1,2.822632", "average,heat,kWh,1,12.629074"]
    assert office.sql("SELECT mark, count(*) FROM published WHERE kind = 'average' GROUP BY mark") == [("declared", 2)]
    assert office.run("sheets", "2025-01", "--out", str(tmp_path), "--pdf", "none").status == 0
    assert "It covers several houses. Your property manager states it;" in sheet_of(office, tmp_path,
                                                                                    tenancy).read_text(encoding="utf-8")


def test_a_draft_says_so(office: Office, elm: Supplied, tmp_path: pathlib.Path) -> None:
    """What isn't audited has a word at each number, in a folder of its own, and is noted nowhere."""
    elm.tenancy("A1", "2023-01-01", None, language="en")
    elm.months()
    assert office.run("sheets", "2025-01", "--out", str(tmp_path), "--pdf", "none", "--draft").status == 0
    (page,) = tmp_path.glob("drafts/sheets/*/2025-01.html")
    text = page.read_text(encoding="utf-8")
    assert "Draft: not audited" in text and text.count("DRAFT") >= 3 and "348.3" in text and "(audit" not in text
    assert not (tmp_path / "sheets").exists() and office.sql("SELECT count(*) FROM sheets") == [(0,)]
    ended = office.run("bill", "elm-1", "2025-01", "--draft")
    assert ended.printed.count("DRAFT measured") == 7 == len(ended.printed.splitlines()) - 1


def exchanged(office: Office, elm: Supplied, number: int, moment: datetime.datetime, last: int) -> int:
    """A meter of heat is exchanged; returns the new one's fitting."""
    old = office.sql("SELECT id FROM fittings WHERE identity = %s", f"0000000{number}.PAD.01.04")[0][0]
    new = elm.exchange(old, 90 + number, moment, last, 3)
    office.sql("DELETE FROM day_values WHERE fitting = %s AND at > %s", old, moment)
    return new


def furnish(office: Office, elm: Supplied) -> None:
    """A house with everything that decides a number: an exchange, a turn, a restart, a move, what people read, an
    estimate, gaps, a fall, an error, factors, weights, joules, a place without a value."""
    for flat, since, until in (("A1", "2023-01-01", None), ("A2", "2023-01-01", "2025-01-11"),
                               ("A2", "2025-01-11", None), ("A3", "2023-01-01", None)):
        elm.tenancy(flat, since, until)
    office.sql("UPDATE prices SET cents = 991.37")
    new = exchanged(office, elm, 1, at("2025-01-15T11:00"), 5_580_000)
    elm.days(new, "2025-01-15", 25, 40, 9_876)
    turning = elm.meter(50, HEAT, "A4", area=77, since=SINCE)
    elm.values(turning, {"2024-12-30": 9_999_000, "2024-12-31": 9_999_900, "2025-01-20": 800, "2025-01-31": 1700,
                         "2025-02-01": 1800})
    office.sql("UPDATE fittings SET size = 36000000000000 WHERE id = %s", turning)
    allocator = elm.meter(51, ALLOCATOR, "A1", since=SINCE)
    elm.values(allocator, {"2024-12-01": 850, "2024-12-30": 900, "2024-12-31": 903, "2025-01-02": 4, "2025-01-31": 85,
                           "2025-02-01": 86}, "HCA")
    office.sql("INSERT INTO restarts (fitting, at, last, first, unit, why) VALUES (%s, %s, 903, 0, 'HCA', 'due date')",
               allocator, at("2025-01-01T00:00"))
    office.sql("UPDATE places SET weight = 0.55 WHERE id = (SELECT place FROM fittings WHERE id = %s)", allocator)
    office.sql("INSERT INTO factors (house, use, months, kwh_per_unit) VALUES ('elm-1', 'allocator', '[2024-12-01,)',"
               " 1.234567)")
    for number, joules in ((52, 48_000), (60, 48_000), (61, 84_000)):  # 0.05 kWh together
        elm.values(elm.meter(number, HEAT, "A5", area=33, since=SINCE), {"2024-12-31": 0, "2025-01-31": joules,
                                                                         "2025-02-01": joules}, "J")
    falling = elm.meter(53, COLD, "A1", since=SINCE)
    elm.values(falling, {"2024-12-31": 90, "2025-01-15": 9, "2025-01-31": 99, "2025-02-01": 100}, "m3")
    for flat, number, read in (("A2", 54, "2025-01-31"), ("A3", 55, "2025-02-03")):
        cold = elm.meter(number, COLD, flat, since=SINCE)
        elm.values(cold, {"2024-12-30": 11, "2024-12-31": "12.345", "2025-02-04": 20}, "m3")
        office.sql("SELECT put_value(%s, %s, 17.5, 'm3', 'read by the caretaker')", cold, read)
    beside = elm.meter(59, COLD, "A2", since=SINCE)  # two meters of one use, of which a person read one
    elm.values(beside, {"2024-12-31": 1, "2025-01-10": "2.345", "2025-01-31": "3.456", "2025-02-01": 4}, "m3")
    elm.meter(56, GAS, "A3", since=SINCE)  # nothing was ever read
    missing = elm.meter(57, WATER, "A2", since=SINCE)
    elm.values(missing, {"2024-12-31": 5, "2025-01-29": 7, "2025-01-30": "7.1"}, "m3")
    unclear = exchanged(office, elm, 3, at("2025-01-20T12:00"), 6_880_000)
    office.sql("UPDATE fittings SET first_value = NULL WHERE id = %s", unclear)
    elm.days(unclear, "2025-01-20", 20, 10, 30_000)
    reads = elm.meter(58, COLD, "A4", area=77, since=SINCE)
    for day, litres in (("2024-12-30", 1.5), ("2024-12-31", 2.5), ("2025-01-30", 7.125), ("2025-01-31", 7.25),
                        ("2025-02-01", 8)):
        elm.reads(reads, at(f"{day}T20:00"), litres)
    elm.reads(reads, at("2025-01-31T22:00"), 99, status=8)  # an error: it doesn't count


def audit_months(office: Office, elm: Supplied) -> None:
    assert office.run("close").status == 0
    elm.months()
    for month in ("2024-01", "2024-12"):
        published(office, month)
    assert office.run("estimate", "2025-01").status == 0
    published(office)


def test_the_audit_accepts(office: Office, elm: Supplied) -> None:
    """Nothing but the audit looks at the numbers here."""
    furnish(office, elm)
    audit_months(office, elm)
    published(office, "2025-01", "--bill")
    published(office, "2024-12-01..2025-01-31", "--bill")
    marks = {row[0] for row in office.sql("SELECT DISTINCT mark FROM published")}
    wanted = {"measured", "hand", "estimated", "disturbed", "missing", "unclear", "average", "change", "cost", "carbon",
              "weather"}
    assert not wanted - marks, wanted - marks
    lines = b"".join(bytes(row[0]) for row in office.sql("SELECT file FROM audits")).decode()
    for kind in ("read", "stored", "hand", "estimated", "first", "last", "struck", "ended", "zero", "value", "of_flat",
                 "of_house", "mean"):
        assert f"\n{kind}," in lines or kind == "struck", kind


def test_an_older_month_that_is_known_otherwise_is_left_out(office: Office, elm: Supplied) -> None:
    """One that has another value at the common end, or was computed with another fact of a meter: no per cent of it."""
    def spans() -> List[str]:
        published(office)
        lines = bytes(office.sql("SELECT file FROM audits ORDER BY id DESC LIMIT 1")[0][0]).decode().splitlines()
        assert {line.split(",")[2] for line in lines if line.startswith("change,")} <= {"2", "3"}
        assert sum(line.startswith("struck,1,") and line.endswith(",gestort: 2 m3") for line in lines) == 1
        return [line.split(",")[2] for line in lines if line.startswith("span,")]
    elm.tenancy("A1", "2023-01-01", None)
    elm.months()
    meter, = office.sql("SELECT id FROM fittings WHERE identity = '00000001.PAD.01.04'")[0]
    office.sql("SELECT strike(id, 'gest\u00f6rt: 2 m\u00b3') FROM day_values WHERE (fitting, day) = (%s, '2025-01-15')",
               meter)
    elm.month("2025-01")
    assert spans() == ["2024-12-31", "2024-11-30", "2023-12-31"]
    office.sql("SELECT put_value(%s, '2024-12-31', 5404500, 'Wh', 'read at the meter')", meter)
    elm.month("2025-01")
    assert spans() == ["2024-12-31", "2023-12-31"]
    office.sql("UPDATE fittings SET most = 10^12")
    elm.month("2025-01")
    assert spans() == ["2024-12-31"]


# What a publisher might write: the present audit once more, and its numbers, one of them another
AGAIN = """
WITH a AS (INSERT INTO audits (house, month, days, version, file, sha256, program, program_sha256, says)
           SELECT house, month, days, version, file, sha256, program, program_sha256, says FROM audits WHERE id = %s
           RETURNING id)
INSERT INTO published (audit, house, month, days, version, tenancy, kind, flat, use, place, period, unit, text, mark)
SELECT a.id, p.house, p.month, p.days, p.version, p.tenancy, p.kind, p.flat, p.use, p.place, p.period, p.unit,
       CASE WHEN p.id = %s THEN %s ELSE p.text END, p.mark FROM published p, a WHERE p.audit = %s"""


def test_a_number_that_its_audit_file_does_not_have(office: Office, elm: Supplied, tmp_path: pathlib.Path) -> None:
    """It is printed nowhere: a user's, a place's, a reading, also another meter's, a bar of a chart, one in a bill."""
    words = ("sheets", "2025-01", "--out", str(tmp_path), "--pdf", "none")
    elm.tenancy("A1", "2023-01-01", None)
    for month in ("2024-12", "2025-01"):
        elm.month(month)
        published(office, month)
    assert office.run("publish", "elm-1", "2025-01", "--bill").status == 0
    office.sql("INSERT INTO published (audit, house, month, version, tenancy, kind, use, text, mark) SELECT audit,"
               " house, month, version, tenancy, 'chart', use, '1', mark FROM published WHERE kind = 'month' AND"
               " month = '2025-01-01' LIMIT 1")  # as an office of 0.2.0 has it
    assert office.run(*words).status == 0
    files = {path: path.stat().st_mtime_ns for path in tmp_path.rglob("*.*")}

    def refuses(audit: int, number: int, text: str, *command: str, role: str = "publisher") -> None:
        office.sql(AGAIN, audit, number, text, audit, role=role)
        ended = office.run(*command)
        assert ended.status == 3 and f"{text} isn't in its audit file" in ended.printed, (number, ended.printed)
        assert "A1,heat" not in ended.printed
        assert {path: path.stat().st_mtime_ns for path in tmp_path.rglob("*.*")} == files
        office.sql("UPDATE audits SET void_at = now() WHERE id = (SELECT max(id) FROM audits)")
    for month, kind, period in (("2025-01", "month", "2025-01"), ("2025-01", "place", "1735686000 1738364400"),
                                ("2025-01", "reading", "%"), ("2025-01", "house", ""), ("2024-12", "month", "2024-12")):
        (audit, number), = office.sql(
            "SELECT p.audit, min(p.id) FROM published p JOIN audits_now a ON a.id = p.audit"
            " WHERE a.month = %s AND p.kind = %s AND p.period LIKE %s GROUP BY 1", f"{month}-01", kind, period)
        refuses(audit, number, "4444.4", *words)
    audit, number, others = office.sql(
        "SELECT p.audit, p.id, o.text FROM published p JOIN audits_now a ON a.id = p.audit AND a.month = '2025-01-01'"
        " JOIN published o ON (o.audit, o.kind, o.period) = (p.audit, p.kind, p.period) AND o.text <> p.text"
        " WHERE p.kind = 'reading' LIMIT 1")[0]
    refuses(audit, number, others, *words)
    assert office.run(*words).status == 0
    files = {path: path.stat().st_mtime_ns for path in tmp_path.rglob("*.*")}
    for audit, number in office.sql("SELECT audit, min(id) FROM published WHERE days IS NOT NULL"
                                    " AND kind IN ('last_value', 'amount', 'consumption') GROUP BY 1, kind"):
        refuses(audit, number, "4444.4", "bill", "elm-1", "2025-01", role="office")
    assert "A1,heat" in office.run("bill", "elm-1", "2025-01").printed


@pytest.mark.parametrize("counts, german, english", [
    ((0, 4, 0), "von Hand eingetragenen Werten (4).", "values put by hand (4)."),
    ((3, 1, 2), "Telegrammen der Zähler (3), von Hand eingetragenen Werten (1) und Schätzungen (2).",
     "telegrams of the meters (3), values put by hand (1) and estimates (2).")])
def test_a_sheet_says_what_its_audit_counted(counts: Tuple[int, int, int], german: str, english: str) -> None:
    says = ("numbers 5, differ 0, rules 0, readings {}, refused 0, by hand {}, estimated {}, struck 0,"
            " places 1").format(*counts)
    assert rendering.audited_of(7, says, Catalogue("de", "UTC")) == f"Nachgerechnet (Prüfung 7) aus {german}"
    assert rendering.audited_of(7, says, Catalogue("en", "UTC")) == f"Computed again (audit 7) from {english}"
    assert rendering.audited_of(None, "", Catalogue("en", "UTC")) == ""
