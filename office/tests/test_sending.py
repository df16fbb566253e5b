"""office/work and office/send: a month goes out by mail and in print, what fails is told, a corrected sheet says so."""

import pathlib
import re
import subprocess

import pytest
from conftest import Office, sendmail
from supplied import HEAT, Supplied
from test_schema import refused
from test_sheets import HOSTILE, checked, faults, sheet_of

LINK = ("--link", "https://office.example/sheets")


@pytest.fixture
def elm(office: Office) -> Supplied:
    """Three flats: one by mail, one on paper, one by mail without an address."""
    made = Supplied(office)
    for number in (1, 2, 3):
        made.days(made.meter(number, HEAT, f"A{number}"), "2024-12-25", 75, 1_000_000, 10_000)
    made.month("2025-01")
    return made


def sent(office: Office) -> str:
    rows = office.sql("SELECT flat || ' ' || version || ' ' || CASE WHEN sent_at IS NOT NULL THEN 'sent ' ||"
                      " split_part(sent_to, '/', 1)"
                      " WHEN failed_at IS NOT NULL THEN failed_why ELSE 'waits' END FROM delivery ORDER BY flat,"
                      " version")
    return "; ".join(row[0] for row in rows)


def worked(office: Office, out: pathlib.Path, mail: str, status: int = 0) -> str:
    return office.run("work", "--out", str(out), *LINK, "--sendmail", mail).ok(status)


def test_a_month_goes_out(office: Office, elm: Supplied, tmp_path: pathlib.Path) -> None:
    """By one button; once; and what failed is an item until it is sent."""
    for number, person, wants, mail in ((1, "A. Weber", "link", "weber@example.org"), (2, HOSTILE, "paper", None),
                                        (3, "C. Roth", "link", None)):
        tenancy = elm.tenancy(f"A{number}", "2024-01-01", None, person)
        office.sql("UPDATE tenancies SET wants = %s, mail = %s WHERE id = %s", wants, mail, tenancy)
    elm.month("2025-01")
    program, out = sendmail(tmp_path), tmp_path / "out"
    assert office.run("act", "release", "2025-01-01", "--why", "all is there").status == 0
    assert office.run("act", "release", "2025-01-01", "--why", "again").status == 0  # one job
    assert worked(office, out, program,
                  1).splitlines()[-1] == "send 2025-01: 1 2025-01: 1 by mail, 1 to print, 1 failed"
    assert sent(office) == "A1 1 sent weber@example.org; A2 1 sent print; A3 1 no mail address"
    mail = next(tmp_path.glob("mail.*")).read_text()
    token = office.sql("SELECT token FROM tenancies WHERE flat = 'A1'")[0][0]
    assert f"https://office.example/sheets/{token}/2025-01.html" in mail and "Verbrauchsinformation Januar 2025" in mail
    run = next((out / "print").glob("*.pdf"))
    text = subprocess.run(["pdftotext", "-layout", run, "-"], capture_output=True, text=True, check=True).stdout
    pages = text.split("\f")
    assert "Druck Januar 2025: 1" in pages[0] and "Elm Street 1" in pages[1] and "310,0" in text
    office.run("alarms", "--at", "2025-02-27T12:00+00:00")
    assert office.sql("SELECT facts - 'month' FROM morning WHERE kind = 'not sent'") == [
        ({"count": 1, "failed": "no mail address", "flat": "A3"},)]
    for mail, told in (("refused@example.org", "sendmail: no such user"),
                       ("roth@example.org", "sent roth@example.org")):
        assert office.run("act", "address", "elm-1", "A3", "link", mail, "--why", "asked").status == 0
        assert office.run("act", "send", "2025-01-01", "--why", "again").status == 0
        worked(office, out, program, 1 if "refused" in mail else 0)
        assert sent(office).split("; ")[2] == f"A3 1 {told}"
    # nothing went twice
    assert len(list(tmp_path.glob("mail.*"))) == 3 and len(list((out / "print").glob("*.pdf"))) == 1
    office.run("alarms", "--at", "2025-02-27T12:00+00:00")
    assert office.sql("SELECT count(*) FROM morning WHERE kind = 'not sent' AND ended_at IS NULL") == [(0,)]
    assert office.run("act", "returned", "elm-1", "A2", "2025-01-01", "--why", "moved, unknown").status == 0
    assert "A2 1 moved, unknown" in sent(office)
    assert office.run("act", "returned", "elm-1", "A2", "2025-01-01", "--why", "x").status == 4


def test_a_corrected_sheet_says_what_changed_and_why(office: Office, elm: Supplied, tmp_path: pathlib.Path) -> None:
    """Version 2 begins with both numbers and the reason, and version 1 stays beside it, marked as replaced."""
    tenancy = elm.tenancy("A1", "2024-01-01", None, language="en")
    office.sql("UPDATE tenancies SET wants = 'link', mail = 'weber@example.org'")
    elm.month("2025-01")
    program, out = sendmail(tmp_path), tmp_path / "out"
    office.run("act", "release", "2025-01-01", "--why", "all is there")
    worked(office, out, program)
    office.sql("SELECT put_value(id, '2025-01-31', 1375000, 'Wh', 'read at the meter') FROM fittings WHERE identity"
               " LIKE '00000001%%'")
    assert office.run("close").status == 0
    assert office.run("act", "correct_month", "elm-1", "2025-01-01", "--why", HOSTILE).status == 0
    worked(office, out, program)
    text = sheet_of(office, out, tenancy).read_text(encoding="utf-8")
    page = checked(text)
    banner = re.sub("<[^>]*>", "", re.findall(r'<div class="banner">(.*?)</div>', text)[0])
    assert "(version 2)" in banner and "Heating: 315.0 kWh, before 310.0 kWh." in banner
    assert "&lt;script&gt;" in banner and "Corrected consumption information" in page.seen
    assert page.cells["heat", "2025-01-01"].split()[0] == "315.0"
    old_path = sheet_of(office, out, tenancy, "2025-01.1")
    old = old_path.read_text(encoding="utf-8")
    assert 'Replaced by version <bdi><address data-fixed="contact">2</address></bdi>.</div>' in old
    assert not faults(old_path)
    assert checked(old).cells["heat", "2025-01-01"].split() == ["310.0"]
    assert sent(office) == "A1 2 sent weber@example.org"
    assert "Corrected consumption information January 2025" in max(tmp_path.glob("mail.*"),
                                                                   key=lambda it: it.stat().st_mtime).read_text()
    assert office.sql("SELECT version, why = %s FROM versions ORDER BY 1", HOSTILE) == [(1, False), (2, True)]


def test_a_house_that_is_not_ready_waits(office: Office, elm: Supplied, tmp_path: pathlib.Path) -> None:
    """Of two houses the one with a false reading keeps its month open."""
    oak = Supplied(office, "oak-2")
    oak.days(oak.meter(9, HEAT, "B1"), "2024-12-25", 75, 1_000_000, 10_000)
    elm.tells(office.sql("SELECT id FROM fittings WHERE house = 'elm-1'")[0][0], {"2025-01-31": 5})
    for house in (elm, oak):
        house.tenancy("A1" if house is elm else "B1", "2024-01-01", None)
    elm.month("2025-01")
    assert office.sql("SELECT ready_houses('2025-01-01')") == [("oak-2",)]
    office.run("act", "release", "2025-01-01", "--why", "all that is there")
    worked(office, tmp_path / "out", sendmail(tmp_path))
    assert office.sql("SELECT house FROM versions WHERE out_at IS NOT NULL") == [("oak-2",)]
    office.run("act", "release", "2025-01-01", "--why", "again")
    assert "no house is ready" in worked(office, tmp_path / "out", sendmail(tmp_path), 1)


def test_one_bad_address_stops_no_other(office: Office, elm: Supplied, tmp_path: pathlib.Path) -> None:
    """It is refused at input; one that is there all the same is an item, and the others get their mails."""
    for number, mail in ((1, "weber@example.org"), (2, "roth@example.org")):
        office.sql("UPDATE tenancies SET wants = 'link', mail = %s WHERE id = %s", mail,
                   elm.tenancy(f"A{number}", "2024-01-01", None))
    for mail in ("_@[a", "x,all@b", "x@b,y@c", "a b@c", "x@", "@b", "x@b.", "x@-b", "x\n@b", ".x@b", "<x@b>", "x;y@b",
                 "x@b@c", "a" * 200 + "@b"):
        assert "is_an_address" in refused(office, "UPDATE tenancies SET mail = %s WHERE flat = 'A1'", mail), mail
    office.sql("UPDATE tenancies SET mail = %s WHERE flat = 'A2'", "o'neill+meters@mail.example-1.org")
    office.sql("ALTER TABLE tenancies DROP CONSTRAINT is_an_address")
    office.sql("UPDATE tenancies SET mail = '_@[a' WHERE flat = 'A1'")
    elm.month("2025-01")
    assert office.run("act", "release", "2025-01-01", "--why", "all is there").status == 0
    assert "1 by mail, 0 to print, 1 failed" in worked(office, tmp_path / "out", sendmail(tmp_path), 1)
    assert len(list(tmp_path.glob("mail.*"))) == 1 and "A2 1 sent o'neill" in sent(office)
    assert "NEW not sent elm-1 2025-01" in office.run("alarms", "--at", "2025-02-10T12:00+00:00").printed
