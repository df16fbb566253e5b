"""A month of whole houses: one of 2,000 flats, and one without a reading."""

import pathlib
from typing import List

from conftest import Office
from supplied import ALLOCATOR, HEAT, WATER, Supplied
from test_bills import billed
from test_sheets import checked, published, read_sheet, written

FLATS = 2000
HOUSE = """
INSERT INTO flats (house, flat, area_m2) SELECT 'elm-1', 'A' || n, 50 FROM generate_series(1, {flats}) n;
INSERT INTO places (house, flat, use, number) SELECT house, flat, 'heat', 1 FROM flats;
INSERT INTO fittings (place, house, identity, during)
SELECT id, house, to_char(substr(flat, 2)::integer, 'FM00000000') || '.PAD.01.04', '[2024-01-01Z,)' FROM places;
INSERT INTO day_values (fitting, day, at, value, unit, source)
SELECT f.id, k.day, day_begins(k.day + 1, 'Europe/Berlin'),
       k.value + CASE k.value WHEN 0 THEN 0 ELSE substr(p.flat, 2)::integer END, 'Wh', 'by hand'
FROM fittings f JOIN places p ON p.id = f.place,
     (VALUES (date '2024-12-31', 0), ('2025-01-31', 300000), ('2025-02-01', 300000)) AS k (day, value);
INSERT INTO tenancies (house, flat, days, person) SELECT house, flat, '[2024-01-01,)', 'A. Person' FROM flats"""

UNREAD = ["–", "kein", "Wert:", "der", "Zähler", "wurde", "nicht", "gelesen"]  # what stands in the cell


def page_of(out: pathlib.Path, house: str = "elm-1") -> str:
    return (out / f"houses/{house}.html").read_text(encoding="utf-8")


def foot_of(text: str) -> List[str]:
    """The words of the sums of a house."""
    return text[text.index("<tfoot>"):text.index("</tfoot>")].replace("<", " <").replace(">", "> ").split()


def test_a_house_of_2000_flats(office: Office, elm: Supplied, tmp_path: pathlib.Path) -> None:
    """Each flat has its row and sheet, and the house is their sum."""
    office.sql(HOUSE.format(flats=FLATS))
    rows = elm.month("2025-01")
    assert len(rows) == FLATS and {row[3] for row in rows} == {"hand"}
    published(office)
    holds = tmp_path / "holds"  # (a program that judges as fast as the real one: each user's file is judged)
    holds.write_text("#!/bin/sh\necho 'numbers 1, differ 0, rules 0, readings 0, refused 0, by hand 1, estimated 0,"
                     " struck 0, places 1'\n")
    holds.chmod(0o755)
    assert office.run("sheets", "2025-01", "--out", str(tmp_path), "--pdf", "none", MBDC=str(holds)).status == 0
    text = page_of(tmp_path)
    checked(text)
    total = (300_000 * FLATS + FLATS * (FLATS + 1) // 2) / 1000
    assert f"{total:,.1f}".translate(str.maketrans(",.", ".,")) in foot_of(text)
    assert text.count("<tr data-flat=") == FLATS == len(list(tmp_path.glob("ready/sheets/*/2025-01.html")))


def test_a_month_without_a_reading(office: Office, elm: Supplied, tmp_path: pathlib.Path) -> None:
    """It has no number anywhere, says so, and isn't taken for nothing used; nor is anything estimated of nothing."""
    elm.meter(1, HEAT, "A1")
    elm.values(elm.meter(2, HEAT, "A2"), {"2024-12-31": 100})
    tenancy = elm.tenancy("A1", "2024-01-01", None)
    assert office.run("close").status == 0
    assert elm.month("2025-01") == [(f"A{number}", 0, None, "missing") for number in (1, 2)]
    assert office.run("estimate", "2025-01").printed.count("not estimated") == 2
    written(office, tmp_path, "--pdf", "none")
    cell = read_sheet(office, tmp_path, tenancy).cells["heat", "2025-01-01"]
    assert cell.split() == UNREAD
    text = page_of(tmp_path)
    assert "–" in foot_of(text) and "2 Messstellen ohne Wert" in text and "0,0" not in text
    assert [row["amount"] for row in billed(office, "elm-1", "2025-01", status=1)] == ["", ""]


def test_a_month_without_a_value_keeps_its_unit(office: Office, elm: Supplied, tmp_path: pathlib.Path) -> None:
    """The month before is shown in units also where all allocators of a flat have none, and no factor."""
    for number in (1, 2):
        elm.days(elm.meter(number, ALLOCATOR, "A1"), "2024-11-29", 35, 0, 10, "HCA")
    elm.days(elm.meter(3, WATER, "A1"), "2024-11-29", 35, 0, 1, "m3")
    tenancy = elm.tenancy("A1", "2024-01-01", None)
    elm.months("2024-12", "2025-01")
    written(office, tmp_path, "--pdf", "none")
    cells = read_sheet(office, tmp_path, tenancy).cells
    assert cells["allocator", "2025-01-01"].split() == UNREAD
    assert cells["allocator", "2024-12-01"].split() == ["620,0"]
    assert cells["warm water", "2024-12-01"].split() == ["31,00"]


def test_a_link_cannot_be_guessed(office: Office, elm: Supplied) -> None:
    """Users of the same number have other tokens each time."""
    elm.meter(1, HEAT, "A1")
    tokens = set()
    for _ in range(3):
        elm.tenancy("A1", "2024-01-01", None)
        tokens |= {row[0] for row in office.sql("SELECT token FROM tenancies")}
        office.sql("TRUNCATE tenancies RESTART IDENTITY CASCADE")
    assert len(tokens) == 3 and all(len(token) == 32 for token in tokens)
