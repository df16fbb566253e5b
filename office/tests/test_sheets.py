"""office/sheets: what stands on a sheet and a house page, and what hostile names may not do there."""

import datetime
import hashlib
import pathlib
import re
import subprocess
import tempfile
from typing import Any, List

import pytest
from conftest import OFFICE, Office
from people import pages
from supplied import ALLOCATOR, COLD, HEAT, WATER, Supplied, at

from program import audited

HOSTILE = ("O'Brien \"<script>alert(1)</script>\" {{ 1000003*7 }} \u202eevil\u202c \u0645\u0631\u062d\u0628\u0627"
           " 'DROP TABLE readings; --")


class Page(pages.Page):
    """A page, also with its links, ids and tags, and what a reader sees."""

    def __init__(self, text: str) -> None:
        self.links: List[str] = []
        self.ids: List[str] = []
        self.wanted: List[str] = []
        self.tags: List[str] = []
        self.seen: List[str] = []
        super().__init__(text)

    def handle_starttag(self, tag: str, attrs: Any) -> None:
        super().handle_starttag(tag, attrs)
        of = dict(attrs)
        self.tags.append(tag)
        if tag == "a":
            self.links.append(of.get("href", ""))
        self.ids += [of["id"]] if "id" in of else []
        self.wanted += of.get("aria-labelledby", "").split()

    def handle_data(self, data: str) -> None:
        super().handle_data(data)
        self.seen += [data.strip()] if self.tags[-1:] != ["style"] else []


def checked(text: str) -> Page:
    """A page that has one main heading, a language, a title, labelled tables and no script."""
    page = Page(text)
    assert page.tags.count("h1") == 1 and page.tags.count("main") == 1 and page.tags.count("title") == 1
    assert re.search(r'<html lang="(de|en)">', text) and "default-src 'none'" in text
    assert not {"script", "img", "iframe", "object", "link"} & set(page.tags)
    assert set(page.wanted) <= set(page.ids) and len(set(page.ids)) == len(page.ids)
    assert text.count("<th ") == page.tags.count("th") == len(re.findall(r"<th [^>]*scope=", text))
    assert page.tags.count("table") == len(re.findall(r"<table [^>]*aria-labelledby=", text))
    assert [tag for tag in page.tags if tag in ("h1", "h2")][:1] == ["h1"] and not {"h3", "h4"} & set(page.tags)
    assert "{{" not in text.replace("{{ 1000003*7 }}", "") and "7000021" not in text
    return page


def luminance(colour: str) -> float:
    """Of a colour as #rgb or #rrggbb (WCAG 2)."""
    digits = colour.lstrip("#") if len(colour) == 7 else "".join(2 * digit for digit in colour.lstrip("#"))
    parts = [int(digits[place:place + 2], 16) / 255 for place in (0, 2, 4)]
    red, green, blue = (part / 12.92 if part <= 0.03928 else ((part + 0.055) / 1.055) ** 2.4 for part in parts)
    return float(0.2126 * red + 0.7152 * green + 0.0722 * blue)


def test_each_text_has_contrast() -> None:
    """At least 4.5 to 1 on each background of the style."""
    for file in ("page.css", "dark.css"):
        style = (OFFICE / "templates" / file).read_text(encoding="utf-8")
        inks, papers = (set(re.findall(rf"(?<![a-z-]){name}: (#[0-9a-f]+);", style))
                        for name in ("color", "background"))
        assert len(inks) > 3 and len(papers) > 1
        for ink in inks:
            for paper in papers:
                dark, light = sorted((luminance(ink), luminance(paper)))
                assert (light + 0.05) / (dark + 0.05) >= 4.5, (ink, paper)


@pytest.fixture
def elm(office: Office) -> Supplied:
    """A house of four flats with a year and more of values."""
    made = Supplied(office)
    for number in range(1, 5):
        flat = f"A{number}"
        made.days(made.meter(number, HEAT, flat, area=40 + 10 * number, since=at("2023-12-01T00:00")), "2023-12-29",
                  403, 1_000_000, 10_000 * number)
        water = made.meter(10 + number, WATER, flat, area=40 + 10 * number)
        made.values(water, {"2023-12-31": 1, "2024-01-31": 6, "2024-11-30": 20, "2024-12-31": "22.5", "2025-01-31": 26,
                            "2025-02-01": 26}, "m3")
        made.days(made.meter(20 + number, COLD, flat, area=40 + 10 * number), "2024-12-30", 40, 7, 1, "m3")
    office.sql("INSERT INTO factors (house, use, months, kwh_per_unit)"
               " VALUES ('elm-1', 'warm water', '[2023-01-01,)', 125)")
    made.months()
    return made


def sheet_of(office: Office, out: pathlib.Path, tenancy: int, month: str = "2025-01",
             form: str = "html") -> pathlib.Path:
    token = office.sql("SELECT token FROM tenancies WHERE id = %s", tenancy)[0][0]
    path = f"sheets/{token}/{month}.{form}"
    return out / "ready" / path if (out / "ready" / path).exists() else out / path


def faults(path: pathlib.Path, text: str = "") -> List[str]:
    """What `mbdc audit --sheet` finds wrong with a sheet beside its file, or with this text in its place."""
    with tempfile.NamedTemporaryFile("w", suffix=".html", encoding="utf-8") as page:
        page.write(text or path.read_text(encoding="utf-8"))
        page.flush()
        found = audited(path.with_suffix(".audit").read_text(encoding="ascii").splitlines(), "--sheet", page.name)
    wrong = [line for line in found.lines if line.startswith("PAGE ")]
    assert found.holds == (not wrong)
    return wrong


def read_sheet(office: Office, out: pathlib.Path, tenancy: int, month: str = "2025-01") -> Page:
    return checked(sheet_of(office, out, tenancy, month).read_text(encoding="utf-8"))


def published(office: Office, month: str = "2025-01", *words: str) -> None:
    """The numbers of all houses are audited."""
    office.run("publish", "-", month, *words).ok()


def written(office: Office, out: pathlib.Path, *words: str) -> None:
    published(office)
    office.run("sheets", "2025-01", "--out", str(out), *words).ok()


def test_a_sheet(office: Office, elm: Supplied, tmp_path: pathlib.Path) -> None:
    """The month, the one before and that of the year before, and the average, as a German reads them."""
    tenancy = elm.tenancy("A1", "2023-01-01", None)
    elm.months()
    written(office, tmp_path, "--pdf", "none")
    path = sheet_of(office, tmp_path, tenancy)
    page = checked(path.read_text(encoding="utf-8"))
    assert page.cells["heat", "2025-01-01"].split() == ["310,0"]
    assert page.cells["heat", "2024-12-01"].split() == page.cells["heat", "2024-01-01"].split() == ["310,0"]
    assert page.cells["heat", "average"].split() == [f"{310 * 10 * 50 / (50 + 60 + 70 + 80):.1f}".replace(".", ",")]
    assert page.cells["warm water", "2025-01-01"].split() == ["437,5"]
    assert page.cells["warm water", "2024-01-01"].split() == ["625,0"]
    assert page.cells["cold water", "2025-01-01"].split() == ["31,00"]
    assert "nicht gelesen" in page.cells["cold water", "2024-01-01"]
    noted = office.sql("SELECT form, path, sha256, made_by FROM sheets")
    assert noted == [("html", str(path.relative_to(tmp_path / "ready")), hashlib.sha256(path.read_bytes()).hexdigest(),
                      "office")]
    written(office, tmp_path, "--pdf", "none")
    assert office.sql("SELECT count(*) FROM sheets") == [(1,)]


def test_an_english_sheet_and_its_pdf(office: Office, elm: Supplied, tmp_path: pathlib.Path) -> None:
    tenancy = elm.tenancy("A4", "2023-01-01", None, "A. Reader", "en")
    office.sql("UPDATE houses SET contact = 'Elm Office, 030 1234'")
    elm.month("2025-01")
    written(office, tmp_path, "--link", "https://example.org/sheets")
    page = read_sheet(office, tmp_path, tenancy)
    assert page.cells["heat", "2025-01-01"].split() == ["1,240.0"]
    pdf = sheet_of(office, tmp_path, tenancy, form="pdf")
    text = subprocess.run(["pdftotext", "-layout", pdf, "-"], capture_output=True, text=True, check=True).stdout
    first, *others = text.split("\f")
    assert all(it in first for it in ("1,240.0", "Consumption information January 2025", "Elm Office, 030 1234"))
    assert len(others) <= 2
    assert "This sheet on the web" in " ".join(text.split())
    written(office, tmp_path, "--link", "https://example.org/sheets")
    assert office.sql("SELECT form FROM sheets ORDER BY form") == [("html",), ("pdf",)]  # the same bytes, noted once


def test_users_of_a_part_of_the_month(office: Office, elm: Supplied, tmp_path: pathlib.Path) -> None:
    """Each has a sheet with the own days and nothing of the other's, or of the year before; no part has per cent."""
    one, other = elm.tenancy("A2", "2023-01-01", "2025-01-11"), elm.tenancy("A2", "2025-01-11", None)
    elm.months()
    written(office, tmp_path, "--pdf", "none")
    pages = [read_sheet(office, tmp_path, it) for it in (one, other)]
    assert pages[0].cells["heat", "2025-01-01"].split()[0] == "200,0"
    assert "nur 01.01.2025 – 10.01.2025" in pages[0].cells["heat", "2025-01-01"]
    assert "nur 11.01.2025 – 31.01.2025" in pages[1].cells["heat", "2025-01-01"]
    assert not any("%" in it for page in pages for it in page.seen)
    assert pages[1].cells["heat", "2025-01-01"].split()[0] == "420,0"
    assert pages[0].cells["heat", "2024-12-01"].split() == ["620,0"]
    assert "eingezogen" in pages[1].cells["heat", "2024-12-01"] and "eingezogen" in pages[1].cells["heat", "2024-01-01"]


def test_what_is_no_number_and_what_is_estimated(office: Office, elm: Supplied, tmp_path: pathlib.Path) -> None:
    tenancies = [elm.tenancy(f"A{number}", "2023-01-01", None) for number in (1, 2, 3)]
    office.sql("DELETE FROM day_values d USING fittings f, places p WHERE f.id = d.fitting AND p.id = f.place AND"
               " p.flat = 'A1' AND p.use = 'heat' AND day > '2025-01-20'")
    meter = office.sql("SELECT f.id FROM fittings f JOIN places p ON p.id = f.place WHERE p.flat = 'A2' AND p.use ="
                       " 'heat'")[0][0]
    office.sql("DELETE FROM day_values WHERE day = '2025-01-20' AND fitting = %s", meter)
    elm.values(meter, {"2025-01-20": 5})
    elm.month("2025-01")
    written(office, tmp_path, "--pdf", "none")
    cells = [read_sheet(office, tmp_path, it).cells for it in tenancies]
    assert "nicht gelesen" in cells[0]["heat", "2025-01-01"] and "geprüft" in cells[1]["heat", "2025-01-01"]
    assert not re.search(r"\d", cells[0]["heat", "2025-01-01"] + cells[1]["heat", "2025-01-01"])
    assert cells[2]["heat", "2025-01-01"].split() == ["930,0"]
    assert cells[2]["heat", "average"].strip() == "– zu wenige vergleichbare Wohnungen"
    assert office.run("estimate", "2025-01").status == 0
    written(office, tmp_path, "--pdf", "none")
    text = sheet_of(office, tmp_path, tenancies[0]).read_text(encoding="utf-8")
    assert checked(text).cells["heat", "2025-01-01"].split()[1:] == ["geschätzt"] and "Geschätzt:" in text


def test_hostile_names(office: Office, elm: Supplied, tmp_path: pathlib.Path) -> None:
    """Names are text; what would turn the direction of the line is left out."""
    office.sql("UPDATE houses SET address = %s, contact = %s, postcode = %s, fuel_mix = %s", HOSTILE, HOSTILE, HOSTILE,
               '{"<b>gas</b>": "<i>1</i>"}')
    office.sql("UPDATE boxes SET fault = %s", HOSTILE)
    office.sql("INSERT INTO alarms (kind, house, subject, says) VALUES ('leap', 'elm-1', %s, %s)", HOSTILE, HOSTILE)
    tenancy = elm.tenancy("A1", "2023-01-01", None, HOSTILE)
    elm.month("2025-01")
    written(office, tmp_path, "--decoder", "https://example.org/decode.html")
    for path in (sheet_of(office, tmp_path, tenancy), tmp_path / "houses/elm-1.html"):
        text = path.read_text(encoding="utf-8")
        page = checked(text)
        assert "&lt;script&gt;" in text and "\u202e" not in text and "b" not in page.tags and "i" not in page.tags
        assert "\u0645\u0631" in text
    assert office.sql("SELECT count(*) > 0 FROM day_values") == [(True,)]
    for decoder in ("javascript:alert(1)", "https://x y", "data:text/html,x"):
        assert office.run("sheets", "2025-01", "--out", str(tmp_path), "--decoder", decoder).status == 2


def test_links_lead_to_the_very_telegrams(office: Office, elm: Supplied, tmp_path: pathlib.Path) -> None:
    meter = elm.meter(40, HEAT, "B1")
    tenancy = elm.tenancy("B1", "2024-01-01", None)
    elm.reads(meter, at("2025-01-01T06:00"), 20, ("2024-12-31", 10))
    elm.reads(meter, at("2025-02-01T06:00"), 50, ("2025-01-31", 40))
    assert office.run("close").status == 0
    elm.month("2025-01")
    written(office, tmp_path)
    page = read_sheet(office, tmp_path, tenancy)
    links = [link for link in page.links if "decode.html" in link]
    assert len(links) == 2 and all(re.fullmatch(r"\.\./\.\./decode\.html#68[0-9A-F]+16", it) for it in links), links


def test_allocators_and_missing_factors(office: Office, tmp_path: pathlib.Path) -> None:
    """Two radiators with their weights; without a factor the sheet has units, with one kWh."""
    oak = Supplied(office, "oak-2")
    for number, weight in ((1, "1.5"), (2, "0.25")):
        oak.days(oak.meter(number, ALLOCATOR, "A1"), "2024-12-30", 40, 0, 10, "HCA")
        office.sql("UPDATE places SET weight = %s WHERE number = %s", weight, number)
    tenancy = oak.tenancy("A1", "2024-01-01", None)
    oak.month("2025-01")
    written(office, tmp_path, "--pdf", "none")
    assert read_sheet(office, tmp_path, tenancy).cells["allocator", "2025-01-01"].split() == ["542,5"]
    office.sql("INSERT INTO factors (house, use, months, kwh_per_unit) VALUES ('oak-2', 'allocator', '[2025-01-01,)',"
               " 1.1)")
    written(office, tmp_path, "--pdf", "none")
    assert read_sheet(office, tmp_path, tenancy).cells["allocator", "2025-01-01"].split() == ["596,8"]


def test_a_sheet_has_its_file(office: Office, elm: Supplied, tmp_path: pathlib.Path) -> None:
    """It holds, has the sheet's numbers, is named there with its hash, and of other users has what decides an end."""
    moved = at("2025-01-11T00:00")
    one, other = elm.tenancy("A2", "2023-01-01", "2025-01-11"), elm.tenancy("A2", "2025-01-11", None)
    elm.months()
    for month in ("2024-01", "2024-12", "2025-01"):
        published(office, month)
    written(office, tmp_path, "--pdf", "none", "--auditor", "https://example.org/audit.html")
    whole = (tmp_path / "audits/elm-1/2025-01.audit").read_bytes().splitlines()
    for tenancy in (one, other):
        path, file = (sheet_of(office, tmp_path, tenancy, form=form) for form in ("html", "audit"))
        text, content = path.read_text(encoding="utf-8"), file.read_bytes()
        found = audited(content.decode().splitlines())
        assert found.holds and "differ 0" in found.lines[-1], found
        hashed = hashlib.sha256(content).hexdigest()
        assert 'href="2025-01.audit" download=""><span data-fixed="date">2025-01</span>.audit</a>' in text
        assert f'<code data-fixed="hash">{hashed}</code>' in text
        assert f'href="https://example.org/audit.html#{hashed}"' in text and not office.sql(
            "SELECT 1 FROM sheets WHERE form = 'audit'")
        rows = [line.split(",") for line in content.decode().splitlines()]
        assert [row[:3] for row in rows if row[0] == "user"] == [["user", str(tenancy), "A2"]]
        assert {row[2] for row in rows if row[0] == "place"} == {"A2"}
        assert {row[4] for row in rows if row[0] == "part"} <= {str(tenancy), "-"}
        assert not {row[0] for row in rows} & {"of_flat", "of_house"} and sum(row[0] == "average" for row in rows) == 3
        kept = [line for line in content.splitlines() if not line.startswith((b"place", b"part", b"average"))]
        assert set(kept) <= set(whole)
        shown = {row[5].replace(".", ",") for row in rows if row[0] == "shown"}
        assert shown and all(number in text for number in shown)
        first = next(at for at, row in enumerate(rows) if row[0] == "place" and row[3] == "heat")
        after = next(at for at, row in enumerate(rows) if at > first and (
            row[0] in ("place", "totals") or row == ["window", "2"]))
        days = [datetime.date.fromisoformat(row[2]) for row in rows[first:after] if row[0] == "stored"]
        own = [day for day in days if (day >= moved.date()) == (tenancy == other)]
        # (the value at the end is both's)
        assert len(own) >= 11 and len(days) - len(own) == (3 if tenancy == other else 1), days


def test_nothing_is_served_before_it_is_out(office: Office, elm: Supplied, tmp_path: pathlib.Path) -> None:
    """A page lies in ready/ until its release is committed, a corrected one too; what runs next ends a cut-off one."""
    tenancy = elm.tenancy("A1", "2023-01-01", None)
    elm.month("2025-01")
    published(office)
    (tmp_path / "houses").write_text("a file")
    assert "houses" in office.run("sheets", "2025-01", "--out", str(tmp_path), "--pdf", "none").ok(3)
    (tmp_path / "houses").unlink()
    written(office, tmp_path, "--pdf", "none")
    out = tmp_path / sheet_of(office, tmp_path, tenancy).relative_to(tmp_path / "ready")
    assert not (tmp_path / "sheets").exists() and sheet_of(office, tmp_path, tenancy) != out
    written(office, tmp_path, "--pdf", "none", "--release")
    assert out.exists() and out.with_suffix(".audit").exists() and not list(tmp_path.glob("ready/sheets/*/*"))
    first = out.read_bytes()
    for file in (out, out.with_suffix(".audit")):  # as a kill after the commit leaves it
        file.replace(tmp_path / "ready" / file.relative_to(tmp_path))
    assert office.run("send", "2025-01", "--out", str(tmp_path), "--link", "https://office.example", "--sendmail",
                      "/bin/true").status in (0, 1)
    assert out.read_bytes() == first and out.with_suffix(".audit").exists()
    assert office.run("correct", "elm-1", "2025-01", "--why", "a second look").status == 0
    written(office, tmp_path, "--pdf", "none")
    assert out.read_bytes() == first
    assert "(Fassung <bdi><address" in sheet_of(office, tmp_path, tenancy).read_text(encoding="utf-8")
    written(office, tmp_path, "--pdf", "none", "--release")
    assert out.read_bytes() != first and out.with_name("2025-01.1.html").exists()
    assert not list(tmp_path.glob("ready/sheets/*/*"))


# ---- what a sheet says beside its amounts: per cent, emissions, costs, the weather, how an estimate was made

def sentences(text: str) -> List[str]:
    return [re.sub(r"<[^>]*>", "", it).strip() for it in re.findall(r"<li>(.*?)</li>", text, re.S)]


def sheet(office: Office, out: pathlib.Path, tenancy: int) -> str:
    written(office, out, "--pdf", "none")
    text = sheet_of(office, out, tenancy).read_text(encoding="utf-8")
    checked(text)
    return text


def test_what_stands_beside_the_numbers(office: Office, elm: Supplied, tmp_path: pathlib.Path) -> None:
    """By the exact amounts: three times 310 kWh; 437.5 kWh of warm water against 625 and 312.5."""
    tenancy = elm.tenancy("A1", "2023-01-01", None)
    office.sql("UPDATE houses SET postcode = '10115', co2_g_per_kwh = 201.5, primary_factor = 0.7, fuel_mix ="
               " '{\"Erdgas\": 0.85, \"Holz\": \"Rest\"}',"
               " contact = 'Büro Ulme', advice = %s, complaints = 'Schlichtungsstelle'", HOSTILE)
    elm.months()
    text = sheet(office, tmp_path, tenancy)
    said = sentences(text)
    assert said[:2] == ["Heizung: so viel wie Januar 2024 (0 %), so viel wie Dezember 2024 (0 %)",
                        "Warmwasser: -30 % gegenüber Januar 2024, 40 % mehr als Dezember 2024"]
    assert "Heizung: 62,5 kg Kohlendioxid" in said and "Warmwasser: 88,2 kg Kohlendioxid" in said
    assert "85 %" in text and "Rest" in text and ">201,5</span> g/kWh" in text and ">125</span> kWh je m³" in text
    assert "Büro Ulme" in text and "Schlichtungsstelle" in text and "&lt;script&gt;" in text and "Kosten" not in text
    assert "Vom Wetter" not in text
    office.sql("INSERT INTO prices (house, use, months, unit, cents) VALUES ('elm-1', 'heat', '[2025-01-01,)', 'kWh',"
               " 11.45),"
               " ('elm-1', 'warm water', '[2025-01-01,)', 'm³', 900)")
    office.sql("INSERT INTO degree_days VALUES ('10115', '2024-01-01', 500, 'DWD'), ('10115', '2025-01-01', 400,"
               " 'DWD')")
    assert not [it for it in sentences(sheet(office, tmp_path, tenancy)) if "€" in it]
    office.sql("UPDATE houses SET shows_costs = true")
    said = sentences(sheet(office, tmp_path, tenancy))
    # the price of water is of another unit
    assert "Heizung: 35,50 € (11,45 Cent je kWh)" in said and sum("€" in it for it in said) == 1
    assert "Heizung: Januar 2024 hätte beim Wetter dieses Monats 248,0 kWh gebraucht" in said
    assert office.run("sheets", "2025-01", "--out", str(tmp_path), "--pdf", "none", "--release").status == 0
    assert office.sql("SELECT use, kind, text, mark FROM published WHERE mark IN ('cost', 'carbon', 'weather')"
                      " AND audit = (SELECT audit FROM versions) ORDER BY use, kind") == [
        ("heat", "co2", "62.5", "carbon"), ("heat", "cost", "35.50", "cost"), ("heat", "weather", "248.0", "weather"),
        ("warm water", "co2", "88.2", "carbon")]


def test_how_an_estimate_was_made(office: Office, elm: Supplied, tmp_path: pathlib.Path) -> None:
    """By flats of the house; and where readings are too far apart, between which moments."""
    estimated, spread = elm.tenancy("A1", "2024-06-01", None), elm.tenancy("A2", "2024-06-01", None)
    for flat, days in (("A1", "day > '2025-01-20'"), ("A2", "day BETWEEN '2025-01-29' AND '2025-02-02'")):
        office.sql("DELETE FROM day_values d USING fittings f, places p WHERE f.id = d.fitting AND p.id = f.place AND"
                   f" p.use = 'heat' AND p.flat = %s AND {days}", flat)
    office.sql("DELETE FROM month_use WHERE month = '2024-01-01'")
    elm.month("2025-01")
    assert office.run("estimate", "2025-01").status == 0
    assert "Heizung: geschätzt nach: Wohnungen des Hauses" in sentences(sheet(office, tmp_path, estimated))
    said = sentences(sheet_of(office, tmp_path, spread).read_text(encoding="utf-8"))
    assert "Heizung: geschätzt: kein Messwert zwischen 28.01.2025, 24:00 und 03.02.2025, 24:00" in said
