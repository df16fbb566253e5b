"""The manager's page: items by cause, what each role may do, forms, and lists, which are taken whole or not at all."""

import datetime
import json
import pathlib
import re
from typing import Any, Dict, Iterator, List, Tuple

import psycopg2
import pytest
from conftest import Office, sendmail
from catalogue import Catalogue as Words
from catalogue import texts
from desk_items import ACTIONS, body, brief
from supplied import COLD, HEAT, Supplied, at
from test_schema import refused
from test_sheets import HOSTILE

NOON = ("alarms", "--at", "2025-02-02T12:00+00:00")
PEOPLE = {"petra": "publisher", "karl": "clerk", "rosa": "reader"}


class Desk:
    """The page over a test's database, without a web server."""

    def __init__(self, office: Office) -> None:
        import desk_web
        self.client = desk_web.application(office.name).test_client()

    def get(self, path: str, person: str = "petra", **headers: str) -> Tuple[int, str]:
        answer = self.client.get(path, headers={"X-Remote-User": person, **headers})
        return answer.status_code, answer.get_data(as_text=True)

    def token(self, person: str = "petra") -> str:
        return self.get("/import", person)[1].partition('name="token" value="')[2].partition('"')[0]

    def post(self, path: str, form: Dict[str, str], person: str = "petra", **headers: str) -> Tuple[int, str]:
        answer = self.client.post(path, data={"token": self.token(person), **form},
                                  headers={"X-Remote-User": person, **headers})
        return answer.status_code, answer.get_data(as_text=True)


@pytest.fixture
def elm(office: Office) -> Supplied:
    office.sql("INSERT INTO people VALUES ('petra', 'publisher', 'de'), ('karl', 'clerk', 'en'), ('rosa', 'reader',"
               " 'en')")
    return Supplied(office)


@pytest.fixture
def desk(office: Office, elm: Supplied) -> Iterator[Desk]:
    pytest.importorskip("flask")
    yield Desk(office)


def items(office: Office) -> List[Tuple[Any, ...]]:
    return office.sql("SELECT kind, subject, waits FROM morning WHERE ended_at IS NULL AND kind <> 'collector' ORDER"
                      " BY 1, 2")


def test_a_cause_is_one_item(office: Office, elm: Supplied) -> None:
    """A false value takes two months' numbers, a dead box those of all its meters: each is an item with its sheets."""
    false, quiet = elm.meter(1, HEAT, "A1"), elm.meter(2, COLD, "A1")
    elm.tenancy("A1", "2024-01-01", None)
    elm.days(false, "2024-12-25", 40, 1_000_000, 10_000)
    elm.days(quiet, "2024-12-25", 20, 7, 1, "m3")
    elm.tells(false, {"2025-01-31": 9_000_000})
    office.sql("UPDATE meters SET heard = '2025-02-02', stored_at = '2025-02-02', at = '2025-02-02', since ="
               " '2024-01-01'")
    office.sql("UPDATE meters SET heard = '2025-01-13', stored_at = '2025-01-13', at = '2025-01-13' WHERE identity"
               " LIKE '%%2.PAD%%'")
    office.sql("UPDATE boxes SET made_at = '2024-01-01', collected_at = '2025-02-02'")
    elm.month("2025-01")
    office.run(*NOON)
    assert items(office) == [("disturbed", "elm-1 00000001.PAD.01.04", 1), ("silent", "elm-1 00000002.PAD.01.07", 1)]
    office.sql("UPDATE boxes SET collected_at = '2025-01-13'")
    office.sql("UPDATE meters SET heard = '2025-01-13', stored_at = '2025-01-13', at = '2025-01-13'")
    office.run(*NOON)
    assert items(office) == [("box", "elm-1", 1), ("disturbed", "elm-1 00000001.PAD.01.04", 1)]


def test_many_places_without_a_value_are_one_item(office: Office, elm: Supplied) -> None:
    for number in range(1, 5):
        elm.days(elm.meter(number, HEAT, f"A{number}"), "2024-12-25", 20, 1000, 10)
        elm.tenancy(f"A{number}", "2024-01-01", None)
    office.sql("UPDATE meters SET heard = '2025-02-02', stored_at = '2025-02-02', at = '2025-02-02'")
    office.sql("UPDATE boxes SET made_at = '2024-01-01', collected_at = '2025-02-02'")
    elm.month("2025-01")
    office.run(*NOON)
    assert items(office) == [("no number", "elm-1 2025-01", 4)]


def test_a_cause_over_all_houses_is_one_item(office: Office, desk: Desk, tmp_path: pathlib.Path) -> None:
    """Boxes that all fail, and what comes late of all: one card, which names the houses; what is another house's own
    stays beside it. A collector that doesn't run names the houses of its boxes."""
    houses = [f"oak-{number}" for number in range(10, 22)]
    for number, house in enumerate(houses):
        Supplied(office, house).meter(number, HEAT, "A1")
    office.sql("UPDATE meters SET heard = '2025-02-02', stored_at = '2025-02-02', at = '2025-02-02'")
    office.sql("UPDATE boxes SET made_at = '2024-01-01', collected_at = '2025-02-02 06:35Z', fault ="
               " CASE WHEN house LIKE 'oak%%' THEN 'FAILED: ' || house END, talks ="
               " CASE house WHEN 'oak-21' THEN 'a line of 2000 bytes' END")
    late = json.dumps({"values": 5, "meters": 1, "first": "2025-01-20"})
    office.sql("UPDATE boxes SET late = %s WHERE house <> 'oak-21'", late)
    office.sql("INSERT INTO collections (begun_at, ended_at, boxes)"
               " VALUES ('2025-02-02 06:30Z', '2025-02-02 06:40Z', 13)")
    printed = office.run(*NOON).printed
    assert items(office) == [("box", "many houses failed", 0), ("late", "many houses", 0), ("talks", "oak-21", 0)]
    assert "NEW box many houses failed: Collecting the box failed (11 houses): Last collected as a whole" in printed
    assert "60 values of 12 meters, from 2025-01-20 on," in printed
    text = desk.get("/")[1]
    cards = re.findall(r"<article.*?</article>", text, re.S)
    assert len(cards) == 3 and all(f'href="/houses/{house}"' in cards[0] + cards[1] for house in houses[:-1])
    assert "take_over" in cards[0] and "collect" not in cards[0] and "13 ansehen" in text and "0 von 13" in text
    office.sql("UPDATE boxes SET fault = NULL, late = NULL, talks = NULL")
    office.run("alarms", "--at", "2025-02-04T12:00+00:00")
    assert office.sql("SELECT kind, jsonb_array_length(facts -> 'houses') FROM morning WHERE ended_at IS NULL") == [
        ("collector", 13)]
    assert all(house in desk.get("/")[1] for house in houses)
    assert re.findall(r"<bdi>(\S+)</bdi></td></tr>", desk.get("/houses?q=oak-10")[1]) == ["1"]
    assert office.run("desk", "--static", str(tmp_path / "today.html"), "--language", "en").status == 0
    assert "Houses (13): elm-1, oak-10, " in (tmp_path / "today.html").read_text(encoding="utf-8")


def test_a_trouble_is_mended_on_the_page(office: Office, elm: Supplied, desk: Desk) -> None:
    """The false reading is marked and struck; the log has who, what and why; the next run ends the item."""
    false = elm.meter(1, COLD, "A1", since=at("2024-12-25"))
    elm.tenancy("A1", "2024-01-01", None)
    elm.days(false, "2024-12-24", 41, 99, 1, "m3")
    elm.tells(false, {"2025-01-31": 2137}, "m3")
    office.sql("UPDATE meters SET heard = '2025-02-02', stored_at = '2025-02-02', at = '2025-02-02'")
    office.sql("UPDATE boxes SET made_at = '2024-01-01', collected_at = '2025-02-02'")
    elm.month("2025-01")
    office.run(*NOON)
    status, text = desk.get("/")
    marked = re.search(r'<tr class="bad">.*?</tr>', text, re.S)
    assert status == 200 and "Ein Stand kann nicht stimmen" in text and "1 Blatt wartet" in text and marked
    assert "2.137" in marked[0]
    path = re.search(r'href="(/do/strike\?[^"]*)"', text)
    assert path
    value, item = re.findall(r"(?:value|item)=(\d+)", path[1])
    assert "2.137" in desk.get(path[1].replace("&amp;", "&"))[1]
    assert desk.post("/do/strike", {"value": value, "item": item, "why": " "})[0] == 422
    assert desk.post("/do/strike", {"value": value, "item": item, "why": "2000 m3 too much"})[0] == 303
    assert office.sql("SELECT who, what, house, subject, why, item, before->>'value' FROM log") == [
        ("petra", "strike", "elm-1", "00000001.PAD.01.07", "2000 m3 too much", int(item), "2137")]
    assert office.sql("SELECT struck_by, struck_why FROM day_values WHERE struck_at IS NOT NULL") == [
        ("petra", "2000 m3 too much")]
    assert office.sql("SELECT done_by FROM alarms WHERE kind = 'disturbed'") == [("petra",)]
    assert "erledigt von petra" in desk.get("/")[1]
    assert office.run("close").status == 0
    office.run(*NOON)
    assert items(office) == []


def test_each_form_by_each_role(office: Office, elm: Supplied, desk: Desk) -> None:
    """The page shows no form that the database would refuse, and the database refuses it without the page, too."""
    for person, role in PEOPLE.items():
        for action, it in ACTIONS.items():
            may = role in ("publisher", it.role)
            assert desk.get(f"/do/{action}", person)[0] == (200 if may else 403), (person, action)
            words = ", ".join(f"NULL::{kind}" for kind in [*it.fields.values(), "text"])
            said = refused(office, f"SELECT desk.{action}({words})", role=role)
            assert ("permission denied" in said) != may, (role, action, said)
    assert desk.get("/", "eve")[0] == 403 and desk.client.get("/").status_code == 403
    assert desk.get("/import", "rosa")[0] == 403
    elm.meter(1, HEAT, "A1")
    elm.tenancy("A1", "2024-01-01", None, "Anna Hidden")
    assert "Anna Hidden" in desk.get("/houses/elm-1", "karl")[1]
    assert "Anna Hidden" not in desk.get("/houses/elm-1", "rosa")[1]
    assert "elm-1" in desk.get("/houses?q=hidden", "karl")[1].partition("<tbody>")[2]
    assert "elm-1" not in desk.get("/houses?q=hidden", "rosa")[1]


def test_who_acts_is_who_signed_in(office: Office, elm: Supplied) -> None:
    """A person is named by the page alone: a clerk at the database can't write another's name into the log."""
    office.sql("CREATE ROLE some_clerk LOGIN IN ROLE clerk")
    connection = psycopg2.connect(office.name.replace("user=office", "user=some_clerk"))
    try:
        with connection, connection.cursor() as cursor:
            cursor.execute("SELECT set_config('office.person', 'petra', true), acting()")
            assert cursor.fetchone() == ("petra", "some_clerk")
            cursor.execute("SELECT desk.flat('elm-1', 'A9', 50, 'measured')")
    finally:
        connection.close()
        name = office.sql("SELECT who FROM log")
        office.sql("DROP ROLE some_clerk")
    assert name == [("some_clerk",)]


def test_forms_are_sent_once_and_from_here(office: Office, elm: Supplied, desk: Desk) -> None:
    form = {"house": "elm-1", "flat": "A1", "area": "55", "why": "measured"}
    wrong: List[Tuple[Dict[str, str], Dict[str, str]]] = [
        ({"token": ""}, {}), ({"token": f"a.{2 ** 31}.{'0' * 64}"}, {}), ({"token": desk.token("karl")}, {}),
        ({}, {"Origin": "https://evil.example"}), ({}, {"Sec-Fetch-Site": "cross-site"})]
    for other, headers in wrong:
        assert desk.post("/do/flat", {**form, **other}, **headers)[0] == 403, (other, headers)
    token = desk.token()
    assert [desk.post("/do/flat", {**form, "token": token})[0] for _ in range(2)] == [303, 409]
    assert office.sql("SELECT count(*) FROM log") == [(1,)]
    assert desk.post("/do/flat", {**form, "area": "x"})[0] == 422
    assert desk.post("/do/flat", {**form, "why": "x" * 70_000})[0] == 413
    assert desk.post("/do/nothing", form)[0] == 404 and desk.get("/houses/none")[0] == 404
    headers = desk.client.get("/", headers={"X-Remote-User": "petra"}).headers
    assert "default-src 'none'" in headers["Content-Security-Policy"] and headers["Cache-Control"] == "no-store"


def test_hostile_words_are_text(office: Office, elm: Supplied, desk: Desk, tmp_path: pathlib.Path) -> None:
    for path, form in (("/do/house", {"house": "evil", "address": HOSTILE, "contact": HOSTILE}),
                       ("/do/flat", {"house": "evil", "flat": "A1"}),
                       ("/do/tenant", {"house": "evil", "flat": "A1", "since": "2024-01-01", "person": HOSTILE})):
        assert desk.post(path, {**form, "why": HOSTILE})[0] == 303
    for action, field in ((action, field) for action, it in ACTIONS.items() for field in it.fields):
        form = {**dict.fromkeys(ACTIONS[action].fields, "1"), field: HOSTILE, "why": HOSTILE}
        status, text = desk.post(f"/do/{action}", form)
        assert status in (303, 422) and "<script>" not in text, (action, field, status)
    office.sql("INSERT INTO boxes (name, command, house, fault, collected_at) VALUES ('evil', 'false', 'evil', %s,"
               " '2025-01-01')", HOSTILE)
    office.run(*NOON)
    assert office.run("desk", "--static", str(tmp_path / "page.html"), "--language", "en").status == 0
    pages = [(tmp_path / "page.html").read_text(encoding="utf-8"),
             *(desk.get(path)[1] for path in ("/", "/houses", "/houses/evil", "/log"))]
    lines = f'house,evil,"{HOSTILE.replace(chr(34), chr(34) * 2)}",,,,,,,\n{HOSTILE},1'
    # the lines themselves, to be mended
    pages.append(desk.post("/import", {"text": lines})[1].replace("\u202e", "", 2))
    for text in pages:
        assert "<script>" not in text and "&lt;script&gt;" in text and "\u202e" not in text and "7000021" not in text


def test_lists_are_taken_as_a_whole_or_not(office: Office, elm: Supplied, desk: Desk, tmp_path: pathlib.Path) -> None:
    """With semicolons and German dates and numbers, as a spreadsheet writes them; one fault, and nothing is taken."""
    file = tmp_path / "list.csv"
    file.write_bytes("house;oak-2;Eichenweg 2;10115;;;Büro Ulme;;\nflat;oak-2;A1;54,5\nflat;oak-2;A2;\n"
                     "user;oak-2;A1;01.03.2024;;A. Weber;de;link;weber@example.org\nuser;oak-2;A1;01.09.2024;;B."
                     " Smith;en;paper;\n"
                     "meter;elm-1;12345678.PAD.01.07;1;9;A1\n".encode("cp1252"))
    assert "6 lines would be taken" in office.run("import", str(file)).ok()
    assert office.sql("SELECT count(*) FROM houses") == [(1,)]
    assert office.run("import", str(file), "--apply", "--why", "taken over").status == 0
    assert office.sql("SELECT person, days::text, wants, mail FROM tenancies ORDER BY id") == [
        ("A. Weber", "[2024-03-01,2024-09-01)", "link", "weber@example.org"),
        ("B. Smith", "[2024-09-01,)", "paper", None)]
    assert office.sql("SELECT area_m2::text FROM flats WHERE house = 'oak-2' ORDER BY flat") == [("54.5",), (None,)]
    assert office.sql("SELECT line, state::text FROM orders") == [("FIT 12345678.PAD.01.07 1 9 A1", "queued")]
    assert office.sql("SELECT DISTINCT why FROM log") == [("taken over",)]
    text = "flat,oak-2,A3,60\nflat,oak-3,A1,60\nflats,oak-2,A4,1\nflat,oak-2\nuser,oak-2,A1,2024-13-01,,X,de,paper,\n"
    file.write_text(text, encoding="utf-8")
    ended = office.run("import", str(file), "--apply")
    assert ended.status == 3 and "4 of 5 lines have a fault" in ended.printed
    assert "line 2: no house oak-3" in ended.printed
    status, page = desk.post("/import", {"text": text})
    assert status == 422 and "no house oak-3" in page and "60" in page
    assert desk.post("/import", {"text": text, "apply": "yes"})[0] == 422
    assert office.sql("SELECT count(*) FROM flats WHERE house = 'oak-2'") == [(2,)]
    status, page = desk.post("/import", {"text": "flat,oak-2,A3,60\n"})
    assert status == 200 and 'name="apply"' in page
    assert office.sql("SELECT count(*) FROM flats WHERE house = 'oak-2'") == [(2,)]
    assert desk.post("/import", {"text": "flat,oak-2,A3,60\n", "apply": "yes"}, "rosa")[0] == 403
    assert desk.post("/import", {"text": "flat,oak-2,A3,60\n", "apply": "yes"})[0] == 200
    assert office.sql("SELECT area_m2::text FROM flats WHERE flat = 'A3'") == [("60",)]
    # a list goes on
    office.sql("INSERT INTO houses (house, address) SELECT 'h-' || n, 'x' FROM generate_series(1, 700) n")
    first = desk.get("/houses?q=h-")[1]
    after = re.findall(r'rel="next" href="([^"]+)"', first)[0].replace("&amp;", "&")
    second = desk.get(f"/houses{after}")[1]
    one, other = (set(re.findall(r"h-\d+", page.partition("<tbody>")[2])) for page in (first, second))
    assert len(one) == 500 and len(one | other) == 700 and 'rel="next"' not in second


def test_an_exchange_before_and_after_the_box_knows_it(office: Office, elm: Supplied) -> None:
    """Entered before, the box is ordered to swap, and the readings wait for it; entered after, they are set at once."""
    old = elm.meter(1, HEAT, "A1")
    now = datetime.datetime.now()
    words = ["00000001.PAD.01.04", "00000009.PAD.01.04", f"{now - datetime.timedelta(days=2):%Y-%m-%dT%H:%M}", "1200",
             "3", "Wh"]
    assert office.run("act", "exchange", "elm-1", *words, "--why", "battery").status == 0
    assert office.sql("SELECT line FROM orders") == [("SWAP 00000001.PAD.01.04 00000009.PAD.01.04 1",)]
    office.sql("UPDATE meters SET identity = '00000009.PAD.01.04'")
    wanted = [(1, "1200", None), (2, None, "3")]
    query = ("SELECT row_number() OVER (ORDER BY lower(during)), last_value::text, first_value::text FROM fittings"
             " WHERE place = (SELECT place FROM fittings WHERE id = %s) ORDER BY lower(during)")
    assert office.sql(query, old) == wanted and office.sql("SELECT count(*) FROM exchanges") == [(0,)]
    gap = ("SELECT upper(o.during) = lower(n.during), lower(n.during) < now() - interval '1 day'"
           " FROM fittings o, fittings n WHERE o.id = %s AND n.id > o.id")
    assert office.sql(gap, old) == [(True, True)]
    words[3:5] = ["1300", "4"]
    assert office.run("act", "exchange", "elm-1", *words, "--why", "read again").status == 0
    assert office.sql(query, old) == [(1, "1300", None), (2, None, "4")]
    words[1] = "00000008.PAD.01.04"
    assert office.run("act", "exchange", "elm-1", *words, "--why", "wrong").status == 4


def test_the_mail_has_the_same_items(office: Office, elm: Supplied, tmp_path: pathlib.Path) -> None:
    office.sql("UPDATE boxes SET collected_at = '2025-01-01', made_at = '2024-01-01'")
    office.run(*NOON)
    office.run("desk", "--mail", "a@example.org", "--sendmail", sendmail(tmp_path), "--language", "en").ok()
    text = next(tmp_path.glob("mail.*")).read_text()
    assert "Subject: Meters: 2 items, 0 sheets wait" in text and "elm-1: Box doesn't answer" in text
    assert "text/html" in text
    assert office.run("desk", "--mail", "a@example.org", "--sendmail", "/bin/false").status == 3


def test_what_programs_note_is_german_too() -> None:
    cases: Tuple[Tuple[str, Dict[str, Any], str, str], ...] = (
        ("clock", {"wrong": 1, "of": 3, "first": "2000-01-01 00:00"}, "1 of 3 stamps can't be, as 2000-01-01 00:00.",
         "1 von 3 Zeitstempeln können nicht sein, wie 2000-01-01 00:00."),
        ("late", {"values": 12, "meters": 2, "first": "2025-01-01"},
         "12 values of 2 meters, from 2025-01-01 on, came more than three days after the day.",
         "12 Werte von 2 Zählern, ab 2025-01-01, kamen mehr als drei Tage nach ihrem Tag."),
        ("not sent", {"month": "2025-01-01", "count": 2, "failed": "no PDF"}, "January 2025: 2 × no PDF",
         "Januar 2025: 2 × kein PDF"),
        ("changed", {"change": {"numbers": [{"place": "elm-1/A1/heat/1", "quantity": "energy",
                                             "out": [3_600_000_000, "measured"],
                                             "now": [None, "missing"]}], "more": 2}},
         "elm-1/A1/heat/1: 1.0 kWh (measured) went out, now no number. And 2 more.",
         "elm-1/A1/heat/1: bisher 1,0 kWh (gemessen), jetzt keine Zahl. Und 2 mehr."))
    for kind, facts, english, german in cases:
        said = [body(kind, facts, Words(language, "UTC")) for language in ("en", "de")]
        assert english in said[0] and german in said[1], said


def test_each_kind_has_words(office: Office) -> None:
    """In both languages, whatever facts it has."""
    for key in (it.removeprefix("item.") for it in texts() if it.startswith("item.")):
        kind, _, detail = key.partition(".")
        facts: Dict[str, Any] = {"grade": detail} if kind == "no number" else {"why": detail} if detail else {}
        assert all(Words(language, "UTC").language == language for language in ("de", "en"))
        assert brief(kind, {**facts, "status": 9, "meters": 3, "boxes": 2, "month": "2025-01-01", "day": "2025-01-31",
                            "nights": 7, "days": 45, "type": "0F", "places": 4, "use": "heat"})
