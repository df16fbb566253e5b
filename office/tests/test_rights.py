"""Each login of the package tries what isn't its work, and the owner of the database can't become more than that."""

import datetime
import pathlib
import subprocess
from typing import Any, Iterator, Tuple

import psycopg2
import pytest
from conftest import OFFICE, Office, Server
from supplied import HEAT, Supplied, at

LOGINS = OFFICE.parent / "packaging/office/logins.sql"
BY_HAND = ("INSERT INTO day_values (fitting, day, at, value, unit, source)"
           " VALUES (1, '2025-01-02', now(), 1, 'Wh', 'by hand')")
OPTION = "INSERT INTO jobs (what, words) VALUES ('collect', '--database=host=elsewhere.example')"
BY = ("permission denied", "must be", "must have", "words_of_its_kind")  # what a refusal says
# What no login may
NOBODY = (
    'CREATE ROLE another', 'GRANT pg_execute_server_program TO "{login}"', 'GRANT pg_read_server_files TO "{login}"',
    'ALTER ROLE "{login}" CREATEROLE', 'ALTER ROLE "{login}" SUPERUSER', "COPY people FROM PROGRAM 'id'",
    "COPY people FROM '/etc/passwd'", "COPY people TO PROGRAM 'cat'", "SET ROLE office",
    "SET SESSION AUTHORIZATION office", OPTION)
# What only the owner may
OWNER = (
    "INSERT INTO boxes (name, command) VALUES ('x', 'id')", "UPDATE boxes SET command = 'id'",
    "INSERT INTO people VALUES ('x', 'publisher', 'de')", "UPDATE people SET role = 'publisher'", BY_HAND,
    "UPDATE day_values SET value = 1", "DELETE FROM day_values", "UPDATE month_use SET amount = 1",
    "UPDATE published SET text = '4444.4'", "DELETE FROM published", "UPDATE audits SET says = 'x'",
    "DELETE FROM audits", "INSERT INTO log DEFAULT VALUES", "INSERT INTO jobs (what, words) VALUES ('collect', 'x')",
    "DELETE FROM readings", "DELETE FROM tenancies", "SELECT ask('collect', 'x')",
    "UPDATE schema_versions SET version = 1", "CREATE FUNCTION f() RETURNS int LANGUAGE sql AS 'SELECT 1'",
    "CREATE TABLE houses_too (house text)", "SELECT end_fitting('elm-1', 'elm-1', 'x')",
    "UPDATE tenancies SET token = 'x'", "UPDATE day_values SET struck_by = 'another'", "UPDATE boxes SET house = NULL",
    "DELETE FROM sheets", "INSERT INTO versions DEFAULT VALUES", "INSERT INTO bills DEFAULT VALUES",
    "DELETE FROM versions", "UPDATE versions SET out_at = NULL", "DELETE FROM bills", "UPDATE bills SET out_at = NULL",
    "UPDATE month_use SET out_at = now()", "INSERT INTO box_commands VALUES ('HIDE', 1)", "SELECT take_as_it_is('x')",
    "INSERT INTO orders (box, key, line, made_by) VALUES ('elm-1', 'l', 'OUT x', 'another')", "DELETE FROM orders",
    "SELECT drop_months_before('2030-01-01')", "UPDATE boxes SET stored = 9", "UPDATE readings SET flat = 'x'",
    "TRUNCATE readings", f"INSERT INTO readings_{datetime.date.today():%Y_%m} DEFAULT VALUES")
# What a publisher may beside
PUBLISHER = (
    "SELECT release_month('elm-1', '2025-01-01')", "SELECT correct_month('elm-1', '2025-01-01', 'x')",
    "SELECT release_bill('elm-1', '[2025-01-01,2025-02-01)')",
    "SELECT correct_bill('elm-1', '[2025-01-01,2025-02-01)', 'x')", "SELECT ask_to_send('2025-01-01')",
    "UPDATE sheets SET path = 'x'", "UPDATE sheets SET sent_at = now()",
    "INSERT INTO sheets (tenancy, month, form, path, sha256) VALUES (1, '2025-01-01', 'html', 'x', 'x')",
    "INSERT INTO audits (house, month, version, sha256, program, program_sha256, says) VALUES ('elm-1', "
    "'2025-01-01', 1, 'x', 'x', 'x', 'x')",
    "INSERT INTO published (house, kind, text, mark) VALUES ('elm-1', 'x', '4444.4', 'x')",
    "SELECT desk.release('2025-01-01', 'x')", "SELECT desk.send('2025-01-01', 'x')",
    "SELECT desk.correct_month('elm-1', '2025-01-01', 'x')", "UPDATE jobs SET status = 0")
# What a clerk may beside
CLERK = (
    "SELECT person FROM tenancies", "SELECT token FROM tenancies", "UPDATE tenancies SET days = days",
    "SELECT strike(1, 'x')", "SELECT put_value(1, '2025-01-31', 1, 'Wh', 'x')", "SELECT desk.strike(1, 'x')",
    "SELECT see_number('2025-01-01', 1, 'x')", "UPDATE fittings SET vib = '06'", "SELECT file FROM audits",
    "UPDATE houses SET address = 'x'", "UPDATE places SET weight = 2", "SELECT leave_month('elm-1', '2025-01-01', 'x')",
    "SELECT leave_bill('elm-1', '[2025-01-01,2026-01-01)', 'x')", "SELECT path FROM sheets", "SELECT * FROM log")
COLLECTOR = (
    "INSERT INTO orders (box, key, line, state, number) VALUES ('elm-1', 'l', 'OUT x', 'pending', 9)",
    "INSERT INTO orders (box, line, confirms) VALUES ('elm-1', 'CONFIRM 1', 1)", "INSERT INTO readings DEFAULT VALUES",
    "UPDATE orders SET state = 'queued'", "INSERT INTO meters DEFAULT VALUES", "INSERT INTO points DEFAULT VALUES",
    "UPDATE boxes SET number = 1", "UPDATE boxes SET fault = NULL", "SELECT make_months('2026-01-01', 1)")
CLOSER = (
    "SELECT close_houses('{elm-1}')", "INSERT INTO month_use DEFAULT VALUES", "DELETE FROM month_use",
    "DELETE FROM frozen_values", "SELECT put_estimate(1, '2025-01-31', now(), 1, 'Wh', 'x')",
    "INSERT INTO alarms DEFAULT VALUES", "UPDATE alarms SET ended_at = now()", "DELETE FROM changes")
REFUSED = {
    ("mbdc-billing", ""): NOBODY,
    ("mbdc-collect", ""): (*NOBODY, *OWNER, *PUBLISHER[:-1], *CLERK, *CLOSER),
    ("mbdc-close", ""): (*NOBODY, *OWNER, *PUBLISHER, *CLERK[:-1], *COLLECTOR),
    ("mbdc-publish", ""): (*NOBODY, *OWNER, *COLLECTOR),
    ("mbdc-desk", ""): (*NOBODY, *OWNER, *PUBLISHER, *CLERK, *COLLECTOR, *CLOSER, "SELECT * FROM houses"),
    ("mbdc-desk", "reader"): (*NOBODY, *OWNER, *PUBLISHER, *CLERK, *COLLECTOR, *CLOSER),
    ("mbdc-desk", "clerk"): (*NOBODY, *OWNER, *PUBLISHER, *COLLECTOR, *CLOSER),
    ("mbdc-desk", "publisher"): (*NOBODY, *OWNER, *COLLECTOR, *CLOSER),}


def as_postgres(server: Server, *words: Any) -> None:
    subprocess.run(["psql", "-qX", "-v", "ON_ERROR_STOP=1", "-d", server.dsn("postgres"), *words], check=True)


@pytest.fixture(scope="module")
def packaged(server: Server) -> Iterator[str]:
    """A database as the package's postinst makes it: by its owner, who may make no role."""
    as_postgres(server, "-f", OFFICE / "schema/roles.sql", "-f", LOGINS, "-f", LOGINS,
                "-c", 'CREATE DATABASE packaged OWNER "mbdc-billing"')
    name = server.dsn("packaged").replace("user=office", "user=mbdc-billing")
    done = subprocess.run([OFFICE / "migrate", "--database", name], capture_output=True, text=True, check=False)
    assert done.returncode == 0, done.stderr
    yield "packaged"
    server.drop("packaged")


@pytest.mark.parametrize("who", REFUSED, ids=" ".join)
def test_each_login_is_refused(server: Server, packaged: str, who: Tuple[str, str]) -> None:
    login, role = who
    connection = psycopg2.connect(server.dsn(packaged).replace("user=office", f"user={login}"))
    connection.autocommit = True
    wrong = []
    for query in REFUSED[who]:
        with connection.cursor() as cursor:
            cursor.execute("RESET ROLE")
            if role:
                cursor.execute(f"SET ROLE {role}")
            try:
                cursor.execute(query.format(login=login) if "{login}" in query else query)
                wrong.append((query, "was done"))
            except psycopg2.Error as fault:
                if not any(it in str(fault) for it in BY):
                    wrong.append((query, str(fault)))
    connection.close()
    assert wrong == []


def test_each_login_does_its_work(server: Server, office: Office, tmp_path: pathlib.Path) -> None:
    """From readings to a sheet that is sent: close, month, estimate, alarms; publish, sheets, bill, correct, work."""
    as_postgres(server, "-f", LOGINS)
    elm = Supplied(office)
    meter, other = elm.meter(1, HEAT, "A1"), elm.meter(2, HEAT, "A2")
    for one in (meter, other):
        elm.reads(one, at("2025-01-01T06:00"), 1000, ("2024-12-31", 990))
    elm.reads(meter, at("2025-02-01T06:00"), 1310, ("2025-01-31", 1300))
    tenancy = elm.tenancy("A1", "2024-01-01", None)
    office.sql("UPDATE tenancies SET wants = 'link', mail = 'a@example.org' WHERE id = %s", tenancy)
    box = office.box("house-1")
    out = ("--out", str(tmp_path / "out"), "--link", "https://office.example/sheets", "--sendmail", "/bin/true",
           "--pdf", "none")
    steps = (("collect", ["order", "house-1", "FIT 11111111.PAD.01.07 1 1 A1"]), ("collect", ["collect", "house-1"]),
             ("close", ["close"]), ("close", ["close", "--all", "--since", "2025-01-01"]),
             ("close", ["close", "--month", "2025-01"]),
             ("close", ["estimate", "2025-01"]), ("close", ["alarms"]), ("close", ["watch"]),
             ("close", ["desk", "--static", str(tmp_path / "today.html")]),
             ("publish", ["publish", "elm-1", "2025-01"]),
             ("publish", ["publish", "elm-1", "2025-01", "--bill"]),
             ("publish", ["sheets", "2025-01", *out[:2], "--pdf", "none"]),
             ("publish", ["bill", "elm-1", "2025-01", "--release"]),
             ("close", ["close"]))  # which looks at the bill that is out
    box.hears(0)
    for login, words in steps:
        ended = run_as(office, login, *words)
        assert ended[0] in (0, 1), (login, words, ended[1])
    office.sql("SELECT desk.release('2025-01-01', 'all is there'), desk.collect('house-1', 'now')")
    assert run_as(office, "publish", "work", "--only", "release", "--only", "send", *out) == (
        0, "release 2025-01: 0 2025-01: 1 houses, 1 sheets, 0 PDFs\n"
           "send 2025-01: 0 2025-01: 1 by mail, 0 to print, 0 failed\n")
    assert run_as(office, "collect", "work", "--only", "collect", *out)[0] == 0
    assert office.sql("SELECT count(*) FROM jobs WHERE ended_at IS NULL OR status <> 0") == [(0,)]
    assert run_as(office, "publish", "correct", "elm-1", "2025-01", "--why", "a second look")[0] == 0


def run_as(office: Office, login: str, *words: str) -> Tuple[int, str]:
    """A program of the office as a login of the package."""
    name, office.name = office.name, office.name.replace("user=office", f"user=mbdc-{login}")
    try:
        ended = office.run(*words)
    finally:
        office.name = name
    return ended.status, ended.printed
