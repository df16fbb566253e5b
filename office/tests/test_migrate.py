"""office/migrate: the database of 0.2.0 comes to what a new one is, and goes on; a dump (pg_dump) is restored whole."""

import pathlib
import shutil
import subprocess
from typing import Any, List, Set, Tuple

import pytest
from conftest import MOMENT, OFFICE, ROOT, TESTS, Box, Ended, Office, Server
from fleet_database import OWNER, PROGRAMS
from supplied import COLD, HEAT, Supplied, at
from test_boxes import housed
from test_schema import refused

FIRST, LAST = 25, max(int(path.stem) for path in (OFFICE / "schema").glob("[0-9]*.sql"))
MADE = ROOT / "tests/upgrade/0.2.0.tar.xz"  # by tests/upgrade/make
FILLED = """
INSERT INTO houses (house, address) VALUES ('elm', 'Elm Street 1');
INSERT INTO flats (house, flat) VALUES ('elm', 'A1');
INSERT INTO tenancies (house, flat, days, person, mail) VALUES ('elm', 'A1', '[2025-01-01,)', 'A. Person', 'x,all@b');
INSERT INTO boxes (name, command, house) VALUES ('elm', 'false', 'elm');
INSERT INTO meters (box, identity, line, address, flat) VALUES ('elm', '11111111.PAD.01.04', 1, '1', 'A1');
INSERT INTO sheets (tenancy, month, form, path, sha256, is_before_audits)
SELECT id, '2025-01-01', 'html', 'x', repeat('0', 64), true FROM tenancies WHERE house = 'elm';
INSERT INTO versions (house, month, version, why, out_at, is_before_audits)
VALUES ('elm', '2025-01-01', 1, 'first', now(), true);
INSERT INTO versions (house, month, version, why) VALUES ('elm', '2025-01-01', 2, 'late');
INSERT INTO jobs (what, words) VALUES ('release', '2025-01');
INSERT INTO published (house, month, days, version, key, text, mark)
SELECT 'elm', CASE WHEN NOT is_bill THEN date '2025-01-01' END,
    CASE WHEN is_bill THEN daterange('2025-01-01', '2025-02-01') END, 1, key, '1', 'measured'
FROM (VALUES (false, 'A1 warm water 2025-01 kWh'), (false, 'A1 warm water 2025-01 chart kWh'),
    (false, 'A1 heat average kWh'), (false, 'A1 heat change 2024-12'), (false, 'A1 heat co2'),
    (false, 'A1 warm water 2 1735686000 1738364400 m³'),
    (false, 'reading 17 1738364400'), (false, 'flat A1 warm water'), (false, 'house heat'),
    (true, 'A1 warm water 1 2025-01-01T00:00 2025-02-01T00:00 consumption')) AS k (is_bill, key);
"""
KEYS = [  # of these published numbers, as columns
    ("average", "A1", "heat", 0, "", "kWh"), ("change", "A1", "heat", 0, "2024-12", ""),
    ("chart", "A1", "warm water", 0, "2025-01", "kWh"), ("co2", "A1", "heat", 0, "", ""),
    ("consumption", "A1", "warm water", 1, "2025-01-01T00:00 2025-02-01T00:00", ""),
    ("flat", "A1", "warm water", 0, "", ""), ("house", "", "heat", 0, "", ""),
    ("month", "A1", "warm water", 0, "2025-01", "kWh"),
    ("place", "A1", "warm water", 2, "1735686000 1738364400", "m³"), ("reading", "", "", 17, "1738364400", "")]
OURS = "IN ('public'::regnamespace, 'desk'::regnamespace)"
FUNCTIONS = (f"FROM pg_proc p JOIN pg_language l ON l.oid = prolang WHERE pronamespace {OURS}"
             " AND lanname IN ('sql', 'plpgsql')")
CATALOGUE = (
    f"""SELECT 'column', attrelid::regclass::text, attname, format_type(atttypid, atttypmod), attnotnull,
        attgenerated::text, pg_get_expr(adbin, adrelid) FROM pg_attribute JOIN pg_class c ON c.oid = attrelid
        LEFT JOIN pg_attrdef ON (adrelid, adnum) = (attrelid, attnum)
        WHERE relnamespace {OURS} AND relkind IN ('r', 'p', 'v') AND attnum > 0 AND NOT attisdropped""",
    f"""SELECT 'constraint', conrelid::regclass::text, conname, pg_get_constraintdef(oid), convalidated
        FROM pg_constraint WHERE connamespace {OURS}""",
    "SELECT 'index', pg_get_indexdef(indexrelid) FROM pg_index JOIN pg_class c ON c.oid = indexrelid WHERE"
    f" relnamespace {OURS}",
    "SELECT 'view', oid::regclass::text, pg_get_viewdef(oid) FROM pg_class WHERE relkind = 'v' AND relnamespace"
    f" {OURS}",
    f"SELECT 'function', pg_get_functiondef(p.oid) {FUNCTIONS}",
    "SELECT 'trigger', pg_get_triggerdef(oid) FROM pg_trigger WHERE NOT tgisinternal",
    f"""SELECT 'right', k.what, a.grantee::regrole::text, a.privilege_type FROM (
        SELECT oid::regclass::text, coalesce(relacl, acldefault('r', relowner)) FROM pg_class WHERE relnamespace {OURS}
        UNION ALL SELECT attrelid::regclass || '.' || attname, attacl FROM pg_attribute
        JOIN pg_class c ON c.oid = attrelid WHERE relnamespace {OURS} AND NOT attisdropped
        UNION ALL SELECT nspname, nspacl FROM pg_namespace WHERE nspname = 'desk'
        UNION ALL SELECT p.oid::regprocedure::text, coalesce(proacl, acldefault('f', proowner)) {FUNCTIONS}
        ) AS k (what, acl), aclexplode(k.acl) a""",
    *(f"SELECT '{table}', to_jsonb(k)::text FROM {table} k" for table in ("uses", "units", "device_types", "limits",
                                                                          "box_commands")))


@pytest.fixture
def older(server: Server, tmp_path: pathlib.Path) -> Office:
    """The database of 0.2.0, and a house of which each kind of number is published."""
    shutil.unpack_archive(MADE, tmp_path)
    made = restored(server, (tmp_path / "office.sql").read_text(), tmp_path)
    made.sql(FILLED)
    return made


def shape(office: Office) -> Set[Tuple[Any, ...]]:
    """Tables, views, functions, triggers and rights, and the rows of every database."""
    return {row for query in CATALOGUE for row in office.sql(query)}


def test_a_filled_database_of_0_2_0(older: Office, office: Office) -> None:
    """It comes to what a new one is; what went out before there were audits stays, and what goes out since has one."""
    ended = older.run("migrate")
    assert ended == Ended(0, "look: flat A1 of elm had the address x,all@b, which is none\n" + "".join(
        f"version {path.stem.lstrip('0')}\n" for path in sorted((OFFICE / "schema").glob("0*.sql"))))
    assert shape(older) ^ shape(office) == set()
    of_elm = "WHERE house = 'elm' ORDER BY 1"
    assert older.sql(f"SELECT version, is_before_audits FROM versions {of_elm}") == [(1, True), (2, False)]
    assert older.sql(f"SELECT flat, mail FROM tenancies {of_elm}") == [("A1", None)]
    assert older.sql(f"SELECT kind, flat, use, place, period, unit FROM published {of_elm}") == KEYS
    assert older.sql("UPDATE sheets SET sent_at = now() WHERE path = 'x' RETURNING is_before_audits") == [(True,)]
    for query in ("UPDATE versions SET out_at = now() WHERE version = 2", "UPDATE sheets SET is_before_audits = false",
                  "INSERT INTO sheets (tenancy, month, form, path, sha256) SELECT id, '2025-01-01', 'pdf', 'x',"
                  " repeat('0', 64) FROM tenancies WHERE house = 'elm'",
                  "INSERT INTO bills (house, days, version, why, out_at) VALUES ('elm', '[2025-01-01,2025-02-01)', 1,"
                  " 'a', now())"):
        assert '"has_an_audit"' in refused(older, query), query
    assert "permission denied" in refused(older, "UPDATE sheets SET is_before_audits = true", role="clerk")
    box = older.box("house-3")
    assert older.order("house-3", "FIT 11111111.PAD.01.07 1 1 A1").status == 0
    box.hears(3)
    assert older.collect("house-3").status == 0
    assert older.sql("SELECT count(*) FROM readings WHERE box = 'house-3'") == [(3,)]


def test_the_office_of_0_2_0_goes_on(older: Office) -> None:
    """Its box, numbers that are out, and a month that was published and isn't."""
    texts = "SELECT month, text, mark FROM published WHERE house = 'elm-1' ORDER BY month, text, mark"
    printed = older.sql(texts)
    older.run("migrate").ok()
    assert older.sql(texts) == printed != []
    older.sql("UPDATE boxes SET command = %s WHERE name = 'elm-1'", f"{TESTS}/way {older.folder} {{box}}")
    box = Box(older.folder, "elm-1", is_new=False)
    box.hears(5, moment=MOMENT + 40_000_000)
    assert older.order("elm-1", "MOVE 08470054.PAD.3A.07 C1").status == 0
    assert older.collect("elm-1").status == 0 and box.confirmed() == 22
    assert older.sql("SELECT count(*), min(serial), max(serial) FROM readings WHERE box = 'elm-1'") == [(12, 11, 22)]
    assert older.run("bill", "elm-1", "2026-10").ok() == (older.folder / "bill.csv").read_text()
    older.run("close", "--all", "--since", "2026-10-01", "--month", "2026-10", "--month", "2026-11").ok()
    assert older.run("publish", "elm-1", "2026-11").ok() == "2026-11: 1 published, 0 refused\n"
    assert set(older.sql(texts)) >= {row for row in printed if f"{row[0]}" == "2026-10-01"}
    pages = older.folder / "pages"
    for month, audits in (("2026-11", 4), ("2026-10", 0)):  # of a month that is out, a sheet has no file
        older.run("sheets", month, "--out", str(pages), "--pdf", "none", "--house", "elm-1").ok()
        assert len(list(pages.rglob(f"sheets/*/{month}.audit"))) == audits


def test_each_function_is_whole(office: Office) -> None:
    """They are laid in any order, unread; here the database reads each."""
    for language, validator in (("sql", "fmgr_sql_validator"), ("plpgsql", "plpgsql_validator")):
        assert office.sql(f"SELECT count({validator}(p.oid)) > 20 {FUNCTIONS} AND lanname = %s", language) == [(True,)]
    assert office.run("migrate") == Ended(0, "")  # a second call does nothing
    for version in (FIRST - 1, LAST + 1):  # which is not known
        office.sql("UPDATE schema_versions SET version = %s", version)
        assert f"the database has version {version}" in office.run("migrate").ok(5)


def test_a_migration_that_fails_leaves_the_version_before_it(older: Office) -> None:
    older.sql("INSERT INTO jobs (what, words) VALUES ('collect', '--database=x')")
    before, ended = shape(older), older.run("migrate")
    assert ended.status == 4 and "words_of_its_kind" in ended.printed
    assert older.sql("SELECT max(version) FROM schema_versions") == [(FIRST,)] and shape(older) == before
    older.sql("DELETE FROM jobs")
    assert older.run("migrate").status == 0


# ---- a dump

HEAT_METER = "33333333.PAD.01.04"
MOVED = "MOVE 22222222.PAD.01.07 B7"
WITH_ROWS = ("boxes", "box_commands", "day_values", "fittings", "meters", "orders", "places", "points", "readings")


def dumped(server: Server, office: Office) -> str:
    done = subprocess.run([PROGRAMS[-1].parent / "pg_dump", "-h", server.folder, "-U", OWNER,
                           office.connection.info.dbname], capture_output=True, text=True, check=True)
    return done.stdout


def restored(server: Server, dump: str, folder: pathlib.Path) -> Office:
    """An office whose database was restored into an empty one."""
    made = Office(server, server.make(), folder)
    done = subprocess.run([PROGRAMS[-1].parent / "psql", "-q", "-v", "ON_ERROR_STOP=1", "-h", server.folder, "-U",
                           OWNER, made.connection.info.dbname], input=dump, capture_output=True, text=True, check=False)
    assert (done.returncode, done.stderr) == (0, "")
    return made


def counts(office: Office) -> List[Tuple[str, int]]:
    """The number of rows of each table."""
    names = [row[0] for row in office.sql("SELECT tablename FROM pg_tables WHERE schemaname = 'public' ORDER BY 1")]
    return [(name, office.sql(f"SELECT count(*) FROM {name}")[0][0]) for name in names]


def test_a_dump_is_restored(server: Server, office: Office, box: Box, tmp_path: pathlib.Path) -> None:
    """Every table has its rows, shape and rules, and the box doesn't differ from it."""
    housed(office)
    assert office.order("house-1", f"FIT {HEAT_METER} 1 3 A1").status == 0
    box.hears(3)
    assert office.collect().status == 0
    house = Supplied(office)
    for number, medium in ((1, HEAT), (2, COLD)):
        house.reads(house.meter(number, medium, "A1"), at("2024-01-31 23:00"), number)
    office.sql("SELECT close_houses('{elm-1}')")
    before = counts(office)
    assert all(count for name, count in before if name in WITH_ROWS)
    again = restored(server, dumped(server, office), tmp_path)
    assert counts(again) == before and shape(again) == shape(office)
    values = "SELECT fitting, day, amount FROM day_values ORDER BY id"
    assert again.sql(values) == office.sql(values) != []
    box.hears(2)
    assert again.order("house-1", MOVED).status == 0
    again.collect("house-1").ok()
    assert box.numbers()[-1] == (6, "CONFIRM 5")
