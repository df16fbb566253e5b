"""Houses of an office with a dozen troubles, for demo/morning: written into the database, as the last collection left
it."""

import datetime
from typing import Any, NamedTuple, Optional

HOUSES = """
INSERT INTO houses (house, address, postcode, contact) SELECT 'h-' || lpad(n::text, 3, '0'), 'Ulmenstraße ' || n,
    '10115', 'Büro Ulme, 030 1234'
FROM generate_series(1, %(houses)s) n;
INSERT INTO boxes (name, command, house, collected_at, made_at) SELECT house, 'false', house,
    now() - interval '3 hours', now() - interval '1 year' FROM houses;
INSERT INTO meters (box, identity, line, address, flat, since, heard, stored_at, at, status)
SELECT h.house, lpad((1000 * substr(h.house, 3)::integer + 10 * f + k)::text, 8, '0') || '.PAD.01.' || m.medium, 1,
    (10 * f + k)::text, 'W' || f,
       %(first)s, now() - interval '4 hours', now() - interval '3 hours', now() - interval '4 hours', 0
FROM houses h, generate_series(1, %(flats)s) f, (VALUES (1, '04'), (2, '07')) AS m (k, medium);
UPDATE fittings SET during = tstzrange(%(before)s::date::timestamp AT TIME ZONE 'Europe/Berlin', NULL);
UPDATE flats SET area_m2 = 40 + 10 * substr(flat, 2)::integer;
INSERT INTO tenancies (house, flat, days, person, wants, mail) SELECT house, flat, daterange(%(first)s, NULL),
    'Familie ' || house || ' ' || flat,
       CASE WHEN flat = 'W1' THEN 'link' ELSE 'paper' END, CASE WHEN flat = 'W1' THEN house || '@example.org' END
           FROM flats;
SELECT make_months(%(first)s, 6);
INSERT INTO day_values (fitting, day, at, value, unit, source, month, box, serial, part)
SELECT f.id, d::date, day_begins(d::date + 1, 'Europe/Berlin'),
       CASE p.use WHEN 'heat' THEN 5000000 + 9000 * n + (n * 7919 + f.id * 104729) %% 2000
                  ELSE 800 + 0.25 * n + (n * 7919 + f.id * 104729) %% 97 / 1000.0 END,
       CASE p.use WHEN 'heat' THEN 'Wh' ELSE 'm3' END, 'stored', this_month(), f.house, 1, 1
FROM fittings f JOIN places p ON p.id = f.place
CROSS JOIN LATERAL (SELECT d, row_number() OVER (ORDER BY d) AS n FROM generate_series(%(first)s::date,
    %(last)s::date, interval '1 day') d) k;
INSERT INTO to_compute SELECT house, m FROM houses, unnest(ARRAY[%(before)s, %(month)s]::date[]) m;
INSERT INTO collections (begun_at, ended_at, boxes, failed, readings) VALUES (now() - interval '3 hours',
    now() - interval '170 minutes', %(houses)s, 0, 1800)"""
# The telegrams of the values, once the troubles have changed these: of a heat meter in Wh, of a water meter in litres,
# each with its day
TELEGRAMS = """
CREATE FUNCTION pg_temp.turned(digits text) RETURNS text LANGUAGE sql AS
$$SELECT string_agg(substr(digits, at, 2), '' ORDER BY at DESC) FROM generate_series(1, length(digits), 2) at$$;
UPDATE day_values SET serial = id WHERE source = 'stored';
INSERT INTO readings (month, box, serial, identity, flat, heard, bodies, stored_at)
SELECT d.month, d.box, d.serial, f.identity, 'W1', ARRAY[d.at], ARRAY[decode(pg_temp.turned(left(f.identity, 8))
    || '2440'
           || substr(f.identity, 14, 2) || right(f.identity, 2) || '00000000' || CASE d.unit WHEN 'Wh'
               THEN '4C03' ELSE '4C13' END
           || pg_temp.turned(lpad((d.value * CASE d.unit WHEN 'Wh' THEN 1 ELSE 1000 END)::bigint::text, 8, '0'))
               || '426C' || pg_temp.turned(lpad(to_hex(extract(day FROM d.day)::integer
           + ((k.year & 7) << 5) + (extract(month FROM d.day)::integer << 8) + ((k.year >> 3) << 12)), 4, '0')),
               'hex')], d.at
FROM day_values d JOIN fittings f ON f.id = d.fitting
CROSS JOIN LATERAL (SELECT extract(year FROM d.day)::integer - 2000 AS year) k
WHERE d.source = 'stored'"""
HEAT, COLD = "W1 heat", "W1 cold water"
# The fitting and the meter of a house's place
FITTING = ("(SELECT f.id FROM fittings f JOIN places p ON p.id = f.place WHERE p.house = '{house}'"
           " AND p.flat || ' ' || p.use = '{place}' ORDER BY f.id LIMIT 1)")
METER = "(SELECT f.identity FROM fittings f WHERE f.id = " + FITTING + ")"


class Trouble(NamedTuple):
    """What is wrong in a house: how it came to be, the item that shows it, what the manager does, what is mended
    outside."""
    kind: str
    made: str
    action: str
    fields: dict[str, str]
    outside: str = ""
    place: str = HEAT


class Days(NamedTuple):
    first: datetime.date
    before: datetime.date  # the month before the last one
    month: datetime.date  # the last one
    after: datetime.date
    last: datetime.date  # with values


def days_of(today: datetime.date) -> Days:
    after = today.replace(day=1)
    month = (after - datetime.timedelta(days=1)).replace(day=1)
    before = (month - datetime.timedelta(days=1)).replace(day=1)
    return Days(before - datetime.timedelta(days=1), before, month, after, today - datetime.timedelta(days=1))


def troubles_of(days: Days) -> list[Trouble]:
    """One a house, from the first one on."""
    end = days.after - datetime.timedelta(days=1)
    values = "UPDATE day_values SET value = {change} WHERE fitting = " + FITTING
    noon = f"{days.month + datetime.timedelta(days=10)}T12:00"
    return [
        Trouble("box", "UPDATE boxes SET collected_at = now() - interval '3 days', fault = 'FAILED: no route to host'"
                " WHERE name = '{house}';"
                "UPDATE meters SET heard = now() - interval '4 days', stored_at = now() - interval '4 days', at ="
                " now() - interval '4 days' WHERE box = '{house}'",
                "collect", {}, "UPDATE boxes SET collected_at = now(), fault = NULL WHERE name = '{house}';"
                "UPDATE meters SET heard = now(), stored_at = now(), at = now() WHERE box = '{house}'"),
        Trouble("silent", "UPDATE meters SET heard = now() - interval '5 days', stored_at = now() - interval '5 days',"
                " at = now() - interval '5 days' WHERE identity = " + METER, "exchange",
                {"new": "99000002.PAD.01.04", "at": f"{days.last + datetime.timedelta(days=1)}T00:30",
                 "last": str(5_011_500 + 9000 * (days.last - days.first).days), "first": "0", "unit": "Wh"},
                "UPDATE orders SET state = 'done', number = 1, answer = 'OK', ended_at = now() WHERE box = '{house}';"
                "UPDATE meters SET identity = '99000002.PAD.01.04', since = now(), heard = now(), stored_at = now(),"
                " at = now() WHERE identity = " + METER),
        Trouble("clock", "UPDATE boxes SET clock = jsonb_build_object('wrong', 3, 'of', 6, 'first', '2000-01-01"
                " 00:12'), clock_at = now() WHERE name = '{house}'", "take_over", {},
                "UPDATE boxes SET clock = NULL, clock_at = NULL WHERE name = '{house}'"),
        Trouble("disturbed", values.format(change="value + 2000", house="{house}", place="{place}") + " AND day ="
                f" '{end - datetime.timedelta(days=3)}'", "strike", {}, place=COLD),
        Trouble("turn", values.format(change=f"(value + {99_200 - turned(days) / 4}) %% 100000", house="{house}",
                                      place="{place}") + "; INSERT INTO points (box, serial, part, place, storage,"
                " function, tariff, subunit, vib, shown, value, unit) SELECT '{house}', id, 1, 1, 0, 0, 0, 0, '13',"
                " '1', 1, 'm3' FROM day_values WHERE fitting = " + FITTING,
                "declare_counter", {}, place=COLD),
        Trouble("no number", values.format(change="value + 300000", house="{house}", place="{place}") + " AND day >="
                f" '{end - datetime.timedelta(days=9)}'", "see_number", {}),
        Trouble("no use", "INSERT INTO meters (box, identity, line, address, flat, since, heard, stored_at, at,"
                " status) VALUES ('{house}', '99000007.KAM.1B.0F', 1, '99',"
                " 'W1', now() - interval '1 hour', now(), now(), now(), 0)", "decide_use", {"use": "cold water"}),
        Trouble("error", "UPDATE meters SET status = 8 WHERE identity = " + METER, "take_over", {}, "UPDATE meters SET"
                " status = 0 WHERE identity = " + METER),
        Trouble("no number", f"UPDATE fittings SET during = tstzrange(lower(during), '{noon}+01') WHERE id = "
                + FITTING + ";"
                f"DELETE FROM day_values WHERE fitting = {FITTING} AND at > '{noon}+01';"
                "INSERT INTO fittings (place, house, identity, during) SELECT place, house, '99000009.PAD.01.04',"
                f" tstzrange('{noon}+01', NULL) FROM fittings WHERE id = {FITTING};"
                "INSERT INTO day_values (fitting, day, at, value, unit, source, month, box, serial, part) SELECT f.id,"
                " d::date, day_begins(d::date + 1, 'Europe/Berlin'),"
                " 4500 + 9000 * row_number() OVER (ORDER BY d), 'Wh', 'stored', this_month(), f.house, 1, 1 FROM"
                f" fittings f, generate_series('{days.month + datetime.timedelta(days=11)}'::date,"
                f" '{days.last}'::date, interval '1 day') d WHERE f.identity = '99000009.PAD.01.04';"
                "UPDATE meters SET address = '99' WHERE identity = " + METER,
                "exchange", {"at": noon, "last": str(removed_at(days)), "first": "0", "unit": "Wh"}),
        Trouble("no number", f"DELETE FROM day_values WHERE fitting = {FITTING} AND day >"
                f" '{end - datetime.timedelta(days=9)}'", "put_value",
                {"value": "5565000", "unit": "Wh"},
                f"SELECT put_value({FITTING}, '{days.last}', {5_565_000 + 9000 * (days.last - end).days}, 'Wh', 'read"
                " at the meter')"),
        Trouble("changed", "", "correct_month", {}),
        Trouble("late", "UPDATE boxes SET late = jsonb_build_object('values', 12, 'meters', 2, 'first', '2026-01-01')"
                " WHERE name = '{house}'", "take_over", {},
                "UPDATE boxes SET late = NULL WHERE name = '{house}'"),]


def turned(days: Days) -> int:
    """The number of the day on which a counter turns."""
    return (days.after - days.first).days - 3


def put_by_hand(days: Days) -> int:
    """A value for the end of the month before the last one, a little more than the meter stored."""
    return 5_004_000 + 9000 * (days.month - days.first).days


def removed_at(days: Days) -> int:
    """What the meter stood at that was removed on the eleventh of the last month at noon."""
    return 5_005_500 + 9000 * (days.month - days.first).days + 90_000


def house_name(number: int) -> str:
    return f"h-{number:03}"


def in_words(text: str, number: int, trouble: Optional[Trouble]) -> str:
    """A statement of a trouble in its house."""
    return text.replace("{house}", house_name(number)).replace("{place}", trouble.place if trouble
                                                               else HEAT).replace("%%", "%")


def fill(cursor: Any, houses: int, flats: int, days: Days) -> None:
    """Houses whose collection came to its end, each month of which can be computed."""
    cursor.execute(HOUSES, {"houses": houses, "flats": flats, **days._asdict()})
