"""What a sheet and a house page say: consumptions of a month beside others, with the readings behind them.

They have no number: exporting.py asks `mbdc audit` for them, and pages print what it accepted (office/publish).
"""

import datetime
import re
from fractions import Fraction
from typing import Any, Dict, Iterable, List, NamedTuple, Optional, Sequence, Set, Tuple

from database import Cursor, Row, grouped, row_of, rows_of
from decoding import frame_of
from periods import later_month, next_month
from program import KEY, Key
from supply import RUNS, Telegram, bodies_of, seconds

MONTHS = 13  # of the chart
FEWEST_COMPARED = 3  # flats of an average, so that it tells of nobody
DECLARED = 6  # decimals of an average over several houses
NO_FACTOR, HELD = "no factor", "held"
NO_NUMBER = ("unclear", "disturbed", "missing")
MARKED = ("hand", "provisional", "estimated")  # beside the number
ENERGY, SMALLEST_OF_KWH = "energy", 3_600_000_000  # millijoules
UNITS = {ENERGY: "kWh", "volume": "m³", "allocation": "HCA"}  # by quantity, where there is no factor to kWh
DIGITS = re.compile("([0-9]+)")

# ---- what sheets are of

USERS = """
SELECT t.id, t.person, t.language, t.wants, t.token, t.house, t.flat, h.address, h.postcode, h.zone, h.category,
       h.contact, h.fuel_mix, h.co2_g_per_kwh, h.primary_factor, f.area_m2, lower(t.days) AS begins, h.advice,
       h.complaints, h.shows_costs
FROM tenancies t JOIN houses h ON h.house = t.house JOIN flats f ON f.house = t.house AND f.flat = t.flat
WHERE t.house = ANY (%s) AND t.days && daterange(%s, %s) ORDER BY t.house, t.flat, t.days"""
AMOUNTS = """
SELECT tenancy, month, use, number, begins, ends, grade, has_kwh, quantity, position, is_charted,
       CASE WHEN month = %(month)s THEN basis END AS basis
FROM month_kwh WHERE tenancy = ANY (%(users)s) AND month BETWEEN %(earliest)s AND %(month)s
ORDER BY tenancy, use, month, number, begins"""
AVERAGES = """
SELECT category, use, sum(energy) AS energy, sum(kwh) AS kwh, sum(area_m2) FILTER (WHERE kwh IS NOT NULL) AS kwh_area,
       count(kwh) AS with_kwh, sum(units) AS units, sum(area_m2) FILTER (WHERE units IS NOT NULL) AS units_area,
       count(units) AS with_units, array_agg(DISTINCT house ORDER BY house) AS houses FROM (
    SELECT h.category, u.use, u.house, f.area_m2, sum(u.kwh) AS kwh, sum(u.units) AS units,
           sum(u.amount) FILTER (WHERE u.quantity = 'energy') AS energy
    FROM month_parts u JOIN houses h ON h.house = u.house JOIN flats f ON f.house = u.house AND f.flat = u.flat
    WHERE u.month = %s AND f.area_m2 IS NOT NULL
    GROUP BY u.house, u.flat, u.use, h.category, f.area_m2
    HAVING bool_and(u.grade IN ('measured', 'zero', 'hand'))) AS of_each
GROUP BY category, use"""


# Of the flats of a category: what they consumed, their area, and how many they are; and in which houses.
Average = NamedTuple("Average", [("kwh", Optional[Fraction]), ("kwh_area", Optional[Fraction]), ("with_kwh", int),
    ("units", Optional[Fraction]), ("units_area", Optional[Fraction]), ("with_units", int), ("houses", List[str])])


Averages = Dict[Tuple[str, str], Average]  # by category and use


# A user's consumption in a month; why nothing is said of it: a place's is held, or has no factor to the unit.
Number = NamedTuple("Number", [("why", str), ("begins", datetime.datetime), ("ends", datetime.datetime)])


class Reading(NamedTuple):
    """A value that an amount comes from."""
    at: datetime.datetime
    shown: str
    unit: str
    source: str
    is_estimated: bool
    meter: str
    frame: Optional[str]  # its telegram, in hex digits, while the database has it
    id: Optional[int]  # of day_values
    run: Optional[int]  # of the meter; None of a month that an older office computed
    moment: int


# A place's part of a number
PlaceUse = NamedTuple("PlaceUse", [("number", int), ("amount", Number), ("readings", List[Reading])])


class Use(NamedTuple):
    """What a user used a flat's places of one kind for."""
    use: str
    unit: str  # kWh, m³, HCA
    months: Dict[datetime.date, Number]
    places: List[PlaceUse]
    quantity: str
    is_charted: bool


class Sheet(NamedTuple):
    """user: a tenancy, and its house."""
    user: Row
    month: datetime.date
    uses: List[Use]
    facts: "Facts"

    def price_of(self, use: Use) -> Optional[Any]:
        """The cents a unit of a use, if costs are shown."""
        price = self.facts.prices.get(use.use)
        return price.cents if self.user.shows_costs and price is not None and price.unit == use.unit else None


def exact(number: Any) -> Optional[Fraction]:
    return None if number is None else Fraction(number)


def averages_of(cursor: Cursor, month: datetime.date) -> Averages:
    return {(it.category, it.use): Average(
        exact(it.kwh) if it.energy is None else Fraction(it.energy) / SMALLEST_OF_KWH, exact(it.kwh_area), it.with_kwh,
        exact(it.units), exact(it.units_area), it.with_units, it.houses) for it in rows_of(cursor, AVERAGES, month)}


def sheets_of(cursor: Cursor, houses: List[str], month: datetime.date) -> List[Sheet]:
    """The sheets of all users of these houses in a month that has amounts."""
    users = rows_of(cursor, USERS, houses, month, next_month(month))
    found = rows_of(cursor, AMOUNTS, users=[user.id for user in users], month=month,
                    earliest=later_month(month, 1 - MONTHS))
    bases = [it for row in found for it in row.basis or []]
    frames = frames_of(cursor, bases)
    facts = facts_of(cursor, houses, month, [it["id"] for it in bases if it.get("id") is not None])
    amounts = grouped((row.tenancy, row) for row in found)
    sheets = [Sheet(user, month, uses_of(month, amounts.get(user.id, []), frames), facts[user.house]) for user in users]
    return [sheet for sheet in sheets if sheet.uses]


def uses_of(month: datetime.date, amounts: List[Row], frames: Dict[Telegram, str]) -> List[Use]:
    """The uses that have an amount in the month, in the order of a sheet."""
    found = []
    for name, by_month in ((name, grouped((row.month, row) for row in amounts if row.use == name))
                           for name in uses_in(amounts)):
        if month in by_month:
            of_month, unit = by_month[month], unit_of(by_month[month])
            numbers = {one: number_of(rows, unit) for one, rows in by_month.items()}
            places = [PlaceUse(row.number, number_of([row], unit), [reading_of(it, frames) for it in row.basis or []])
                      for row in of_month]
            found.append(Use(name, unit, numbers, places, of_month[0].quantity, of_month[0].is_charted))
    return found


def uses_in(amounts: Iterable[Row]) -> List[str]:
    """The uses that have a row, in the order of a sheet."""
    return [use for _, use in sorted({(row.position, row.use) for row in amounts})]


def unit_of(amounts: Sequence[Row]) -> str:
    """The unit of a use: kWh where each amount can be shown in it, whether there is one or not."""
    return "kWh" if all(row.has_kwh for row in amounts) else UNITS[amounts[0].quantity]


def number_of(amounts: Sequence[Row], unit: str) -> Number:
    """The number of these places together."""
    grades = {row.grade for row in amounts}
    is_held = HELD in grades and not grades.intersection(NO_NUMBER)
    why = NO_FACTOR if unit == "kWh" and not all(row.has_kwh for row in amounts) else HELD if is_held else ""
    return Number(why, min(row.begins for row in amounts), max(row.ends for row in amounts))


def declared_average(house: str, unit: str, average: Average) -> Optional[str]:
    """What a square metre consumed in several houses, rounded half up; None where it is of the house alone."""
    total, area, flats = average[:3] if unit == "kWh" else average[3:6]
    if average.houses == [house] or not area or total is None or flats < FEWEST_COMPARED:
        return None
    scaled = int(total / area * 10**DECLARED + Fraction(1, 2))
    return f"{scaled // 10**DECLARED}.{scaled % 10**DECLARED:0{DECLARED}}"


def telegram_of(basis: Dict[str, Any]) -> Optional[Telegram]:
    month, serial, part = basis["telegram"] or (None, 0, 0)
    return (month, basis["box"], serial, part) if month else None


def frames_of(cursor: Cursor, bases: List[Dict[str, Any]]) -> Dict[Telegram, str]:
    """The telegrams behind values, each as a long frame."""
    keys = {key for key in map(telegram_of, bases) if key is not None}
    bodies = bodies_of(cursor, keys)
    return {key: frame_of(bodies[key[:3]][key[3] - 1]) for key in keys if key[:3] in bodies}


def reading_of(basis: Dict[str, Any], frames: Dict[Telegram, str]) -> Reading:
    key, at = telegram_of(basis), datetime.datetime.fromisoformat(basis["at"])
    return Reading(at, basis["value"], basis["unit"], basis["source"], basis["estimated"], basis["meter"],
                   None if key is None else frames.get(key), basis.get("id"), basis.get("fitting"), seconds(at))


# ---- what is said beside amounts

PRICES = "SELECT house, use, unit, cents FROM prices WHERE house = ANY (%s) AND months @> %s"
FACTORS = "SELECT house, use, source FROM factors WHERE house = ANY (%s) AND months @> %s"
HELD_USES = "SELECT DISTINCT house, use FROM month_kwh WHERE house = ANY (%s) AND month = %s AND grade = 'held'"
DEGREES = """
SELECT h.house, d.month, d.days, d.source FROM houses h JOIN degree_days d ON d.postcode = h.postcode
WHERE h.house = ANY (%s) AND d.month = ANY (%s)"""
# The versions of a month that aren't its first one, and what the one before said
VERSIONS = """
SELECT v.house, v.version, v.why, coalesce(v.out_at, now()) AS at FROM versions v
WHERE v.house = ANY (%(houses)s) AND v.month = %(month)s AND v.version > 1
  AND v.version = version_of(v.house, v.month)"""
BEFORE = f"""
SELECT p.tenancy, {KEY}, p.text FROM published p
LEFT JOIN versions v ON (v.house, v.month, v.version) = (p.house, p.month, p.version)
WHERE p.house = ANY (%(houses)s) AND p.month = %(month)s AND p.version = version_of(p.house, p.month) - 1
  AND p.tenancy IS NOT NULL AND p.audit IS NOT DISTINCT FROM v.audit"""
HOWS = "SELECT id, how FROM day_values WHERE id = ANY (%s) AND how IS NOT NULL"
KINDS = "SELECT use, has_carbon, is_heating FROM uses"


class Facts(NamedTuple):
    """Of a house in a month."""
    prices: Dict[str, Row]  # by use: unit and cents
    factors: Dict[str, str]  # by use: who says so
    degrees: Dict[datetime.date, Row]  # by month
    carbon_uses: List[str]
    heating_uses: List[str]
    hows: Dict[int, str]  # by what an estimated value of a day was estimated
    correction: Optional[Row]  # the present version, where it isn't the first
    before: Dict[Tuple[int, Key], str]  # the numbers of the version before, by tenancy and key
    held: Set[str]  # uses with a number that a person has to see first


def facts_of(cursor: Cursor, houses: List[str], month: datetime.date, values: List[int]) -> Dict[str, Facts]:
    """values: those of days that may be estimates."""
    def of_houses(query: str, months: object) -> Dict[str, List[Row]]:
        return grouped((it.house, it) for it in rows_of(cursor, query, houses, months))
    kinds, hows = rows_of(cursor, KINDS), dict(rows_of(cursor, HOWS, values))
    of_month = {"houses": houses, "month": month}
    before = {(tenancy, Key(*key)): text for tenancy, *key, text in rows_of(cursor, BEFORE, **of_month)}
    versions = {it.house: it for it in rows_of(cursor, VERSIONS, **of_month)}
    prices, factors, held = (of_houses(query, month) for query in (PRICES, FACTORS, HELD_USES))
    degrees = of_houses(DEGREES, [month, later_month(month, -12)])
    return {house: Facts(
        {it.use: it for it in prices.get(house, [])}, {it.use: it.source for it in factors.get(house, [])},
        {it.month: it for it in degrees.get(house, [])}, [it.use for it in kinds if it.has_carbon],
        [it.use for it in kinds if it.is_heating], hows, versions.get(house), before,
        {it.use for it in held.get(house, [])}) for house in houses}


# ---- a house page

BOXES = "SELECT name, collected_at, fault FROM boxes WHERE house = %s AND active ORDER BY name"
# Each with its last value of those that the month was computed from
METERS = """
SELECT p.flat, p.use, p.number, f.identity, coalesce(w.says, '') AS says, coalesce(o.why, '') AS silence, u.grade,
       s.position, e.run, e.moment, to_timestamp(e.moment) AS at, e.of ->> 0 AS source, e.of ->> 1 AS shown,
       e.of ->> 2 AS unit
FROM places p JOIN uses s ON s.use = p.use JOIN houses h ON h.house = p.house
JOIN fittings f ON f.place = p.id AND f.during @> day_begins(%(after)s, h.zone) - interval '1 second'
LEFT JOIN LATERAL (SELECT s.says FROM meter_states s JOIN boxes b ON b.name = s.box
                   WHERE b.house = f.house AND s.identity = f.identity
                   ORDER BY s.stored_at DESC NULLS LAST LIMIT 1) w ON true
LEFT JOIN LATERAL (SELECT min(o.why) AS why FROM boxes b JOIN meters m ON m.box = b.name AND m.identity = f.identity
                   LEFT JOIN overdue o ON (o.box, o.identity) = (m.box, m.identity)
                   WHERE b.house = f.house AND b.active HAVING count(*) = count(o.why)) o ON true
LEFT JOIN month_kwh u ON u.place = p.id AND u.month = %(month)s AND u.part = 0
LEFT JOIN LATERAL (SELECT v.entries[5 * n + 1] AS run, v.entries[5 * n + 2] AS moment, v.evidence -> n AS of
                   FROM frozen_values v, generate_series(0, cardinality(v.entries) / 5 - 1) n
                   WHERE (v.place, v.month, v.version) = (p.id, %(month)s, version_of(p.house, %(month)s))
                     AND v.evidence IS NOT NULL AND v.entries[5 * n + 1] / %(runs)s = f.id
                   ORDER BY n DESC LIMIT 1) e ON true
WHERE p.house = %(house)s"""
FLAT_AMOUNTS = """
SELECT flat, use, number, begins, ends, grade, has_kwh, quantity, position FROM month_parts
WHERE house = %s AND month = %s ORDER BY use, number, begins"""
ALARMS = "SELECT since, kind, subject, facts, known_by FROM alarms WHERE house = %s AND ended_at IS NULL ORDER BY id"
PERSONS = "SELECT flat, person, token FROM tenancies WHERE house = %s AND days && daterange(%s, %s) ORDER BY flat, days"


class House(NamedTuple):
    house: str
    address: str
    zone: str
    month: datetime.date
    boxes: List[Row]
    meters: List[Row]
    alarms: List[Row]
    users: Dict[str, List[Row]]  # by flat
    uses: Dict[str, str]  # with its unit
    flats: Dict[str, Dict[str, Number]]  # by flat and use


def natural(flat: str) -> List[Tuple[int, str]]:
    """A key by which A2 comes before A10."""
    return [(int(part), "") if part.isdecimal() else (-1, part) for part in DIGITS.split(flat)]


def house_of(cursor: Cursor, house: str, month: datetime.date) -> House:
    address, zone = row_of(cursor, "SELECT address, zone FROM houses WHERE house = %s", house) or ("", "UTC")
    meters = rows_of(cursor, METERS, house=house, month=month, after=next_month(month), runs=RUNS)
    meters.sort(key=lambda it: (natural(it.flat), it.position, it.use, it.number))
    amounts = sorted(rows_of(cursor, FLAT_AMOUNTS, house, month), key=lambda it: natural(it.flat))
    of_uses = grouped((row.use, row) for row in amounts)
    units = {use: unit_of(of_uses[use]) for use in uses_in(amounts)}
    flats: Dict[str, Dict[str, Number]] = {row.flat: {} for row in amounts}
    for (flat, use), of_use in grouped(((it.flat, it.use), it) for it in amounts).items():
        flats[flat][use] = number_of(of_use, units[use])
    users = grouped((it.flat, it) for it in rows_of(cursor, PERSONS, house, month, next_month(month)))
    return House(house, address, zone, month, rows_of(cursor, BOXES, house), meters, rows_of(cursor, ALARMS, house),
                 users, units, flats)
