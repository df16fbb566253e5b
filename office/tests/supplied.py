"""Houses with meters and values for the office's tests, written into the database without a box."""

import datetime
import zoneinfo
from fractions import Fraction
from typing import Any, Dict, List, Optional, Tuple

from conftest import Office
from world.frames import type_g

import months
from database import Database

BERLIN = zoneinfo.ZoneInfo("Europe/Berlin")
FITTED = datetime.datetime(2024, 1, 1, tzinfo=BERLIN)
HEAT, WATER, COLD, ALLOCATOR = "04", "06", "07", "08"
WH = 3_600_000  # millijoules
UNITS = {HEAT: "Wh", WATER: "m3", COLD: "m3", ALLOCATOR: "HCA"}
VIBS = {"Wh": "03", "MWh": "FB00", "GJ": "FB08", "J": "08", "m3": "13", "HCA": "6E"}
DIGITS = {"MWh": 10, "GJ": 10, "m3": 1000}  # of a telegram's value; of others 1


def header(identity: str, status: int = 0, access: int = 1) -> bytes:
    """access: the answer's number, which no two of a meter share here: the same telegram again is an estimate."""
    number, _, version, medium = identity.split(".")
    return bytes.fromhex(number)[::-1] + bytes.fromhex(f"2440{version}{medium}") + bytes([access % 256, status, 0, 0])


def record(unit: str, value: Any, storage: int = 0) -> bytes:
    """A value as a whole number of 64 bits; one that is none of its digits can't be sent."""
    digits = Fraction(str(value)) * DIGITS.get(unit, 1)
    assert digits.denominator == 1, (value, unit)
    return bytes([0x07 | storage << 6]) + bytes.fromhex(VIBS[unit]) + int(digits).to_bytes(8, "little")


def dated(day: str) -> bytes:
    """The date of storage 1, as data type G."""
    return b"\x42\x6c" + type_g(datetime.date.fromisoformat(day))


def at(text: str) -> datetime.datetime:
    """A moment in Berlin."""
    return datetime.datetime.fromisoformat(text).replace(tzinfo=BERLIN)


class Supplied:
    """A house with one box."""

    def __init__(self, office: Office, house: str = "elm-1", category: str = "flat") -> None:
        self.office, self.house, self.box, self.serial = office, house, house, 0
        office.sql("INSERT INTO houses (house, address, category) VALUES (%s, 'Elm Street 1', %s)", house, category)
        office.sql("INSERT INTO boxes (name, command) VALUES (%s, 'false')", house)
        office.sql("UPDATE boxes SET house = %s WHERE name = %s", house, house)

    def meter(self, number: int, medium: str, flat: str, area: float = 50, since: datetime.datetime = FITTED) -> int:
        """A meter in the register; returns its fitting."""
        identity = f"{number:08}.PAD.01.{medium}"
        self.office.sql("INSERT INTO meters (box, identity, line, address, flat, since) VALUES (%s, %s, 1, %s, %s, %s)",
                        self.house, identity, str(number), flat, since)
        self.office.sql("UPDATE flats SET area_m2 = %s WHERE house = %s AND flat = %s", area, self.house, flat)
        self.office.sql("UPDATE fittings SET during = tstzrange(%s, NULL) WHERE identity = %s", since, identity)
        return int(self.office.sql("SELECT id FROM fittings WHERE identity = %s AND upper_inf(during)", identity)[0][0])

    def tenancy(self, flat: str, begins: str, ends: Optional[str], person: str = "A. Person", language: str = "de"
                ) -> int:
        return int(self.office.sql(
            "INSERT INTO tenancies (house, flat, days, person, language) VALUES (%s, %s, daterange(%s, %s), %s, %s)"
            " RETURNING id", self.house, flat, begins, ends, person, language)[0][0])

    def reads(self, fitting: int, moment: datetime.datetime, value: Any, due: Optional[Tuple[str, Any]] = None,
              unit: Optional[str] = None, status: int = 0) -> None:
        """A reading with a current value and, of a due day, the value that the meter stored at its end."""
        self.serial += 1
        box, identity = self.box, self.office.sql("SELECT identity FROM fittings WHERE id = %s", fitting)[0][0]
        unit = unit or UNITS[identity[-2:]]
        month = moment.astimezone(datetime.timezone.utc).date().replace(day=1)
        self.office.sql("SELECT make_months(%s, 1)", month)
        self.office.sql("INSERT INTO readings (month, box, serial, identity, flat, heard, at, bodies)"
                        " VALUES (%s, %s, %s, %s, 'x', %s, %s, %s)", month, box, self.serial, identity, [moment],
                        moment, [header(identity, status, self.serial) + record(unit, value)
                                 + (dated(due[0]) + record(unit, due[1], 1) if due else b"")])
        points = [(1, 0, value, None), *([(2, 1, due[1], due[0])] if due else [])]
        for place, storage, number, day in points:
            self.office.sql(
                "INSERT INTO points (month, box, serial, part, place, storage, function, tariff, subunit, vib,"
                " shown, value, unit, due) VALUES (%s, %s, %s, 1, %s, %s, 0, 0, 0, %s, %s, %s, %s, %s)", month, box,
                self.serial, place, storage, VIBS[unit], str(number), number, unit, day)
        if due:
            self.office.sql("INSERT INTO due_readings (box, identity, due, serial, month) VALUES (%s, %s, %s, %s, %s)"
                            " ON CONFLICT (box, identity, due) DO UPDATE SET serial = excluded.serial,"
                            " month = excluded.month", box, identity, due[0], self.serial, month)

    def exchange(self, old: int, number: int, moment: datetime.datetime, last: Any, first: Any = 0,
                 unit: str = "Wh") -> int:
        """A meter's place gets another one; what both stood at is noted. Returns the new one's fitting."""
        sql = self.office.sql
        identity, = sql("SELECT identity FROM fittings WHERE id = %s", old)[0]
        sql("UPDATE meters SET identity = %s WHERE (box, identity) = (%s, %s)", f"{number:08}{identity[8:]}",
            self.house, identity)
        new = int(sql("SELECT max(id) FROM fittings")[0][0])
        for fitting, during, value in ((old, "lower(during), %s", last), (new, "%s, NULL", first)):
            sql(f"UPDATE fittings SET during = tstzrange({during}), {'first_value' if fitting == new else 'last_value'}"
                " = %s, unit = %s WHERE id = %s", moment, value, unit, fitting)
        return new

    def values(self, fitting: int, values: Dict[str, Any], unit: str = "Wh") -> None:
        """Values at the ends of days, as the meter stored them, with their telegrams."""
        identity = self.office.sql("SELECT identity FROM fittings WHERE id = %s", fitting)[0][0]
        self.office.sql("SELECT make_months('2025-01-01', 1)")
        first, self.serial = self.serial + 1, self.serial + len(values)
        serials = list(range(first, first + len(values)))
        self.office.sql("INSERT INTO readings (month, box, serial, identity, flat, heard, at, bodies)"
                        " SELECT '2025-01-01', %s, serial, %s, 'x', ARRAY[day_begins(day + 1, 'Europe/Berlin')], NULL,"
                        " ARRAY[body] FROM unnest(%s::bigint[], %s::date[], %s::bytea[]) AS k (serial, day, body)",
                        self.box, identity, serials, list(values),
                        [header(identity) + dated(day) + record(unit, value, 1) for day, value in values.items()])
        self.office.sql("INSERT INTO day_values (fitting, day, at, value, unit, source, month, box, serial, part)"
                        " SELECT %s, day, day_begins(day + 1, 'Europe/Berlin'), value, %s, 'stored', '2025-01-01', %s,"
                        " serial, 1 FROM unnest(%s::bigint[], %s::date[], %s::numeric[]) AS k (serial, day, value)",
                        fitting, unit, self.box, serials, list(values), [str(value) for value in values.values()])

    def days(self, fitting: int, first: str, count: int, begin: int, step: int, unit: str = "Wh") -> None:
        """A value a day that grows by as much each day."""
        day = datetime.date.fromisoformat(first)
        self.values(fitting, {str(day + datetime.timedelta(days=number)): begin + step * number
                              for number in range(count)}, unit)

    def tells(self, fitting: int, values: Dict[str, Any], unit: str = "Wh") -> None:
        """Other values at the ends of days in the place of those that are there, in their telegrams, too."""
        identity = self.office.sql("SELECT identity FROM fittings WHERE id = %s", fitting)[0][0]
        for day, value in values.items():
            body = header(identity) + record(unit, value) + dated(day) + record(unit, value, 1)
            self.office.sql("WITH d AS (UPDATE day_values SET value = %s WHERE (fitting, day) = (%s, %s)"
                            " RETURNING month, box, serial) UPDATE readings r SET bodies = ARRAY[%s::bytea] FROM d"
                            " WHERE (r.month, r.box, r.serial) = (d.month, d.box, d.serial)", value, fitting, day, body)

    def months(self, *months: str) -> None:
        """Computes months: those that a sheet of January 2025 has."""
        for month in months or ("2024-01", "2024-12", "2025-01"):
            self.month(month)

    def month(self, month: str) -> List[Tuple[Any, ...]]:
        """Computes a month, and no other; its rows: flat, part, amount, grade, in order."""
        houses = [row[0] for row in self.office.sql("SELECT house FROM houses ORDER BY house")]
        months.written(datetime.date.fromisoformat(f"{month}-01"), Database(self.office.name, 60), houses)
        return self.office.sql(
            "SELECT p.flat, u.part, u.amount, u.grade FROM month_use u JOIN places p ON p.id = u.place"
            " WHERE u.month = %s AND p.house = %s ORDER BY p.flat, p.use, p.number, u.part", f"{month}-01", self.house)
