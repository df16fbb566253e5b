"""The office of demo/office: its database, its commands, and what people do in it."""

import datetime
import os
import pathlib
import subprocess
import sys
from typing import Any, Dict, Iterable, List, Optional, Tuple

from people.houses import UTC, ZONE, Device, House, Moment, Place, Telegram

PAGE = 2000  # readings stored at once
SECONDS = 1200


class Office:
    """The commands of an office over one database."""

    def __init__(self, programs: pathlib.Path, database: Any, mbdc: pathlib.Path, houses: List[House]) -> None:
        self.programs, self.database, self.houses = programs, database, houses
        self.environment = {**os.environ, "MBDC": str(mbdc)}
        os.environ["MBDC"] = str(mbdc)
        sys.path.insert(0, str(self.programs))
        self.coming: Dict[str, List[Tuple[Moment, Device, str, Telegram]]] = {
            house.name: list(house.telegrams()) for house in houses}
        self.serials = {house.name: 0 for house in houses}
        self.boxes = {house.name: house.name for house in houses}
        self.stored_until: Dict[str, Optional[Moment]] = {house.name: None for house in houses}
        self.run("migrate")
        self.connection = database.connect()

    def run(self, program: str, *words: str, statuses: Tuple[int, ...] = (0,)) -> str:
        done = subprocess.run([self.programs / program, "--database", self.database.name, *words], capture_output=True,
                              text=True, check=False, env=self.environment, timeout=SECONDS)
        if done.returncode not in statuses:
            raise SystemExit(f"office: {program} {' '.join(words)}: status"
                             f" {done.returncode}\n{done.stdout}{done.stderr}")
        return done.stdout

    def sql(self, query: str, *values: Any) -> List[Tuple[Any, ...]]:
        with self.connection.cursor() as cursor:
            cursor.execute(query, values or None)
            return list(cursor.fetchall()) if cursor.description else []

    # ---- the houses

    def begin(self, factors: Dict[Tuple[str, str], str]) -> None:
        """Boxes with their registers, then the houses around them."""
        for house in self.houses:
            self.sql("INSERT INTO boxes (name, command) VALUES (%s, 'false')", house.name)
            self.sql("INSERT INTO houses (house, address, zone, contact) VALUES (%s, %s, %s, 'Hausverwaltung <Büro>')",
                     house.name, house.address, ZONE)
            for place in house.places:
                device = place.devices[0]
                self.sql("INSERT INTO meters (box, identity, line, address, flat, since) VALUES (%s, %s, 1, %s, %s,"
                         " %s)",
                         house.name, device.identity, str(device.number), place.flat, device.begins)
            self.sql("UPDATE boxes SET house = %s WHERE name = %s", house.name, house.name)
            self.flats(house)
        for (name, use), factor in factors.items():
            self.sql("INSERT INTO factors (house, use, months, kwh_per_unit) VALUES (%s, %s, '[2000-01-01,)', %s)",
                     name, use, factor)

    def flats(self, house: House) -> None:
        for flat, area in house.flats.items():
            self.sql("UPDATE flats SET area_m2 = %s WHERE (house, flat) = (%s, %s)", area, house.name, flat)
            for user in house.users[flat]:
                self.sql("INSERT INTO tenancies (house, flat, days, person, language)"
                         " VALUES (%s, %s, daterange(%s, %s), %s, %s)", house.name, flat, user.begins, user.ends,
                         user.name, user.language)
        for place in house.places:
            self.first_value(place, place.devices[0])
            self.sql("UPDATE places SET weight = %s WHERE id = %s", place.weight, self.place_id(place))

    def place_id(self, place: Place) -> int:
        return int(self.sql("SELECT p.id FROM places p JOIN fittings f ON f.place = p.id WHERE f.house = %s AND"
                            " f.identity = %s", place.house, place.devices[0].identity)[0][0])

    def first_value(self, place: Place, device: Device) -> None:
        """A person notes what a meter showed when it was fitted."""
        self.sql("UPDATE fittings SET unit = %s, first_value = %s WHERE (house, identity) = (%s, %s)", device.kind.unit,
                 device.shown(device.first), place.house, device.identity)

    def exchange(self, place: Place) -> None:
        """The order SWAP is done, and a person corrects the moment and notes both values."""
        old, new = place.devices
        assert old.last is not None
        self.sql("UPDATE meters SET identity = %s, address = %s WHERE (box, identity) = (%s, %s)", new.identity,
                 str(new.number), self.boxes[place.house], old.identity)
        self.sql("UPDATE fittings SET during = tstzrange(lower(during), %s), last_value = %s, last_is_estimated = %s"
                 " WHERE (house, identity) = (%s, %s)", old.ends, old.shown(old.last), old.is_estimated, place.house,
                 old.identity)
        self.sql("UPDATE fittings SET during = tstzrange(%s, NULL) WHERE (house, identity) = (%s, %s)", new.begins,
                 place.house, new.identity)
        self.first_value(place, new)

    def strike(self, place: Place, at: Moment, device: Device) -> None:
        """A person strikes a false value."""
        self.sql("SELECT strike(d.id, 'a disturbed telegram') FROM day_values d JOIN fittings f ON f.id = d.fitting"
                 " WHERE (f.house, f.identity, d.at) = (%s, %s, %s)", place.house, device.identity, at)

    # ---- readings

    def store(self, until: Moment) -> int:
        """Stores the telegrams up to a moment, as office/collect does then, in the partition of their month."""
        import storing  # what office/ has, by the path set above
        from link import Reading
        count = 0
        for house in self.houses:
            last = until
            if house.outage is not None and house.outage[0] <= until < house.outage[1]:
                last = house.outage[0]  # since then its box isn't reached
            coming, window, box = self.coming[house.name], storing.Window(self.stored_until[house.name],
                                                                          last), self.boxes[house.name]
            while coming and coming[0][0] <= last:
                month = coming[0][0].date().replace(day=1)
                page: List[Reading] = []
                while coming and len(page) < PAGE and coming[0][0] <= last and (
                        coming[0][0].date().replace(day=1) == month):
                    at, device, flat, told = coming.pop(0)
                    self.serials[box] += 1
                    page.append(Reading(self.serials[box], device.identity, flat, ((told.stamp or at).astimezone(UTC),),
                                        (device.body(told),)))
                self.as_if_in(month, last)
                with self.connection, self.connection.cursor() as cursor:
                    storing.store_readings(cursor, box, page, window)
                count += len(page)
            self.stored_until[house.name] = last
        return count

    def replace(self, house: House) -> None:
        """The house's box gets a new image, and a new name: office/replace-box, but for the box."""
        old, new = self.boxes[house.name], f"{self.boxes[house.name]}-b"
        self.sql("UPDATE boxes SET active = false WHERE name = %s", old)
        self.sql("INSERT INTO boxes (name, command, house) VALUES (%s, 'false', %s)", new, house.name)
        self.sql("INSERT INTO meters (box, identity, line, address, flat) SELECT %s, identity, line, address, flat"
                 " FROM meters WHERE box = %s", new, old)
        self.boxes[house.name], self.serials[new] = new, 0

    def as_if_in(self, month: datetime.date, moment: Moment) -> None:
        """What is stored now belongs to that month, and to the collection of that moment: not to a later one, too."""
        self.sql("SELECT make_months(%s, 1)", month)
        for table in ("readings", "points", "due_readings"):
            self.sql(f"ALTER TABLE {table} ALTER COLUMN month SET DEFAULT %s", month)
        self.sql("ALTER TABLE readings ALTER COLUMN stored_at SET DEFAULT %s", moment)

    # ---- what the database says

    def tokens(self) -> Iterable[Tuple[str, str, datetime.date, str]]:
        """Of each tenancy its house, flat, first day and token."""
        return [(row[0], row[1], row[2], row[3]) for row in self.sql(
            "SELECT house, flat, lower(days), token FROM tenancies ORDER BY id")]
