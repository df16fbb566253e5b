"""A house with a meter of each family of demo/world/families.py, over two months: read at each midnight around their
ends and every third day between, over a simulated bus, polled, collected, closed, audited, and on sheets."""

import datetime
import os
import pathlib
import random
import subprocess
from decimal import Decimal
from typing import Any, Dict, List, Optional, Tuple

from people.houses import begin_of, next_month
from people.pages import NUMBER, Page
from world.box import Box
from world.bus import Bus
from world.families import FAMILIES, FamilyMeter, family_meters, said_of_families
from world.gateways import BlockGateway, TransparentGateway

ROOT = pathlib.Path(__file__).resolve().parent.parent.parent
HOUSE, SECTORS, A_DAY = "house", 2051, 50  # last digits
MONTHS = (datetime.date(2026, 1, 1), datetime.date(2026, 2, 1))
DAY = datetime.timedelta(days=1)
USES = {0x02: "electricity", 0x04: "heat", 0x07: "cold water"}


class FamilyHouse:
    def __init__(self, office: pathlib.Path, server: Any, mbdc: pathlib.Path, folder: pathlib.Path) -> None:
        self.office, self.server, self.mbdc, self.folder = office, server, mbdc, folder
        self.meters: Dict[str, FamilyMeter] = family_meters(random.Random(1))
        bus = Bus(list(self.meters.values()), random.Random(1))
        self.gateway, transparent = BlockGateway(bus), TransparentGateway(bus)
        self.gateway.start()
        transparent.start()
        self.line = ["--line", f"1={transparent.link}", "--patience", "200"]
        self.box = Box(mbdc, folder, SECTORS)
        self.told: Dict[str, List[str]] = {}
        self.problems: List[str] = []

    def days(self) -> List[datetime.date]:
        """The days at whose beginning the meters are read."""
        first, last = MONTHS[0], next_month(MONTHS[-1])
        all_days = [first + number * DAY for number in range(-4, (last - first).days + 5)]
        return [day for day in all_days if day.day % 3 == 0 or min(abs((day - it).days) for it in (*MONTHS, last)) < 4]

    def read(self) -> None:
        """The meters are registered and read by scripts at each of the days, and then polled."""
        commands = [meter.fit() for meter in self.meters.values()]
        self.box.run(f"OFFICE {number} {command}" for number, command in enumerate(commands, 1))
        for day in self.days():
            for meter in self.meters.values():
                meter.count = 4711 + A_DAY * (day - MONTHS[0] + 9 * DAY).days
            self.box.run([f"AT {int(begin_of(day).timestamp())}", *(f"POLL 1 {meter.name}"
                                                                    for meter in self.meters.values())],
                         "--gateway", self.gateway.address)
        polled = self.box.call("poll", self.box.image, *self.line, "--json")
        self.told = said_of_families(polled.printed, self.box.call("values", self.box.image, "--json").printed)

    def run(self, program: str, *words: str) -> str:
        done = subprocess.run([self.office / program, "--database", self.server.name, *words], capture_output=True,
                              text=True, check=False, env={**os.environ, "MBDC": str(self.mbdc)})
        print("\n".join(f"    {program}: {line}" for line in (done.stdout + done.stderr).splitlines()))
        return done.stdout

    def sql(self, query: str, *values: Any) -> List[Tuple[Any, ...]]:
        with self.server.connect().cursor() as cursor:
            cursor.execute(query, values or None)
            return list(cursor.fetchall()) if cursor.description else []

    def pairs(self, query: str) -> Dict[str, str]:
        return {row[0]: row[1] for row in self.sql(query)}

    def collect(self) -> None:
        """The box is known to the office, whose people say where it is, who lives there, and since when the meters were
        there."""
        (self.folder / "bin").mkdir()
        (self.folder / "bin/mbdc").symlink_to(self.mbdc)
        (self.folder / f"{HOUSE}.conf").write_text(f"IMAGE={self.box.image}\n", encoding="ascii")
        subprocess.run([self.office / "migrate", "--database", self.server.name], check=True, stdout=subprocess.DEVNULL)
        self.sql("INSERT INTO boxes (name, command) VALUES (%s, %s)", HOUSE, f"{ROOT}/demo/fleet-link {self.folder}"
                 f" {{box}}")
        self.run("collect")
        self.sql("INSERT INTO houses (house, address, contact) VALUES (%s, 'Elm Street 1', 'Elm Office, 030 1234')",
                 HOUSE)
        self.sql("UPDATE boxes SET house = name")
        self.sql("UPDATE fittings SET during = tstzrange(%s, NULL)", begin_of(self.days()[0]))
        self.sql("UPDATE flats SET area_m2 = 50")
        self.sql("INSERT INTO tenancies (house, flat, days, person, language) SELECT house, flat, daterange(%s, NULL),"
                 " 'User of ' || flat, 'en' FROM flats", self.days()[0])

    def publish(self, out: pathlib.Path, pdf: str) -> None:
        self.run("close", "--all", "--since", str(self.days()[0]))
        self.run("alarms")
        for month in MONTHS:
            self.run("publish", HOUSE, f"{month:%Y-%m}")
            self.run("sheets", f"{month:%Y-%m}", "--out", str(out), "--pdf", pdf, "--language", "en")

    def check(self, out: pathlib.Path) -> None:
        """Of each family the value of the poll, and the numbers of the sheets, or why there are none."""
        tokens = self.pairs("SELECT flat, token FROM tenancies")
        gaps = self.pairs("SELECT f.identity, string_agg(DISTINCT g.why, ', ') FROM gaps g JOIN fittings f ON f.id ="
                          " g.fitting GROUP BY 1")
        for family, meter in self.meters.items():
            told = self.told.get(meter.name, [])
            self.wants((FAMILIES[family].shown or "PlainTextExtension") in told, f"{family}: the poll says {told}")
            use, cells = USES.get(FAMILIES[family].kind), []
            for month in MONTHS if use else ():
                path = out / f"ready/sheets/{tokens[meter.flat]}/{month:%Y-%m}.html"
                page = Page(path.read_text(encoding="utf-8"))
                cells.append(" ".join(page.cells.get((use or "", str(month)), "").split()))
                self.cell(family, cells[-1], (next_month(month) - month).days, gaps.get(meter.name))
            print(f"{family}: polled {', '.join(told)}; {use or 'no use'}: {'; '.join(cells) or '-'}; gaps:"
                  f" {gaps.get(meter.name, '-')}")

    def cell(self, family: str, cell: str, days: int, gap: Optional[str]) -> None:
        """A cell has what was consumed in so many days, or words; then the office says why the meter has no value."""
        wanted = days * A_DAY * Decimal(FAMILIES[family].digit)
        number = NUMBER.search(cell)
        if number:
            self.wants(abs(Decimal(number[0].replace(",", "")) - wanted) <= Decimal("0.05"), f"{family}: {cell} and"
                       f" not {wanted}")
        else:
            self.wants(bool(cell and gap), f"{family}: neither a value nor a reason: {cell!r}, {gap}")

    def wants(self, holds: bool, what: str) -> None:
        if not holds:
            self.problems.append(what)

    def play(self, out: pathlib.Path, pdf: str) -> int:
        self.read()
        self.collect()
        self.publish(out, pdf)
        self.check(out)
        return len(self.meters)
