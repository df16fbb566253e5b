"""Simulated houses for demo/fleet, whose telegrams scripts put into their images, and what has to be in the office's
database at the end, from what the meters sent and the boxes did."""

import collections
import dataclasses
import datetime
import decimal
import pathlib
import random
import subprocess
import time
from collections.abc import Collection, Sequence
from typing import Any, Optional

from world.box import Ended, Word, committed, run
from world.frames import answer, digits, type_g
from world.meters import DUE, STORED_DATE, STORED_VOLUME, VOLUME, Meter

SECTORS = 515  # of an image: readings of two weeks and more
RUN_SECONDS = 60  # at most, of one run
IN_USE, TRIES = 4, 100  # the status where another process has the image open
SECOND_READING = 900  # seconds after the first one of a day
LINE = 1
Row = tuple[Any, ...]
PROBE = "OFFICE 999999999999999999 CONFIRM 0"
REFUSED, DONE = "refused", "done"  # states of an order
OVERDUE = datetime.timedelta(days=2)  # the default of boxes.overdue_after


@dataclasses.dataclass
class Sent:
    """A readout that a meter sent to a box."""
    identity: str
    flat: str
    moment: int
    bodies: list[bytes]
    is_promised: bool = False  # its last telegram was committed


def meters_of(numbers: Sequence[int], rng: random.Random) -> list[Meter]:
    """The meters of a house, all with a primary address; each flat has two."""
    return [Meter(number, place, f"A{(place + 1) // 2}", rng) for place, number in enumerate(numbers, 1)]


class House:
    """A box with its meters, and what is true of them."""

    def __init__(self, mbdc: Word, folder: pathlib.Path, box: str, meters: Sequence[Meter]) -> None:
        self.mbdc, self.folder, self.box, self.meters = mbdc, folder, box, list(meters)
        self.sent: list[Sent] = []
        self.kills, self.seconds = 0, 0.01
        self.today: Optional[datetime.date] = None
        self.flats: dict[str, Optional[str]] = {meter.name: None for meter in meters}  # None where it isn't fitted
        subprocess.run([str(self.mbdc), "format", self.image, str(SECTORS)], check=True)
        self.write_settings()

    @property
    def image(self) -> pathlib.Path:
        return self.folder / f"{self.box}.image"

    @property
    def identity(self) -> pathlib.Path:
        """Which box it is, beside the image (packaging/office-line)."""
        return self.folder / f"{self.box}.image.identity"

    def write_settings(self) -> None:
        (self.folder / f"{self.box}.conf").write_text(f"IMAGE={self.image}\n")

    def rename(self, box: str) -> None:
        """The box goes on under another name."""
        image, identity = self.image, self.identity
        self.box = box
        image.rename(self.image)
        identity.rename(self.identity)
        self.write_settings()

    def fits(self) -> list[str]:
        return [meter.fit() for meter in self.meters]

    def run(self, lines: Sequence[str], is_to_be_killed: bool = False,
            rng: Optional[random.Random] = None) -> list[str]:
        """The whole lines that a script printed. A late copy of an order may have the image open."""
        for _ in range(TRIES):
            ended = self.run_once(lines, rng.uniform(0, self.seconds) if is_to_be_killed and rng else None)
            if ended.status != IN_USE:
                break
            time.sleep(0.05)
        if ended.status != 0 and not ended.was_killed:
            raise SystemExit(f"fleet: {self.box}: mbdc ended with status {ended.status}")
        self.kills += ended.was_killed
        return ended.printed

    def run_once(self, lines: Sequence[str], killed_after: Optional[float]) -> Ended:
        text, begun = "".join(f"{line}\n" for line in lines), time.monotonic()
        ended = run([self.mbdc, "run", self.image, "/dev/stdin"], text, killed_after, RUN_SECONDS)
        if not ended.was_killed:
            self.seconds = time.monotonic() - begun
        return ended

    def day(self, day: datetime.date, moment: int, rng: random.Random, killed: float,
            silent: Collection[str] = ()) -> None:
        """Each meter is read once, and after a kill again, unless its reading was seen to be committed."""
        if self.today != day:
            for meter in self.meters:
                meter.begin_day(day)
        self.today = day
        unread = [meter for meter in self.meters if self.flats[meter.name] and meter.name not in silent]
        unread = self.read(unread, moment, rng, rng.random() < killed)
        self.read(unread, moment + SECOND_READING, rng, False)

    def read(self, meters: Sequence[Meter], moment: int, rng: random.Random, is_to_be_killed: bool) -> list[Meter]:
        """Reads these meters; returns those whose reading wasn't seen to be committed."""
        if not meters:
            return []
        lines, begun = [f"AT {moment}"], []
        for meter in meters:
            bodies = meter.begin_readout(moment).bodies
            begun.append(Sent(meter.name, self.flats[meter.name] or "", moment, bodies))
            lines += [f"START {LINE} {meter.name}", f"HEAR {LINE} E5"]
            for body in bodies:
                lines += [f"HEAR {LINE} {digits(answer(meter.primary or 0, body))}", "COMMIT"]
        self.sent += begun
        printed = self.run(lines, is_to_be_killed, rng)
        for sent, is_promised in zip(begun, committed(printed)):
            sent.is_promised = is_promised
        for line in printed:
            if line.split(" ")[0] in ("REFUSED", "FAILED", "LINE", "AGAIN"):
                raise SystemExit(f"fleet: {self.box}: {line}")
        return [meter for meter, sent in zip(meters, begun) if not sent.is_promised]

    def register(self) -> set[tuple[str, int, str, Optional[str]]]:
        return {(meter.name, LINE, meter.address, self.flats[meter.name])
                for meter in self.meters if self.flats[meter.name]}


# ---- the truth

def litres(body: bytes, before: bytes) -> int:
    """The volume after a record's DIF and VIF."""
    at = body.index(before, 12) + len(before)
    return int(body[at:at + 4][::-1].hex())


class Truth:
    """Collects what is true, and compares the database with it."""

    def __init__(self, fleet: Any) -> None:
        self.fleet = fleet  # the one of demo/fleet
        self.problems: list[str] = []
        self.orders: list[tuple[str, str, str, bool]] = []
        self.retired: list[House] = []

    def check(self, is_so: object, text: str) -> None:
        if not is_so:
            self.problems.append(text)

    def order(self, house: House, key: str, lines: Sequence[str], status: int) -> None:
        """Orders that have ended, as office/order said."""
        for place, line in enumerate(lines, 1):
            self.orders.append((house.box, f"{key}.{place}", line, status == 0))

    def retire(self, house: House) -> None:
        """A house whose image is gone; what it sent stays true."""
        self.retired.append(house)

    def rows(self, query: str, *values: object) -> list[Row]:
        with self.fleet.server.connect().cursor() as cursor:
            cursor.execute(query, values)
            return list(cursor.fetchall())

    def count_of(self, box: str) -> int:
        return int(self.rows("SELECT count(*) FROM readings WHERE box LIKE %s", box)[0][0])

    def bytes_a_reading(self) -> float:
        sizes = [self.rows("SELECT sum(pg_total_relation_size(relid)) FROM pg_partition_tree(%s)", table)[0][0]
                 for table in ("readings", "points")]
        return float(sum(sizes) / self.count_of("%"))

    def problems_found(self) -> list[str]:
        houses = [*self.fleet.houses, *self.retired]
        readings = self.rows("SELECT box, serial, identity, flat, heard, bodies FROM readings")
        stored = collections.defaultdict(list)
        for box, serial, identity, flat, heard, bodies in readings:
            moments = {int(moment.timestamp()) for moment in heard}
            stored[box, identity, tuple(bytes(body) for body in bodies)].append((serial, flat, moments))
        sent = [(house.box, readout) for house in houses for readout in house.sent]
        counts: collections.Counter[str] = collections.Counter()
        for box, readout in sent:
            self.compare(counts, readout, stored.pop((box, readout.identity, tuple(readout.bodies)), []))
        self.check(not stored, f"{len(stored)} readings in the database were never sent, as {next(iter(stored), None)}")
        for house in self.fleet.houses:
            self.compare_box(house)
        self.compare_serials()
        self.compare_orders()
        self.compare_points(readings)
        self.compare_views()
        print(f"{len(sent)} readouts sent, {counts['promised']} committed as the boxes said, {len(readings)} readings"
              f" in the database: {counts['lost']} lost, {counts['doubled']} doubled, {len(stored)} of none")
        return self.problems

    def compare(self, counts: collections.Counter[str], readout: Sent, rows: list[Any]) -> None:
        """A readout with its rows: one, if the box said that it was committed; else one or none."""
        counts["promised"] += readout.is_promised
        counts["lost"] += readout.is_promised and not rows
        counts["doubled"] += len(rows) > 1
        self.check(rows or not readout.is_promised, f"lost {readout}")
        self.check(len(rows) <= 1, f"doubled {readout}: {rows}")
        self.check(all(row[1:] == (readout.flat, {readout.moment}) for row in rows), f"{readout} is stored as {rows}")

    def compare_box(self, house: House) -> None:
        """The box did each order that is done, has the register that they make, and nothing that isn't confirmed."""
        numbers = [row[0] for row in self.rows(
            "SELECT number FROM orders WHERE box = %s AND state = 'done' ORDER BY number", house.box)]
        (number, confirmed), = self.rows("SELECT number, confirmed FROM boxes WHERE name = %s", house.box)
        printed = house.run([PROBE, f"OFFICE WINDOW {confirmed + 1} 1", "OFFICE REGISTER"])
        register = {(words[1], int(words[2]), words[3], words[4]) for words in map(str.split, printed[2:-1])}
        self.check(printed[:2] == [f"ERR ORDER {number}", "END 0"], f"{house.box} says {printed[:2]}, not {number}")
        first = number - len(numbers) + 1 if house.box.endswith("-b") else 1  # some were done by hand
        self.check(numbers == list(range(first, number + 1)), f"{house.box}: the numbers of the orders are {numbers}")
        self.check(register == house.register(), f"{house.box}: the register is {register}")
        meters = self.rows("SELECT identity, line, address, flat FROM meters WHERE box = %s", house.box)
        self.check(set(meters) == register, f"{house.box}: the database's register is {meters}")

    def compare_serials(self) -> None:
        gaps = self.rows("SELECT box FROM readings GROUP BY box HAVING min(serial) <> 1 OR max(serial) <> count(*)")
        self.check(not gaps, f"the serials of {gaps} have gaps")
        late = self.rows("SELECT box FROM boxes b JOIN readings r ON r.box = b.name WHERE active"
                         " GROUP BY box, confirmed HAVING max(serial) <> confirmed")
        self.check(not late, f"not all of {late} is confirmed")

    def compare_orders(self) -> None:
        """Each order that was asked for stands once, as it was answered, and there is no other one."""
        rows = self.rows("SELECT box, key, line, state FROM orders WHERE key IS NOT NULL ORDER BY box, key")
        asked = sorted((box, key, line, DONE if is_done else REFUSED) for box, key, line, is_done in self.orders)
        self.check(sorted(rows) == asked, f"the orders are {set(rows) ^ set(asked)}")
        left = self.rows("SELECT box, line FROM orders WHERE state IN ('pending', 'queued')")
        self.check(not left, f"orders are left: {left}")
        refused = sum(not is_done for *_, is_done in self.orders)
        confirms = self.rows("SELECT count(*) FROM orders WHERE confirms IS NOT NULL AND state = 'done'")[0][0]
        print(f"{len(asked)} orders, {refused} of them refused, and {confirms} confirmations: each done once")

    def compare_points(self, readings: list[Row]) -> None:
        """The points of each reading: the current volume, the due date, and the volume at it."""
        points = collections.defaultdict(list)
        for box, serial, *point in self.rows("SELECT box, serial, storage, vib, value, unit FROM points"
                                             " ORDER BY box, serial, part, place"):
            points[box, serial].append(tuple(point))
        for box, serial, _, _, _, bodies in readings:
            body = b"".join(bytes(part) for part in bodies)
            now, due = (decimal.Decimal(litres(body, dif)) / 1000 for dif in (VOLUME, STORED_VOLUME))
            right = [(0, "13", now, "m3"), (1, "6C", None, None), (1, "13", due, "m3")]
            self.check(points.pop((box, serial), None) == right, f"the points of {box} {serial} aren't {right}")
        self.check(not points, f"{len(points)} readings have points and don't exist")

    def compare_views(self) -> None:
        """The due-date table of all houses, and the meters that are overdue."""
        sent = {}
        for house in [*self.fleet.houses, *self.retired]:
            due = {meter.name: meter.due_litres for meter in house.meters}
            sent.update({(house.box, it.identity): decimal.Decimal(due[it.identity]) / 1000 for it in house.sent
                         if it.is_promised and STORED_DATE + type_g(DUE) in it.bodies[-1]})
        rows = self.rows("SELECT box, identity, value FROM due_values WHERE due = %s", DUE)
        self.check(sorted(rows) == sorted((*key, value) for key, value in sent.items()),
                   f"the due-date table has {len(rows)} rows, not {len(sent)}")
        last = max((it.moment for house in self.fleet.houses for it in house.sent), default=0)
        moment = datetime.datetime.fromtimestamp(last, datetime.timezone.utc) + datetime.timedelta(hours=1)
        # (by the office's clock no stamp of a simulated day can be: here each is taken, and nothing is kept of that)
        overdue = {row[0] for row in self.rows("UPDATE meters SET at = heard, stored_at = heard; SELECT identity FROM"
                                               " overdue_at(%s)", moment)}
        heard: dict[str, int] = collections.defaultdict(int)
        for house in self.fleet.houses:
            for it in house.sent:
                heard[it.identity] = max(heard[it.identity], it.moment if it.is_promised else 0)
        late = {name for name, seen in heard.items() if seen < (moment - OVERDUE).timestamp()}
        self.check(overdue == late, f"overdue are {sorted(overdue)}, not {sorted(late)}")
        print(f"{len(rows)} values in the due-date table of all houses, {len(overdue)} meters overdue")
