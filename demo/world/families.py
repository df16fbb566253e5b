"""Meters of families that send records which the due-date table doesn't read: what each sends, and what is read of it."""

import json
import random
import struct
from collections.abc import Callable, Iterable
from typing import NamedTuple, Optional

from world.frames import Identity, bcd, header
from world.meters import Meter, Readout


class Family(NamedTuple):
    """The device type; DIF and VIB of the counter, its data for a number of last digits, and a last digit in kWh or cubic metres; other
    records as they are sent, and what is read of one of them (None: the register refuses the telegram)."""
    kind: int
    counter: str
    data: Callable[[int], bytes]
    digit: str
    others: str
    shown: Optional[str]


def of_digits(count: int) -> Callable[[int], bytes]:
    return lambda number: bcd(number, count)


def of_bytes(count: int) -> Callable[[int], bytes]:
    return lambda number: number.to_bytes(count, "little")


def real(number: int) -> bytes:
    """Data of a REAL."""
    return struct.pack("<f", number)


FAMILIES = {
    "ABB A/B 23": Family(0x02, "0E8400", of_digits(12), "0.01", "8E108400182679000000" "04A90015270000" "04A9FF810011270000" "04FDC8FF810009090000"
                         "0AFFD9000050", "100.05 W"),
    "Schneider iEM3155": Family(0x02, "0703", of_bytes(8), "0.001", "05FDC8FF810100006643", "23 V"),
    "Saia ALE3": Family(0x02, "8C1004", of_digits(8), "0.01", "8C200400000000" "02FDC9FF01ED00" "8240ACFF01EEFF", "237 V"),
    "Finder 7E": Family(0x02, "8C1004", of_digits(8), "0.01", "8C110400000000" "02FDC9FF01ED00" "8240ACFF01EEFF", "-180 W"),
    "Sensostar": Family(0x04, "0406", of_bytes(4), "1", "055B6666B242", "89.2 C-flow"),
    "Calec": Family(0x04, "0506", real, "1", "052B0000803F", "1 W"),
    "Hydrus": Family(0x07, "0413", of_bytes(4), "0.001", "04933C10000000", "0.016 m3"),
    "Elvaco": Family(0x1B, "02FC03485225F400", of_bytes(2), "0", "", None),  # a unit in plain text with VIFEs
}


class FamilyMeter(Meter):
    """A meter with one telegram."""

    def __init__(self, number: int, family: Family, rng: random.Random) -> None:
        super().__init__(number, number, f"F{(number - 1) % 4 + 1}", rng)
        self.identity, self.family, self.count = Identity(number, 1, family.kind), family, 4711
        self.name = str(self.identity)

    def begin_readout(self, moment: int) -> Readout:
        """Its counter, and the other records."""
        records = bytes.fromhex(self.family.counter) + self.family.data(self.count) + bytes.fromhex(self.family.others)
        self.readouts.append(Readout(self.name, moment, [header(self.identity, self.access) + records]))
        self.place = 0
        return self.readouts[-1]


def family_meters(rng: random.Random) -> dict[str, FamilyMeter]:
    """One of each family, by its name."""
    return {name: FamilyMeter(number, family, rng) for number, (name, family) in enumerate(FAMILIES.items(), 1)}


def said_of_families(polled: Iterable[str], stands: Iterable[str]) -> dict[str, list[str]]:
    """By meter the values that `values --json` has of it, each with its unit, or why `poll --json` hasn't read it."""
    told = {one["meter"]["id"]: [f"{value['value']} {value['unit']}" for value in one["reading"]["values"] + one["reading"]["also"]]
            for one in map(json.loads, stands) if one["reading"]}
    return {**told, **{event["meter"]: [event["fault"]["name"]] for event in map(json.loads, polled) if event["event"] == "failed"}}
