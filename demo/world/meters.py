"""Simulated volume meters: selected by a wildcard address or asked by a primary one, with one or two telegrams a readout."""

import dataclasses
import datetime
import random
from collections.abc import Sequence
from typing import Optional

from world.frames import (ACK, CI_DATA, CI_SELECT, CI_VARIABLE, EVERYBODY, MORE, REQ_UD2, SECONDARY, SND_NKE, SND_UD, Frame, Identity,
                          answer, bcd, header, type_g)

DUE, DUE_BEFORE = datetime.date(2024, 12, 31), datetime.date(2023, 12, 31)
VOLUME, STORED_DATE, STORED_VOLUME = b"\x0c\x13", b"\x42\x6c", b"\x4c\x13"  # DIF and VIF of each record
BUS_ADDRESS = b"\x01\x7a"  # DIF and VIF of the primary address
FRAME_COUNT = 0x20  # the bit of a control byte
ANY_DIGIT, ANY_BYTE = "f", 0xFF  # in a wildcard address
KINDS = (0x06, 0x07)  # warm water, water
GREATEST = 250  # primary address
LOW_BATTERY = 0x04  # the bit of a status byte


@dataclasses.dataclass
class Readout:
    """The telegrams that a meter has for one readout, and what became of them."""
    meter: str
    moment: int  # the readout's request, in Unix seconds
    bodies: list[bytes]
    acknowledged: int = 0  # telegrams after which the frame count bit was toggled
    is_promised: bool = False  # its last telegram was committed
    numbers: set[int] = dataclasses.field(default_factory=set)  # the reading numbers under which it was shown


class Meter:
    """A volume meter on a bus line. At the same frame count bit it repeats its telegram, at the other it goes on."""

    def __init__(self, number: int, primary: Optional[int], flat: str, rng: random.Random) -> None:
        self.rng, self.primary, self.flat, self.number, self.line = rng, primary, flat, number, 1
        self.identity = Identity(number, rng.randrange(1, 100), rng.choice(KINDS))
        self.name, self.address = str(self.identity), str(primary or "S")
        self.litres, self.telegrams, self.access = rng.randrange(80_000_000), rng.choice((1, 2)), rng.randrange(256)
        self.due, self.due_litres = DUE_BEFORE, rng.randrange(self.litres)
        self.status, self.ci = 0, CI_VARIABLE  # its status byte, and the CI of its telegrams
        self.bit: Optional[int] = None
        self.place, self.is_selected = 0, False
        self.readouts: list[Readout] = []

    def fit(self) -> str:
        """The office's command that registers the meter, without its number."""
        return f"FIT {self.name} {self.line} {self.address} {self.flat}"

    def begin_day(self, day: datetime.date) -> None:
        """Water is drawn; on the day after the due date the value of that date is stored."""
        if day == DUE + datetime.timedelta(days=1):
            self.due, self.due_litres = DUE, self.litres
        self.litres += self.rng.randrange(20, 400)

    def begin_readout(self, moment: int) -> Readout:
        self.litres += self.rng.randrange(1, 5)
        now = VOLUME + bcd(self.litres)
        due = STORED_DATE + type_g(self.due) + STORED_VOLUME + bcd(self.due_litres)
        parts = [now + due] if self.telegrams == 1 else [now + MORE, due]
        bodies = [header(self.identity, self.access + place, self.status) + part for place, part in enumerate(parts)]
        self.readouts.append(Readout(self.name, moment, bodies))
        self.place, self.access = 0, self.access + len(parts)
        return self.readouts[-1]

    def is_at_last(self) -> bool:
        """Whether the telegram that it sends is the last one of its readout."""
        return self.place == len(self.readouts[-1].bodies) - 1

    def send(self, bit: int, moment: int) -> bytes:
        """The answer to a request for data: with the same bit the last one again, with the other the next."""
        if self.bit is None:
            self.begin_readout(moment)
        elif bit != self.bit:
            self.readouts[-1].acknowledged = self.place = self.place + 1
            if self.place == len(self.readouts[-1].bodies):
                self.begin_readout(moment)
        self.bit = bit
        return answer(self.primary or 0, self.readouts[-1].bodies[self.place], self.ci)

    def matches(self, mask: bytes) -> bool:
        own = self.identity.wire()
        return (all(asked in (ANY_DIGIT, digit) for asked, digit in zip(mask[:4].hex(), own[:4].hex()))
                and mask[4:6] in (bytes([ANY_BYTE] * 2), own[4:6])
                and all(asked in (ANY_BYTE, byte) for asked, byte in zip(mask[6:], own[6:])))

    def hear(self, frame: Frame, moment: int) -> bytes:
        """What the meter puts on the bus after a frame; no byte is silence."""
        control, address, content = frame
        is_selection = control | FRAME_COUNT == SND_UD | FRAME_COUNT and len(content) == 9 and content[0] == CI_SELECT
        if address == SECONDARY and is_selection:
            return self.select(content[1:])
        if address not in (self.primary or 0, EVERYBODY) and not (address == SECONDARY and self.is_selected):
            return b""
        if control == SND_NKE:
            self.bit, self.is_selected = None, self.is_selected and address != SECONDARY
            return ACK
        if control | FRAME_COUNT == SND_UD | FRAME_COUNT and content[:3] == bytes([CI_DATA]) + BUS_ADDRESS:
            return self.move(int(bool(control & FRAME_COUNT)), content[3:])
        return self.send(REQ_UD2.index(control), moment) if control in REQ_UD2 else b""

    def move(self, bit: int, primary: bytes) -> bytes:
        """Takes a primary address from 1 to 250. At the same frame count bit (0 after a reset) it acknowledges alone."""
        if len(primary) != 1 or not 1 <= primary[0] <= GREATEST:
            return b""
        if bit != (self.bit or 0):
            self.primary = primary[0]
            self.address = str(self.primary)
        return ACK

    def select(self, mask: bytes) -> bytes:
        """Becomes selected or not; one that is selected acknowledges, and begins anew."""
        self.is_selected = self.matches(mask)
        self.bit = None if self.is_selected else self.bit
        return ACK if self.is_selected else b""


def meters_of(count: int, rng: random.Random) -> list[Meter]:
    """So many meters. Every second one has a primary address, and each flat has two of them."""
    return [Meter(number, place // 2 + 1 if place % 2 else None, f"{'ABCD'[place // 2 % 4]}{place // 8 + 1}", rng)
            for place, number in enumerate(rng.sample(range(100_000_000), count))]


def shown(meters: Sequence[Meter]) -> str:
    """A line for each meter: identity, primary address or `S`, flat."""
    return "".join(f"{it.name} {it.address} {it.flat}\n" for it in meters)
