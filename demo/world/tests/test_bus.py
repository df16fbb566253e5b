"""What the truth of a demo rests on: when a readout counts as promised, and that a fault makes no frame of another."""

import random
from collections.abc import Sequence

from world.bus import COLLISION, Bus
from world.faults import FaultyBus
from world.frames import REQ_UD2, SND_NKE, short_frame
from world.meters import Meter, meters_of


class Kept:
    """A port that keeps nothing."""

    def write(self, data: bytes) -> None: ...

    def close(self) -> None: ...


class SureBus(Bus):
    """A line that isn't quiet, on which by chance nothing happens."""

    def __init__(self, meters: Sequence[Meter], rng: random.Random) -> None:
        super().__init__(meters, rng)
        self.is_quiet = False

    def happens(self, what: str, share: float) -> bool:
        return False


def test_answers_at_once_are_a_collision_or_their_common_bits(rng: random.Random) -> None:
    bus = Bus(meters_of(4, rng), rng)
    bus.meters[3].primary = bus.meters[1].primary
    assert bus.carry(short_frame(SND_NKE, 1)) == COLLISION
    assert FaultyBus([], rng).together([b"\x0f\xf0", b"\xff"]) == b"\x0f\xf0"


def test_garbled_bytes_are_no_frame(rng: random.Random) -> None:
    bus, frame = Bus(meters_of(4, rng), random.Random(3)), short_frame(SND_NKE, 1)
    bus.is_quiet = False
    changed = {it for _ in range(2000) if (it := bus.garbled(frame)) != frame}
    assert changed and all(bus.answers(it) == {} for it in changed)


def test_a_readout_is_promised_by_the_next_request_on_its_connection(rng: random.Random) -> None:
    for is_lost in (False, True):
        bus = SureBus(meters_of(4, rng), rng)
        bus.meters[1].telegrams = 1
        bus.reply(short_frame(REQ_UD2[1], 1), Kept())
        readout, = bus.meters[1].readouts
        assert bus.delivered is readout and not readout.is_promised
        if is_lost:
            bus.connect(Kept())
        bus.reply(short_frame(SND_NKE, 2), Kept())
        assert readout.is_promised != is_lost
