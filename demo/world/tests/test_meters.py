"""A meter follows EN 13757-2 and -3: the frame count bit and selection."""

import random

import pytest
from world.frames import ACK, CI_SELECT, MORE, REQ_UD2, SECONDARY, SND_NKE, SND_UD, Frame
from world.meters import Meter

MOMENT = 1_735_689_600


@pytest.fixture
def meter(rng: random.Random) -> Meter:
    made = Meter(12345678, 1, "A1", rng)
    made.telegrams = 2
    return made


def ask(meter: Meter, bit: int, address: int = 1) -> bytes:
    """What the meter answers to a request for data."""
    return meter.hear(Frame(REQ_UD2[bit], address), MOMENT)


def test_the_same_bit_repeats_and_the_other_goes_on(meter: Meter) -> None:
    assert meter.hear(Frame(SND_NKE, 1), MOMENT) == ACK
    first, again, second = ask(meter, 1), ask(meter, 1), ask(meter, 0)
    assert first == again != second
    assert first[-3:-2] == MORE and not meter.readouts[0].is_promised
    assert meter.readouts[0].acknowledged == 1 and meter.is_at_last()
    ask(meter, 1)
    assert [readout.acknowledged for readout in meter.readouts] == [2, 0]


def test_a_reset_begins_anew(meter: Meter) -> None:
    meter.hear(Frame(SND_NKE, 1), MOMENT)
    ask(meter, 1), meter.hear(Frame(SND_NKE, 1), MOMENT), ask(meter, 1)
    assert len(meter.readouts) == 2 and meter.readouts[0].acknowledged == 0


@pytest.mark.parametrize("mask, is_selected", [
    ("7856341224400107", True), ("FFFFFFFFFFFFFFFF", True), ("FF563412FFFF01FF", True), ("785634F2FFFFFFFF", True),
    ("7956341224400107", False), ("7856341224410107", False), ("7856341224400207", False), ("7856341224400106", False),
])
def test_a_mask_selects(rng: random.Random, mask: str, is_selected: bool) -> None:
    meter = Meter(12345678, None, "A1", rng)
    meter.identity = meter.identity._replace(version=1, kind=7)
    selection = Frame(SND_UD, SECONDARY, bytes([CI_SELECT]) + bytes.fromhex(mask))
    assert meter.hear(selection, MOMENT) == (ACK if is_selected else b"")
    assert bool(ask(meter, 1, SECONDARY)) == is_selected
    assert meter.hear(Frame(SND_NKE, SECONDARY), MOMENT) == (ACK if is_selected else b"")
    assert ask(meter, 1, SECONDARY) == b""
