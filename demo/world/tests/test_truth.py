"""A truth over one meter, and stories that it has to judge."""

import random

import pytest
from world.box import Ended, Shown, committed
from world.bus import Bus
from world.meters import Meter, meters_of
from world.truth import Truth


@pytest.fixture
def truth(rng: random.Random) -> Truth:
    made = Truth([Bus(meters_of(1, rng), rng)])
    made.begin()
    return made


def poll(truth: Truth, *printed: str, status: int = 0) -> Meter:
    """The meter, whose readout begins, after a poll that ended so."""
    meter, = truth.by_name.values()
    meter.begin_readout(truth.moment)
    truth.polled(Ended(status, list(printed), truth.moment))
    return meter


def show(truth: Truth, meter: Meter, number: int, flat: str = "A1", late: int = 0) -> None:
    truth.take([Shown(number, meter.name, flat, {truth.moment + late}, meter.readouts[-1].bodies)])


def test_a_reading_that_is_shown_is_no_problem_and_one_that_is_gone_is_lost(truth: Truth) -> None:
    name, = truth.by_name
    meter = poll(truth, f"READ {name} 1 1", "END 1 0")
    assert truth.lost() == [f"reading 1 of {name}"]
    show(truth, meter, 1)
    assert (truth.problems, truth.lost(), truth.doubled()) == ([], [], [])


def test_a_reading_under_two_numbers_is_doubled(truth: Truth) -> None:
    meter = poll(truth, "END 0 0")
    show(truth, meter, 1)
    show(truth, meter, 2)
    assert len(truth.doubled()) == 1


@pytest.mark.parametrize("flat, late", [("B7", 0), ("A1", 99)])
def test_another_flat_or_moment_is_a_problem(truth: Truth, flat: str, late: int) -> None:
    show(truth, poll(truth, "END 0 0"), 1, flat, late)
    assert len(truth.problems) == 1


def test_a_wrong_end_is_a_problem(truth: Truth) -> None:
    poll(truth, "END 1 0")
    poll(truth, "END 0 0", status=1)
    assert len(truth.problems) == 2


def test_a_telegram_that_was_acknowledged_is_held(truth: Truth) -> None:
    (name, meter), = truth.by_name.items()
    meter.begin_readout(truth.moment).acknowledged = 1
    for open_parts, problems in ((1, 0), (0, 1)):
        truth.registered([f"METER {name} 1 S A1 {open_parts}", "END 1"])
        assert len(truth.problems) == problems


def test_what_a_script_committed() -> None:
    lines = ["STARTED", "PART 1 MORE", "COMMITTED 1", "PART 2 LAST", "COMMITTED 1", "STARTED", "PART 1 LAST", "STARTED"]
    assert committed(lines) == [True, False, False]
