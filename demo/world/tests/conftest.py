"""The package of the simulated world is beside the demos."""

import pathlib
import random
import sys

import pytest

sys.path.insert(0, str(pathlib.Path(__file__).resolve().parents[2]))


@pytest.fixture
def rng() -> random.Random:
    return random.Random(1)
