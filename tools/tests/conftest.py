"""The tools are scripts without an ending: `tool` loads one as a module."""

import pathlib
import types
from collections.abc import Callable

import kit
import pytest

TOOLS = pathlib.Path(__file__).resolve().parents[1]


@pytest.fixture(scope="session")
def tool() -> Callable[[str], types.ModuleType]:
    return lambda name: kit.module_at(str(TOOLS / name), f"tool_{name}")
