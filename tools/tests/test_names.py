"""The names of crates, and what the fifteen stand on."""

import types
from collections.abc import Callable

import pytest

Tool = Callable[[str], types.ModuleType]


@pytest.fixture
def names(tool: Tool) -> types.ModuleType:
    return tool("names")


def test_the_crates_of_a_list(names: types.ModuleType) -> None:
    assert names.crates_in("# a: b\n\ndc_address: thiserror\nmbdc_x staticlib: dc_address json\nmbdc:\n") == {
        "dc_address": ["thiserror"], "mbdc_x": ["dc_address", "json"], "mbdc": []}


def test_a_name_that_is_none_of_the_fifteen(names: types.ModuleType) -> None:
    assert not list(names.misnamed([*names.ROWS, "mbdc", "mbdc_io"]))
    found = list(names.misnamed([*(name for name in names.ROWS if name != "dc_units"), "dc_unit", "refusing", "mbdcx"]))
    assert [line.split()[0] for line in found] == ["crates/dc_unit:", "crates/mbdcx:", "crates/refusing:", "crates/dc_units"]
    assert found[-1] == "crates/dc_units is missing"


@pytest.mark.parametrize("words", ["dc_pages mbdc_log thiserror", "dc_address dc_units mbdc_change", "mbdc_io dc_roots"])
def test_what_a_crate_may_stand_on_by_its_row_and_those_below(names: types.ModuleType, words: str) -> None:
    assert not list(names.misplaced({"dc_recovery": words.split()}))


@pytest.mark.parametrize(("crate", "word"), [("dc_meters", "dc_report"), ("dc_units", "dc_linkframe"), ("dc_core", "mbdc_bus"),
                                             ("dc_core", "dc_search"), ("dc_address", "mbdc"), ("dc_linkframe", "dc_address")])
def test_a_crate_too_many(names: types.ModuleType, crate: str, word: str) -> None:
    found = list(names.misplaced({crate: ["thiserror", word]}))
    assert found == [f"crates.txt: {crate} stands on {word}, which its row in tools/names doesn't allow"]
