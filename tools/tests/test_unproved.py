"""The unproved program: what is said before it is compiled, which images it writes to, and that of several first calls one
compiles it."""

import multiprocessing
import pathlib
import re
import shlex
import shutil
import time
import types
from collections.abc import Callable
from typing import Optional

import pytest

Tool = Callable[[str], types.ModuleType]
# Stands in for the program: COMMAND IMAGE writes another root, as each opening does.
PROGRAM = """#!/bin/sh
[ "$1" != format ] || head -c 2048 /dev/zero >"$2"
printf '%s' "$1 $(date +%N)" | dd of="$2" bs=1 seek=600 conv=notrunc 2>/dev/null
"""


@pytest.fixture
def unproved(tool: Tool, tmp_path: pathlib.Path, monkeypatch: pytest.MonkeyPatch) -> types.ModuleType:
    made = tool("build")
    monkeypatch.setattr(made, "KEPT", tmp_path / "kept")
    monkeypatch.setattr(made, "IMAGES", tmp_path / "images")
    (tmp_path / "kept").mkdir()
    (tmp_path / "kept" / "mbdc").write_text(PROGRAM)
    (tmp_path / "kept" / "mbdc").chmod(0o755)
    return made


def said(unproved: types.ModuleType, words: str) -> str:
    with pytest.raises(unproved.Said) as found:
        unproved.judged(shlex.split(words))
    return str(found.value)


def test_the_commands_are_those_of_the_sources(unproved: types.ModuleType) -> None:
    listed = (unproved.told.WORDS / "near.rt").read_text().partition("const COMMANDS")[2].partition(";\n")[0]
    assert re.findall(r'"(\w+)"', listed) == unproved.COMMANDS
    for name in unproved.COMMANDS:
        assert said(unproved, f"{name} --help") == said(unproved, f"help {name}") == unproved.told.help_of(name)
    assert said(unproved, "--help") == said(unproved, "-h") == said(unproved, "help")


@pytest.mark.parametrize("words, image", [
    ("", None), ("decode x", None), ("pol", None), ("formt i 131", None), ("bogus --help", None), ("help bogus", None),
    ("values i", None), ("report i register", None), ("scan tcp://a:1", None), ("--bogus", None),
    ("format i 131", "i"), ("run i s", "i"), ("poll i --line 1=tcp://a:1", "i"), ("poll --line=1=tcp://a:1 --tries 3 i", "i"),
    ("--verbose fit i l", "i"), ("fit --verbose i l", "i"), ("fit -- -i l", "-i"), ("fit i -- l", "i"), ("run -- i s", "i")])
def test_the_image_that_a_command_writes_to(unproved: types.ModuleType, words: str, image: Optional[str]) -> None:
    assert unproved.judged(shlex.split(words)).image == image


def call(unproved: types.ModuleType, command: str, image: pathlib.Path) -> int:
    """The status of a call."""
    try:
        return int(unproved.write(unproved.Asked(command, str(image)), [command, str(image)]))
    except SystemExit as ended:
        assert isinstance(ended.code, int)
        return ended.code


def test_it_writes_to_what_it_formatted(unproved: types.ModuleType, tmp_path: pathlib.Path) -> None:
    image, other = tmp_path / "image", tmp_path / "other"
    assert call(unproved, "format", image) == 0
    assert [call(unproved, "run", image) for _ in range(3)] == [0, 0, 0]
    image.rename(other)
    assert call(unproved, "poll", other) == 0


def test_it_refuses_another_image(unproved: types.ModuleType, tmp_path: pathlib.Path) -> None:
    image = tmp_path / "image"
    image.write_bytes(bytes(2048))
    assert call(unproved, "run", image) == unproved.IS_A_FAULT_OF_AN_IMAGE
    assert image.read_bytes() == bytes(2048)


def test_it_refuses_an_image_that_another_program_wrote_to(unproved: types.ModuleType, tmp_path: pathlib.Path) -> None:
    image = tmp_path / "image"
    call(unproved, "format", image)
    with open(image, "r+b") as file:
        file.seek(1024)
        file.write(b"root")
    before = image.read_bytes()
    assert call(unproved, "fit", image) == unproved.IS_A_FAULT_OF_AN_IMAGE
    assert image.read_bytes() == before


def test_it_refuses_a_copy(unproved: types.ModuleType, tmp_path: pathlib.Path) -> None:
    image, copy = tmp_path / "image", tmp_path / "copy"
    call(unproved, "format", image)
    shutil.copy2(image, copy)
    assert call(unproved, "run", copy) == unproved.IS_A_FAULT_OF_AN_IMAGE
    assert call(unproved, "run", image) == 0


def first_call(unproved: types.ModuleType, counted: pathlib.Path) -> None:
    """A first call, in a process of its own."""
    def build(sources: str) -> None:
        with open(counted, "a", encoding="utf-8") as file:
            file.write("built\n")
        time.sleep(0.2)
        (unproved.KEPT / "sources").write_text(sources)

    setattr(unproved, "compile_program", build)
    unproved.compile_once("sum")


def test_of_several_first_calls_one_compiles(unproved: types.ModuleType, tmp_path: pathlib.Path) -> None:
    counted = tmp_path / "counted"
    calls = [multiprocessing.get_context("fork").Process(target=first_call, args=(unproved, counted)) for _ in range(5)]
    for it in calls:
        it.start()
    for it in calls:
        it.join()
    assert [it.exitcode for it in calls] == [0] * 5
    assert counted.read_text() == "built\n"
    assert unproved.is_kept("sum")
    assert not unproved.is_kept("another sum")
