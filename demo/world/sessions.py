"""The sessions of tests/cases as they are played: pieces stand in place of the lines that ask for them (common.txt)."""

import pathlib
import re
from collections.abc import Iterator

CASES = pathlib.Path(__file__).resolve().parents[2] / "tests" / "cases"
PIECE = re.compile(r"^= (\S+)\n(.*?)^=$\n?", re.M | re.S)


def put(line: str, pieces: dict[str, str]) -> Iterator[str]:
    """A line, or those that it asks for."""
    if not line.startswith("@ "):
        yield from line.split(" => ") if line[:1] in ("$", ">") else [line]
        return
    name, _, words = line[2:].partition(" ")
    span = re.fullmatch(r"(\d+)\.\.(\d+)", words)
    for given in map(str, range(int(span[1]), int(span[2]) + 1)) if span else [words]:
        places = [given, *given.split()]
        for inner in pieces[name].splitlines():
            yield from put(re.sub(r"%(\d)", lambda found: places[int(found[1])], inner), pieces)


def texts() -> Iterator[str]:
    common = dict(PIECE.findall((CASES / "common.txt").read_text(encoding="utf-8")))
    for file in sorted(CASES.glob("*.txt")):
        text = file.read_text(encoding="utf-8")
        pieces = {**common, **dict(PIECE.findall(text))}
        yield "\n".join(made for line in PIECE.sub("", text).split("\n") for made in put(line, pieces))
