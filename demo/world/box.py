"""A box: the program in a process, killed where that is asked for, on one image; and what it prints, taken apart."""

import dataclasses
import pathlib
import signal
import subprocess
import time
from collections.abc import Iterable, Iterator, Sequence
from typing import NamedTuple, Optional, Union

WINDOW = 100  # the most readings that one line of the office shows
RUN_SECONDS = 240  # at most, of one run of the program
COMMITTED = "COMMITTED 1"

Word = Union[str, int, pathlib.Path]


@dataclasses.dataclass(frozen=True)
class Ended:
    """A run of the program that has ended: its status, the whole lines that it printed, when it ended, and the lines on
    standard error."""
    status: int
    printed: list[str]
    moment: float
    said: Sequence[str] = ()

    @property
    def was_killed(self) -> bool:
        return self.status == -signal.SIGKILL


class Shown(NamedTuple):
    """A reading as the office was shown it: reading number, meter, flat, and time stamp and body of each part."""
    number: int
    meter: str
    flat: str
    moments: set[int]
    bodies: list[bytes]


def run(words: Sequence[Word], text: str = "", killed_after: Optional[float] = None,
        seconds: float = RUN_SECONDS) -> Ended:
    """Runs a program with a text as its input, and kills it after that time where one is given.

    Ends the caller where a run that isn't to be killed takes too long."""
    with subprocess.Popen(list(map(str, words)), stdin=subprocess.PIPE, stdout=subprocess.PIPE,
                          stderr=subprocess.PIPE, text=True) as process:
        try:
            printed, said = process.communicate(text, seconds if killed_after is None else killed_after)
        except subprocess.TimeoutExpired:
            process.kill()
            printed, said = process.communicate()
    if killed_after is None and process.returncode == -signal.SIGKILL:
        raise SystemExit(f"{' '.join(map(str, words))[:80]}: it took more than {seconds} s")
    return Ended(process.returncode, printed[:printed.rfind("\n") + 1].splitlines(), time.time(), said.splitlines())


class Box:
    """The program on one image in a folder."""

    def __init__(self, mbdc: Word, folder: pathlib.Path, sectors: int) -> None:
        self.mbdc, self.folder, self.image, self.kills = mbdc, folder, folder / "house.image", 0
        subprocess.run([str(mbdc), "format", self.image, str(sectors)], check=True)

    def call(self, *words: Word, text: str = "", killed_after: Optional[float] = None) -> Ended:
        ended = run([self.mbdc, *words], text, killed_after)
        self.kills += ended.was_killed
        return ended

    def run(self, lines: Iterable[str], *words: Word, killed_after: Optional[float] = None) -> Ended:
        text = "".join(f"{line}\n" for line in lines)
        return self.call("run", self.image, "/dev/stdin", *words, text=text, killed_after=killed_after)

    def poll(self, *words: Word, killed_after: Optional[float] = None) -> Ended:
        return self.call("poll", self.image, *words, killed_after=killed_after)


def replies_of(lines: Sequence[str]) -> list[list[str]]:
    """The office's replies: each ends with its first line of OK, ERR or END. What was cut off is no reply."""
    ends = [place + 1 for place, line in enumerate(lines) if line.split()[0] in ("OK", "ERR", "END")]
    return [list(lines[begin:end]) for begin, end in zip([0, *ends], ends)]


def readings_of(lines: Sequence[str]) -> Iterator[Shown]:
    """The readings that were shown whole."""
    for place, line in enumerate(lines):
        if line.startswith("READING "):
            _, number, meter, flat, count = line.split()
            parts = [part.split() for part in lines[place + 1:place + 1 + int(count)]]
            if len(parts) == int(count):
                bodies = [bytes.fromhex(part[3]) for part in parts]
                yield Shown(int(number), meter, flat, {int(part[2]) for part in parts}, bodies)


def committed(lines: Iterable[str]) -> list[bool]:
    """For each readout that a script began, whether it printed that the last telegram is committed."""
    done: list[bool] = []
    is_last = False
    for line in lines:
        if line == "STARTED":
            done.append(False)
        elif is_last and line == COMMITTED:
            done[-1] = True
        is_last = line.startswith("PART ") and line.endswith(" LAST")
    return done
