"""What must be true of what a box printed and holds, from what its simulated meters sent."""

import time
from collections.abc import Iterable, Sequence

from world.box import Ended, Shown
from world.bus import Bus
from world.meters import Meter, Readout


class Truth:
    """Compares what the program printed and shows with what the meters sent."""

    def __init__(self, buses: Iterable[Bus]) -> None:
        self.buses = list(buses)
        self.by_name: dict[str, Meter] = {meter.name: meter for bus in self.buses for meter in bus.meters}
        self.promised: dict[int, str] = {}  # by reading number: its meter
        self.shown: dict[int, tuple[str, list[bytes]]] = {}  # by reading number: its meter and its bodies
        self.problems: list[str] = []
        self.moment = 0  # of the last poll
        self.spans: dict[int, int] = {}  # by the moment of a poll: when it ended

    def check(self, holds: bool, text: str) -> None:
        if not holds:
            self.problems.append(text)

    def begin(self) -> int:
        """The meters are going to be polled; returns the moment."""
        self.moment = int(time.time())
        for bus in self.buses:
            bus.moment = self.moment
        return self.moment

    def polled(self, ended: Ended) -> set[str]:
        """Takes what `poll` printed, which is committed. Returns the meters that were read."""
        self.spans[self.moment] = int(ended.moment)
        read = [line.split() for line in ended.printed if line.startswith("READ ")]
        failed = [line for line in ended.printed if line.split()[0] in ("FAILED", "REFUSED")]
        for _, name, number, _ in read:
            self.check(int(number) not in self.promised, f"reading number {number} was given before")
            self.promised[int(number)] = name
        if not ended.was_killed:
            end = f"END {len(read)} {len(failed)}"
            self.check(ended.printed[-1:] == [end], f"poll ended with {ended.printed[-1:]} and not {end}")
            self.check(ended.status == bool(failed), f"poll ended with status {ended.status}")
        return {name for _, name, _, _ in read}

    def take(self, readings: Iterable[Shown]) -> None:
        """Takes readings that the office was shown: each is one readout that its meter sent, at its second."""
        for shown in readings:
            seen = self.shown.setdefault(shown.number, (shown.meter, shown.bodies))
            self.check(seen == (shown.meter, shown.bodies), f"reading {shown.number} was another one")
            meter = self.by_name[shown.meter]
            sent = [readout for readout in meter.readouts if readout.bodies == shown.bodies]
            self.check(len(sent) == 1, f"reading {shown.number} is {len(sent)} readouts of {shown.meter}")
            for readout in sent:
                self.compare(shown, meter, readout)

    def compare(self, shown: Shown, meter: Meter, readout: Readout) -> None:
        """Compares a reading with its readout: the flat, and time stamps within the poll."""
        readout.numbers.add(shown.number)
        span = range(readout.moment, self.spans.get(readout.moment, 0) + 1)
        self.check(shown.flat == meter.flat and shown.moments <= set(span),
                   f"reading {shown.number}: {shown.flat}, {shown.moments}, {span}")

    def registered(self, rows: Sequence[str]) -> None:
        """Takes the register: a telegram after which the frame count bit was toggled is held."""
        held = {row.split()[1]: int(row.split()[-1]) for row in rows[:-1]}
        self.check(held.keys() == self.by_name.keys(), f"the register is {rows}")
        for meter in self.by_name.values():
            for last in meter.readouts[-1:]:
                self.check(bool(last.numbers) or held.get(meter.name, 0) >= last.acknowledged,
                           f"{meter.name}: {held.get(meter.name)} parts are held, and the frame count bit was toggled"
                           f" after {last.acknowledged}")

    def lost(self) -> list[str]:
        """What was promised and isn't shown."""
        named = [f"reading {number} of {name}" for number, name in self.promised.items()
                 if self.shown.get(number, ("",))[0] != name]
        return named + [str(it) for meter in self.by_name.values() for it in meter.readouts
                        if it.is_promised and not it.numbers]

    def doubled(self) -> list[str]:
        """What is shown under two reading numbers."""
        return [str(it) for meter in self.by_name.values() for it in meter.readouts if len(it.numbers) > 1]
