"""A bus line with simulated meters: which answer comes back to a request, and what the line does to both on their way."""

import collections
import random
from collections.abc import Sequence
from typing import Optional, Protocol

from world.frames import ACK, parse
from world.meters import Meter, Readout

COLLISION = b"\x00"  # what answers of several meters at once are received as
NOISE = b"\xF8\x00\xE0"  # what a meter of another speed is received as
LOST, GARBLED = 0.05, 0.02  # shares of requests and answers on a line that isn't quiet


class Port(Protocol):
    """Where answers go: a connection or a terminal."""

    def write(self, data: bytes) -> None:
        """Sends bytes to whoever is connected."""

    def close(self) -> None:
        """Ends the connection."""


class Bus:
    """Meters on one line. It loses and garbles frames unless it is quiet, and counts what happens."""

    def __init__(self, meters: Sequence[Meter], rng: random.Random) -> None:
        self.meters, self.rng, self.moment, self.is_quiet = list(meters), rng, 0, True
        self.counts: collections.Counter[str] = collections.Counter()
        self.delivered: Optional[Readout] = None  # the readout whose last telegram was delivered by the last answer

    def connect(self, port: Port) -> None:
        """Somebody is connected by this port; what an earlier one was sent isn't committed by it."""
        self.delivered = None

    def take(self) -> None:
        """A request arrives: what was delivered before is committed, as nothing else is asked before that."""
        if self.delivered:
            self.delivered.is_promised, self.delivered = True, None
        self.counts["requests"] += 1

    def reply(self, request: bytes, port: Port) -> None:
        """Takes a request, and sends the answer if there is one."""
        self.take()
        if received := self.carry(request):
            port.write(received)

    def carry(self, request: bytes) -> bytes:
        """The answer that comes back, after what the line did to both ways."""
        if self.happens("lost requests", LOST):
            return b""
        answers = self.answers(self.garbled(request))
        self.counts["telegrams"] += sum(len(it) > len(ACK) for it in answers.values())
        if len(answers) != 1 or self.happens("lost replies", LOST):
            return self.together(list(answers.values())) if len(answers) > 1 else b""
        meter, sent = answers.popitem()
        received = self.garbled(sent)
        is_whole = received == sent and len(sent) > len(ACK) and meter.is_at_last()
        self.delivered = meter.readouts[-1] if is_whole and not self.is_quiet else None
        return received

    def answers(self, request: bytes) -> dict[Meter, bytes]:
        """What each meter that answers puts on the bus."""
        frame = parse(request)
        return {meter: sent for meter in self.meters if frame and (sent := meter.hear(frame, self.moment))}

    def happens(self, what: str, share: float) -> bool:
        """Whether it happens now, by chance; counted."""
        is_now = not self.is_quiet and self.rng.random() < share
        self.counts[what] += is_now
        return is_now

    def garbled(self, data: bytes) -> bytes:
        """The bytes, or at times with one changed or dropped, so that no frame can be read."""
        if not self.happens("garbled", GARBLED):
            return data
        place = self.rng.randrange(len(data))
        changed = bytes([data[place] ^ self.rng.randrange(1, 256)])
        return data[:place] + self.rng.choice((changed, b"")) + data[place + 1:]

    def together(self, answers: list[bytes]) -> bytes:
        """What answers of several meters at once are received as."""
        return COLLISION


class Noise(Bus):
    """A line of another speed than the master's: what comes back is no frame."""

    def carry(self, request: bytes) -> bytes:
        return NOISE
