"""Faults of a transparent way to a bus: what a level converter, a network or the bus itself does to answers.

A fault says for each exchange which pieces come back, and when: seconds after the request, and bytes, or CLOSE for the
end of the connection. The way is first in, first out: a piece waits for those before it. What is under way when a
connection ends goes to the next one, as it does with ser2net.
"""

import contextlib
import functools
import itertools
import operator
import queue
import random
import threading
import time
from collections.abc import Callable, Sequence
from typing import Optional

from world.bus import Bus, Port
from world.frames import ACK, CI_ERROR, RSP_UD, SND_NKE, long_frame, short_frame
from world.meters import Meter

CLOSE = None
STALL = 0.8  # seconds: longer than the gap that ends an answer
SHARE, AGAIN = 0.3, 0.1  # of the answers; seconds to an answer's copy, at most
# Seconds after which the first acknowledgement of a selection comes, and between two: over a wire of 2,400 baud the 18
# bytes take 82.5 ms, and meters begin to answer 4.6 to 187.5 ms after a request (EN 13757-2)
FIRST, APART = 0.087, (0.005, 0.183)
NOISE, OTHERS, BABBLING = b"\x00", short_frame(SND_NKE, 251), 0.1  # no frame; another master's; seconds between two
TOO_BUSY = bytes([8])  # the application error of a meter that is too busy
SILENT_BYTE = 0xFF  # what an idle line adds to others' bits

Piece = tuple[float, Optional[bytes]]
Fault = Callable[[random.Random, bytes, bytes], list[Piece]]


def whole(rng: random.Random, request: bytes, answer: bytes) -> list[Piece]:
    """No fault."""
    return [(0, answer)]


def closes(share: float, otherwise: Fault = whole) -> Fault:
    """The connection ends within this share of the telegrams."""
    def fault(rng: random.Random, request: bytes, answer: bytes) -> list[Piece]:
        if len(answer) <= len(ACK) or rng.random() >= share:
            return otherwise(rng, request, answer)
        return [(0, answer[:rng.randrange(1, len(answer))]), (0.05, CLOSE)]
    return fault


def stalls(rng: random.Random, request: bytes, answer: bytes) -> list[Piece]:
    """A frame stops in the middle; the rest comes too late, or never."""
    if len(answer) <= len(ACK) or rng.random() >= SHARE:
        return [(0, answer)]
    cut = rng.randrange(1, len(answer))
    return [(0, answer[:cut]), (STALL, answer[cut:] if rng.random() < 0.5 else b"")]


def babbles(seconds: float) -> Fault:
    """After its first answer the line isn't quiet for so long: each tenth of a second a short frame comes."""
    noise: list[Piece] = [(place * BABBLING, OTHERS) for place in range(1, round(seconds / BABBLING))]
    return lambda rng, request, answer: [(0, answer), *noise]


def twice(rng: random.Random, request: bytes, answer: bytes) -> list[Piece]:
    """The converter gives an answer twice."""
    return [(0, answer), (rng.uniform(0, AGAIN), answer)] if rng.random() < SHARE else [(0, answer)]


def busy(every: int) -> Fault:
    """In place of one telegram of so many the meter says that it is too busy."""
    telegrams = itertools.count(1)

    def fault(rng: random.Random, request: bytes, answer: bytes) -> list[Piece]:
        if len(answer) <= len(ACK) or next(telegrams) % every:
            return [(0, answer)]
        return [(0, long_frame(RSP_UD, answer[5], CI_ERROR, TOO_BUSY))]
    return fault


def wrong_bits(share: float) -> Fault:
    """This share of the bits of answers is wrong."""
    def fault(rng: random.Random, request: bytes, answer: bytes) -> list[Piece]:
        bits = sum(1 << place for place in range(8 * len(answer)) if rng.random() < share)
        return [(0, (int.from_bytes(answer, "big") ^ bits).to_bytes(len(answer), "big"))]
    return fault


def silent(rng: random.Random, request: bytes, answer: bytes) -> list[Piece]:
    """Nobody answers."""
    return []


def apart(rng: random.Random, request: bytes, answer: bytes) -> list[Piece]:
    """Acknowledgements of several meters come one after the other."""
    if answer.strip(ACK):
        return [(0, answer)]
    moments = [FIRST + sum(rng.uniform(*APART) for _ in range(place)) for place in range(len(answer))]
    return [(moment, ACK) for moment in moments]


def echoes(rng: random.Random, request: bytes, answer: bytes) -> list[Piece]:
    """The converter sends back what it is given, in one piece with the answer or before it."""
    return [(0, request + answer)] if rng.random() < 0.5 else [(0, request), (0.03, answer)]


def late(longest: float) -> Fault:
    """An answer comes at any moment up to so many seconds after its request."""
    return lambda rng, request, answer: [(rng.uniform(0, longest) if rng.random() < SHARE else 0, answer)]


def acknowledges_late(longest: float) -> Fault:
    """An acknowledgement comes at any moment up to so many seconds after its request."""
    def fault(rng: random.Random, request: bytes, answer: bytes) -> list[Piece]:
        return [(rng.uniform(0, longest) if answer == ACK and rng.random() < SHARE else 0, answer)]
    return fault


def always_late(seconds: float) -> Fault:
    """Each answer comes so many seconds after its request."""
    return lambda rng, request, answer: [(seconds, answer)]


def one_of(*faults: Fault) -> Fault:
    """One of these faults at each exchange."""
    return lambda rng, request, answer: rng.choice(faults)(rng, request, answer)


class FaultyBus(Bus):
    """A bus whose answers have a fault on their way. Answers of several meters at once are received bit by bit; or, where
    they are apart, one acknowledgement after the other."""

    def __init__(self, meters: Sequence[Meter], rng: random.Random, fault: Fault = whole) -> None:
        super().__init__(meters, rng)
        self.fault, self.are_apart = fault, False
        self.port: Optional[Port] = None  # the newest connection
        self.under_way: queue.Queue[tuple[float, Optional[bytes]]] = queue.Queue()
        threading.Thread(target=self.send, daemon=True).start()

    def connect(self, port: Port) -> None:
        super().connect(port)
        self.port = port

    def disturb(self, seconds: float, noise: bytes = NOISE) -> None:
        """From now on bytes that begin no frame come so often."""
        def write() -> None:
            while True:
                time.sleep(seconds)
                with contextlib.suppress(OSError):
                    self.deliver(noise)
        threading.Thread(target=write, daemon=True).start()

    def together(self, answers: list[bytes]) -> bytes:
        """A meter holds the line at 0 against the others' 1."""
        if self.are_apart and all(it == ACK for it in answers):
            return ACK * len(answers)
        longest = max(map(len, answers))
        columns = zip(*(it.ljust(longest, bytes([SILENT_BYTE])) for it in answers))
        return bytes(functools.reduce(operator.and_, column) for column in columns)

    def reply(self, request: bytes, port: Port) -> None:
        """Puts the pieces of the answer on their way."""
        self.take()
        received, now = self.carry(request), time.monotonic()
        self.port, self.delivered = port, None  # a late answer may come after the next request, which then shows nothing
        for seconds, piece in self.fault(self.rng, request, received):
            self.counts["late"] += seconds > 0
            self.under_way.put((now + seconds, piece))

    def send(self) -> None:
        """Sends each piece at its moment to whoever is connected then."""
        while True:
            moment, piece = self.under_way.get()
            time.sleep(max(0, moment - time.monotonic()))
            with contextlib.suppress(OSError):  # the program may be killed
                self.deliver(piece)

    def deliver(self, piece: Optional[bytes]) -> None:
        """Sends a piece, or ends the connection."""
        if piece is CLOSE and self.port:
            self.counts["closed"] += 1
            self.port.close()
        elif piece and self.port:
            self.port.write(piece)
