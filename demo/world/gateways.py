"""Ways to a simulated bus: a transparent gateway, a gateway of the block protocol, and a serial port."""

import abc
import contextlib
import os
import pathlib
import random
import socket
import threading
import tty
from typing import BinaryIO, Optional

from world.bus import Bus
from world.frames import LONG_OVERHEAD, LONG_START, SHORT_LENGTH, SHORT_START
from world.meters import meters_of

HUNG_UP = 0.0007  # share of the requests at which a block gateway hangs up
LOOPBACK = "127.0.0.1"


def free_port() -> int:
    with socket.create_server((LOOPBACK, 0)) as server:
        return int(server.getsockname()[1])


def listens(port: int) -> bool:
    with contextlib.suppress(OSError), socket.create_connection((LOOPBACK, port), 1):
        return True
    return False


def next_request(stream: BinaryIO) -> bytes:
    """The bytes of the next frame that the master sends; none where it hung up. Other bytes are passed over."""
    while first := stream.read(1):
        if first[0] == SHORT_START:
            return first + stream.read(SHORT_LENGTH - 1)
        if first[0] == LONG_START:
            length = stream.read(1)
            return first + length + stream.read(length[0] + LONG_OVERHEAD - 2) if length else b""
    return b""


class Connection:
    """A TCP connection as a port."""

    def __init__(self, connected: socket.socket) -> None:
        self.connected = connected

    def write(self, data: bytes) -> None:
        self.connected.sendall(data)

    def close(self) -> None:
        self.connected.shutdown(socket.SHUT_RDWR)


class Terminal:
    """A terminal as a port."""

    def __init__(self, number: int) -> None:
        self.number = number

    def write(self, data: bytes) -> None:
        os.write(self.number, data)

    def close(self) -> None:
        os.close(self.number)


class Gateway(threading.Thread, abc.ABC):
    """A bus behind a TCP port of 127.0.0.1, which serves one connection after the other."""

    scheme = ""  # of its links

    def __init__(self, bus: Bus, port: int = 0) -> None:
        super().__init__(daemon=True)
        self.bus, self.server = bus, socket.create_server((LOOPBACK, port))
        self.address = f"{LOOPBACK}:{self.server.getsockname()[1]}"
        self.link = f"{self.scheme}://{self.address}"

    def run(self) -> None:
        while True:
            connected, _ = self.server.accept()
            with connected, contextlib.suppress(OSError):  # the program may be killed
                connected.setsockopt(socket.IPPROTO_TCP, socket.TCP_NODELAY, 1)
                self.bus.connect(Connection(connected))
                self.serve(connected)

    @abc.abstractmethod
    def serve(self, connected: socket.socket) -> None:
        """Answers requests until the connection ends."""


class BlockGateway(Gateway):
    """A gateway of the block protocol: a request is one block, an answer is blocks up to one of length 0."""

    scheme = "blocks"

    def serve(self, connected: socket.socket) -> None:
        stream = connected.makefile("rb")
        while length := stream.read(1):
            request = stream.read(length[0])
            self.bus.take()
            if self.bus.happens("hang-ups", HUNG_UP):
                return
            connected.sendall(self.as_blocks(self.bus.carry(request)))

    def as_blocks(self, answer: bytes) -> bytes:
        """The answer, cut anywhere into blocks."""
        cuts = sorted({0, len(answer), *self.bus.rng.choices(range(len(answer) + 1), k=2)})
        blocks = [answer[begin:end] for begin, end in zip(cuts, cuts[1:])]
        return b"".join(bytes([len(block)]) + block for block in [*blocks, b""])


class TransparentGateway(Gateway):
    """A transparent gateway: what arrives goes onto the bus, and what a meter sends comes back."""

    scheme = "tcp"

    def serve(self, connected: socket.socket) -> None:
        stream, port = connected.makefile("rb"), Connection(connected)
        while request := next_request(stream):
            self.bus.reply(request, port)


def serve(count: int, kind: type[Bus] = Bus) -> TransparentGateway:
    """So many meters behind a gateway that serves until this program ends. All of them answer."""
    gateway = TransparentGateway(kind(meters_of(count, random.Random(1)), random.Random(1)))
    gateway.start()
    return gateway


class SerialPort(threading.Thread):
    """A bus behind a pseudo-terminal, which stands for a serial port: one of its own, or the one at a path."""

    def __init__(self, bus: Bus, path: Optional[pathlib.Path] = None) -> None:
        super().__init__(daemon=True)
        self.bus = bus
        if path:
            self.near, self.path = os.open(path, os.O_RDWR | os.O_NOCTTY), str(path)
            tty.setraw(self.near)
        else:
            self.near, self.far = os.openpty()
            tty.setraw(self.far)
            self.path = os.ttyname(self.far)
        self.link = f"serial:{self.path}"

    def run(self) -> None:
        port = Terminal(self.near)
        self.bus.connect(port)
        with contextlib.suppress(OSError), os.fdopen(self.near, "rb") as stream:  # it may be unplugged
            while request := next_request(stream):
                self.bus.reply(request, port)
