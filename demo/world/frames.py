"""Frames of wired M-Bus (EN 13757-2) and the data in them (EN 13757-3), as meters and masters send them."""

import datetime
from typing import NamedTuple, Optional

ACK = b"\xe5"
SHORT_START, LONG_START, STOP = 0x10, 0x68, 0x16
SHORT_LENGTH, LONG_OVERHEAD = 5, 6  # bytes of a short frame; of a long one besides its content
SND_NKE, SND_UD, RSP_UD = 0x40, 0x53, 0x08  # control bytes
REQ_UD2 = (0x5B, 0x7B)  # by the frame count bit
CI_VARIABLE, CI_SELECT, CI_DATA, CI_ERROR = 0x72, 0x52, 0x51, 0x70
SECONDARY = 0xFD  # the address of the meter that is selected
EVERYBODY = 0xFE  # the address that all meters answer to
LAST, MORE = b"\x0f", b"\x1f"  # DIFs that end the records: manufacturer data; another telegram follows


class Frame(NamedTuple):
    """A frame: control byte, address, and what follows them. A short frame has no content."""
    control: int
    address: int
    content: bytes = b""


class Identity(NamedTuple):
    """The secondary address of a meter: number, version and device type. The manufacturer is PAD."""
    number: int
    version: int = 1
    kind: int = 7

    def __str__(self) -> str:
        return f"{self.number:08}.PAD.{self.version:02X}.{self.kind:02X}"

    def wire(self) -> bytes:
        return bcd(self.number) + bytes([0x24, 0x40, self.version, self.kind])


def checksum(data: bytes) -> int:
    return sum(data) % 256


def short_frame(control: int, address: int) -> bytes:
    data = bytes([control, address])
    return bytes([SHORT_START, *data, checksum(data), STOP])


def long_frame(control: int, address: int, ci: int, body: bytes) -> bytes:
    """A long frame with that CI field and body; a body has at most 252 bytes."""
    data = bytes([control, address, ci]) + body
    return bytes([LONG_START, len(data), len(data), LONG_START, *data, checksum(data), STOP])


def answer(address: int, body: bytes, ci: int = CI_VARIABLE) -> bytes:
    """A meter's answer: the long frame of a telegram."""
    return long_frame(RSP_UD, address, ci, body)


def digits(frame: bytes) -> str:
    """A frame in hex digits, as a line of a script has it."""
    return frame.hex().upper()


def parse(data: bytes) -> Optional[Frame]:
    """The short or long frame that these bytes are; None where they are neither."""
    if len(data) == SHORT_LENGTH and data == short_frame(data[1], data[2]):
        return Frame(data[1], data[2])
    if len(data) > LONG_OVERHEAD + 2 and data == long_frame(data[4], data[5], data[6], data[7:-2]):
        return Frame(data[4], data[5], data[6:-2])
    return None


def header(identity: Identity, access: int, status: int = 0) -> bytes:
    """A telegram's header: identity, access number, status, and the signature of security mode 0."""
    return identity.wire() + bytes([access % 256, status, 0, 0])


def bcd(number: int, count: int = 8) -> bytes:
    """A number as so many BCD digits, low byte first."""
    return bytes.fromhex(f"{number:0{count}}")[::-1]


def type_g(day: datetime.date) -> bytes:
    """A date as data type G."""
    year = day.year % 100
    return bytes([day.day | (year & 7) << 5, day.month | (year >> 3) << 4])
