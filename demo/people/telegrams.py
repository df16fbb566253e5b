"""What the telegrams of a line of an audit file say, for the reference of `mbdc audit` (EN 13757-3)."""

import datetime
import functools
from fractions import Fraction
from typing import NamedTuple, Optional

EPOCH, DAY, HOUR = datetime.date(1970, 1, 1), 86_400, 3600
SIZES = {"Wh": ("energy", 3_600_000), "kWh": ("energy", 3_600_000_000), "MWh": ("energy", 3_600_000_000_000),
         "J": ("energy", 1000), "GJ": ("energy", 10**12), "m3": ("volume", 10**6), "HCA": ("units", 1000)}


class NoEvidence(Exception):
    """The telegrams of a line give no value: why."""


class Record(NamedTuple):
    storage: int
    is_main: bool  # of function, tariff and subunit 0
    field: int
    vib: bytes
    data: bytes


LENGTHS = {0: 0, 1: 1, 2: 2, 3: 3, 4: 4, 5: 4, 6: 6, 7: 8, 8: 0, 9: 1, 10: 2, 11: 3, 12: 4, 14: 6}


@functools.lru_cache(10_000)
def telegram_of(body: bytes) -> tuple[str, int, list[Record], bool]:
    """The identity, the status, the records, and whether more follow. Raises NoEvidence."""
    try:
        maker = int.from_bytes(body[4:6], "little")
        letters = "".join(chr(64 + (maker >> shift & 31)) for shift in (10, 5, 0))
        number = body[3::-1].hex()
        if len(body) < 12 or not number.isdecimal() or maker >> 15 or not letters.isalpha() or body[11] & 31:
            raise IndexError
        return f"{number}.{letters}.{body[6]:02X}.{body[7]:02X}", body[9], *records_of(body)
    except IndexError:
        raise NoEvidence("a body isn't a telegram") from None


def records_of(body: bytes) -> tuple[list[Record], bool]:
    """The records after the header, and whether more follow in the next telegram. Raises IndexError."""
    records, at = [], 12
    while at < len(body) and body[at] not in (0x0F, 0x1F):
        if body[at] == 0x2F:
            at += 1
            continue
        vif = chained(body, at)
        dif, difes = body[at], body[at + 1:vif]
        if dif & 15 == 15 or body[vif] == 0xFC:
            raise IndexError
        begins = chained(body, vif) if body[vif] != 0x7C else vif + 2 + counted(body[vif + 1])
        length = counted(body[begins]) if dif & 15 == 13 else LENGTHS[dif & 15]
        vib, begins = bare(body[vif:begins]), begins + (dif & 15 == 13)
        at = begins + length
        if at > len(body):
            raise IndexError
        storage = (dif >> 6 & 1) + sum((it & 15) << 4 * n + 1 for n, it in enumerate(difes))
        records.append(Record(storage, not dif & 0x30 and not any(it & 0x70 for it in difes), dif & 15, vib,
                              body[begins:at]))
    return records, body[at:at + 1] == b"\x1f"


def chained(body: bytes, at: int) -> int:
    """The place after bytes of which each but the last has bit 7, ten after the first at most."""
    after = next(n for n in range(at, at + 12) if not body[n] & 0x80) + 1 if at < len(body) else at + 12
    if after - at > 11:
        raise IndexError
    return after


def counted(byte: int) -> int:
    """The length of a text or number of variable length."""
    if byte >= 0xF0:
        raise IndexError
    return byte if byte < 0xC0 else byte & 15


def bare(vib: bytes) -> bytes:
    """A VIB without a VIFE 00 at its end."""
    return bytes([*vib[:-2], vib[-2] & 0x7F]) if vib[-1] == 0 and len(vib) > 1 + (vib[0] == 0xFB) else vib


def code_of(vib: bytes) -> bytes:
    """A named VIB without the VIFEs of forward and backward flow; nothing with others."""
    code = 1 + (vib[0] == 0xFB)
    return bytes([*vib[:code - 1], vib[code - 1] & 0x7F]) if all(it & 0x7F in (0x3B, 0x3C)
                                                                 for it in vib[code:]) else b""


def scale_of(vib: bytes) -> tuple[str, Fraction]:
    """The quantity of a code, and how many smallest units its last digit is."""
    code = vib[0] if len(vib) == 1 else 0x100 + vib[1] if len(vib) == 2 and vib[0] == 0xFB else -1
    for first, last, unit, power in ((0, 7, "Wh", -3), (8, 15, "J", 0), (0x10, 0x17, "m3", -6), (0x6E, 0x6E, "HCA", 0),
                                     (0x100, 0x101, "MWh", -1), (0x108, 0x109, "GJ", -1), (0x110, 0x111, "m3", 2)):
        if first <= code <= last:
            return SIZES[unit][0], SIZES[unit][1] * Fraction(10) ** (power + code - first)
    return "", Fraction()


def whole_of(record: Record) -> Optional[int]:
    """The whole number of a data field, if it has one."""
    if record.field in (1, 2, 3, 4, 6, 7):
        number = int.from_bytes(record.data, "little", signed=True)
        return None if number == -(1 << 8 * len(record.data) - 1) else number
    digits = record.data[::-1].hex()
    sign, digits = (-1, f"0{digits[1:]}") if digits[:1] == "f" else (1, digits)
    return sign * int(digits) if record.field in (9, 10, 11, 12, 14) and digits.isdecimal() else None


def date_of(record: Record) -> Optional[tuple[int, Optional[int]]]:
    """The day that a date ends, and its second if it has a time. 00:00 ends the day before."""
    day, time = record.data[-2:], record.data[:-2]
    if (record.vib, record.field) not in ((b"\x6c", 2), (b"\x6d", 4)) or time and (time[0] & 0x80 or time[0] & 63 > 59
                                                                                   or time[1] & 31 > 23):
        return None
    year, century = day[0] >> 5 | day[1] >> 4 << 3, time[1] >> 5 & 3 if time else 0
    try:
        date = datetime.date(year + (1900 + 100 * century if century else 2000 if year <= 80 else 1900), day[1] & 15,
                             day[0] & 31)
    except ValueError:
        return None
    number = (date - EPOCH).days
    if not time or year > 99:
        return (number, None) if year <= 99 else None
    seconds = HOUR * (time[1] & 31) + 60 * (time[0] & 63)
    return number - (seconds == 0), DAY * number + seconds
