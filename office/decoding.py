"""Decodes telegrams with `mbdc decode`, and finds the due-date value of each record (OMS Volume 2)."""

import datetime
import decimal
import json
import re
import subprocess
from typing import Any, Dict, List, NamedTuple, Optional, Sequence

from periods import DAY
from program import MBDC

DECODE_SECONDS = 60  # at most, of one run of the decoder
RSP_UD, CI_VARIABLE = 0x08, 0x72  # EN 13757-2 and -3
FUNCTIONS = ("instantaneous", "maximum", "minimum", "error")
TIME_POINT_VIFS = (0x6C, 0x6D)  # a date; a date and time (EN 13757-3)
NUMBER = re.compile(r"-?\d+(\.\d+)?")
MOMENT = re.compile(r"(\d{4}-\d\d-\d\d)(T.*)?")
MIDNIGHT = re.compile(r"T00:00(:00)?")  # which ends the day before
FLAGS, OTHER = "flags", "other"
NO_ERROR = ["no error"]  # VIFE 00, which says no more than its absence (EN 13757-3)
COUNTED = ("energy", "volume", "heat cost allocation")
UNITS = ("Wh", "MWh", "J", "GJ", "m3", "HCA")  # of the decoder's table, which has no REAL
FIRST_DAY = "0001-01-01"


class Undecoded(Exception):
    """The decoder failed, or a telegram isn't one. The box holds only telegrams that its decoder reads."""


class NoDecoder(Exception):
    """There is no decoder: another try won't find one either."""


class Point(NamedTuple):
    """A record: where it belongs, and its value."""
    storage: int
    function: int
    tariff: int
    subunit: int
    vib: str
    quantity: Optional[str]
    shown: str
    unit: Optional[str]
    is_point: bool  # of the decoder's table of units; other values aren't due-date values

    @property
    def value(self) -> Optional[decimal.Decimal]:
        """The number, exact; None where there is none, of a date, flags, and a REAL count, which no audit takes."""
        is_real = not self.is_point and self.quantity in COUNTED and self.unit in UNITS
        is_number = self.unit != FLAGS and not is_real and NUMBER.fullmatch(self.shown)
        return decimal.Decimal(self.shown) if is_number else None

    @property
    def is_time_point(self) -> bool:
        return self.is_point and int(self.vib[:2], 16) & 0x7F in TIME_POINT_VIFS

    @property
    def day(self) -> Optional[str]:
        """The day at whose end a time point lies: a moment at 00:00 ends the day before it."""
        found = MOMENT.fullmatch(self.shown)
        if not found or not self.is_time_point:
            return None
        is_day_before = found[2] and MIDNIGHT.fullmatch(found[2]) and found[1] > FIRST_DAY
        return str(datetime.date.fromisoformat(found[1]) - DAY) if is_day_before else found[1]


def frame_of(body: bytes) -> str:
    """The long frame around a telegram, in hex digits (EN 13757-2)."""
    content = bytes([RSP_UD, 0, CI_VARIABLE]) + body
    return bytes([0x68, len(content), len(content), 0x68, *content, sum(content) % 256, 0x16]).hex().upper()


def decoded(text: str) -> str:
    """What the decoder prints of a text, as JSON Lines. Raises NoDecoder and Undecoded."""
    try:
        done = subprocess.run([MBDC, "decode", "--json"], input=text, capture_output=True, text=True,
                              timeout=DECODE_SECONDS, check=False)
    except (FileNotFoundError, PermissionError) as fault:
        raise NoDecoder(f"no decoder: {MBDC}: {fault.strerror} (the variable MBDC names it)") from fault
    except (OSError, ValueError, subprocess.TimeoutExpired) as fault:
        raise Undecoded(f"{MBDC} decode: {fault}") from fault
    if done.returncode != 0:
        raise Undecoded(f"{MBDC} decode ended with status {done.returncode}")
    return done.stdout


def without_no_error(vib: str) -> str:
    """A value information block without the VIFE 00 at its end.

    >>> without_no_error("8400"), without_no_error("FB8000")
    ('04', 'FB00')
    """
    *before, code, _ = bytes.fromhex(vib)
    return bytes([*before, code & 0x7F]).hex().upper()


def point_of_object(record: Dict[str, Any]) -> Point:
    """A record from its JSON object; `reading` is point, plain or qualified (values of other tables) or other (none).

    A plain count is the meter's value, as one of the decoder's table of units is, under the code alone."""
    function = next(number for number, word in enumerate(FUNCTIONS) if word in record["function"])
    quantity = ", ".join([record["quantity"], *record.get("qualifiers", [])])
    value = OTHER if record["reading"] == OTHER else record["value"] or "none"
    is_count = (record["reading"] == "qualified" and record["qualifiers"] == NO_ERROR and record["value"] is not None
                and record["quantity"] in COUNTED)  # whose only qualifier says that there is no error
    vib = without_no_error(record["vib"]) if is_count else record["vib"]
    return Point(record["storage"], function, record["tariff"], record["subunit"], vib, quantity, value, record["unit"],
                 is_count or record["reading"] == "point")


def points_of(bodies: Sequence[bytes]) -> List[List[Point]]:
    """The records of each telegram. Raises NoDecoder and Undecoded."""
    text = "".join(f"{frame_of(body)}\n" for body in bodies)
    try:
        frames = [[point_of_object(record) for record in json.loads(line).get("records", [])]
                  for line in decoded(text).splitlines()]
    except (KeyError, IndexError, StopIteration, TypeError, ValueError) as fault:
        raise Undecoded(f"{MBDC} decode printed what can't be read: {fault!r}") from fault
    if len(frames) != len(bodies):
        raise Undecoded(f"{len(frames)} frames were decoded of {len(bodies)}")
    return frames


def due_days(points: Sequence[Point]) -> List[Optional[str]]:
    """For each record of a reading the day at which its value was stored, or None.

    A date of function 0, tariff 0 and subunit 0 dates its storage number, the first of them; storage 0 is current."""
    days: Dict[int, str] = {}
    for point in points:
        if point.day and (point.function, point.tariff, point.subunit) == (0, 0, 0):
            days.setdefault(point.storage, point.day)
    return [days.get(point.storage) if point.storage > 0 and point.is_point and not point.is_time_point else None
            for point in points]
