"""Frames, telegrams and records as values, by the library's calls for one after the other."""

import ctypes
import dataclasses
import datetime
import decimal
import functools
import struct
import threading
from typing import Any, Optional, Union

from mbdc._library import library, next_frame, next_record, read_header

Value = Union[decimal.Decimal, datetime.date, datetime.datetime, datetime.time, str, int]
_QUANTITIES = {**dict.fromkeys((2, 4, 5, 10, 11, 12, 13), "energy"), 8: "heat cost allocation",
               **dict.fromkeys((1, 3, 6, 7, 9, 16, 19, 21, 22, 23, 40), "volume")}
_CORRECTIONS = "multiplicative correction 10^"
_SAME = ("no error", "uncorrected", "at base conditions", "multiplied by 1000")
_FORWARD = "forward flow only"

# What library/mbdc.h has: mbdc_frame; mbdc_head; mbdc_record, of it the place and size of the data, next, reading, type, error, mantissa
# and exponent, and summer_time to flags; types of values, tables, results
_FRAME, _HEAD = struct.Struct("7Q"), struct.Struct("12Q")
_RECORD, _NEXT = struct.Struct("27Q2q7Q"), 17
_FOUND, _TIME_AND_FLAGS = struct.Struct("72x2Q48x3Q24xQ24x2q"), struct.Struct("208xQ16x7Q")
_NUMBER, _DIGITS, _FLAGS, _DATE, _MINUTE, _SECOND, _TIME, _TEXT = range(1, 9)
_MEDIA, _FIXED_MEDIA = 2, 3
_FUNCTIONS, _READINGS, _TYPES, _ERRORS, _QUANTITY_NAMES, _UNITS, _VIFES, _VIFE_TEXTS, _FRAME_FAULTS, _BODY_FAULTS = range(6, 16)
_NO_UNIT = 0xFFFF
_DONE, _END, _MORE, _OTHER = range(4)
_FAULT = 16  # this and the number of a fault
_ENCRYPTED = _FAULT + 3
_EMPTY = 1  # the fault of a frame of no bytes
_VARIABLE_DATA, _FIXED_DATA = 0x72, 0x73
_FILLER = b"\x2f"
_KINDS = "none", "ack", "short", "long"
_TEXT_ROOM = 512  # bytes; no value and no name has more
_KINDS_KEPT = 4096  # kinds of records whose fields are kept
_decimal, _scaled = decimal.Decimal, decimal.Context(prec=64).scaleb  # (exact)
_Fields = dict[str, Any]
_Kind = tuple[bytes, int, int, int]


class TelegramFault(ValueError):
    """Bytes that are no frame, or a frame whose body can't be read to its end.

    `at` is the byte where it went wrong: the first one of what is no frame, or of the record, or of the data that are encrypted. `place` is
    "frame" or "body"; `number` and `name` are those of docs/COMMANDS.md.
    """

    def __init__(self, at: int, place: str, number: int) -> None:
        self.at, self.place, self.number = at, place, number
        self.name = _name(_FRAME_FAULTS if place == "frame" else _BODY_FAULTS, number)
        super().__init__(f"byte {at}: {place} fault {number} {self.name}")

    def __reduce__(self) -> tuple[Any, ...]:
        return TelegramFault, (self.at, self.place, self.number)


@dataclasses.dataclass(frozen=True)
class Meter:
    """What a telegram says of its meter (EN 13757-3). Fixed data have no manufacturer and no version.

    >>> str(Meter("12345678", "PAD", 1, "water", 7))
    '12345678.PAD.01.07'
    """

    number: str
    manufacturer: Optional[str]
    version: Optional[int]
    medium: str
    medium_code: int

    def __str__(self) -> str:
        return self.number if self.version is None else f"{self.number}.{self.manufacturer}.{self.version:02X}.{self.medium_code:02X}"


@dataclasses.dataclass(frozen=True)
class Record:
    """A data record (EN 13757-3) and what is read of it, as docs/JSON.md has it.

    `function` is a name, `vib`, `data` and `maker` are bytes. `value` is by its `type` an exact Decimal (number), an int (flags), a
    date, a datetime without a zone (minute, second), a time, or a str (digits, text, identity); None has an `error`, or the record
    isn't read (`reading` is "other").

    >>> record, = telegram(bytes.fromhex("785634122440010755000000" "04933C10000000")).records
    >>> record.value, record.unit, record.direction
    (Decimal('0.016'), 'm3', 'backward')
    """

    storage: int
    tariff: int
    subunit: int
    function: str
    vib: bytes
    data: bytes
    quantity: str
    qualifiers: tuple[str, ...]
    reading: str
    value: Optional[Value]
    unit: Optional[str]
    type: Optional[str]
    error: Optional[str]
    phase: Optional[str]
    direction: Optional[str]
    maker: Optional[bytes]
    label: Optional[str]
    summer_time: Optional[bool]


@dataclasses.dataclass(frozen=True)
class Telegram:
    """The body of a long frame after CI 72h, 73h, 78h or 7Ah (EN 13757-3).

    `access` and `status` are those of its header. `more` says that another telegram of the same readout follows (DIF 1F).
    `manufacturer_data` are the bytes after DIF 0F or 1F. `fault` is why the records end before the body does, None in `frames` with
    strict=True.

    >>> found = telegram(bytes.fromhex("785634122440010755000000" "03131531001F0102"))
    >>> str(found.meter), found.access, found.more, found.manufacturer_data
    ('12345678.PAD.01.07', 85, True, b'\\x01\\x02')
    """

    meter: Optional[Meter]
    access: Optional[int]
    status: Optional[int]
    records: tuple[Record, ...]
    more: bool
    manufacturer_data: Optional[bytes]
    fault: Optional[TelegramFault]

    @property
    def headline(self) -> tuple[Record, ...]:
        """What the meter stands at, by its device type: an energy, a volume or an allocator's value that is current, without a
        manufacturer's VIFE, a text or a phase, and with qualifiers that leave it what it is; where there is none, that of forward flow. Of
        the lowest subunit the total (tariff 0), otherwise the first of each tariff, ascending. Tariffs are never added. Empty after a
        fault.

        >>> found = telegram(bytes.fromhex("785634122440010755000000" "0413B5050000" "44130A000000"))
        >>> [str(record.value) for record in found.headline]
        ['1.461']
        """
        quantity = _QUANTITIES.get(self.meter.medium_code) if self.meter and self.meter.manufacturer and not self.fault else None
        current = [record for record in self.records if quantity and _is_candidate(record, quantity)]
        chosen = [record for record in current if not record.direction] or [record for record in current if record.direction]
        lowest = min((record.subunit for record in chosen), default=0)
        tariffs: dict[int, Record] = {}
        for record in chosen:
            if record.subunit == lowest:
                tariffs.setdefault(record.tariff, record)
        return (tariffs[0],) if 0 in tariffs else tuple(record for _, record in sorted(tariffs.items()))


def _is_candidate(record: Record, quantity: str) -> bool:
    return (record.quantity == quantity and (record.storage, record.function) == (0, "instantaneous") and record.type == "number"
            and record.value is not None and record.maker is None and record.label is None and record.phase is None
            and all(name in _SAME or name == _FORWARD or name.startswith(_CORRECTIONS) for name in record.qualifiers))


@dataclasses.dataclass(frozen=True)
class Frame:
    """A link frame (EN 13757-2), or bytes that are none.

    It has `size` bytes from the byte `at` on. `kind` is "ack", "short", "long" or "none". A short and a long frame have `control` and
    `address`, a long one `ci` and `body`, and a `telegram` after CI 72h, 73h, 78h or 7Ah. `fault` is why it is no frame, or that of its
    telegram; None in `frames` with strict=True.
    """

    at: int
    size: int
    kind: str
    control: Optional[int]
    address: Optional[int]
    ci: Optional[int]
    body: Optional[bytes]
    telegram: Optional[Telegram]
    fault: Optional[TelegramFault]


_set_fields = Record.__dict__["__dict__"].__set__


class _Space(threading.local):
    """Each thread's arguments of a call: what the library writes, and, by value, the number of bytes and the place from which on it
    looks, which is the `next` of the record that it wrote last."""

    def __init__(self) -> None:
        self.frame = ctypes.create_string_buffer(_FRAME.size)
        self.head = ctypes.create_string_buffer(_HEAD.size)
        self.record = ctypes.create_string_buffer(_RECORD.size)
        self.out = ctypes.byref(self.record)
        self.size = ctypes.c_size_t()
        self.at = ctypes.c_uint64.from_buffer(self.record, 8 * _NEXT)


_space = _Space()
_kinds: dict[_Kind, _Fields] = {}


@functools.lru_cache(maxsize=_KINDS_KEPT)
def _name(table: int, number: int) -> str:
    room = ctypes.create_string_buffer(_TEXT_ROOM)
    count: int = library.mbdc_name(table, number, room, _TEXT_ROOM)
    return room.raw[:count].decode()


def _qualifiers(vifes: bytes) -> tuple[str, ...]:
    names, after_extension = [], False
    for vife in vifes:
        names.append(_name(_VIFES, vife % 128 + 128 * after_extension))
        after_extension = not after_extension and vife == 0xFC
    return tuple(names)


@functools.lru_cache(maxsize=_KINDS_KEPT)
def _meter(number: int, manufacturer: int, version: int, medium: int, is_fixed: bool) -> Meter:
    """The meter of a header."""
    letters = "".join(chr(64 + (manufacturer >> place) % 32) for place in (10, 5, 0))
    name = _name(_FIXED_MEDIA if is_fixed else _MEDIA, medium)
    return Meter(f"{number:08}", None if is_fixed else letters, None if is_fixed else version, name, medium)


@functools.lru_cache(maxsize=None)
def _ci_field(ci: int) -> ctypes.c_uint64:
    """A CI field as a call takes it."""
    if not 0 <= ci <= 0xFF:
        raise ValueError(f"no CI field is {ci:X}h")
    return ctypes.c_uint64(ci)


def _unit(base: str, suffix: str) -> Optional[str]:
    """A unit with what VIFEs add to it."""
    if suffix and not base:
        return "1" + suffix if suffix[0] == "/" else suffix.removeprefix("*")
    return base + suffix or None


def _fields(body: bytes) -> _Fields:
    """All fields of the record that was written last, but for those that its data decide. Numbers and flags have a unit."""
    (storage, tariff, subunit, function, _, _, _, vib_at, vib_size, _, _, label_at, label_size, vifes_at, vifes_size, maker_at, maker_size,
     _, how, of_type, quantity, unit, suffix, error, phase, direction, *_) = _RECORD.unpack_from(_space.record)
    label = body[label_at:label_at + label_size][::-1].decode("latin-1") if label_at else None
    has_unit = of_type in (_NUMBER, _FLAGS)
    base = label if label and unit != _NO_UNIT and of_type == _NUMBER else _name(_UNITS, unit) if has_unit else ""
    return {
        "storage": storage, "tariff": tariff, "subunit": subunit, "function": _name(_FUNCTIONS, function),
        "vib": body[vib_at:vib_at + vib_size], "data": b"", "quantity": _name(_QUANTITY_NAMES, quantity),
        "qualifiers": _qualifiers(body[vifes_at:vifes_at + vifes_size]), "reading": _name(_READINGS, how), "value": None,
        "unit": _unit(base, _name(_VIFE_TEXTS, suffix) if has_unit else ""), "type": _name(_TYPES, of_type) or None,
        "error": _name(_ERRORS, error) or None, "phase": _name(_VIFE_TEXTS, phase) or None,
        "direction": _name(_VIFE_TEXTS, direction) or None, "maker": body[maker_at:maker_at + maker_size] if maker_at else None,
        "label": label, "summer_time": None}


def _kept(kind: _Kind, body: bytes) -> _Fields:
    """The fields of the record that was written last, kept for others of its kind."""
    if len(_kinds) == _KINDS_KEPT:
        _kinds.clear()
    return _kinds.setdefault(kind, _fields(body))


def _other(of_type: int, body: bytes, fields: _Fields) -> Value:
    """The value of the record that was written last, which is no number."""
    summer, year, month, day, hour, minute, second, flags = _TIME_AND_FLAGS.unpack_from(_space.record)
    if of_type == _FLAGS:
        return int(flags)
    if of_type in (_DIGITS, _TEXT):
        data: bytes = fields["data"][::-1]
        return data.hex() if of_type == _DIGITS else data.decode("latin-1")
    if of_type > _TEXT:
        room = ctypes.create_string_buffer(_TEXT_ROOM)
        count: int = library.mbdc_value_text(_space.record, body, len(body), room, _TEXT_ROOM)
        return room.raw[:count].decode()
    if of_type == _DATE:
        return datetime.date(year, month, day)
    if of_type == _TIME:
        return datetime.time(hour, minute, second)
    fields["summer_time"] = bool(summer)
    return datetime.datetime(year, month, day, hour, minute, second)


def _walk(body: bytes, ci: int, at: int) -> tuple[list[Record], int, int]:
    """The records of a body from a place on, the place after the last, and the library's result there."""
    space, kinds, unpack, new, whole, ci_field = _space, _kinds, _FOUND.unpack_from, object.__new__, len(body), _ci_field(ci)
    record, size, place, out = space.record, space.size, space.at, space.out
    size.value, place.value = whole, at
    walked: list[Record] = []
    result: int = next_record(ci_field, body, size, place, out)
    while result == _DONE:
        data_at, data_size, after, how, of_type, error, mantissa, exponent = unpack(record)
        # (DIB and VIB decide all but the data; units of fixed data stand in the header)
        kind = body[at:data_at], how, of_type, error
        fields = (kinds.get(kind) or _kept(kind, body)).copy() if ci != _FIXED_DATA else _fields(body)
        fields["data"] = body[data_at:data_at + data_size]
        if of_type == _NUMBER and not error:
            fields["value"] = _scaled(mantissa, exponent) if exponent < 0 else _decimal(mantissa * 10 ** exponent if exponent else mantissa)
        elif of_type and not error:
            fields["value"] = _other(of_type, body, fields)
        # (a frozen dataclass takes longer to set its fields one by one than the library to read the record)
        made = new(Record)
        _set_fields(made, fields)
        walked.append(made)
        at = after
        result = _END if at == whole else next_record(ci_field, body, size, place, out)
    return walked, at, result


def _telegram(body: bytes, ci: int, begins: int) -> Optional[Telegram]:
    """The telegram that a body is, which begins at that byte of the data; None where bodies after this CI field aren't read."""
    space = _space
    space.size.value = len(body)
    if read_header(_ci_field(ci), body, space.size, space.head) == _OTHER:
        return None
    is_named, number, manufacturer, version, medium, is_headed, access, status, _, _, _, first = _HEAD.unpack_from(space.head)
    records, at, result = _walk(body, ci, first)
    # (fillers are of no record)
    rest = body[at:] if ci == _FIXED_DATA or result == _ENCRYPTED else body[at:].lstrip(_FILLER)
    meter = _meter(number, manufacturer, version, medium, ci == _FIXED_DATA) if is_named else None
    fault = None if result < _FAULT else TelegramFault(begins + len(body) - len(rest), "body", result - _FAULT)
    data = rest[1:] if rest and not fault and ci != _FIXED_DATA else None
    return Telegram(meter, access if is_headed else None, status if is_headed else None, tuple(records),
                    result == _MORE, data, fault)


def _frame(data: bytes, at: int) -> Frame:
    """The frame at a byte of the data."""
    space = _space
    space.size.value = len(data)
    result = next_frame(data, space.size, ctypes.c_uint64(at), space.frame)
    kind, control, address, ci, body_at, body_size, after = _FRAME.unpack_from(space.frame)
    size = after - at
    if result != _DONE:
        return Frame(at, size, _KINDS[0], None, None, None, None, None, TelegramFault(at, "frame", result - _FAULT))
    if kind < 2:
        return Frame(at, size, _KINDS[kind], None, None, None, None, None, None)
    if kind == 2:
        return Frame(at, size, _KINDS[kind], control, address, None, None, None, None)
    body = data[body_at:body_at + body_size]
    found = _telegram(body, ci, body_at)
    return Frame(at, size, _KINDS[kind], control, address, ci, body, found, found.fault if found else None)


def _given(call: str, data: Union[bytes, bytearray, memoryview]) -> bytes:
    if not isinstance(data, (bytes, bytearray, memoryview)):
        other = "; mbdc.decode takes hex digits" if isinstance(data, str) else ""
        raise TypeError(f"{call} takes bytes, not {type(data).__name__}{other}")
    return bytes(data)


def frames(data: Union[bytes, bytearray, memoryview], strict: bool = True) -> tuple[Frame, ...]:
    """The frames in a row of bytes, in order.

    Raises TelegramFault at the first byte that is no frame, at a body that can't be read to its end (cut, encrypted), and where there is no
    byte. With strict=False these are in the result: bytes that are no frame, of kind "none", and a telegram with the records before its
    fault, each with its `fault`. Raises TypeError where the data aren't bytes.

    >>> frame, = frames(bytes.fromhex("681414680802727856341224400107550000000313153100AD16"))
    >>> str(frame.telegram.meter), frame.telegram.records[0].value, frame.telegram.records[0].unit
    ('12345678.PAD.01.07', Decimal('12.565'), 'm3')
    >>> frames(bytes.fromhex("E5105B015D16"))
    Traceback (most recent call last):
        ...
    mbdc._frames.TelegramFault: byte 1: frame fault 7 Checksum
    >>> [(it.kind, it.at, it.size) for it in frames(bytes.fromhex("E5105B015D16E5"), strict=False)]
    [('ack', 0, 1), ('none', 1, 5), ('ack', 6, 1)]
    """
    given, at = _given("frames", data), 0
    if strict and not given:
        raise TelegramFault(0, "frame", _EMPTY)
    found = []
    while at < len(given):
        frame = _frame(given, at)
        if strict and frame.fault:
            raise frame.fault
        found.append(frame)
        at += frame.size
    return tuple(found)


def decode(digits: str, strict: bool = True) -> tuple[Frame, ...]:
    """The frames that hex digits spell, as `frames` has them of their bytes.

    Raises TypeError where the digits aren't a str, ValueError where they aren't pairs of digits, with blanks between them, and what
    `frames` raises.

    >>> decode("E5 10 5B 01 5C 16")[1].address
    1
    """
    if not isinstance(digits, str):
        raise TypeError(f"decode takes hex digits as str, not {type(digits).__name__}; mbdc.frames takes bytes")
    return frames(bytes.fromhex(digits), strict)


def telegram(body: Union[bytes, bytearray, memoryview], ci: int = _VARIABLE_DATA, strict: bool = True) -> Telegram:
    """The telegram that a body without its frame is, such as a PART of the office's lines has one.

    Raises TelegramFault and TypeError as `frames` does, and ValueError where bodies after this CI field aren't read (72h, 73h, 78h and
    7Ah are).

    >>> found = telegram(bytes.fromhex("785634120A00E97E" "0100000035010000"), 0x73)
    >>> [(str(record.value), record.unit, record.storage) for record in found.records]
    [('0.001', 'm3', 0), ('0.135', 'm3', 1)]
    """
    found = _telegram(_given("telegram", body), ci, 0)
    if found is None:
        raise ValueError(f"bodies after CI {ci:02X}h aren't read")
    if strict and found.fault:
        raise found.fault
    return found
