"""The calls of libmbdc, by ctypes.

The library is the one that the variable MBDC_LIBRARY names, else the one beside this file, as in a wheel, else the checkout's own
(out/library, made by tools/library), else the system's.
"""

import ctypes
import os
import pathlib
import threading
from collections.abc import Callable
from typing import Any

_NAME = "libmbdc.so.0"
_FIRST_ROOM = 65_536  # bytes; a telegram's text has some hundred
_MOST_ROOM_A_BYTE = 1024  # bytes of text for a byte of the input, far above JSON's of a fault (100): a guard, for no clause bounds it
_TOO_LONG = ctypes.c_size_t(-1).value


class LibraryFault(Exception):
    """The library isn't there, or has no place for a text."""


def _path() -> str:
    here = pathlib.Path(__file__).resolve()
    built = [file for file in (here.with_name(_NAME), here.parents[2] / "out" / "library" / _NAME) if file.exists()]
    return os.environ.get("MBDC_LIBRARY") or (str(built[0]) if built else _NAME)


def _load() -> ctypes.CDLL:
    try:
        library = ctypes.CDLL(_path())
    except OSError as fault:
        raise LibraryFault(f"{fault}; MBDC_LIBRARY may name it (tools/library makes it, Debian's package is libmbdc0)") from fault
    for call in (library.mbdc_decode_text, library.mbdc_decode_json):
        call.restype = ctypes.c_size_t
        call.argtypes = [ctypes.c_char_p, ctypes.c_size_t, ctypes.c_void_p, ctypes.c_size_t]
    number = ctypes.c_uint64
    for call, arguments in (
            (library.mbdc_name, [number, number, ctypes.c_void_p, ctypes.c_size_t]),
            (library.mbdc_value_text, [ctypes.c_void_p, ctypes.c_char_p, ctypes.c_size_t, ctypes.c_void_p, ctypes.c_size_t])):
        call.restype = ctypes.c_uint64
        call.argtypes = arguments
    return library


def _load_quick(path: str, name: str) -> Any:
    """A call without conversions: it takes the very types of C, and keeps the interpreter's lock, since it lasts less than letting go of
    it."""
    call = getattr(ctypes.PyDLL(path), name)
    call.restype = ctypes.c_uint64
    return call


library = _load()
next_frame, read_header, next_record = (_load_quick(_path(), f"mbdc_{name}") for name in ("next_frame", "header", "next_record"))
_Call = Callable[[bytes, int, int, int], int]


class _Room(threading.local):
    """Each thread's room for a text."""

    def __init__(self) -> None:
        self.grow(_FIRST_ROOM)

    def grow(self, size: int) -> None:
        """Takes a room of so many bytes in place of the old one."""
        self.size = size
        self.buffer = ctypes.create_string_buffer(size)
        self.address = ctypes.addressof(self.buffer)


_room = _Room()


def _digits(lines: str) -> bytes:
    if not isinstance(lines, str):
        raise TypeError(f"lines of hex digits are a str, not {type(lines).__name__}; mbdc.frames takes bytes")
    return lines.encode("utf-8", "surrogatepass")


def _written(call: _Call, digits: bytes) -> str:
    """What a call of the library writes for its input."""
    room = _room
    count = call(digits, len(digits), room.address, room.size)
    while count == _TOO_LONG:
        if room.size > _MOST_ROOM_A_BYTE * len(digits) + _FIRST_ROOM:
            raise LibraryFault(f"the text of {len(digits)} bytes has more than {room.size}")
        try:
            room.grow(4 * room.size)
        except MemoryError as fault:
            raise LibraryFault("memory was refused") from fault
        count = call(digits, len(digits), room.address, room.size)
    return ctypes.string_at(room.address, count).decode()


def decode_text(lines: str) -> str:
    """The lines that `mbdc decode` prints for lines of hex digits.

    Raises LibraryFault where memory for them is refused.

    >>> decode_text("E5 10 40 05 45 16")
    'ACK\\nSHORT 40 05\\n'
    """
    return _written(library.mbdc_decode_text, _digits(lines))


def decode_json(lines: str) -> str:
    """The lines that `mbdc decode --json` prints for lines of hex digits: a JSON object each, with the names of codes.

    Raises LibraryFault where memory for them is refused.

    >>> decode_json("E5")
    '{"line":1,"frame":"ack"}\\n'
    """
    return _written(library.mbdc_decode_json, _digits(lines))
