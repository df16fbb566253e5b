"""Random lines of hex digits for a decoder: frames and telegrams of every form, and some with a fault."""

import random
from collections.abc import Sequence

from world.frames import ACK, CI_VARIABLE, LAST, MORE, REQ_UD2, RSP_UD, SND_NKE, digits, long_frame, short_frame

# Bytes of data by the low digit of a DIF; 0x0D has its own length, 0x0F is no record
WIDTHS = (0, 1, 2, 3, 4, 4, 6, 8, 0, 1, 2, 3, 4, 0, 6)
VARIABLE, BCD = 0x0D, range(0x09, 0x0F)
FIRST_EXTENSION, PLAIN_TEXT, SECOND_EXTENSION, UNNAMED = 0xFB, 0xFC, 0xFD, 0x7F  # VIFs
THIRD_EXTENSION, MANUFACTURERS = 0xEF, 0x7F
EXTENDED, FILLER = 0x80, 0x2F
MOST_BODY = 252
FIXED, UNNAMED_METER, SHORT_HEADER = 0x73, 0x78, 0x7A  # CI fields beside that of a telegram
SECURITY = (0x0000, 0x0000, 0x0000, 0x0510, 0x0710, 0x0820, 0x1F00)  # configurations, of which the first is not encrypted
NUMBERS = (0x00000000, 0x80000000, 0x7F800000, 0xFF800000, 0x7FC00000, 0x00000001, 0x3F800000, 0x42B26666)  # REALs: zeros, infinite ..


def random_digits(rng: random.Random, count: int) -> list[int]:
    return [rng.randrange(10) << 4 | rng.randrange(10) for _ in range(count)]


def random_bytes(rng: random.Random, count: int) -> list[int]:
    return [rng.randrange(256) for _ in range(count)]


def random_data(rng: random.Random, field: int) -> list[int]:
    """Data of a field: mostly digits where it is BCD."""
    if field == VARIABLE:
        data = random_bytes(rng, rng.randrange(6))
        return [len(data)] + data
    if field in BCD and rng.random() < 0.8:
        return random_digits(rng, WIDTHS[field])
    return random_bytes(rng, WIDTHS[field])


def other_frame(rng: random.Random) -> bytes:
    """An acknowledgement, a short frame, or a long one of any kind."""
    return rng.choice((ACK, short_frame(rng.choice([SND_NKE, *REQ_UD2, rng.randrange(256)]), rng.randrange(256)),
                       long_frame(RSP_UD, rng.randrange(256), rng.randrange(256), bytes(random_bytes(rng, 9)))))


def wide_vib(rng: random.Random) -> list[int]:
    """A VIB of any form: each code of each table, a unit in plain text, up to five VIFEs, those of a manufacturer too."""
    code = rng.randrange(0x80)
    vib = rng.choice(([code], [code], [FIRST_EXTENSION, code], [SECOND_EXTENSION, code], [THIRD_EXTENSION, code], [PLAIN_TEXT & 0x7F], [UNNAMED]))
    for _ in range(rng.choice((0, 0, 1, 1, 2, 3, 5))):
        vib[-1] |= EXTENDED
        vib += rng.choice(([rng.randrange(0x80)], [rng.randrange(0x80)], [PLAIN_TEXT, rng.randrange(0x20)], [MANUFACTURERS]))
    if vib[0] | EXTENDED == PLAIN_TEXT:
        text = [rng.choice((0x25, 0x6D, 0xB0, rng.randrange(256))) for _ in range(rng.randrange(6))]
        vib[1:1] = [len(text), *text]
    return vib


def wide_data(rng: random.Random, field: int) -> list[int]:
    """Data of a field, of variable length with each kind of length byte."""
    if field == VARIABLE:
        length = rng.choice((rng.randrange(12), 0xC0 + rng.randrange(16), 0xD0 + rng.randrange(16), 0xE0 + rng.randrange(16), rng.randrange(256)))
        count = length if length < 0xC0 else length % 16
        return [length, *(random_digits if rng.random() < 0.5 else random_bytes)(rng, count)]
    if field == 5 and rng.random() < 0.5:
        return list(rng.choice(NUMBERS).to_bytes(4, "little"))
    data = random_data(rng, field)
    if data and rng.random() < 0.1:
        data[-1] = rng.choice((0x80, 0xF0 | data[-1] % 16, 0xFF))
    return data


def wide_records(rng: random.Random) -> list[int]:
    """Up to eight records of any form, and what may end them."""
    found: list[int] = []
    for _ in range(rng.randrange(9)):
        field = rng.randrange(15)
        head = [field | rng.randrange(4) << 4 | rng.randrange(2) << 6, *(rng.randrange(0x80) for _ in range(rng.choice((0, 0, 1, 2, 4))))]
        found += [byte | EXTENDED for byte in head[:-1]] + head[-1:] + wide_vib(rng) + wide_data(rng, field)
        found += [FILLER] * (rng.random() < 0.1)
    ending = rng.choice((b"", b"", LAST, MORE, bytes([rng.randrange(256)])))
    return found + ([*ending, *random_bytes(rng, rng.randrange(5))] if ending else [])


def wide_frame(rng: random.Random) -> bytes:
    """A long frame of each structure, some of them encrypted."""
    ci = rng.choice((CI_VARIABLE, CI_VARIABLE, CI_VARIABLE, FIXED, UNNAMED_METER, SHORT_HEADER))
    number = random_digits(rng, 4) if rng.random() < 0.95 else random_bytes(rng, 4)
    if ci == FIXED:
        body = [*number, *random_bytes(rng, 12 if rng.random() < 0.9 else rng.randrange(20))]
    else:
        short = [*random_bytes(rng, 2), *rng.choice(SECURITY).to_bytes(2, "little")]
        maker = rng.randrange(1, 27) << 10 | rng.randrange(1, 27) << 5 | rng.randrange(1, 27)
        head = {CI_VARIABLE: [*number, maker % 256, maker // 256, rng.randrange(256), rng.randrange(0x40), *short], SHORT_HEADER: short}
        body = head.get(ci, []) + wide_records(rng)
    return long_frame(RSP_UD, rng.randrange(251), ci, bytes(body[:MOST_BODY]))


def mutated(rng: random.Random, frame: bytes) -> bytes:
    """A frame with up to three bits turned, a byte more or less, or another CI field; length and checksum mostly mended."""
    changed = bytearray(frame[4:-2] or frame)
    for _ in range(rng.choice((0, 1, 1, 2, 3))):
        changed[rng.randrange(len(changed))] ^= 1 << rng.randrange(8)
    kind, place = rng.random(), rng.randrange(len(changed))
    if kind < 0.15:
        del changed[place]
    elif kind < 0.3:
        changed.insert(place, rng.randrange(256))
    elif kind < 0.4 and len(changed) > 2:
        changed[2] = rng.choice((CI_VARIABLE, FIXED, UNNAMED_METER, SHORT_HEADER))
    is_mended = len(frame) > 8 and 3 <= len(changed) <= MOST_BODY + 3 and rng.random() < 0.8
    return long_frame(changed[0], changed[1], changed[2], bytes(changed[3:])) if is_mended else frame[:4] + bytes(changed) + frame[-2:]


def wide_line(rng: random.Random, frames: Sequence[bytes]) -> str:
    """One of these frames with a change, or a random one of any form, in hex digits; at times cut off."""
    kind = rng.random()
    text = digits(mutated(rng, rng.choice(frames)) if kind < 0.4 else wide_frame(rng) if kind < 0.97 else other_frame(rng))
    return text[:rng.randrange(len(text))] if rng.random() < 0.03 else text
