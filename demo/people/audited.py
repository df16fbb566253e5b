"""Audit files by chance, right and wrong, for demo/same: houses whose meters are exchanged, turn over and begin anew,
whose readings are late, struck, put by hand and estimated; and edits that each make a file wrong, or may.

What is made is filled in by the reference, and nearly always right.
"""

import datetime
import random
from typing import Callable, Dict, Iterator, List, Optional, Tuple

from people.audit_reference import filled
from people.telegrams import SIZES
from world.frames import bcd, type_g

Day = datetime.date
DAY, NEAR, HOUR = datetime.timedelta(days=1), 5, 3600
# Of a use: its quantity, device type, VIF, and the smallest units of a digit
USES = {"heat": ("energy", 0x04, 0x06, 3_600_000_000), "cooling": ("energy", 0x0B, 0x05, 360_000_000),
        "warm water": ("volume", 0x06, 0x13, 1000), "cold water": ("volume", 0x16, 0x14, 10_000),
        "gas": ("volume", 0x03, 0x14, 10_000), "electricity": ("energy", 0x02, 0x04, 36_000_000),
        "allocator": ("units", 0x08, 0x6E, 1000), "hot air": ("energy", 0x0F, 0x0E, 10**9)}
UNITS = {"energy": ("kWh",), "volume": ("m3",), "units": ("HCA", "count")}
PUT = {"energy": "J", "volume": "m3", "units": "HCA"}
LEAST = {"kWh": 1, "m3": 2, "HCA": 1}
SIZE = 10**8  # of digits that a counter shows


class Files:
    def __init__(self, rng: random.Random) -> None:
        self.rng = rng

    def file(self) -> List[str]:
        """The lines of a file, which is right but where readings are far apart."""
        rng, self.lines = self.rng, []  # type: random.Random, List[str]
        self.places = 0
        first = Day(2025, rng.randint(1, 12), 1)
        months = [first, (first - DAY).replace(day=1), first.replace(year=2024)][:rng.choice((1, 1, 1, 2, 3))]
        self.offsets = rng.choice(((120, 60), (120, 60), (60, 60), (0, 0), (-300, -300), (345, 345)))
        self.spans = [(month - DAY, (month + 32 * DAY).replace(day=1) - DAY) for month in months]
        self.add("audit", 2, f"{first:%Y-%m}")
        uses = rng.sample(sorted(USES), rng.choice((1, 1, 2)))
        for use in uses:
            self.add("use", use, USES[use][0])
        if "hot air" in uses:
            self.add("as", "hot air", "0F", "a meter of unknown medium")
        for number, (one, other) in enumerate(self.spans, 1):
            self.add("span", number, one, self.offset(one), other, self.offset(other))
        self.facts(uses)
        self.flats(rng.choice((1, 1, 2, 3, 4)))
        for flat in self.users:
            for use in uses:
                for _ in range(rng.choice((1,) * 9 + (2,))):
                    self.place(flat, use)
        self.totals(uses)
        return filled("".join(f"{line}\n" for line in self.lines).encode())[0].splitlines()

    def add(self, *fields: object) -> None:
        self.lines.append(",".join(map(str, fields)))

    def offset(self, day: Day) -> int:
        return self.offsets[0] if Day(day.year, 3, 30) <= day < Day(day.year, 10, 25) else self.offsets[1]

    def end(self, day: Day) -> int:
        """The moment at which a day ends."""
        return (day.toordinal() + 1 - Day(1970, 1, 1).toordinal()) * 86_400 - 60 * self.offset(day)

    def ratio(self, most: int) -> str:
        return self.rng.choice((f"{self.rng.randint(1, most)}",
                                f"{self.rng.randint(0, most)}.{self.rng.randint(1, 999_999):06}"))

    def facts(self, uses: List[str]) -> None:
        self.is_few = self.rng.random() < 0.05  # no decimals
        for span in range(1, len(self.spans) + 1):
            for use in uses:
                quantity = USES[use][0]
                if quantity != "energy":
                    self.add("factor", use, span, self.ratio(60))
                self.add("co2", use, span, self.ratio(400))
                self.add("price", use, UNITS[quantity][0], span, self.ratio(30))
                if self.rng.random() < 0.2:
                    self.add("average", use, UNITS[quantity][0], span, self.ratio(20))
            self.add("degrees", "-", span, self.rng.choice((0, self.ratio(500))))

    def flats(self, count: int) -> None:
        """Who uses each flat, and from when on."""
        rng, number = self.rng, 0
        self.users: Dict[str, List[Tuple[int, str]]] = {}
        for flat in (f"{'AB'[n // 3]}{n % 3 + 1}" for n in range(count)):
            area = rng.choice((f"{rng.randint(20, 120)}", f"{rng.randint(20, 120)}.{rng.randint(1, 99)}", "-"))
            numbers = [number + 1, number + 3][:rng.choice((1, 1, 2))]
            number = numbers[-1]
            for one in numbers:
                self.add("user", one, flat, area)
            begins, ends = self.end(min(self.spans)[0]), self.end(max(self.spans)[1])
            cuts = sorted(rng.randrange(begins, ends) // HOUR * HOUR for _ in range(rng.choice((0, 0, 1, 2))))
            self.users[flat] = [(cut, rng.choice([*map(str, numbers), *["-"] * bool(n)])) for n,
                                cut in enumerate([0, *cuts])]

    # ---- a place

    def place(self, flat: str, use: str) -> None:
        rng, self.use = self.rng, use
        self.quantity, kind, self.vif, self.digit = USES[use]
        self.places += 1
        self.add("place", self.places, flat, use, 1 if self.quantity != "units"
                 else self.ratio(3).replace("0.000000", "1"))
        days = sorted({one + n * DAY for one, other in self.spans for n in range(-NEAR, (other - one).days + NEAR)})
        inside = [day for one, other in self.spans for n in range(NEAR + 1, 24) if (day := one + n * DAY) < other]
        changes = sorted(rng.sample(inside, rng.choice((0, 0, 0, 1, 1, 2))))
        begins = [self.end(days[0] - 400 * DAY), *(self.end(day) - rng.choice((0, 0, 9 * HOUR)) for day in changes)]
        begins = begins if rng.random() < 0.95 else begins[1:] or [self.end(days[NEAR + 3])]
        self.runs = [(begin, end if rng.random() < 0.95 or end is None else end - HOUR) for begin,
                     end in zip(begins, [*begins[1:], None])]
        if rng.random() < 0.05:
            self.runs[-1] = self.runs[-1][0], self.runs[-1][0] + 86_400 * rng.randint(3, 420)
        values: List[Tuple[int, int, int, str]] = []
        number, vib = rng.randrange(10**8), rng.choice(("-", "-", "-", f"{self.vif:02X}", f"{self.vif | 0x80:02X}3B"))
        if use == "cooling" and vib != "-" and rng.random() < 0.5:
            kind = 0x0D
        self.flow = bytes([self.vif | 0x80, 0x3B]) if vib.endswith("3B") else bytes([self.vif])
        for run, (begin, end) in enumerate(self.runs, 1):
            self.is_anew = run > 1 and begin == self.runs[run - 2][1] and rng.random() < 0.4
            number = number if self.is_anew else rng.randrange(10**8)
            size = rng.choice(("-", SIZE * self.digit))
            self.head, self.kind = bcd(number), kind
            self.add("meter", run, f"{number:08}.PAD.01.{kind:02X}", begin, "-" if end is None else end,
                     rng.choice(("-", 10**4 * self.digit)),
                     size, vib)
            values = self.values(values, run, days, size != "-")
        for span, (one, other) in enumerate(self.spans, 1):
            self.window(span, self.end(one), self.end(other), flat, sorted(values))

    def values(self, values: List[Tuple[int, int, int, str]], run: int, days: List[Day],
               turns: bool) -> List[Tuple[int, int, int, str]]:
        """The values so far with those of another run: of each its moment, its run, its place and its line."""
        rng, (begin, end) = self.rng, self.runs[run - 1]
        made: List[Tuple[int, str]] = []
        count = rng.choice((4711, 123_456)) if not turns or rng.random() < 0.7 else SIZE - rng.randrange(1, 900)
        if self.is_anew:
            count = 0
            day = next((it for it in days if self.end(it) == begin), None)
            last = int(values[-1][3].split(",")[-1]) if values else 0
            values = [it for it in values if it[:2] != (begin, run - 1)]
            if day:
                ended = f"ended,{run - 1},{day},{self.offset(day)},{self.bodies(last, day)}"
                values.append((begin, run - 1, 0, ended))
            made.append((begin, f"zero,{run}"))
        elif begin > self.end(days[0]):
            made.append((begin, f"first,{run},{self.put(count)},{rng.choice(('hand', 'hand', 'estimated'))}"))
        gap, often = rng.choice(days) if rng.random() < 0.05 else None, rng.choice((0.95, 0.5, 0.5))
        for day in days:
            at = self.end(day) - rng.randrange(1, 20) * HOUR
            if gap is not None and gap <= day < gap + 8 * DAY:
                continue
            for moment, is_end in ((at, False), (self.end(day), True)):
                count += rng.choice((0, 1, 7, 60, 500)) if self.quantity != "units" else rng.choice((0, 1))
                is_wanted = rng.random() < (0.2 if is_end else often) or is_end and any(day in span
                                                                                        for span in self.spans)
                if begin < moment and (end is None or moment < end) and is_wanted:
                    made.append((moment, self.value(run, moment, count % SIZE, day if is_end else None, made)))
        if end is not None and end < self.end(days[-1]):
            made.append((end, f"last,{run},{self.put(count % SIZE)},{rng.choice(('hand', 'hand', 'estimated'))}"))
            made.append((end, str(count % SIZE)))
        numbered = [(moment, run, n, line) for n, (moment, line) in enumerate(made)]
        return [it for it in values if "," in it[3]] + numbered

    def put(self, count: int) -> str:
        """A value and its unit as a person says them."""
        unit = PUT[self.quantity]
        text = f"{count * self.digit * 10**9 // SIZES[unit][1]:010}"
        return f"{text[:-9]}.{text[-9:]}".rstrip("0").rstrip(".") + f",{unit}"

    def value(self, run: int, moment: int, count: int, day: Optional[Day], made: List[Tuple[int, str]]) -> str:
        rng, chance = self.rng, self.rng.random()
        if chance < 0.04:
            return f"hand,{run},{moment},{self.put(count)}"
        if chance < 0.05:
            return f"estimated,{run},{moment},{self.put(count)}"
        if chance < 0.06:
            return f"struck,{run},{moment},{rng.choice(('a digit was lost', 'typed wrong'))}"
        if chance < 0.07 and made and made[-1][1].startswith("read") and "046D" not in made[-1][1]:
            return f"read,{run},{moment},{made[-1][1].split(',', 3)[3]}"
        if day is not None:
            return f"stored,{run},{day},{self.offset(day)},{self.bodies(count, day)}"
        return f"read,{run},{moment},{self.bodies(count // 10 if chance > 0.998 else count, None, moment)}"

    def bodies(self, count: int, day: Optional[Day], moment: int = 0) -> str:
        """The bodies of a readout that show a value: now, or stored at the end of a day."""
        rng, storage = self.rng, 0 if day is None else self.rng.choice((1, 1, 2, 8))
        records = self.record(storage, count)
        if day is not None:
            date = self.dif(2, storage) + b"\x6c" + type_g(day)
            time = self.dif(4, storage) + b"\x6d" + self.type_f(day + DAY, 0)
            records = date + records if rng.random() < 0.8 else records + time
            records = self.record(0, count + rng.randrange(9)) + records if rng.random() < 0.7 else records
        elif rng.random() < 0.3:
            when = datetime.datetime.fromtimestamp(moment + rng.choice((0, 7200)), datetime.timezone.utc)
            records += b"\x04\x6d" + self.type_f(when.date(), when.hour)
        elif rng.random() < 0.3:
            records += b"\x42\x6c" + type_g(Day(2022, 12, 31)) + self.record(1, max(count - 5, 0))
        head = self.head + bytes([0x24, 0x40, 1, self.kind, rng.randrange(256), rng.choice((0, 0, 0, 4, 1)), 0, 0])
        other = b"" if rng.random() < 0.6 else self.noise(storage)
        tail = rng.choice((b"", b"", b"\x2f", b"\x0f\x01\x02", b"\x1f"))
        if rng.random() < 0.15:
            return ",".join(it.hex().upper() for it in (head + other + b"\x1f", head + records + tail))
        return (head + other + records + tail).hex().upper()

    @staticmethod
    def type_f(day: Day, hour: int) -> bytes:
        """An hour of a day as data type F."""
        return bytes([0, hour]) + type_g(day)

    @staticmethod
    def dif(field: int, storage: int, function: int = 0, tariff: int = 0) -> bytes:
        dif, rest = field | (storage & 1) << 6 | function << 4, storage >> 1
        return bytes([dif | 0x80, rest | tariff << 4]) if rest or tariff else bytes([dif])

    def record(self, storage: int, count: int) -> bytes:
        """A record of a value in digits, in one of the data fields that hold it."""
        vib = bytes([*self.flow[:-1], self.flow[-1] | 0x80, 0]) if self.rng.random() < 0.1 else self.flow
        if self.rng.random() < 0.6:
            return self.dif(0x0C, storage) + vib + bcd(count % SIZE)
        field, width = self.rng.choice(((4, 4), (6, 6), (7, 8)))
        return self.dif(field, storage) + vib + count.to_bytes(width, "little")

    def noise(self, storage: int) -> bytes:
        """Records that don't count: of other quantities, functions, tariffs, storages; without a value."""
        vif, rng = self.flow, self.rng
        return b"".join(rng.sample((
            b"\x0a\x5a\x12\x03", b"\x1c" + vif + bcd(99), self.dif(0x0C, 0, tariff=1) + vif + bcd(77),
                                    b"\x02\x27\x05\x00",
            self.dif(0x0C, storage + 3) + vif + bcd(55), b"\x0d\x78\x03abc", b"\x01\xfd\x17\x00",
                                    b"\x0c\x78" + bcd(123),
            self.dif(0x0C, 0, 2) + vif + bcd(1), b"\x05" + vif + b"\0\0\x80\x3f",
            b"\x0c" + vif + b"\xff\xff\xff\x0f" if storage else b"\x0b\x3b\x01\x00\x00"), rng.randint(1, 3)))

    # ---- what is published

    def window(self, span: int, begin: int, end: int, flat: str, values: List[Tuple[int, int, int, str]]) -> None:
        rng, last = self.rng, self.runs[-1][1]
        first, until = max(begin, self.runs[0][0]), end if last is None else min(end, last)
        if first >= until:
            return
        self.add("window", span)
        own = [it for it in values if "," in it[3] and begin - NEAR * 86_400 <= it[0] <= end + NEAR * 86_400]
        struck = {it[:2] for it in own if it[3].startswith("struck")}
        self.lines += [it[3] for it in own if it[3].startswith("struck") or it[:2] not in struck]
        users = self.users[flat]
        parts = [(max(first, one), min(until, other), user) for (one, user),
                 (other, _) in zip(users, [*users[1:], (until, "")])]
        parts = [it for it in parts if it[0] < it[1]]
        for one, other, user in parts:
            self.add("part", span, one, other, user)
        units = [*UNITS[self.quantity], "smallest", "kWh"]
        for one, other, _ in rng.sample([*parts, (first, until, "")], rng.choice((0, 1, 1))):
            self.number(rng.choice(units), "shown", span, one, other)
        told = [it for it in own if it[3].split(",")[0] in ("read", "hand", "stored")]
        for moment, run, _, _ in rng.sample(told, min(len(told), 2)):
            self.add("value", run, moment, "?", PUT[self.quantity])

    def number(self, unit: str, *head: object, tail: str = ",?") -> None:
        least = 0 if self.is_few or head[0] == "change" else LEAST.get(unit, 0)
        decimals = self.rng.randint(max(least, head[0] == "carbon"), 3)
        shown = [unit] if head[0] not in ("carbon", "weather") else []
        self.add(*head, *shown, f"?.{'0' * decimals}".rstrip(".") + tail)

    def totals(self, uses: List[str]) -> None:
        rng = self.rng
        self.add("totals")
        for _ in range(rng.randint(4, 30)):
            flat, use, span = rng.choice(list(self.users)), rng.choice(uses), rng.randint(1, len(self.spans))
            user, then, quantity = rng.choice(self.whose(flat)), rng.randint(1, len(self.spans)), USES[use][0]
            unit = rng.choice([*UNITS[quantity], "kWh"])
            kind = rng.choice(("of_user", "of_user", "of_flat", "of_house", "mean", "mean", "change", "carbon", "cost",
                               "weather"))
            if kind in ("change", "weather"):
                self.number("kWh" if kind == "weather" else unit, kind, span, then, user, use, tail="")
            elif kind == "of_house":
                self.number(unit, kind, span, use, tail=",?,?")
            elif kind == "cost":
                self.add(kind, span, user, use, UNITS[quantity][0], "?.00")
            else:
                whose = flat if kind == "of_flat" else user
                self.number("kWh" if kind == "carbon" else unit, kind, span, whose, use, tail=",?"
                            if kind in ("of_user", "of_flat") else "")
        self.add("end")

    def whose(self, flat: str) -> List[str]:
        return [user for _, user in self.users[flat] if user != "-"]


def asked(rng: random.Random, lines: List[str]) -> List[str]:
    """A file in which some numbers are asked for."""
    made = []
    for line in lines:
        kind, *fields = line.split(",")
        # from behind
        texts = {"of_house": 3, "shown": 2, "of_user": 2, "of_flat": 2}.get(kind, 1 if kind in PLAIN else 0)
        for at in range(min(texts, len(fields))):
            if rng.random() < 0.7:
                decimals = len(fields[-texts:][0].partition(".")[2])
                fields[at - texts] = f"?.{'0' * decimals}".rstrip(".") if at == 0 else "?"
        made.append(",".join([kind, *fields]))
    return made


# ---- wrong files

Edit = Callable[[random.Random, List[str]], Optional[List[str]]]


def of_kind(rng: random.Random, lines: List[str], *kinds: str) -> Optional[int]:
    """The place of one of the lines of some kinds, or of any."""
    found = [place for place, line in enumerate(lines) if not kinds or line.split(",")[0] in kinds]
    return rng.choice(found) if found else None


def with_field(at: int, change: Callable[[str], str], *kinds: str) -> Edit:
    """Another field in a line of some kinds; at counts from behind where it is negative."""
    def edit(rng: random.Random, lines: List[str]) -> Optional[List[str]]:
        found = of_kind(rng, lines, *kinds)
        fields = [] if found is None else lines[found].split(",")
        if found is None or not -len(fields) <= at < len(fields):
            return None
        fields[at] = change(fields[at])
        return [*lines[:found], ",".join(fields), *lines[found + 1:]]
    return edit


def with_line(change: Callable[[str], List[str]], *kinds: str) -> Edit:
    """Other lines in the place of one of some kinds."""
    def edit(rng: random.Random, lines: List[str]) -> Optional[List[str]]:
        found = of_kind(rng, lines, *kinds)
        return None if found is None else [*lines[:found], *change(lines[found]), *lines[found + 1:]]
    return edit


def last_digit(text: str) -> str:
    return text[:-1] + str((int(text[-1]) + 1) % 10) if text[-1:].isdecimal() else "1"


def more(step: int) -> Callable[[str], str]:
    return lambda text: str(int(text) + step) if text.lstrip("-").isdecimal() else "1"


def of_body(at: int, value: int) -> Edit:
    """Another byte in the header of a body."""
    return with_field(-1, lambda text: f"{text[:2 * at]}{value:02X}{text[2 * at + 2:]}", "read", "stored", "ended")


def with_records(digits: str, *kinds: str) -> Edit:
    """Records more, before those of the last body."""
    return with_field(-1, lambda text: text[:24] + digits + text[24:], *kinds)


def block(rng: random.Random, lines: List[str], *kinds: str) -> Optional[Tuple[int, int]]:
    """From a line of a kind up to the next of its kind, or what ends it."""
    found = of_kind(rng, lines, *kinds)
    if found is None:
        return None
    ends = ("place", "totals", *kinds)
    return found, next((n for n in range(found + 1, len(lines)) if lines[n].split(",")[0] in ends), len(lines))


def without_window(rng: random.Random, lines: List[str]) -> Optional[List[str]]:
    """A window is lost, with all in it."""
    found = block(rng, lines, "window")
    return None if found is None else [*lines[:found[0]], *lines[found[1]:]]


def place_twice(rng: random.Random, lines: List[str]) -> Optional[List[str]]:
    """A place stands at another one, too."""
    found = block(rng, lines, "place")
    if found is None or "totals" not in lines:
        return None
    _, _, rest = lines[found[0]].split(",", 2)
    number, at = 1 + sum(line.startswith("place,") for line in lines), lines.index("totals")
    return [*lines[:at], f"place,{number},{rest}", *lines[found[0] + 1:found[1]], *lines[at:]]


def sent_again(rng: random.Random, lines: List[str]) -> Optional[List[str]]:
    """A telegram comes again in the place of the next one."""
    found = of_kind(rng, lines, "read")
    later = next((n for n in range((found or 0) + 1, len(lines)) if lines[n].startswith("read,")), None)
    if found is None or later is None:
        return None
    head = ",".join(lines[later].split(",")[:3])
    return [*lines[:later], f"{head},{lines[found].split(',', 3)[3]}", *lines[later + 1:]]


def strikes_a_reading(rng: random.Random, lines: List[str]) -> Optional[List[str]]:
    """A telegram that counts is struck."""
    found = of_kind(rng, lines, "read")
    if found is None:
        return None
    _, run, moment, *_ = lines[found].split(",")
    return [*lines[:found], f"struck,{run},{moment},typed wrong", *lines[found:]]


def at_random(rng: random.Random, lines: List[str]) -> Optional[List[str]]:
    """One to three lines lost, doubled, moved, or with another field."""
    rows = [line.split(",") for line in lines]
    for _ in range(rng.choice((1, 1, 2, 3))):
        n, kind = rng.choice([k for k, row in enumerate(rows) if row]), rng.randrange(10)  # (an edit may empty a line)
        at = rng.randrange(len(rows[n]))
        like = [row for row in rows if row[:1] == rows[n][:1] and len(row) > at]
        if kind == 0 and len(rows) > 1:
            del rows[n]
        elif kind == 1:
            rows.insert(n, list(rng.choice(rows)))
        elif kind == 2:
            other = min(len(rows) - 1, n + rng.choice((1, 1, 2, 5)))
            rows[n], rows[other] = rows[other], rows[n]
        elif kind < 6:
            rows[n][at] = rng.choice(like)[at]
        elif kind == 6:
            rows[n][at] = rng.choice(ODD)
        elif kind == 7 and rows[n][at]:
            place = rng.randrange(len(rows[n][at]))
            rows[n][at] = rows[n][at][:place] + rng.choice("0123456789ABCDEF.-,") + rows[n][at][place + 1:]
        elif kind == 8:
            rows[n] = rng.choice((rows[n] + rows[n][-1:], rows[n][:-1]))
        elif rows[n][at].isdecimal():
            rows[n][at] = str(int(rows[n][at]) + rng.choice((-1, 1, 60, 86_400)))
    return [",".join(row) for row in rows]


ODD = ("", "-", "0", "1", "00", "999999999999999999", "0.5", "1.", "?", "\u00e9", "measured", "hand", " 1",
       "253402300799", "x" * 4100)
TEXTS = ("shown", "of_user", "of_flat", "of_house")
PLAIN = ("mean", "change", "carbon", "cost", "weather")
TOLD = ("read", "stored", "ended")
EDITS: Dict[str, Edit] = {
    "at random": at_random, "a body of another meter": of_body(0, 0x99), "a permanent error": of_body(9, 0x08),
    "an application error": of_body(9, 0x02), "encrypted": of_body(11, 0x05),
    "no digits in the identity": of_body(1, 0xAA), "a body cut": with_field(-1, lambda text: text[:-2], *TOLD),
    "a header alone": with_field(-1, lambda text: text[:24], *TOLD),
    "a later reading": with_field(2, more(3600), "read", "hand", "estimated"),
    "an earlier one": with_field(2, more(-200_000), "read"),
    "another day": with_field(2, lambda text: f"{Day.fromisoformat(text) + DAY}", "stored", "ended"),
    "another offset": with_field(3, more(60), "stored", "span"),
    "an odd offset": with_field(3, more(1), "stored", "span"), "a day's offset": with_field(3, more(-1440), "stored"),
    "its own clock": with_records("046D00002F36", "read"), "a later day": with_records("426CFF3C", "read"),
    "a storage of two days": with_records("426C0131", "stored"),
    "stored before its clock": with_records("046D00002F26", "stored"),
    "another text": with_field(-1, last_digit, *PLAIN), "no number": with_field(5, lambda _: "-", "shown", "of_user"),
    "no decimals": with_field(5, lambda text: text.partition(".")[0], *TEXTS),
    "another mark": with_field(-1, lambda text: "measured" if text != "measured" else "hand", *TEXTS[:3]),
    "none without": with_field(-2, more(1), "of_house"), "a place more": with_field(-1, more(1), "of_house"),
    "another weight": with_field(4, lambda _: "1.7", "place"), "another use": with_field(3, lambda _: "gas", "place"),
    "a use twice": with_line(lambda line: [line, line], "use"),
    "another area": with_field(-1, lambda _: "33.3", "user"),
    "another device": with_field(2, lambda text: f"{text[:-2]}1A", "meter"), "no reason": with_line(lambda _: [], "as"),
    "another label": with_field(2, lambda text: f"{text[:-2]}{int(text[-2:]) % 12 + 1:02}", "audit"),
    "most declared": with_field(5, lambda _: "1000", "meter"), "a small size": with_field(6, lambda _: "1000", "meter"),
    "another begin": with_field(3, more(-3600), "meter"), "another end": with_field(4, more(-3600), "meter"),
    "another identity": with_field(2, lambda text: f"9{text[1:]}", "meter"),
    "another vib": with_field(7, lambda _: "01", "meter"),
    "a span twice": with_line(lambda line: [line, f"span,2,{line.split(',', 2)[2]}"], "span"),
    "another span": with_field(2, lambda text: f"{Day.fromisoformat(text) - DAY}", "span"),
    "a part to nobody": with_field(4, lambda _: "-", "part"), "a part is longer": with_field(3, more(60), "part"),
    "of another period": with_field(3, more(-60), "shown"),
    "of another unit": with_field(4, lambda _: "smallest", "shown"),
    "an estimate for a person": with_field(0, lambda _: "hand", "estimated"),
    "an estimate for a telegram": with_line(lambda line: [f"estimated,{','.join(line.split(',')[1:3])},1,J"], "read"),
    "struck and counted": strikes_a_reading,
    "bodies of two readouts": with_line(lambda line: [f"{line},{line.split(',')[-1]}"], *TOLD),
    "sent again": sent_again, "without a line": with_line(lambda _: []),
    "without a reading": with_line(lambda _: [], "read"), "a line twice": with_line(lambda line: [line, line]),
    "without a restart": with_line(lambda _: [], "ended", "zero"),
    "without a first value": with_line(lambda _: [], "first", "last"), "without a window": without_window,
    "a place twice": place_twice, "without a part": with_line(lambda _: [], "part"),
    "without the end": with_line(lambda _: [], "end"), "another version": with_field(1, lambda _: "1", "audit")}


def files(rng: random.Random, count: int) -> Iterator[Tuple[str, List[str]]]:
    """So many files, each with its kind: every third one is as it was made, the others are edits of the one before."""
    made = Files(rng)
    lines: List[str] = []
    for number in range(count):
        lines = lines if number % 3 else made.file()
        kind = rng.choice(("at random", rng.choice(list(EDITS)))) if number % 3 else "right"
        edited = EDITS[kind](rng, lines) if number % 3 else None
        yield (kind, edited) if edited is not None else ("right", lines)
