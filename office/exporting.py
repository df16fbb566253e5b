"""Audit files (docs/OFFICE.md): telegrams of a house and its months, what people declared, and `?` for each number.

`mbdc audit` fills them in, and judges them: those are published.

A file lists a place once, with its meters as they are known now, and a window for each month (span). An older month
that was computed with others is left out of it.
"""

import datetime
import itertools
import unicodedata
import zoneinfo
from typing import Any, Callable, Dict, Iterable, Iterator, List, NamedTuple, Optional, Sequence, Set, Tuple

from catalogue import DECIMALS, printed_reading
from database import Cursor, grouped, plain, rows_of, value_of
from periods import DAY, begin_of, later_month, next_month
from program import KEY, File, Key, Published
from sheet_data import HELD_USES, Averages, House, Number, Sheet, Use, declared_average, house_of, sheets_of
from supply import (BY_HAND, DUE_DATE, ENDED, ESTIMATED, FITTED, READ, REMOVED, RESTARTED, RUNS, STORED, Bodies, Place,
                    Run, Telegram, Value, bodies_of, places_of, plain_number, seconds)

NONE = "-"
FORMAT = "audit,2"  # what a file begins with


class Printed(NamedTuple):
    """A number as it is printed, with a point; `-` where there is none; its mark; and its line in a sheet's file, from
    1."""
    text: str
    mark: str
    line: int = 0

    @property
    def is_number(self) -> bool:
        return self.text != NONE


Numbers = Dict[Key, Printed]


def use_key(flat: str, use: str, what: str, unit: str = "") -> Key:
    """The key of a number of a user's use. what: its kind, and perhaps a month."""
    kind, _, period = what.partition(" ")
    return Key(kind, flat, use, 0, period, unit)


def month_key(flat: str, use: Any, month: datetime.date) -> Key:
    """The key of a month of a use."""
    return use_key(flat, use.use, f"month {month:%Y-%m}", use.unit)


def place_key(flat: str, use: Any, place: Any) -> Key:
    return Key("place", flat, use.use, place.number,
               f"{seconds(place.amount.begins)} {seconds(place.amount.ends)}", use.unit)


def reading_key(meter: int, moment: int) -> Key:
    """The key of a reading, which is of no user."""
    return Key("reading", place=meter, period=str(moment))


class Printable(NamedTuple):
    """Of a house in a month: the audit, the numbers of each user, and those that are nobody's."""
    audit: Optional[int]
    of_users: Dict[int, Numbers]
    of_house: Numbers
    says: str = ""  # the audit's last line

    def of(self, tenancy: int) -> Numbers:
        return {**self.of_house, **self.of_users.get(tenancy, {})}


def printable(audit: Optional[int], found: Iterable[Published], says: str = "") -> Printable:
    made = Printable(audit, {}, {}, says)
    for tenancy, key, text, mark in found:
        numbers = made.of_house if tenancy is None else made.of_users.setdefault(tenancy, {})
        numbers[key] = Printed(text, mark)
    return made

AUDIT_UNITS = {"kWh": "kWh", "m³": "m3", "HCA": "HCA"}
SHOWN_UNITS = {of_file: unit for unit, of_file in AUDIT_UNITS.items()}
NOW = "1"  # the span of the file's month
# marks of what is said beside amounts
BESIDE = {"mean": "average", "change": "change", "carbon": "carbon", "weather": "weather", "cost": "cost"}
FACTS = ("factor", "co2", "price", "average")
DECLARED = "declared"  # the mark of what no audit computes
Spans = Dict[datetime.date, int]


class Asked(NamedTuple):
    """A line that asks for a number."""
    line: str
    place: str = ""  # flat, use and number, where it stands with the place


def asked(decimals: int) -> str:
    """A number that is asked for with so many decimals."""
    return f"?.{'0' * decimals}" if decimals else "?"


# ---- what is asked

def of_sheet(sheet: Sheet, spans: Spans) -> Iterator[Asked]:
    user, now = sheet.user, spans[sheet.month]
    for use in sheet.uses:
        name, shown = f"{user.id},{use.use},{AUDIT_UNITS[use.unit]}", asked(DECIMALS[use.unit])
        for month, span in spans.items():
            if month in use.months and not use.months[month].why:
                yield Asked(f"of_user,{span},{name},{shown},?")
        for place in use.places:
            if not place.amount.why:
                period = f"{seconds(place.amount.begins)},{seconds(place.amount.ends)}"
                yield Asked(f"shown,{now},{period},{AUDIT_UNITS[use.unit]},{shown},?",
                            f"{user.flat} {use.use} {place.number}")
        yield from of_use(sheet, use, spans, name)


def of_use(sheet: Sheet, use: Use, spans: Spans, name: str) -> Iterator[Asked]:
    """What is said beside the amounts of a use."""
    user, now, shown = sheet.user, spans[sheet.month], asked(DECIMALS[use.unit])
    if user.area_m2 is not None and use.use not in sheet.facts.held:
        yield Asked(f"mean,{now},{name},{shown}")
    if use.months[sheet.month].why:
        return
    last = later_month(sheet.month, -12)
    for month in (later_month(sheet.month, -1), last):
        if is_compared(sheet, use, spans, month):
            yield Asked(f"change,{now},{spans[month]},{name},{asked(0)}")
    if user.co2_g_per_kwh is not None and use.use in sheet.facts.carbon_uses and use.unit == "kWh":
        yield Asked(f"carbon,{now},{user.id},{use.use},{asked(1)}")
    if (use.use in sheet.facts.heating_uses and use.unit == "kWh" and {sheet.month, last} <= sheet.facts.degrees.keys()
            and is_compared(sheet, use, spans, last)):
        yield Asked(f"weather,{now},{spans[last]},{user.id},{use.use},{shown}")
    if sheet.price_of(use) is not None:
        yield Asked(f"cost,{now},{name},{asked(2)}")


def is_compared(sheet: Sheet, use: Use, spans: Spans, month: datetime.date) -> bool:
    """Whether the sheet's month is compared with another: both are whole, and something is said of both."""
    now, then = use.months[sheet.month], use.months.get(month)
    return (month in spans and then is not None and not then.why and is_whole(now, sheet.month, sheet.user.zone)
            and is_whole(then, month, sheet.user.zone))


def is_whole(number: Number, month: datetime.date, zone: str) -> bool:
    return number.begins == begin_of(month, zone) and number.ends == begin_of(next_month(month), zone)


def of_house(page: House, held: Set[str], span: int) -> Iterator[Asked]:
    """The numbers of a house page. Where one is held, its use has no sum."""
    for use, unit in page.uses.items():
        of_unit = f"{use},{AUDIT_UNITS[unit]},{asked(DECIMALS[unit])}"
        for flat, numbers in page.flats.items():
            if use in numbers and not numbers[use].why:
                yield Asked(f"of_flat,{span},{flat},{of_unit},?")
        if use not in held:
            yield Asked(f"of_house,{span},{of_unit},?,?")


# ---- what is published

class Reader:
    """Reads a filled file.
    places: in its order the number of each among those of its flat and use, and its meters' numbers."""

    def __init__(self, places: List[Tuple[int, List[int]]]) -> None:
        self.places: Iterator[Tuple[int, List[int]]] = iter(places)
        self.runs: List[int] = []
        self.found: Dict[Tuple[Optional[int], Key], Published] = {}
        self.months: Dict[str, str] = {}  # by span
        self.flats: Dict[str, str] = {}  # by user
        self.facts: Dict[Tuple[str, ...], Tuple[str, int]] = {}  # what is declared, and where, by its other fields
        self.parts: Dict[Tuple[str, str], str] = {}  # the user of each
        self.place: Tuple[str, str, int] = ("", "", 0)
        self.line = 0  # its number in the file

    def read(self, lines: List[str]) -> List[Published]:
        """What the lines publish, each key once."""
        for self.line, line in enumerate(lines, 1):
            kind, *fields = line.split(",")
            take: Optional[Callable[..., None]] = getattr(self, f"take_{kind}", None)
            if kind in BESIDE:
                self.take_beside(kind, *fields)
            elif kind in FACTS:
                self.facts[(kind, *fields[:-1])] = fields[-1], self.line
            elif take is not None:
                take(*fields)
        return list(self.found.values())

    def put(self, user: str, key: Key, text: str, mark: str, _: int = 0) -> None:
        """A number of a user, or of nobody, and where it is declared, if it is."""
        tenancy = None if user == NONE else int(user)
        self.found.setdefault((tenancy, key), (tenancy, key, text, mark))

    def put_of(self, user: str, use: str, what: str, text: str, mark: str, unit: str = "", line: int = 0) -> None:
        """A number of a user, if there is one."""
        if text != NONE:
            self.put(user, use_key(self.flats[user], use, what, unit), text, mark, line)

    def take_beside(self, kind: str, span: str, *fields: str) -> None:
        then, user, use = (self.months[fields[0]], *fields[1:3]) if kind in ("change", "weather") else ("", *fields[:2])
        what = {"mean": "average", "change": f"change {then}", "carbon": "co2"}.get(kind, kind)
        is_declared = kind == "mean" and ("average", use, fields[2], NOW) in self.facts
        self.put_of(user, use, what, fields[-1], DECLARED if is_declared else BESIDE[kind],
                    SHOWN_UNITS[fields[2]] if kind == "mean" else "")

    def take_span(self, span: str, day: str, *_: str) -> None:
        self.months[span] = f"{(datetime.date.fromisoformat(day) + DAY):%Y-%m}"

    def take_user(self, user: str, flat: str, _: str) -> None:
        self.flats[user] = flat

    def take_place(self, _: str, flat: str, use: str, __: str) -> None:
        number, self.runs = next(self.places)
        self.place, self.parts = (flat, use, number), {}

    def take_part(self, _: str, begins: str, ends: str, user: str) -> None:
        self.parts[begins, ends] = user

    def take_shown(self, _: str, begins: str, ends: str, unit: str, text: str, mark: str) -> None:
        flat, use, number = self.place
        self.put(self.parts.get((begins, ends), NONE),
                 Key("place", flat, use, number, f"{begins} {ends}", SHOWN_UNITS.get(unit, unit)), text, mark)

    def take_value(self, run: str, moment: str, text: str, _: str) -> None:
        self.put(NONE, reading_key(self.runs[int(run) - 1], int(moment)), text, "reading")

    def take_of_user(self, span: str, user: str, use: str, of_file: str, text: str, mark: str) -> None:
        self.put(user, use_key(self.flats[user], use, f"month {self.months[span]}", SHOWN_UNITS[of_file]), text, mark)
        if span == NOW:
            for what, *fields in (("price", of_file), *((("factor",), ("co2",)) if of_file == "kWh" else ())):
                declared, line = self.facts.get((what, use, *fields, span), (NONE, 0))
                self.put_of(user, use, "emission" if what == "co2" else what, declared, DECLARED, line=line)

    def take_of_flat(self, _: str, flat: str, use: str, __: str, text: str, mark: str) -> None:
        self.put(NONE, Key("flat", flat, use), text, mark)

    def take_of_house(self, _: str, use: str, __: str, text: str, none: str, count: str) -> None:
        self.put(NONE, Key("house", use=use), text, f"{none} {count}")


# ---- what may be printed

CHARTED = 13  # months
# Of these houses the audit of a month
AUDITS = """
SELECT n.house, n.id, a.says FROM audits_now n JOIN audits a ON a.id = n.id WHERE n.house = ANY (%s) AND n.month = %s"""
# What was published of a month, and of earlier ones and their users: for charts and where a month has no evidence any
# more. (Charts had numbers of their own up to 0.2.0.)
NUMBERS = f"""
SELECT p.audit, p.tenancy, {KEY}, p.text, p.mark FROM published p JOIN audits_now a ON a.id = p.audit
WHERE p.kind <> 'chart' AND a.house = %s AND (a.month = %s OR a.month >= %s AND a.month < %s AND p.tenancy IS NOT NULL
                        AND p.kind = 'month' AND p.period = to_char(a.month, 'YYYY-MM'))
ORDER BY a.month, p.id"""
FILE = "SELECT file FROM audits WHERE id = %s AND file IS NOT NULL"
IDENTITIES = "SELECT id, identity FROM fittings WHERE id = ANY (%s)"


class Facts(Reader):
    """All numbers of an audit file, by keys as the file knows them: without which place of a flat's use it is, and of a
    reading with the meter's identity as its use. moment: how a moment is written."""

    def __init__(self, lines: List[str], moment: Callable[[str], str] = str) -> None:
        super().__init__([])
        self.all: Set[Published] = set()
        self.meters: Dict[str, str] = {}  # of the place
        self.moment = moment
        self.read(lines)
        self.nobodys = {it[1:] for it in self.all}

    def put(self, user: str, key: Key, text: str, mark: str, _: int = 0) -> None:
        self.all.add((None if user == NONE else int(user), key, text, mark))

    def take_place(self, _: str, flat: str, use: str, __: str) -> None:
        self.place, self.parts = (flat, use, 0), {}

    def take_meter(self, run: str, identity: str, *_: str) -> None:
        self.meters[run] = identity

    def take_part(self, _: str, begins: str, ends: str, user: str) -> None:
        super().take_part(_, self.moment(begins), self.moment(ends), user)

    def take_shown(self, _: str, begins: str, ends: str, unit: str, text: str, mark: str) -> None:
        super().take_shown(_, self.moment(begins), self.moment(ends), unit, text, mark)

    def take_value(self, run: str, moment: str, text: str, _: str) -> None:
        self.put(NONE, Key("reading", use=self.meters[run], period=self.moment(moment)), text, "reading")

    def lacks(self, numbers: Iterable[Published]) -> Optional[str]:
        """The first of these numbers that the file doesn't have. A user who was forgotten has none."""
        return next((" ".join(map(str, (*filter(None, it[1]), it[2]))) for it in numbers
                     if it not in self.all and (it[0] is not None or it[1:] not in self.nobodys)), None)


class Own(Facts):
    """The numbers of a sheet's own file by the sheet's keys, each with its line."""

    def __init__(self, sheet: Sheet, lines: List[str]) -> None:
        places = [(use.use, place) for use in sheet.uses for place in use.places]
        self.numbers: Numbers = {}
        self.user, self.left = str(sheet.user.id), grouped((use, place.number) for use, place in places)
        self.of_runs = {(it.meter, str(it.moment), printed_reading(it.shown, it.unit)): it.run
                        for _, place in places for it in place.readings if it.run is not None}
        super().__init__(lines)

    def put(self, user: str, key: Key, text: str, mark: str, line: int = 0) -> None:
        self.numbers.setdefault(key, Printed(text, mark, line or self.line))

    def take_part(self, span: str, begins: str, ends: str, user: str) -> None:
        super().take_part(span, begins, ends, user)
        flat, use, number = self.place
        if span == NOW and user == self.user and not number:
            self.place = (flat, use, (self.left.get(use) or [0]).pop(0))  # in their order

    def take_value(self, run: str, moment: str, text: str, unit: str) -> None:
        found = self.of_runs.get((self.meters[run], moment, (text, unit)))
        if found is not None:
            self.put(NONE, reading_key(found, int(moment)), text, "value")

    def take_as(self, use: str, kind: str, why: str) -> None:
        self.numbers[Key("as", use=use, unit=kind)] = Printed(why, "as")


def file_of(cursor: Cursor, audit: Optional[int]) -> Optional[List[str]]:
    """The lines of an audit's file; None once it was dropped."""
    file = value_of(cursor, FILE, audit)
    return None if file is None else bytes(file).decode().splitlines()


def unknown(cursor: Cursor, audit: int, numbers: List[Published]) -> Optional[str]:
    """The first of an audit's numbers that its file doesn't have."""
    lines = file_of(cursor, audit)
    meters = dict(rows_of(cursor, IDENTITIES, [key.place // RUNS for _, key, *_ in numbers if key.kind == "reading"]))
    return None if lines is None else Facts(lines).lacks(
        (tenancy, key._replace(place=0, use=meters.get(key.place // RUNS, "") if key.kind == "reading" else key.use),
         text, mark) for tenancy, key, text, mark in numbers)


def published_of(cursor: Cursor, houses: List[str], month: datetime.date) -> Tuple[Dict[str, Printable], List[str]]:
    """What may be printed of a month of those houses that have an audit, and which have a number that it lacks."""
    found, refused = {}, []
    for house, audit, says in rows_of(cursor, AUDITS, houses, month):
        of_audits = grouped((of, (tenancy, Key(*key), text, mark)) for of, tenancy, *key, text, mark in rows_of(
            cursor, NUMBERS, house, month, later_month(month, 1 - CHARTED), month))
        wrong = next((it for of, numbers in of_audits.items() if (it := unknown(cursor, of, numbers))), None)
        if wrong:
            refused.append(f"{house}: {wrong} isn't in its audit file")
        else:
            found[house] = printable(audit, (it for numbers in of_audits.values() for it in numbers), says)
    return found, refused


# ---- files
NO_TELEGRAM = b"\0"  # in the place of one that isn't there any more: no evidence
MARGIN = 3 * 86_400  # around a span, in which struck values are named
NOBODY = 10**17  # users of this number and above are flats that nobody uses
AT_ENDS = {FITTED: "first", RESTARTED: "first", REMOVED: "last", ENDED: "last"}
PUT = {BY_HAND: "hand", ESTIMATED: "estimated"}
LONGEST_WHY = 60
# The device types that count a use by themselves (COMMANDS), and cooling 0D, where the record is named; of others a
# file says who says so
TYPES = {"heat": "04 0C 0D", "cooling": "0A 0B", "warm water": "06 15", "cold water": "07 16", "electricity": "02",
         "gas": "03", "allocator": "08"}
DECIDED = "decided in the office"
FROZEN = """
SELECT v.month, p.id, p.flat, p.use, p.number, p.weight, h.zone, v.entries, v.evidence, v.meters
FROM frozen_values v JOIN places p ON p.id = v.place JOIN houses h ON h.house = p.house
WHERE p.house = %s AND v.month = ANY (%s) AND v.version = version_of(p.house, v.month)
ORDER BY v.month DESC, p.flat, p.use, p.number"""
PARTS = """
SELECT month, place, begins, ends, tenancy FROM month_parts WHERE house = %s AND month = ANY (%s)
ORDER BY month, place, begins"""
USERS = """
SELECT t.id, t.flat, f.area_m2 FROM tenancies t JOIN flats f ON (f.house, f.flat) = (t.house, t.flat)
WHERE t.house = %(house)s AND (t.id = ANY (%(users)s) OR t.days && daterange(%(begin)s, %(after)s)) ORDER BY t.id"""
EMPTY = "SELECT flat, area_m2 FROM flats WHERE house = %s AND area_m2 IS NOT NULL ORDER BY flat"
STRUCK = """
SELECT f.place, f.id, d.at, coalesce(d.struck_why, 'struck') AS why
FROM day_values d JOIN fittings f ON f.id = d.fitting
WHERE f.house = %s AND d.struck_at IS NOT NULL AND d.at BETWEEN %s AND %s ORDER BY d.at, d.id"""
USES = """
SELECT use, CASE quantity WHEN 'allocation' THEN 'units' ELSE quantity END AS quantity FROM uses WHERE use = ANY (%s)
ORDER BY position, use"""
FACTORS = "SELECT use, kwh_per_unit FROM factors WHERE house = %s AND months @> %s ORDER BY use"
DEGREES = ("SELECT d.days FROM degree_days d JOIN houses h ON h.postcode = d.postcode"
           " WHERE (h.house, d.month) = (%s, %s)")


class NoEvidence(Exception):
    """A telegram that a number rests on isn't there any more."""


# A value that decides a period, and where it comes from.
Evidence = NamedTuple("Evidence", [("run", int), ("moment", int), ("amount", int), ("source", str), ("value", str),
    ("unit", str), ("is_estimated", bool), ("telegram", Optional[Telegram])])


Part = NamedTuple("Part", [("begins", int), ("ends", int), ("user", Optional[int])])


class Window(NamedTuple):
    """What decides a span at a place, and its numbers."""
    begins: int
    ends: int
    place: int
    flat: str
    use: str
    number: int
    weight: str
    zone: str
    runs: List[Run]
    values: List[Evidence]
    parts: List[Part]

    @property
    def name(self) -> str:
        return f"{self.flat} {self.use} {self.number}"

    def settled(self) -> List[Evidence]:
        """Its values as a file has them: the last one of each run's moment; where an allocator began its year that is
        the telegram that stored it, or else an estimate."""
        begins, found = {run.number: run.begins for run in self.runs}, []  # type: Dict[int, int], List[Evidence]
        for value in self.values:
            is_again = bool(found) and (found[-1].run, found[-1].moment) == (value.run, value.moment)
            before = found.pop() if is_again else None
            if value.source == DUE_DATE and begins[value.run] != value.moment:
                value = (value._replace(telegram=before.telegram) if before is not None and before.source == STORED
                         else value._replace(source=ENDED, is_estimated=True))
            found.append(value)
        return found


Struck = Dict[int, List[Tuple[int, int, str]]]  # by place: fitting, moment, why
Readings = Dict[Tuple[int, int], Tuple[str, str]]  # by run and moment: text and unit
Declared = Dict[Tuple[str, ...], str]


def end_fields(moment: datetime.datetime, zone: str) -> str:
    """The day that ends at a moment, and its offset: minutes ahead of UTC."""
    local = moment.astimezone(zoneinfo.ZoneInfo(zone))
    return f"{local.date() - DAY},{(local.utcoffset() or 0 * DAY) // datetime.timedelta(minutes=1)}"


def span_line(number: int, first: datetime.date, after: datetime.date, zone: str) -> str:
    return f"span,{number},{end_fields(begin_of(first, zone), zone)},{end_fields(begin_of(after, zone), zone)}"


def utc(moment: int) -> datetime.datetime:
    return datetime.datetime.fromtimestamp(moment, datetime.timezone.utc)


# ---- windows

def evidence_of(entries: Sequence[Any], sources: List[List[Any]]) -> List[Evidence]:
    """Entries as `frozen_values` has them: five numbers of each, and where it comes from."""
    return [Evidence._make([*entries[at:at + 3], *it[:4], (it[5], it[4], it[6], it[7]) if it[5:] else None])
            for at, it in zip(range(0, len(entries), 5), sources)]


def window_of(place: Place, entries: Sequence[Value], parts: List[Part], begins: int, ends: int) -> Window:
    """What decides the periods of a place, as it is known now."""
    values = [Evidence(*it.line[:3], it.source, it.shown, it.unit, it.is_estimated, it.telegram) for it in entries]
    return Window(begins, ends, place.id, place.flat, place.use, place.number, plain_number(place.weight), place.zone,
                  place.runs, values, parts)


def windows_of(cursor: Cursor, house: str, months: List[datetime.date]) -> Dict[datetime.date, List[Window]]:
    """What the present versions of months were computed from.
    A month that was computed before there were audits has none."""
    parts = grouped(((it.month, it.place), Part(seconds(it.begins), seconds(it.ends), it.tenancy))
                    for it in rows_of(cursor, PARTS, house, months))
    frozen = rows_of(cursor, FROZEN, house, months)
    unknown = {it.month for it in frozen if it.evidence is None}
    return grouped((it.month, Window(
        seconds(begin_of(it.month, it.zone)), seconds(begin_of(next_month(it.month), it.zone)), it.id, it.flat, it.use,
        it.number, plain_number(it.weight), it.zone, [Run(*run) for run in it.meters],
        evidence_of(it.entries, it.evidence), parts[it.month, it.id]))
        for it in frozen if (it.month, it.id) in parts and it.month not in unknown)


def has_evidence(windows: List[Window], bodies: Bodies) -> bool:
    """Whether each telegram is there."""
    return all(it.telegram is not None and it.telegram[:3] in bodies for window in windows for it in window.values
               if it.source in (STORED, READ))


def needed_runs(window: Window) -> List[Run]:
    """The runs that the period, its values or an exchange in it touch."""
    moments = [window.begins, window.ends, *(it.moment for it in window.values)]
    runs, first, last = window.runs, min(moments), max(moments)
    return [run for at, run in enumerate(runs)
            if (run.ends is None or run.ends >= first or at + 1 < len(runs) and runs[at + 1].begins > window.begins)
            and (run.begins <= last or at > 0 and (runs[at - 1].ends or 0) < window.ends)]


def bodies_in(cursor: Cursor, windows: Iterable[Window]) -> Bodies:
    """The telegrams behind windows."""
    return bodies_of(cursor, (it.telegram for window in windows for it in window.values))


class Writer:
    """The lines of a file, as they come."""

    def __init__(self, bodies: Bodies, struck: Struck) -> None:
        self.lines: List[str] = []
        self.bodies, self.struck = bodies, struck
        self.places: List[Tuple[int, List[int]]] = []  # of each its number, and the numbers of its meters' runs

    def place(self, windows: Dict[int, Window], numbers: List[str], readings: Readings) -> int:
        """A place: its meters, and what it has of each span; with the first one its numbers, and its readings as they
        are printed. Returns where the first number stands."""
        (first, one), *older = sorted(windows.items())
        wanted = [one.runs.index(run) for it in windows.values() for run in needed_runs(it)]
        number = {run.number: at for at, run in enumerate(one.runs[min(wanted):max(wanted) + 1], 1)}
        self.places.append((one.number, list(number)))
        self.lines.append(f"place,{len(self.places)},{one.flat},{one.use},{one.weight}")
        self.lines += [f"meter,{number[it.number]},{it.identity},{it.begins},{'-' if it.ends is None else it.ends},"
                       f"{it.most or '-'},{it.size or '-'},{it.vib or '-'}" for it in one.runs if it.number in number]
        self.window(first, one, number)
        at = len(self.lines)
        self.lines += numbers
        self.lines += [f"value,{number[run]},{moment},{','.join(shown)}" for (run, moment), shown in readings.items()]
        for span, window in older:
            self.window(span, window, number)
        return at

    def window(self, span: int, window: Window, number: Dict[int, int]) -> None:
        """What a place has of a span. number: of each run."""
        values = window.settled()
        self.lines += [f"window,{span}", *(self.value(it, number[it.run], window.zone) for it in values)]
        # where another telegram of that moment counts, the one that was struck says nothing
        told = {(it.run, it.moment) for it in values if it.telegram is not None}
        self.lines += [f"struck,{number[fitting * RUNS]},{moment},{why}" for fitting, moment, why in self.struck.get(
            window.place, []) if window.begins - MARGIN <= moment <= window.ends + MARGIN
            and fitting * RUNS in number and (fitting * RUNS, moment) not in told]
        self.lines += [f"part,{span},{part.begins},{part.ends},{part.user or '-'}" for part in window.parts]

    def value(self, value: Evidence, run: int, zone: str) -> str:
        if value.source in AT_ENDS:
            how = "estimated" if value.is_estimated else "hand"
            return f"{AT_ENDS[value.source]},{run},{value.value},{value.unit},{how}"
        if value.source in PUT:
            return f"{PUT[value.source]},{run},{value.moment},{value.value},{value.unit}"
        if value.source == READ:
            return f"read,{run},{value.moment},{self.hex(value)}"
        stored = f"{run},{end_fields(utc(value.moment), zone)},{self.hex(value)}"
        return f"stored,{stored}" if value.source == STORED else f"ended,{stored}" if value.telegram else f"zero,{run}"

    def hex(self, value: Evidence) -> str:
        """The bodies of a value: of a current one the one that has it."""
        bodies = self.bodies.get(value.telegram[:3], []) if value.telegram is not None else []
        if value.telegram is not None and value.source == READ:
            bodies = bodies[value.telegram[3] - 1:value.telegram[3]]
        return ",".join(body.hex().upper() for body in bodies or [NO_TELEGRAM])


def struck_of(cursor: Cursor, house: str, begins: int, ends: int) -> Struck:
    """The values that people struck, by place."""
    def reason(why: str) -> str:
        letters = unicodedata.normalize("NFKD", why.replace(",", " ")).encode("ascii", "ignore").decode()
        return plain(letters, LONGEST_WHY) or "struck"
    return grouped((it.place, (it.id, seconds(it.at), reason(it.why)))
                   for it in rows_of(cursor, STRUCK, house, utc(begins - MARGIN), utc(ends + MARGIN)))


# ---- a month

def month_files(cursor: Cursor, house: str, month: datetime.date, averages: Averages) -> Iterator[File]:
    """The audit file of a house's month, beside the one before it and that of the year before, as far as they have
    their evidence; then without one of these, and without both, as what is known of them may be another now.

    Raises NoEvidence where the month hasn't, and LookupError where it isn't computed."""
    page = house_of(cursor, house, month)
    if not page.uses:
        raise LookupError(f"{month:%Y-%m} of {house} isn't computed")
    found = windows_of(cursor, house, [month, later_month(month, -1), later_month(month, -12)])
    bodies = bodies_in(cursor, itertools.chain(*found.values()))
    windows = {one: found[one] for one in sorted(found, reverse=True) if has_evidence(found[one], bodies)}
    if month not in windows:
        raise NoEvidence(f"{month:%Y-%m} was computed before there were audits, or a telegram isn't there any more")
    places = places_of(cursor, [house], min(windows), next_month(month), has_values=False)
    windows = as_known(windows, month, {it.id: it.runs for it in places})
    sheets = sheets_of(cursor, [house], month)
    others = [one for one in windows if one != month]
    for count in range(len(others), -1, -1):
        for kept in itertools.combinations(others, count):
            yield month_file(cursor, page, {one: windows[one] for one in (month, *kept)}, sheets, averages, bodies)


def as_known(windows: Dict[datetime.date, List[Window]], month: datetime.date,
             runs: Dict[int, List[Run]]) -> Dict[datetime.date, List[Window]]:
    """The windows of months with the present runs of places; of the month those that it was computed with, where they
    are others. A month that was computed with others than these is left out."""
    def agrees(it: Window) -> bool:
        one, other = (needed_runs(it._replace(runs=of)) for of in (it.runs, runs.get(it.place, [])))
        return [run._replace(ends=None) for run in one] == [run._replace(ends=None) for run in other]
    runs.update({it.place: it.runs for it in windows[month] if not agrees(it)})
    return {one: [it._replace(runs=runs[it.place]) for it in found] for one, found in windows.items()
            if all(map(agrees, found))}


def month_file(cursor: Cursor, page: House, windows: Dict[datetime.date, List[Window]], sheets: List[Sheet],
               averages: Averages, bodies: Bodies) -> File:
    """The file of a month and older ones, the latest one first."""
    spans, month = {one: number for number, one in enumerate(windows, 1)}, page.month
    of_spans = list(itertools.chain(*windows.values()))
    declared, readings = declared_of(cursor, page, spans, sheets, averages), readings_of(sheets, page)
    writer = Writer(bodies, struck_of(cursor, page.house, min(it.begins for it in of_spans),
                                      max(it.ends for it in of_spans)))
    writer.lines += [f"{FORMAT},{month:%Y-%m}",
                     *(span_line(number, one, next_month(one), page.zone) for one, number in spans.items()),
                     *use_lines(cursor, of_spans, {key[1] for key in declared})]
    writer.lines += [f"{','.join(key)},{number}" for key, number in declared.items()]
    writer.lines += user_lines(cursor, page.house, of_spans, min(spans), next_month(month))
    asked = [it for sheet in sheets for it in of_sheet(sheet, spans)]
    asked += of_house(page, {it.use for it in rows_of(cursor, HELD_USES, [page.house], month)}, spans[month])
    of_places = grouped((it.place, it.line) for it in asked)
    for of_place in grouped((it.place, (spans[one], it)) for one, found in windows.items() for it in found).values():
        (span, one), *_ = of_place
        is_now = span == spans[month]
        keys = [(it.run, it.moment) for it in one.values] if is_now else []
        writer.place(dict(of_place), of_places.get(one.name, []) if is_now else [],
                     {key: readings[key] for key in keys if key in readings})
    writer.lines += ["totals", *of_places.get("", []), "end"]
    return File(writer.lines, lambda lines: Reader(writer.places).read(lines))


def declared_of(cursor: Cursor, page: House, spans: Spans, sheets: List[Sheet], averages: Averages) -> Declared:
    """What people declared of a house: factors, prices, emissions, degree days, and averages over several houses."""
    found: Declared = {}
    for month, span in spans.items():
        found.update({("factor", it.use, str(span)): plain_number(it.kwh_per_unit)
                      for it in rows_of(cursor, FACTORS, page.house, month)})
        found.update({("degrees", "-", str(span)): plain_number(it.days)
                      for it in rows_of(cursor, DEGREES, page.house, month)})
    now = str(min(spans.values()))
    for sheet, use in ((sheet, use) for sheet in sheets for use in sheet.uses):
        unit, average = AUDIT_UNITS[use.unit], averages.get((sheet.user.category, use.use))
        price = sheet.price_of(use)
        if sheet.user.co2_g_per_kwh is not None and use.use in sheet.facts.carbon_uses:
            found["co2", use.use, now] = plain_number(sheet.user.co2_g_per_kwh)
        if price is not None:
            found["price", use.use, unit, now] = plain_number(price)
        declared = None if average is None else declared_average(page.house, use.unit, average)
        if declared is not None:
            found["average", use.use, unit, now] = declared
    return found


def use_lines(cursor: Cursor, windows: List[Window], more: Iterable[str] = ()) -> List[str]:
    """What the uses of windows, and more uses, count; and the device types of meters that don't say it."""
    uses, runs = [*{*(it.use for it in windows), *more}], [(it.use, run) for it in windows for run in needed_runs(it)]
    decided = {(use, run.identity[-2:]) for use, run in runs if run.identity[-2:] not in TYPES.get(use, "").split()
               and not (use == "cooling" and run.identity[-2:] == "0D" and run.vib)}
    return [*(f"use,{it.use},{it.quantity}" for it in rows_of(cursor, USES, uses)),
            *(f"as,{use},{kind},{DECIDED}" for use, kind in sorted(decided))]


def user_lines(cursor: Cursor, house: str, windows: List[Window], first: datetime.date,
               after: datetime.date) -> List[str]:
    """The users of the parts and the days of a file, and the areas of flats that nobody uses."""
    users = {part.user for window in windows for part in window.parts if part.user is not None}
    rows = rows_of(cursor, USERS, house=house, users=list(users), begin=first, after=after)
    used = {it.flat for it in rows}
    areas = enumerate(rows_of(cursor, EMPTY, house), NOBODY)
    rows += [(user, flat, area) for user, (flat, area) in areas if flat not in used]
    return [f"user,{user},{flat},{'-' if area is None else plain_number(area)}" for user, flat, area in rows]


def readings_of(sheets: List[Sheet], page: House) -> Readings:
    """The meters' values that are named on sheets, and on the house's page."""
    named = [it for sheet in sheets for use in sheet.uses for place in use.places for it in place.readings]
    known = [it for it in (*named, *page.meters) if it.run is not None]
    return {(it.run, it.moment): printed_reading(it.shown, it.unit) for it in known}
