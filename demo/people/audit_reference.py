"""What `mbdc audit` has to print of a file: docs/COMMANDS.md, `audit FILE`, as code, with exact fractions and a decoder
of its own. demo/same compares the program with it. A file's bytes are characters here (latin-1)."""

import datetime
import re
import types
from fractions import Fraction
from typing import Callable, Iterator, Optional

from people.telegrams import (DAY, EPOCH, HOUR, SIZES, NoEvidence, Record, code_of, date_of, scale_of, telegram_of,
                              whole_of)

END = 10**18
FAULTS = {"Header": 1, "Row": 2, "Order": 3, "Unit": 6, "Fact": 7, "TooMany": 8, "TooLarge": 9, "End": 10}
MARKS = ("measured", "hand", "provisional", "estimated", "unclear", "disturbed", "missing")
UNITS = {("energy", "kWh"): 3_600_000_000, ("volume", "m3"): 10**6, ("volume", "kWh"): 10**6, ("units", "HCA"): 1000,
         ("units", "count"): 1000, ("units", "kWh"): 1000, ("energy", "smallest"): 1, ("volume", "smallest"): 1,
         ("units", "smallest"): 1}
TYPES = {"heat": "04 0C 0D", "cooling": "0A 0B", "warm water": "06 15", "cold water": "07 16", "electricity": "02",
         "gas": "03", "allocator": "08"}

N, X, DAYS = r"(?:0|[1-9]\d{0,17})", r"(?:0|[1-9]\d{0,8})(?:\.\d{1,6})?", r"\d{4}-\d\d-\d\d"
MAYBE, ABOVE, ANY, VALUE = f"{N}|-", f"(?!0(?:\\.0+)?$){X}", "[^,]*", r"(?:0|[1-9]\d*)(?:\.\d{1,9})?"
FLAT, WHY, HOW, OFFSET = "[A-Za-z0-9._/-]{1,12}", "[ -+\\--~]{1,60}", "hand|estimated", r"-?(?:0|[1-9]\d{0,3})"
BODIES, TEXT = "(?:[0-9A-F]{2})+(?:,(?:[0-9A-F]{2})+)*", r"-|\?(?:\.0{1,3})?|-?(?:0|[1-9]\d*)(?:\.\d{1,3})?"
# Each word: how far the file has come with it, and its fields
FORMS: dict[str, tuple[int, tuple[str, ...]]] = {
    "audit": (1, ("2", r"\d{4}-(?:0[1-9]|1[0-2])")), "use": (2, ("[a-z0-9 -]{1,32}", "energy|volume|units")),
    "as": (2, (ANY, "[0-9A-F]{2}", WHY)), "span": (2, (N, DAYS, OFFSET, DAYS, OFFSET)),
    "user": (2, (N, FLAT, f"{ABOVE}|-")),
    "factor": (2, (ANY, N, X)), "co2": (2, (ANY, N, X)), "degrees": (2, ("-", N, X)), "price": (2, (ANY, ANY, N, X)),
    "average": (2, (ANY, ANY, N, X)), "place": (3, (N, FLAT, ANY, ABOVE)),
    "meter": (4, (N, r"\d{8}\.[A-Z]{3}(?:\.[0-9A-F]{2}){2}", N, MAYBE, MAYBE, MAYBE, "-|(?:[0-9A-F]{2}){1,11}")),
    "window": (5, (N,)),
    "read": (6, (N, N, BODIES)), "stored": (6, (N, DAYS, OFFSET, BODIES)), "ended": (6, (N, DAYS, OFFSET, BODIES)),
    "zero": (6, (N,)),
    "hand": (6, (N, N, VALUE, ANY)), "estimated": (6, (N, N, VALUE, ANY)), "first": (6, (N, VALUE, ANY, HOW)),
    "last": (6, (N, VALUE, ANY, HOW)), "struck": (7, (N, N, WHY)), "part": (8, (N, N, N, MAYBE)),
    "shown": (9, (N, N, N, ANY, TEXT, ANY)), "value": (9, (N, N, rf"\?|{VALUE}", ANY)), "totals": (10, ()),
    "of_user": (11, (N, N, ANY, ANY, TEXT, ANY)), "of_flat": (11, (N, ANY, ANY, ANY, TEXT, ANY)),
    "of_house": (11, (N, ANY, ANY, TEXT, ANY, ANY)),
    "mean": (11, (N, N, ANY, ANY, TEXT)), "change": (11, (N, N, N, ANY, ANY, TEXT)),
    "weather": (11, (N, N, N, ANY, TEXT)),
    "carbon": (11, (N, N, ANY, TEXT)), "cost": (11, (N, N, ANY, ANY, TEXT)), "end": (12, ())}
PATTERNS = {word: re.compile(",".join([word, *(f"({it})" for it in forms)]), re.ASCII)
            for word, (_, forms) in FORMS.items()}
FOLLOWS = {1: {0}, 2: {1, 2}, 3: {2, 4, 5, 6, 7, 8, 9}, 4: {3, 4}, 5: {4, 6, 7, 8, 9}, 6: {5, 6, 7}, 7: {5, 6, 7},
           8: {5, 6, 7, 8}, 9: {8, 9}, 10: {1, 2, 4, 8, 9}, 11: {10, 11}, 12: {10, 11}}


class AtFault(Exception):
    """A line spells nothing: the name of the fault."""


# ---- the house

# A span, run, value, part, number, window or place: what its line says, and what was computed of it
Row = types.SimpleNamespace


def is_over(run: Row, moment: int) -> bool:
    return run.end is not None and bool(run.end <= moment)


def reach(place: Row, span: Row) -> tuple[int, int]:
    """When a place has a time in a span."""
    last = place.runs[-1].end
    return max(span.time[0], place.runs[0].begin), span.time[1] if last is None else min(span.time[1], last)


def window_of(place: Row, span: int) -> Optional[Row]:
    return next((it for it in place.windows if it.span == span), None)


def moment_of(day: int, offset: int) -> int:
    """The end of a day."""
    return max(0, DAY * (day + 1) - 60 * offset)


def day_end(day: str, offset: str) -> tuple[int, int, str, str]:
    try:
        number = (datetime.date.fromisoformat(day) - EPOCH).days
    except ValueError:
        number = -1
    need(number >= 0, "Row")
    return number, int(offset), day, offset


def need(holds: bool, fault: str) -> None:
    if not holds:
        raise AtFault(fault)


def maybe(text: str) -> Optional[int]:
    return None if text == "-" else int(text)


class Reader:
    """Reads lines into a house. Raises AtFault."""

    def __init__(self, may_ask: bool) -> None:
        self.may_ask, self.line, self.stage, self.label = may_ask, 0, 0, ""
        self.uses: dict[str, str] = {}
        self.allowed: dict[tuple[str, str], tuple[int, str]] = {}
        self.spans: list[Row] = []
        self.facts: dict[tuple[str, ...], Fraction] = {}
        self.users: dict[int, tuple[int, str, Optional[Fraction]]] = {}  # the line, the flat, the area
        self.places: list[Row] = []
        self.numbers: list[Row] = []

    def read(self, text: str) -> None:
        lines = text.split("\n")
        for line in lines[:-1] if lines[-1] == "" else lines:
            self.line += 1
            self.take(line)
        self.line += 1
        need(self.stage == 12 and lines[-1] == "", "End")
        self.line -= 1

    def take(self, line: str) -> None:
        need(len(line) <= 4096 and self.stage != 12, "End")
        need(self.stage > 0 or line.startswith("audit,2,") and line.count(",") == 2, "Header")
        word = line.split(",")[0]
        found = PATTERNS[word].fullmatch(line) if word in FORMS else None
        if found is None:
            raise AtFault("Row")
        fields, stage = found.groups(), FORMS[word][0]
        for form, field in zip(FORMS[word][1], fields):
            need(form not in (VALUE, TEXT, rf"\?|{VALUE}") or int(re.sub(r"[^\d]", "", field) or 0) < END, "Row")
        ends = [day_end(*fields[at:at + 2]) for at, form in enumerate(FORMS[word][1]) if form == DAYS]
        need(self.may_ask or stage not in (9, 11) or "?" not in line, "Row")
        need(self.stage in FOLLOWS[stage], "Order")
        self.stage = stage
        if stage in (6, 7):
            self.take_value(word, fields, ends)
        elif stage == 9:
            self.take_number_of_place(word, fields)
        elif stage == 11:
            self.take_number(word, fields)
        elif word == "span":
            need(int(fields[0]) == len(self.spans) + 1, "Order")
            need(len(self.spans) < 4, "TooMany")
            self.spans.append(Row(line=self.line, ends=ends, time=(moment_of(*ends[0][:2]), moment_of(*ends[1][:2]))))
        elif word in ("factor", "co2", "degrees", "price", "average"):
            self.take_fact(word, *fields)
        elif stage < 10:
            getattr(self, f"take_{word}")(*fields)

    def used(self, use: str) -> str:
        need(use in self.uses, "Fact")
        return self.uses[use]

    def span(self, number: str) -> int:
        need(0 < int(number) <= len(self.spans), "Fact")
        return int(number) - 1

    def unit(self, use: str, unit: str) -> None:
        need((self.used(use), unit) in UNITS, "Unit")

    def take_audit(self, _: str, label: str) -> None:
        self.label = label

    def take_use(self, use: str, quantity: str) -> None:
        need(use not in self.uses, "Fact")
        need(len(self.uses) < 64, "TooMany")
        self.uses[use] = quantity

    def take_as(self, use: str, kind: str, why: str) -> None:
        need(use in self.uses and (use, kind) not in self.allowed, "Fact")
        self.allowed[use, kind] = self.line, why

    def take_fact(self, word: str, *fields: str) -> None:
        if word != "degrees":
            self.used(fields[0])
        if word in ("price", "average"):
            self.unit(fields[0], fields[1])
        key = (word, *fields[:-2], str(self.span(fields[-2])))
        need(key not in self.facts, "Fact")
        self.facts[key] = Fraction(fields[-1])

    def take_user(self, number: str, flat: str, area: str) -> None:
        need(not self.users or int(number) > max(self.users), "Order")
        need(len(self.users) < 4096, "TooMany")
        self.users[int(number)] = self.line, flat, None if area == "-" else Fraction(area)

    def take_place(self, number: str, flat: str, use: str, weight: str) -> None:
        need(int(number) == len(self.places) + 1, "Order")
        need(len(self.places) < 16_384, "TooMany")
        self.used(use)
        self.places.append(Row(line=self.line, flat=flat, use=use, weight=Fraction(weight), runs=[], windows=[]))

    def take_meter(self, number: str, identity: str, begin: str, end: str, most: str, size: str, vib: str) -> None:
        runs = self.places[-1].runs
        need(int(number) == len(runs) + 1, "Order")
        need(len(runs) < 16, "TooMany")
        named = b"" if vib == "-" else bytes.fromhex(vib)
        runs.append(Row(line=self.line, identity=identity, begin=int(begin), end=maybe(end), most=maybe(most) or 0,
                        size=maybe(size) or 0, vib=named))

    def take_window(self, span: str) -> None:
        place, number = self.places[-1], self.span(span)
        need(not place.windows or place.windows[-1].span < number, "Order")
        place.windows.append(Row(line=self.line, span=number, values=[], struck=[], parts=[], numbers=[]))

    def take_value(self, word: str, fields: tuple[str, ...], ends: list[tuple[int, int, str, str]]) -> None:
        place = self.places[-1]
        window, number = place.windows[-1], int(fields[0])
        need(0 < number <= len(place.runs), "Order")
        if word == "struck":
            window.struck.append((number - 1, int(fields[1])))
            return
        need(len(window.values) < 2048, "TooMany")
        run = place.runs[number - 1]
        value = Row(line=self.line, word=word, run=number - 1, day=None, bodies=(), put=None, is_guess=False,
                    found=None, why="",
                    is_again=False, is_told=word in ("read", "stored", "ended"))
        if word in ("hand", "estimated", "first", "last"):
            text, unit = fields[1:3] if word in ("first", "last") else fields[2:4]
            need(unit in SIZES, "Unit")
            value.put = Fraction(text) * SIZES[unit][1] if SIZES[unit][0] == self.uses[place.use] else Fraction(-1)
            value.is_guess = "estimated" in (word, fields[-1])
        if ends:
            value.day, value.moment = ends[0], moment_of(*ends[0][:2])
        elif word in ("read", "hand", "estimated"):
            value.moment = int(fields[1])
        else:
            value.moment = run.end if word == "last" and run.end is not None else run.begin
        if value.is_told:
            value.bodies = tuple(bytes.fromhex(it) for it in fields[-1].split(","))
        window.values.append(value)

    def take_part(self, span: str, begin: str, end: str, user: str) -> None:
        window = self.places[-1].windows[-1]
        need(int(span) == window.span + 1, "Order")
        need(len(window.parts) < 64, "TooMany")
        need(user == "-" or int(user) in self.users, "Fact")
        window.parts.append(Row(line=self.line, begin=int(begin), end=int(end), user=maybe(user), amount=None,
                                mark="missing"))

    def take_number_of_place(self, word: str, fields: tuple[str, ...]) -> None:
        place = self.places[-1]
        window = place.windows[-1]
        number = Row(line=self.line, word=word, fields=fields, at=2 if word == "value" else 4, use=place.use,
                     unit=fields[3])
        if word == "value":
            need(SIZES.get(fields[3], ("", 0))[0] == self.uses[place.use], "Unit")
        else:
            self.unit(place.use, fields[3])
            span = self.span(fields[0])
            self.declared(number, span)
            need(span == window.span, "Order")
        window.numbers.append(number)

    def declared(self, number: Row, span: int) -> None:
        """What a number needs of a span is declared."""
        keys = {"weather": ("degrees", "-"), "carbon": ("co2", number.use), "cost": ("price", number.use, number.unit)}
        needed = [keys[number.word]] if number.word in keys else []
        if number.unit == "kWh" and self.uses[number.use] != "energy":
            needed.append(("factor", number.use))
        need(all((*key, str(span)) in self.facts for key in needed), "Fact")

    def take_number(self, word: str, fields: tuple[str, ...]) -> None:
        text, has_unit = FORMS[word][1].index(TEXT), word not in ("weather", "carbon")
        at = text - 1 - has_unit
        self.used(fields[at])
        if has_unit:
            self.unit(fields[at], fields[at + 1])
        number = Row(line=self.line, word=word, fields=fields, at=text, use=fields[at],
                     unit=fields[at + 1] if has_unit else "kWh", span=self.span(fields[0]), whose=fields[at - 1])
        self.declared(number, number.span)
        if word in ("change", "weather"):
            number.then = self.span(fields[1])
            self.declared(number, number.then)
        if word == "of_flat":
            need(number.whose in {it[1] for it in self.users.values()} | {it.flat for it in self.places}, "Fact")
        elif word != "of_house":
            need(int(number.whose) in self.users, "Fact")
        self.numbers.append(number)


# ---- evidence

def value_of(value: Row, run: Row, quantity: str) -> int:
    """The value of a line in the smallest unit. Raises NoEvidence."""
    if value.word == "zero":
        return 0
    if value.put is not None:
        return fitting(value.put)
    records: list[Record] = []
    for n, body in enumerate(value.bodies, 1):
        identity, status, found, more_follow = telegram_of(body)
        if identity != run.identity:
            raise NoEvidence("a body of another meter")
        if status & 8 or status & 3 == 2:
            raise NoEvidence("the meter reports an error")
        if n < len(value.bodies) and not more_follow:
            raise NoEvidence("bodies of two readouts")
        records += [it for it in found if it.is_main]
    meant = storages_of(value, records)
    for record in records:
        if record.storage not in meant or run.vib and record.vib != run.vib:
            continue
        (counts, size), number = scale_of(code_of(run.vib) if run.vib else record.vib), whole_of(record)
        if counts == quantity and number is not None:
            return fitting(number * size)
    raise NoEvidence("no record of the use")


def fitting(amount: Fraction) -> int:
    if amount.denominator != 1 or not 0 <= amount < END:
        raise NoEvidence("no record of the use")
    return int(amount)


def storages_of(value: Row, records: list[Record]) -> list[int]:
    """The storage numbers that are meant, by their dates. Raises NoEvidence of dates that contradict."""
    dates = [(it.storage, *date) for it in records if (date := date_of(it)) is not None and date[0] >= 0]
    days: dict[int, int] = {}
    for storage, day, _ in dates:
        if storage and days.setdefault(storage, day) != day:
            raise NoEvidence("bodies of two readouts")
    own = [second for storage, _, second in dates if storage == 0 and second is not None]
    if value.day is None:
        if any(abs(second - value.moment) > DAY + 14 * HOUR for second in own):
            raise NoEvidence("dated another day")
        if any((day + 1) * DAY > value.moment + DAY + 14 * HOUR for day in days.values()):
            raise NoEvidence("it knows a later day")
        return [0]
    if any(second < value.day[0] * DAY for second in own):
        raise NoEvidence("dated after its own clock")
    if value.day[0] not in days.values():
        raise NoEvidence("no record dated so")
    return [storage for storage, day in days.items() if day == value.day[0]]


# ---- amounts and marks

def is_put(value: Row) -> bool:
    return value.put is not None or bool(value.is_again)


def curve_of(values: list[Row], are_told: bool = False) -> list[Row]:
    """The values that count, or of them those that telegrams show: of several of a run and moment in a row the last."""
    kept: list[Row] = []
    for value in values:
        if value.found is not None and not (are_told and is_put(value)):
            if kept and (kept[-1].run, kept[-1].moment) == (value.run, value.moment):
                kept.pop()
            kept.append(value)
    return kept


def deciding(curve: list[Row], moment: int) -> list[Row]:
    """The last value at a moment or before it and, where that is before it, the next."""
    last = [it for it in curve if it.moment <= moment][-1:]
    return last if last and last[0].moment == moment else last + [it for it in curve if it.moment > moment][:1]


def step(runs: list[Row], one: Row, other: Row) -> tuple[int, bool]:
    """What was consumed from a value to the next, and whether that is in doubt."""
    if one.run != other.run:
        return 0, False
    before, after, run = one.found or 0, other.found or 0, runs[one.run]
    room = run.most * (max(0, other.moment - one.moment) // HOUR + 2)
    if after < before:
        turned = run.size - before + after
        return (turned, False) if before < run.size and turned <= room else (0, True)
    return after - before, 0 < run.most and room < after - before


def graded(runs: list[Row], curve: list[Row], begin: int, end: int) -> tuple[Optional[int], str]:
    """What a place consumed in a period, and the first mark that applies."""
    pairs = list(zip(curve, curve[1:]))
    steps = [step(runs, *pair) for pair in pairs]
    touches = [n for n, (one, other) in enumerate(pairs) if begin < other.moment
               and (one.moment < end or other.moment <= end)]
    if any(in_doubt for n in touches for _, in_doubt in steps[max(0, n - 1):n + 2]):
        return None, "disturbed"
    count = exchanges_of(runs, curve, begin, end)
    ends = [consumed(curve, [amount for amount, _ in steps], moment) for moment in (begin, end)]
    in_order = begin <= end and all(one.moment <= other.moment for one, other in pairs)
    amount = ends[1] - ends[0] if in_order and ends[0] is not None and ends[1] is not None else None
    if count != sum(pairs[n][0].run != pairs[n][1].run for n in touches) or (amount or 0) >= END:
        return None, "unclear"
    if amount is None:
        return None, "missing"
    around = [deciding(curve, moment) for moment in (begin, end)]
    basis = [*around[0], *around[1],
             *(it for it in curve if it.word in ("first", "zero", "last", "ended") and begin < it.moment <= end)]
    is_far = any(len(it) > 1 and it[1].moment - it[0].moment > 48 * HOUR for it in around)
    if is_far or any(it.is_guess or it.is_again for it in basis):
        return amount, "estimated"
    if not is_over(runs[-1], end) and len({it.moment for it in curve if it.moment >= end}) < 2:
        return amount, "provisional"
    return amount, "hand" if any(is_put(it) for it in basis) else "measured"


def exchanges_of(runs: list[Row], curve: list[Row], begin: int, end: int) -> Optional[int]:
    """Number of exchanges of a period by its runs; none if one of them lacks a value, or time lies between the runs."""
    words, count = {(it.run, it.word) for it in curve}, 0
    for n, (old, new) in enumerate(zip(runs, runs[1:])):
        if begin < new.begin and (old.end is not None and old.end < end or new.begin <= end):
            count += 1
            have = words & {(n, "last"), (n, "ended")} and words & {(n + 1, "first"), (n + 1, "zero")}
            if old.end != new.begin or not have:
                return None
    return count


def consumed(curve: list[Row], amounts: list[int], moment: int) -> Optional[int]:
    """All that was consumed up to a moment, of values in order."""
    last = sum(it.moment <= moment for it in curve) - 1
    if last < 0 or last == len(curve) - 1 and curve[last].moment != moment:
        return None
    whole = sum(amounts[:last])
    if last == len(curve) - 1:
        return whole
    one, other = curve[last:last + 2]
    return whole + int(amounts[last] * (moment - one.moment) // max(1, other.moment - one.moment))


def amount_of(runs: list[Row], values: list[Row], begin: int, end: int) -> tuple[Optional[int], str]:
    """As graded, but measured only where it is the same without every value that was put."""
    found: tuple[Optional[int], str] = graded(runs, curve_of(values), begin, end)
    put = [it for it in values if it.found is not None and is_put(it)]
    if found[1] != "measured" or not put or graded(runs, curve_of(values, True), begin, end) == found:
        return found
    return found[0], "estimated" if any(it.is_guess or it.is_again for it in put) else "hand"


# ---- the audit

def rounded(exact: Optional[Fraction], decimals: int) -> str:
    """Half away from zero; `-` of no number."""
    if exact is None:
        return "-"
    whole = int(abs(exact) * 10**decimals + Fraction(1, 2))
    need(whole < END, "TooLarge")
    text = f"{whole:0{decimals + 1}}"
    return ("-" if exact < 0 < whole else "") + (f"{text[:-decimals]}.{text[-decimals:]}" if decimals else text)


class Audit(Reader):
    """Says what is wrong with a house."""

    def __init__(self, may_ask: bool) -> None:
        super().__init__(may_ask)
        self.printed: list[str] = []
        self.counts = dict.fromkeys(("numbers", "differ", "rules", "readings", "refused", "by hand", "estimated",
                                     "struck"), 0)
        self.offsets: dict[int, int] = {}
        self.fills: dict[int, tuple[int, list[str]]] = {}  # of a line: the place of its text, and what holds

    def rule(self, line: int, name: str, words: str) -> None:
        self.counts["rules"] += 1
        self.printed.append(f"RULE line {line} {name}: {words}")

    def judge(self) -> None:
        self.printed += [f"AS line {line}: {use} by {kind}: {why}" for (use, kind), (line, why) in self.allowed.items()]
        for place in self.places:
            for window in place.windows:
                self.find_values(place, window)
        self.check_house()
        for place in self.places:
            for window in place.windows:
                for number in window.numbers:
                    holds = self.reading if number.word == "value" else self.shown
                    self.check_number(number, *holds(place, window, number))
        for number in self.numbers:
            self.check_number(number, *self.of_house(number))
        counts = ", ".join(f"{name} {count}" for name, count in self.counts.items())
        self.printed.append(f"{counts}, places {len(self.places)}")

    # ---- values

    def find_values(self, place: Row, window: Row) -> None:
        for value in window.values:
            try:
                value.found = value_of(value, place.runs[value.run], self.uses[place.use])
            except NoEvidence as why:
                value.why = str(why)
        told = [it for it in window.values if it.is_told and it.found is not None]
        for value in window.values:
            high = [it.found for it in told if it.run == value.run - 1][-1:]
            low = [it.found for it in told if it.run == value.run and it.moment > value.moment][:1]
            if value.word == "zero" and not (high and low and low < high):
                value.found, value.why = None, "no telegram shows that it began anew"
            value.is_again = value.word == "read" and value.found is not None and any(
                it.word == "read" and (it.run, it.bodies) == (value.run, value.bodies)
                and it.moment < value.moment for it in told)
            self.tell_value(value, place.runs[value.run].size or END)
            if value.is_told and (value.run, value.moment) in window.struck:
                self.rule(value.line, "Struck", "a struck value counts")
            at_once = [it.found for it in told if (it.run, it.moment) == (value.run, value.moment)]
            if value in told and any(it != value.found for it in at_once):
                self.rule(value.line, "Moment", "two values at one moment")
        self.counts["struck"] += len(window.struck)
        for part in window.parts:
            part.amount, part.mark = amount_of(place.runs, window.values, part.begin, part.end)

    def tell_value(self, value: Row, size: int) -> None:
        if value.found is None:
            self.counts["refused"] += 1
            self.printed.append(f"NO EVIDENCE line {value.line}: {value.why}")
        elif value.found >= size:
            self.rule(value.line, "Moment", "a value that reaches the meter's size")
        if value.put is not None:
            self.counts["estimated" if value.is_guess else "by hand"] += 1
        self.counts["readings"] += value.is_told and value.found is not None

    # ---- the rules of a house

    def check_house(self) -> None:
        self.check_spans()
        areas: dict[str, set[Optional[Fraction]]] = {}
        for line, flat, area in self.users.values():
            areas.setdefault(flat, set()).add(area)
            if len(areas[flat]) > 1:
                self.rule(line, "Tenancy", f"the users of {flat} have two areas")
        for n, place in enumerate(self.places, 1):
            self.check_place(place, n)
            self.check_ends(place)
            for k, other in enumerate(self.places[:n], 1):
                self.check_meters(place, other, n, k)
                if place.flat == other.flat:
                    self.check_tenancy(place, other, k)
        if not self.places or not (self.numbers or any(it.numbers for place in self.places for it in place.windows)):
            self.rule(self.line, "Empty", "no number is asked")

    def check_offset(self, line: int, day: int, offset: int, *spelled: str) -> None:
        if self.offsets.get(day, offset) != offset or offset % 15 or abs(offset) > 840:
            self.rule(line, "Offset", f"{spelled[0]} has another offset than {spelled[1]}")
        self.offsets[day] = offset

    def check_spans(self) -> None:
        for n, span in enumerate(self.spans):
            for end in span.ends:
                self.check_offset(span.line, *end)
            if span.time[0] >= span.time[1] or any(span.time == it.time for it in self.spans[:n]):
                self.rule(span.line, "Span", "it has no time, or is one before it")
        if self.spans:
            last = max(self.spans, key=lambda it: int(it.time[1]))
            month = f"{EPOCH + datetime.timedelta(last.ends[0][0] + 1)}"[:7]
            if month != self.label:
                self.rule(1, "Label", "not the month in which the span that ends last begins")

    def check_place(self, place: Row, number: int) -> None:
        if self.uses[place.use] != "units" and place.weight != 1:
            self.rule(place.line, "Type", "a weight of what isn't an allocator")
        for n, run in enumerate(place.runs):
            if run.end is not None and run.end <= run.begin or not all(is_over(it, run.begin) for it in place.runs[:n]):
                self.rule(run.line, "Moment", "the meters' times aren't in order")
            kind = run.identity[-2:]
            is_both = (place.use, kind) == ("cooling", "0D") and run.vib
            if kind not in TYPES.get(place.use, "").split() and not is_both and (place.use, kind) not in self.allowed:
                self.rule(run.line, "Type", f"{place.use} by device type {kind}")
        for n, span in enumerate(self.spans):
            window, (begin, end) = window_of(place, n), reach(place, span)
            if (window is not None) != (begin < end):
                has = "a" if window else "no"
                self.rule((window or place).line, "Window", f"place {number} has {has} window of span {n + 1}")
        for opened in place.windows:
            self.check_values(place, opened, self.spans[opened.span])
            self.check_parts(place, opened, *reach(place, self.spans[opened.span]))

    def check_values(self, place: Row, window: Row, span: Row) -> None:
        for n, value in enumerate(window.values):
            run = place.runs[value.run]
            is_anew = any((it.identity, it.vib, it.end) == (run.identity, run.vib, run.begin)
                          for it in place.runs[:value.run][-1:])
            if value.day is not None:
                self.check_offset(value.line, *value.day)
                if all(abs(value.day[1] - end[1]) > 60 for end in span.ends):
                    self.rule(value.line, "Offset", "far from its span's")
            if value.word in ("ended", "last") and value.moment != run.end:
                self.rule(value.line, "Moment", "not at the meter's end")
            if value.moment < run.begin or run.end is not None and run.end < value.moment:
                self.rule(value.line, "Moment", "outside of its meter's time")
            if value.word == "zero" and not is_anew:
                self.rule(value.line, "Restart", "not of the meter before")
            if n and (value.moment, value.run) < (window.values[n - 1].moment, window.values[n - 1].run):
                self.rule(value.line, "Moment", "before the value before it")

    def check_parts(self, place: Row, window: Row, begin: int, end: int) -> None:
        reached = begin
        for part in window.parts:
            if part.begin != reached or part.begin >= part.end or part.end > end:
                self.rule(part.line, "Part", "not adjacent, or beyond the span or the place's time")
            if part.user is not None and self.users[part.user][1] != place.flat:
                self.rule(part.line, "Part", f"user {part.user} is of another flat")
            reached = part.end
        if reached != end:
            self.rule(window.line, "Part", "the parts don't reach the end")

    def check_ends(self, place: Row) -> None:
        for n, window in enumerate(place.windows):
            for other in place.windows[:n]:
                times = [self.spans[it.span].time for it in (window, other)]
                for moment in dict.fromkeys([*times[0], *times[1]]):
                    one, two = ([(it.run, it.moment, it.found, it.word)
                                 for it in deciding(curve_of(its.values), moment)]
                                for its in (window, other))
                    if all(begin <= moment <= end for begin, end in times) and one != two:
                        words = f"other values at the common end {moment} than span {other.span + 1}"
                        self.rule(window.line, "Ends", words)

    def check_meters(self, place: Row, other: Row, number: int, before: int) -> None:
        for n, run in enumerate(place.runs):
            for it in place.runs[:n] if place is other else other.runs:
                are_two = place.use != other.use and run.vib and it.vib and run.vib != it.vib
                overlap = not is_over(run, it.begin) and not is_over(it, run.begin)
                if it.identity == run.identity and overlap and not are_two:
                    self.rule(run.line, "Twice", f"{run.identity} is at places {before} and {number} at one time")

    def check_tenancy(self, place: Row, other: Row, before: int) -> None:
        for part in (it for window in place.windows for it in window.parts):
            for it in (it for window in other.windows for it in window.parts if it.line < part.line):
                if max(part.begin, it.begin) < min(part.end, it.end) and it.user != part.user:
                    self.rule(part.line, "Tenancy", f"flat {place.flat} has another user at place {before}")

    # ---- numbers

    def in_unit(self, amounts: list[tuple[int, Fraction]], use: str, unit: str, span: int) -> Fraction:
        """The sum of amounts, each with its place's weight, in a unit."""
        quantity = self.uses[use]
        is_weighted = quantity == "units" and unit in ("HCA", "kWh")
        exact = sum((amount * (weight if is_weighted else Fraction(1)) for amount, weight in amounts), Fraction())
        exact /= UNITS[quantity, unit]
        return exact * self.facts["factor", use, str(span)] if unit == "kWh" and quantity != "energy" else exact

    def shares(self, span: int, use: str,
               is_its: Callable[[Row, Row], bool]) -> Iterator[tuple[Optional[int], Fraction, str]]:
        """Of each place with the use that has such parts in a span: their sum, its weight, and their worst mark."""
        for place in self.places:
            window = window_of(place, span) if place.use == use else None
            parts = [it for it in window.parts if is_its(place, it)] if window else []
            if parts:
                mark = max((it.mark for it in parts), key=MARKS.index)
                yield sum(it.amount or 0 for it in parts) if mark in MARKS[:4] else None, place.weight, mark

    def sum(self, span: int, use: str, unit: str, is_its: Callable[[Row, Row], bool]) -> tuple[Optional[Fraction], str]:
        found = list(self.shares(span, use, is_its))
        mark = max((it[2] for it in found), key=MARKS.index, default="missing")
        known = [(amount, weight) for amount, weight, _ in found if amount is not None]
        return self.in_unit(known, use, unit, span) if mark in MARKS[:4] else None, mark

    def of_user(self, number: Row, span: int) -> tuple[Optional[Fraction], str]:
        return self.sum(span, number.use, number.unit, lambda _, part: bool(part.user == int(number.whose)))

    def of_flat(self, number: Row, flat: str) -> tuple[Optional[Fraction], str]:
        return self.sum(number.span, number.use, number.unit, lambda place, _: bool(place.flat == flat))

    def reading(self, _: Row, window: Row, number: Row) -> tuple[Optional[Fraction], list[str]]:
        run, moment = int(number.fields[0]) - 1, int(number.fields[1])
        found = [it.found for it in window.values if (it.run, it.moment) == (run, moment) and it.found is not None]
        return (Fraction(found[-1], SIZES[number.unit][1]) if found else None), []

    def shown(self, place: Row, window: Row, number: Row) -> tuple[Optional[Fraction], list[str]]:
        begin, end = int(number.fields[1]), int(number.fields[2])
        cuts = {moment for it in (*window.parts, *place.runs) for moment in (it.begin, it.end)}
        is_within = bool(window.parts) and window.parts[0].begin <= begin < end <= window.parts[-1].end
        if not is_within or not {begin, end} <= cuts:
            self.rule(number.line, "Part", "not of whole parts or meters")
            return None, ["missing"]
        amount, mark = amount_of(place.runs, window.values, begin, end)
        known = [] if amount is None else [(amount, place.weight)]
        return (self.in_unit(known, place.use, number.unit, window.span) if known else None), [mark]

    def of_house(self, number: Row) -> tuple[Optional[Fraction], list[str]]:
        """What holds of a number of the house, and what is beside it."""
        span, use, unit = number.span, number.use, number.unit
        if number.word == "of_user":
            exact, mark = self.of_user(number, span)
            return exact, [mark]
        if number.word == "of_flat":
            exact, mark = self.of_flat(number, number.whose)
            return exact, [mark]
        if number.word == "of_house":
            found = list(self.shares(span, use, lambda *_: True))
            known = [(amount, weight) for amount, weight, _ in found if amount is not None]
            counts = [f"{len(found) - len(known)}", f"{len(found)}"]
            return (self.in_unit(known, use, unit, span) if known else None), counts
        if number.word == "mean":
            return self.mean(number), []
        if number.word in ("change", "weather"):
            return self.compared(number), []
        key = ("co2", use, f"{span}") if number.word == "carbon" else ("price", use, unit, f"{span}")
        exact = self.of_user(number, span)[0]
        return (None if exact is None else exact * self.facts[key] / (1000 if number.word == "carbon" else 100)), []

    def mean(self, number: Row) -> Optional[Fraction]:
        area = self.users[int(number.whose)][2]
        if area is None:
            return None
        declared = self.facts.get(("average", number.use, number.unit, f"{number.span}"))
        if declared is not None:
            return declared * area
        areas = {flat: it for _, flat, it in self.users.values() if it is not None}
        found = [(*self.of_flat(number, flat), it) for flat, it in areas.items()]
        flats = [(exact, it) for exact, mark, it in found if exact is not None and mark in ("measured", "hand")]
        return area * sum(exact for exact, _ in flats) / sum(it for _, it in flats) if len(flats) >= 3 else None

    def has_whole(self, number: Row, span: int) -> bool:
        user, time = int(number.whose), self.spans[span].time
        places = [it for it in self.places if (it.flat, it.use) == (self.users[user][1], number.use)]
        its = [(reach(it, self.spans[span]), window) for it in places if (window := window_of(it, span))]
        return bool(its) and all(reached == time and all(it.user == user for it in window.parts)
                                 for reached, window in its)

    def compared(self, number: Row) -> Optional[Fraction]:
        if not self.has_whole(number, number.span) or not self.has_whole(number, number.then):
            return None
        then = self.of_user(number, number.then)[0]
        if number.word == "weather":
            now, before = (self.facts["degrees", "-", f"{it}"] for it in (number.span, number.then))
            return then * now / before if then is not None and before else None
        here = self.of_user(number, number.span)[0]
        return 100 * (here - then) / then if here is not None and then else None

    def check_number(self, number: Row, exact: Optional[Fraction], beside: list[str]) -> None:
        said = number.fields[number.at:number.at + 1 + len(beside)]
        if number.word == "value":
            held = [self.value_text(exact)]
            is_right = said[0] == "?" or exact is not None and Fraction(said[0]) == exact
        else:
            decimals = len(said[0].partition(".")[2])
            held = [rounded(exact, decimals), *beside]
            if exact is not None and said[0] != "-" and not suffice(number, decimals, exact):
                self.rule(number.line, "Decimals", f"{decimals} decimals")
            are_same = all(one in ("?", other) for one, other in zip(said[1:], beside))
            is_right = are_same and (said[0][0] == "?" or said[0] == held[0])
        self.counts["numbers"] += 1
        self.fills[number.line] = number.at, held
        if not is_right:
            self.counts["differ"] += 1
            asked = f"{number.word} {','.join(number.fields[:number.at])}"
            both = f"published {' '.join(said)}, computed {' '.join(held)}"
            self.printed.append(f"DIFFERS line {number.line}: {asked}: {both}")

    @staticmethod
    def value_text(exact: Optional[Fraction]) -> str:
        """A value with the decimals that it needs."""
        text = rounded(exact, 9) if exact is not None and exact * 10**9 < END else rounded(exact, 0)
        return text.rstrip("0").rstrip(".") if "." in text else text


def suffice(number: Row, decimals: int, exact: Fraction) -> bool:
    if number.word in ("change", "carbon", "cost"):
        return {"change": True, "carbon": decimals > 0, "cost": decimals == 2}[number.word]
    return decimals >= {"kWh": 1, "HCA": 1, "m3": 2}.get(number.unit, 0) or decimals == 0 and abs(exact) >= 100


def judged(content: bytes, may_ask: bool = False) -> tuple[list[str], int, Audit]:
    """What is printed of a file, the status, and the audit."""
    audit = Audit(may_ask)
    try:
        audit.read(content.decode("latin-1"))
        audit.judge()
    except AtFault as fault:
        audit.printed.append(f"LINE {audit.line} FAULT {FAULTS[str(fault)]} {fault}")
        return audit.printed, 1, audit
    return audit.printed, int(any(audit.counts[it] for it in ("differ", "rules", "refused"))), audit


def filled(content: bytes) -> tuple[str, list[str], int]:
    """A file with what holds in the place of each `?`, what is said beside, and the status."""
    printed, status, audit = judged(content, True)
    if printed[-1].startswith("LINE "):
        return "", printed, status
    lines = content.decode("latin-1").split("\n")
    for line, (at, held) in audit.fills.items():
        word, *fields = lines[line - 1].split(",")
        for n, text in enumerate(held, at):
            fields[n] = text if fields[n].startswith("?") else fields[n]
        lines[line - 1] = ",".join([word, *fields])
    return "\n".join(lines), printed, status
