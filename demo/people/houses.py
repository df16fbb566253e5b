"""Simulated houses: the places of their flats, what is consumed there, and what their meters tell of it and when.

What a place consumed is known at *knots*: moments at which its meter told a value that counts. Between two of them it
grows evenly. A meter that dies tells nothing; one that is disturbed tells a value that is false.
"""

import bisect
import dataclasses
import datetime
import functools
import random
import zoneinfo
from typing import Any, Dict, Iterator, List, NamedTuple, Optional, Tuple

from world.frames import Identity, bcd, header, type_g

ZONE = "Europe/Berlin"
BERLIN = zoneinfo.ZoneInfo(ZONE)
UTC = datetime.timezone.utc
Moment = datetime.datetime
DAY = datetime.timedelta(days=1)
NEVER = Moment.max.replace(tzinfo=UTC)


class Kind(NamedTuple):
    """A kind of meter: use, device type, VIF, the smallest units of its last digit, and digits a day at its place."""
    use: str
    medium: int
    vif: int
    unit: str
    digit: int
    a_day: int
    is_seasonal: bool


WATT_HOUR = 3_600_000  # millijoules
KINDS = {
    "heat": Kind("heat", 0x04, 0x03, "Wh", WATT_HOUR, 9_000, True),
    "heat in joules": Kind("heat", 0x04, 0x0E, "J", 1_000_000_000, 32, True),
    "warm water": Kind("warm water", 0x06, 0x13, "m3", 1_000, 60, False),
    "cold water": Kind("cold water", 0x07, 0x13, "m3", 1_000, 130, False),
    "allocator": Kind("allocator", 0x08, 0x6E, "HCA", 1_000, 9, True),}
SHOWN_DIGIT = {0x03: ("Wh", 1, 0), 0x0E: ("J", 1_000_000, 0), 0x13: ("m3", 1, 3), 0x6E: ("HCA", 1, 0)}
GAP_DAYS = 6
LEAP = 53_000_000  # millilitres
KEPT = 4096  # places of which a moment's values are kept
BESIDE = 12  # entries: three moments, of each at most a stored one, a false one, and two of an exchange
WRONG = datetime.datetime(2000, 1, 1, 0, 7, tzinfo=UTC)  # of a clock that began anew


def begin_of(day: datetime.date) -> Moment:
    return datetime.datetime.combine(day, datetime.time(), BERLIN).astimezone(UTC)


def next_month(day: datetime.date) -> datetime.date:
    return (day.replace(day=1) + datetime.timedelta(days=32)).replace(day=1)


class Telegram(NamedTuple):
    """What a meter sends: its value, and of a stored one the day and the value; in digits."""
    at: Moment
    digits: int
    stored: Optional[Tuple[datetime.date, int]]
    stamp: Optional[Moment] = None  # what the box's clock says where it is wrong


@dataclasses.dataclass
class Device:
    """A meter at a place from one moment to another."""
    number: int
    kind: Kind
    begins: Moment
    first: int  # digits
    ends: Optional[Moment] = None
    last: Optional[int] = None
    is_estimated: bool = False
    telegrams: List[Telegram] = dataclasses.field(default_factory=list)

    @property
    def identity(self) -> str:
        return str(Identity(self.number, 1, self.kind.medium))

    def body(self, told: Telegram) -> bytes:
        """A telegram without its frame: header, value, and the date and value that are stored."""
        head = header(Identity(self.number, 1, self.kind.medium), told.at.toordinal())
        now = head + bytes([0x0C, self.kind.vif]) + bcd(told.digits)
        if told.stored is None:
            return now
        day, value = told.stored
        return now + bytes([0x42, 0x6C]) + type_g(day) + bytes([0x4C, self.kind.vif]) + bcd(value)

    def shown(self, digits: int) -> str:
        """A value as the decoder prints it."""
        _, power, decimals = SHOWN_DIGIT[self.kind.vif]
        return f"{digits / 10 ** decimals:.{decimals}f}" if decimals else str(digits * power)


class Knot(NamedTuple):
    """What was consumed up to a moment, in smallest units, when the office can know it, and until when that counts."""
    at: Moment
    amount: int
    known_at: Moment
    until: Moment = NEVER


class False_(NamedTuple):
    """A value that is told and isn't so, with the readings around it."""
    at: Moment
    device: Device
    digits: int


class Consumed(NamedTuple):
    """What was consumed up to a moment."""
    amount: int
    is_near: bool  # to the knots around it


LONGEST_GAP = datetime.timedelta(hours=48)


@dataclasses.dataclass(eq=False)
class Place:
    """A supply point, its meters, and what was consumed there."""
    house: str
    flat: str
    kind: Kind
    number: int
    weight: str
    devices: List[Device]
    knots: List[Knot] = dataclasses.field(default_factory=list)
    false: List[False_] = dataclasses.field(default_factory=list)
    struck: List[False_] = dataclasses.field(default_factory=list)
    is_dead_since: Optional[Moment] = None
    outage: Optional[Tuple[Moment, Moment]] = None  # of the way to the house's box
    jump: Optional[Tuple[Moment, Moment]] = None  # between these two the meter counted more than was used

    def comes(self, at: Moment) -> Moment:
        """When the office gets what is known at a moment."""
        return self.outage[1] if self.outage is not None and self.outage[0] <= at < self.outage[1] else at

    @property
    def use(self) -> str:
        return self.kind.use

    @functools.lru_cache(maxsize=KEPT)
    def known(self, now: Moment) -> List[Knot]:
        """The knots that the office knows. At an exchange a person notes both values, whether the box is in reach or
        not."""
        noted = {device.begins for device in self.devices}
        return [knot for knot in self.knots if (knot.known_at if knot.at in noted else self.comes(knot.known_at))
                <= now < self.comes(knot.until)]

    def consumed(self, moment: Moment, now: Moment) -> Optional[Consumed]:
        """What was consumed up to a moment as it can be known; None where no knot lies before or after it."""
        known = self.known(now)
        place = bisect.bisect_right(known, moment, key=moment_of)
        if place == 0 or (place == len(known) and known[-1].at != moment):
            return None
        before = known[place - 1]
        if before.at == moment:
            return Consumed(before.amount, True)
        after = known[place]
        share = (after.amount - before.amount) * seconds(moment - before.at) // seconds(after.at - before.at)
        return Consumed(before.amount + share, after.at - before.at <= LONGEST_GAP)

    @functools.lru_cache(maxsize=KEPT)  # until one is struck
    def entries(self, now: Moment) -> List["Entry"]:
        """What the office has of the place: what was told, also what is false and not struck, and what people noted."""
        known = {knot.at: knot.amount for knot in self.known(now)}
        found = []
        for number, device in enumerate(self.devices):
            if device.begins > now:
                continue
            base = known[device.begins]
            found.append(Entry(device.begins, number, device.first * self.kind.digit, True))
            last = device.ends if device.ends is not None and device.ends <= now else None
            found += [Entry(at, number, device.first * self.kind.digit + amount - base, False) for at,
                      amount in known.items()
                      if device.begins < at and (last is None or at < last) and at != device.ends]
            found += [Entry(one.at, number, one.digits * self.kind.digit, False) for one in self.false
                      if one.device is device and self.comes(one.at) <= now and one not in self.struck]
            if last is not None and device.last is not None:
                found.append(Entry(last, number, device.last * self.kind.digit, True))
        return sorted(found, key=lambda entry: (entry.at, entry.meter))

    def marked(self, entries: List["Entry"], begins: Moment, ends: Moment) -> bool:
        """Whether a step that touches a period falls or rises by more than the meter can count, or is beside such a
        step."""
        near = around(entries, begins, ends)
        steps = list(zip(near, near[1:]))
        doubts = [False, *(self.is_doubtful(*step) for step in steps), False]
        return any(any(doubts[place:place + 3]) and begins < other.at and (one.at < ends or other.at <= ends)
                   for place, (one, other) in enumerate(steps))

    def is_doubtful(self, one: "Entry", other: "Entry") -> bool:
        room = MOST[self.use] * (seconds(other.at - one.at) // 3600 + 2)
        return one.meter == other.meter and not 0 <= other.amount - one.amount <= room

    def is_held(self, entries: List["Entry"], begins: Moment, ends: Moment, elsewhere: float) -> bool:
        """Whether a step of a period is ten times the median day around its month, or five times at an exchange; where
        there is no such day, ten times one elsewhere, or more than needs no look."""
        steps = steps_around(entries, begins, ends)
        days = sorted((use, length) for _, _, use, length in steps)
        total, passed, median = sum(length for _, length in days), 0.0, 0.0
        for use, length in days if len(days) >= 3 and total >= 10 else ():
            passed += length
            if passed >= total / 2:
                median = use
                break
        touching = [step for step in steps if begins < step[1].at and step[0].at < ends]
        little = LITTLE[self.use]
        if not median:
            return any(use > little / 10 and use >= 10 * elsewhere if elsewhere else use > little for _, _, use,
                       _ in touching)
        return any(use >= 10 * median and use > little or use >= 5 * median and (one.is_put or other.is_put) for one,
                   other, use, _ in touching)


def moment_of(one: Any) -> Moment:
    at: Moment = one.at
    return at


def around(entries: List["Entry"], begins: Moment, ends: Moment) -> List["Entry"]:
    """The entries of a period, with enough of those before and after it."""
    first, last = bisect.bisect_left(entries, begins, key=moment_of), bisect.bisect_right(entries, ends, key=moment_of)
    return entries[max(first - BESIDE, 0):last + BESIDE]


def steps_around(entries: List["Entry"], begins: Moment, ends: Moment) -> List[Tuple["Entry", "Entry", float, float]]:
    """The steps of the month of a period and around it: what was used a day in each, and how many days it has."""
    month = begins.astimezone(BERLIN).date().replace(day=1)
    first, after = begin_of(month), max(begin_of(next_month(month)), ends)
    entries = around(entries, first, after)
    before = sorted({entry.at for entry in entries if entry.at <= first})[-3:]
    later = sorted({entry.at for entry in entries if entry.at >= after})[:2]
    chosen = [entry for entry in entries if (not before or entry.at >= before[0])
              and (not later or entry.at <= later[-1])]
    return [(one, other, max(other.amount - one.amount, 0) * 86400 / max(seconds(other.at - one.at), 43200),
             seconds(other.at - one.at) / 86400)
            for one, other in zip(chosen, chosen[1:]) if one.meter == other.meter and one.at < other.at]


class Entry(NamedTuple):
    """A value of a meter: what it stood at, in smallest units; put by a person when it was fitted or removed."""
    at: Moment
    meter: int
    amount: int
    is_put: bool


# What a meter can count in an hour, and a day's use that needs no look, in smallest units
MOST = {"heat": 216 * 10**9, "warm water": 3_125_000, "cold water": 3_125_000, "allocator": 20_000}
LITTLE = {"heat": 360 * 10**9, "warm water": 10**6, "cold water": 10**6, "allocator": 60_000}


def seconds(length: datetime.timedelta) -> int:
    return int(length.total_seconds())


class User(NamedTuple):
    """Who uses a flat, from a day to the day before another."""
    name: str
    language: str
    begins: datetime.date
    ends: Optional[datetime.date]


@dataclasses.dataclass
class House:
    name: str
    address: str
    flats: Dict[str, int]  # the areas
    users: Dict[str, List[User]]
    places: List[Place]
    outage: Optional[Tuple[Moment, Moment]] = None

    def telegrams(self) -> Iterator[Tuple[Moment, Device, str, Telegram]]:
        """All telegrams in the order in which the house's box hears them."""
        told = [(telegram.at, device.number, device, place.flat, telegram) for place in self.places
                for device in place.devices for telegram in device.telegrams]
        for at, _, device, flat, telegram in sorted(told, key=lambda it: it[:2]):
            yield at, device, flat, telegram


class Plan(NamedTuple):
    is_storing: bool  # the meter stores the value at each month's end
    lost: List[datetime.date]  # days without a telegram
    exchanged_at: Optional[Moment]
    dead_since: Optional[datetime.date]
    false_on: Optional[datetime.date]
    is_high: bool = False  # what is told then is too high
    unstamped: Tuple[datetime.date, ...] = ()  # days on which the box's clock is wrong
    is_empty: bool = False  # nothing is used
    leaps_on: Optional[datetime.date] = None  # the meter counts more than was used
    leap: int = LEAP


def fill(place: Place, plan: Plan, first: datetime.date, after: datetime.date, hour: datetime.time, rng: random.Random
         ) -> None:
    """Simulates a place from a day to the one before another: its knots, telegrams and devices."""
    moments = knots_of(plan, first, after, hour)
    amount, last, digits_of = 0, begin_of(first), {}  # type: int, Moment, Dict[Moment, int]
    knots = [(last, 0)]
    for moment in moments:
        days = (moment - last).total_seconds() / 86400
        season = 1 + (0.9 if place.kind.is_seasonal else 0.1) * (1 if moment.month in (1, 2, 3, 11, 12) else -0.8)
        if not plan.is_empty:
            amount += max(0, round(days * place.kind.a_day * season * rng.uniform(0.5, 1.5))) * place.kind.digit
        if plan.leaps_on is not None and last < begin_of(plan.leaps_on) <= moment:
            amount += plan.leap
            place.jump = last, moment
        knots.append((moment, amount))
        digits_of[moment], last = amount, moment
    exchange(place, plan, digits_of, rng)
    amounts = dict(knots)
    tell(place, plan, first, after, hour, amounts)
    for moment, amount in knots:
        known = known_at(place, plan, moment)
        if known > moment:  # until a stored value comes the reading of its day counts
            place.knots += [Knot(told.at, amounts[it.begins] + (told.digits - it.first) * it.kind.digit, told.at, known)
                            for it in place.devices for told in it.telegrams if moment - DAY < told.at < moment]
        place.knots.append(Knot(moment, amount, known))


def knots_of(plan: Plan, first: datetime.date, after: datetime.date, hour: datetime.time) -> List[Moment]:
    """The moments of values that count, in order: one a day, which a stored one replaces."""
    found = set() if plan.exchanged_at is None else {plan.exchanged_at}
    day = first
    while day < after:
        tomorrow = day + datetime.timedelta(days=1)
        is_stored = plan.is_storing and tomorrow.day == 1
        if not is_silent(plan, day, hour):
            if is_stored:
                found.add(begin_of(tomorrow))
            elif day not in plan.lost and day != plan.false_on and day not in plan.unstamped:
                found.add(datetime.datetime.combine(day, hour, UTC))
        day = tomorrow
    return sorted(found)


def is_silent(plan: Plan, day: datetime.date, hour: datetime.time) -> bool:
    """Whether the meter is dead on a day, and not exchanged yet."""
    told = datetime.datetime.combine(day, hour, UTC)
    return plan.dead_since is not None and day >= plan.dead_since and (
        plan.exchanged_at is None or told < plan.exchanged_at)


def exchange(place: Place, plan: Plan, amounts: Dict[Moment, int], rng: random.Random) -> None:
    """Ends the place's device at the exchange, and begins another one."""
    if plan.exchanged_at is None:
        return
    old = place.devices[0]
    old.ends, old.last = plan.exchanged_at, old.first + amounts[plan.exchanged_at] // place.kind.digit
    old.is_estimated = plan.dead_since is not None
    place.devices.append(Device(old.number + 50_000_000, old.kind, plan.exchanged_at, rng.randrange(3),
                                is_estimated=False))


def device_at(place: Place, moment: Moment) -> Device:
    return [device for device in place.devices if device.begins <= moment][-1]


def digits_at(place: Place, device: Device, moment: Moment, knots: Dict[Moment, int]) -> int:
    """What a device shows at a moment: at its last knot or, between two, what has grown so far."""
    moments = sorted(knots)
    at = bisect.bisect_right(moments, moment)
    before = moments[at - 1]
    grown = knots[before]
    if at < len(moments) and before != moment:
        after = moments[at]
        grown += (knots[after] - knots[before]) * seconds(moment - before) // seconds(after - before)
    return device.first + (grown - knots.get(device.begins, 0)) // place.kind.digit


def tell(place: Place, plan: Plan, first: datetime.date, after: datetime.date, hour: datetime.time,
         knots: Dict[Moment, int]) -> None:
    """The telegrams of the place's devices: one a day, with the value of the last month's end where it is stored."""
    day = first
    while day < after:
        moment = datetime.datetime.combine(day, hour, UTC)
        if not is_silent(plan, day, hour) and day not in plan.lost:
            device = device_at(place, moment)
            digits = digits_at(place, device, moment, knots)
            if day == plan.false_on:
                digits = digits * 11 // 10 if plan.is_high else digits // 10
                place.false.append(False_(moment, device, digits))
            device.telegrams.append(Telegram(moment, digits, stored_at(place, plan, device, day, knots),
                                             WRONG if day in plan.unstamped else None))
        day += datetime.timedelta(days=1)
    if plan.dead_since is not None and plan.exchanged_at is None:
        place.is_dead_since = begin_of(plan.dead_since)


def stored_at(place: Place, plan: Plan, device: Device, day: datetime.date, knots: Dict[Moment, int]
              ) -> Optional[Tuple[datetime.date, int]]:
    begins = begin_of(day.replace(day=1))
    if not plan.is_storing or begins <= device.begins or begins not in knots:
        return None
    return day.replace(day=1) - datetime.timedelta(days=1), digits_at(place, device, begins, knots)


def known_at(place: Place, plan: Plan, moment: Moment) -> Moment:
    """When the office knows a knot: a stored one with the next telegram."""
    if moment.astimezone(BERLIN).time() != datetime.time() or not plan.is_storing or moment == plan.exchanged_at:
        return moment
    return min((telegram.at for device in place.devices for telegram in device.telegrams if telegram.at >= moment
                and telegram.stored is not None), default=NEVER) if moment > place.devices[0].begins else moment
