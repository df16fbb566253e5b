"""What each number on a sheet has to be: computed from the simulated houses, and by nothing of the office."""

import datetime
import decimal
import statistics
from fractions import Fraction
from typing import Dict, Iterable, List, NamedTuple, Optional, Set, Tuple

from people.houses import BERLIN, Entry, House, Moment, Place, User, begin_of, next_month, steps_around

VALUE, MISSING, DISTURBED, HELD = "value", "missing", "disturbed", "held"
WORST = (VALUE, HELD, DISTURBED, MISSING)
HAND, PROVISIONAL, ESTIMATED = "hand", "provisional", "estimated"
MARKS = ("", HAND, PROVISIONAL, ESTIMATED)
FEWEST_COMPARED = 3
ENERGY = 3_600_000_000  # millijoules of a kWh
DECIMALS = {"kWh": 1, "m³": 2, "HCA": 1}
# How many of the smallest unit are one of a bill's
BILLED = {"heat": ENERGY, "warm water": 10**6, "cold water": 10**6, "allocator": 1000}


class Number(NamedTuple):
    """A number of a sheet: its value in the sheet's unit where the truth knows one, else why there is none."""
    state: str
    value: Optional[Fraction]
    mark: str  # beside it
    begins: Moment
    ends: Moment
    jumps: int = 0  # of the meters, that are in it


class Truth:
    """What can be known at a moment of these houses."""

    def __init__(self, houses: List[House], factors: Dict[Tuple[str, str], str]) -> None:
        self.houses, self.factors = houses, factors
        self.now = begin_of(datetime.date(2000, 1, 1))
        self.estimated: Set[Tuple[Place_, datetime.date]] = set()  # places that office/estimate gave a value
        self.names = {name_of(place): place for house in houses for place in house.places}
        # As long as nothing more is known
        self.averages: Dict[Tuple[str, str, datetime.date], Tuple[Optional[Fraction], Set[str]]] = {}
        self.numbers: Dict[Tuple[Place, Moment, Moment, Optional[str]], Number] = {}

    def forget(self) -> None:
        """More is known now."""
        self.averages.clear()
        self.numbers.clear()

    def unit(self, house: str, use: str) -> str:
        if use == "heat" or (house, use) in self.factors:
            return "kWh"
        return "HCA" if use == "allocator" else "m³"

    def scaled(self, place: Place, amount: int, unit: str) -> Fraction:
        """An amount in a unit."""
        if place.use == "heat":
            return Fraction(amount, ENERGY)
        units = Fraction(amount, 1000) * Fraction(place.weight) if place.use == "allocator" else Fraction(amount, 10**6)
        return units * Fraction(self.factors[place.house, place.use]) if unit == "kWh" else units

    def of_place(self, place: Place, begins: Moment, ends: Moment, unit: Optional[str] = None) -> Number:
        """What a place consumed in a period, as far as it can be known now, in the unit of its sheet or another."""
        key = place, begins, ends, unit
        if key not in self.numbers:
            self.numbers[key] = self.computed(*key)
        return self.numbers[key]

    def computed(self, place: Place, begins: Moment, ends: Moment, unit: Optional[str]) -> Number:
        entries = place.entries(self.now)
        if place.marked(entries, begins, ends):
            return Number(DISTURBED, None, "", begins, ends)
        first, last = place.consumed(begins, self.now), place.consumed(ends, self.now)
        if first is None or last is None:
            is_estimated = any(place is of and ends <= begin_of(next_month(month)) for of,
                               month in self.estimated_places())
            return Number(VALUE if is_estimated else MISSING, None, ESTIMATED if is_estimated else "", begins, ends)
        if place.is_held(entries, begins, ends, self.elsewhere(place, begins, ends)):
            return Number(HELD, None, "", begins, ends)
        is_near = first.is_near and last.is_near and not any(
            device.is_estimated and device.ends is not None and begins < device.ends <= ends
            for device in place.devices)
        value = self.scaled(place, last.amount - first.amount, unit or self.unit(place.house, place.use))
        jumps = int(place.jump is not None and place.jump[0] < ends and begins < place.jump[1])
        return Number(VALUE, value, mark_of(entries, begins, ends) if is_near else ESTIMATED, begins, ends, jumps)

    def elsewhere(self, place: Place, begins: Moment, ends: Moment) -> float:
        """A day of the place in the same month of the year before, else the median one of the others of its house and
        use."""
        month = begins.astimezone(BERLIN).date().replace(day=1)
        year_before = month.replace(year=month.year - 1)
        if begin_of(year_before) >= place.devices[0].begins:
            first, after = begin_of(year_before), begin_of(next_month(year_before))
            then = self.of_place(place, first, after)
            one, other = place.consumed(first, self.now), place.consumed(after, self.now)
            if then.state == VALUE and then.mark in ("", HAND) and one and other and other.amount > one.amount:
                return (other.amount - one.amount) * 86400 / (after - first).total_seconds()
        days = []
        for it in (it for house in self.houses for it in house.places if it is not place and (it.house, it.use)
                   == (place.house, place.use)):
            steps = steps_around(it.entries(self.now), begins, ends)
            days.append(sum(use * length for _, _, use, length in steps) / (sum(length for *_, length in steps) or 1))
        return statistics.median([day for day in days if day > 0] or [0])

    def estimated_places(self) -> Iterable[Tuple[Place, datetime.date]]:
        return [(self.names[name], month) for name, month in self.estimated]

    def of_places(self, places: List[Place], begins: Moment, ends: Moment, unit: Optional[str] = None) -> Number:
        numbers = [self.of_place(place, begins, ends, unit) for place in places]
        state = max((number.state for number in numbers), key=WORST.index)
        values = [number.value for number in numbers if number.value is not None]
        total = sum(values, Fraction()) if len(values) == len(numbers) else None
        return Number(state, total, max((number.mark for number in numbers), key=MARKS.index), begins, ends,
                      sum(it.jumps for it in numbers))

    def of_user(self, house: House, flat: str, use: str, user: User, month: datetime.date) -> Optional[Number]:
        """What a user used in a month; None where it wasn't the user's."""
        begins, ends = begin_of(month), begin_of(next_month(month))
        begins = max(begins, begin_of(user.begins))
        ends = ends if user.ends is None else min(ends, begin_of(user.ends))
        return self.of_places(places_of(house, flat, use), begins, ends) if begins < ends else None

    def of_flat(self, house: House, flat: str, places: List[Place], month: datetime.date,
                unit: Optional[str] = None) -> Number:
        """What places of a flat consumed in a month: the sum of its users' parts, with the worst of their marks."""
        begins, ends = begin_of(month), begin_of(next_month(month))
        days = {day for user in house.users[flat] for day in (user.begins, user.ends) if day is not None}
        cuts = sorted({begins, ends, *(begin_of(day) for day in days if begins < begin_of(day) < ends)})
        parts = [self.of_places(places, one, other, unit) for one, other in zip(cuts, cuts[1:])]
        values = [part.value for part in parts if part.value is not None]
        return Number(max((part.state for part in parts), key=WORST.index), sum(values, Fraction()) if len(values)
                      == len(parts) else None,
                      max((part.mark for part in parts), key=MARKS.index), begins, ends)

    def is_held(self, house: House, use: str, month: datetime.date) -> bool:
        """Whether a number of the use waits for a person in a month: then it has no sum and no average."""
        begins, ends = begin_of(month), begin_of(next_month(month))
        return any(HELD in (self.of_place(place, begins, ends).state,
                            self.of_flat(house, place.flat, [place], month).state)
                   for place in house.places if place.use == use)

    def average(self, house: House, use: str, unit: str, month: datetime.date) -> Optional[Fraction]:
        """What a square metre used on the average, of the flats with a measured number that can be told in that unit;
        one that isn't of the house alone has six decimals."""
        key = use, unit, month
        if key not in self.averages:
            self.averages[key] = self.average_of(use, unit, month)
        found, houses = self.averages[key]
        if found is None or self.is_held(house, use, month):
            return None
        return found if houses == {house.name} else Fraction(rounded(found, 6))

    def average_of(self, use: str, unit: str, month: datetime.date) -> Tuple[Optional[Fraction], Set[str]]:
        total, area, count, houses = Fraction(), 0, 0, set()  # type: Fraction, int, int, Set[str]
        for house in self.houses:
            for flat, size in house.flats.items():
                places = places_of(house, flat, use)
                if not places or unit == "kWh" != self.unit(house.name, use):
                    continue
                number = self.of_flat(house, flat, places, month, unit)
                if number.value is not None and number.mark in ("", HAND):
                    total, area, count = total + number.value, area + size, count + 1
                    houses.add(house.name)
        return total / area if count >= FEWEST_COMPARED else None, houses


def mark_of(entries: List[Entry], begins: Moment, ends: Moment) -> str:
    """Whether the step after a period is still to come, or a person put a value that decides it."""
    if len({entry.at for entry in entries if entry.at >= ends}) < 2:
        return PROVISIONAL
    around = [entry for moment in (begins, ends) for entry in beside(entries, moment)]
    is_put = any(entry.is_put for entry in around) or any(entry.is_put and begins < entry.at <= ends
                                                          for entry in entries)
    return HAND if is_put else ""


def beside(entries: List[Entry], moment: Moment) -> List[Entry]:
    """The last entry at a moment or before it and, where that one is before it, the next."""
    before = [entry for entry in entries if entry.at <= moment][-1:]
    after = [entry for entry in entries if entry.at > moment][:1]
    return before if before and before[0].at == moment else before + after


Place_ = str  # the name of a place


def name_of(place: Place) -> Place_:
    return f"{place.house}/{place.flat}/{place.use}/{place.number}"


def places_of(house: House, flat: str, use: str) -> List[Place]:
    return [place for place in house.places if (place.flat, place.use) == (flat, use)]


def rounded(value: Fraction, decimals: int) -> decimal.Decimal:
    """Half up."""
    scaled = (value * 10 ** decimals * 2 + 1) // 2
    return decimal.Decimal(int(scaled)).scaleb(-decimals)


def written(value: Fraction, decimals: int, language: str) -> str:
    """As a German or an English reader writes it."""
    text = f"{rounded(value, decimals):,.{decimals}f}"
    return text.translate(str.maketrans(",.", ".,")) if language == "de" else text
