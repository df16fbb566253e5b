"""Makes the houses of demo/office at random: flats, users who move, and meters that are exchanged, die, are disturbed
or aren't heard for days."""

import datetime
import random
from typing import Dict, List, Tuple

from people.houses import (BERLIN, GAP_DAYS, KINDS, UTC, Device, House, Kind, Moment, Place, Plan, User, begin_of, fill,
                           next_month)

HOSTILE = ("Zoë \"Q\" O'Neill <b>&amp;</b>", "محمد علي", "'; DROP TABLE readings; --", "{{ 7 * 7 }} {% raw %}",
           "\u202eevil")
NAMES = ("Weber", "Yılmaz", "Nowak", "Smith", "Đorđević", "Lindqvist")
ODD = (1, 2)  # flats of the first house
PLAIN = 3  # houses without jumps
WRONG_DAYS = (10, 11, 12)  # of a month, from 0
FEW_DIGITS = (20_000, 90_000)  # of a meter's first value, which is false at a tenth


def houses_of(count: int, flats: int, first: datetime.date, after: datetime.date, rng: random.Random) -> List[House]:
    """So many houses of so many flats, from a day to the one before another."""
    return [house_of(number, flats, first, after, rng) for number in range(1, count + 1)]


def house_of(number: int, flats: int, first: datetime.date, after: datetime.date, rng: random.Random) -> House:
    house = House(f"house-{number:03}", f"Ulmenstraße {number} <Hof>", {}, {}, [])
    hour = datetime.time(rng.randrange(1, 5), rng.randrange(60))
    for place in range(flats):
        flat = f"{'ABCD'[place % 4]}{place // 4 + 1}"
        house.flats[flat] = rng.randrange(30, 120)
        house.users[flat] = users_of(first, after, rng)
        for kind, index in kinds_of(number, place):
            serial = number * 10_000 + len(house.places)
            device = Device(serial, kind, begin_of(first), rng.randrange(*FEW_DIGITS))
            weight = str(rng.choice(("0.75", "1", "1.5"))) if kind.use == "allocator" else "1"
            made = Place(house.name, flat, kind, index, weight, [device])
            plan = with_wrong_clock(plan_of(kind, len(house.places), first, after, hour, rng), number, first)
            if number == 1 and kind.use == "cold water" and place in ODD:
                plan = odd(place, first, after)
            plan = with_jump(plan, number, place, kind, first, after, random.Random(serial)) if number > PLAIN else plan
            fill(made, plan, first, after, hour, rng)
            house.places.append(made)
    return house


def but_mondays(first: datetime.date, after: datetime.date) -> List[datetime.date]:
    return [day for number in range((after - first).days)
            if (day := first + datetime.timedelta(days=number)).weekday() > 0]


def with_jump(plan: Plan, house: int, flat: int, kind: Kind, first: datetime.date, after: datetime.date,
              rng: random.Random) -> Plan:
    """Of each fourth house a flat is empty, and each fifth is heard weekly. Of five meters one jumps, by up to thirty
    usual days."""
    day = first + datetime.timedelta(days=rng.randrange(45, max((after - first).days - 15, 46)))
    jumps = plan._replace(leaps_on=day,
                          leap=round(kind.a_day * rng.uniform(2, 30)) * kind.digit) if rng.random() < 0.2 else plan
    jumps = jumps._replace(is_empty=True) if house % 4 == 0 and flat == 0 else jumps
    return jumps._replace(lost=but_mondays(first, after), is_storing=False) if house % 5 == 0 else jumps


def odd(place: int, first: datetime.date, after: datetime.date) -> Plan:
    """Of the first house a flat is empty, and another is heard weekly; the meters of both leap in the third month."""
    leaps_on = next_month(next_month(first)).replace(day=15)
    is_empty = place == ODD[0]
    return Plan(True, [] if is_empty else but_mondays(first, after), None, None, None, is_empty=is_empty,
                leaps_on=leaps_on)


def with_wrong_clock(plan: Plan, house: int, first: datetime.date) -> Plan:
    """Of each third house the box's clock is wrong on three days of the second month."""
    days = tuple(next_month(first) + datetime.timedelta(days=number) for number in WRONG_DAYS) if house % 3 == 0 else ()
    return plan._replace(unstamped=days, false_on=None if plan.false_on in days else plan.false_on)


def kinds_of(house: int, flat: int) -> List[Tuple[Kind, int]]:
    """A flat's meters: one of heat, of which some count joules, or two allocators; water."""
    if house % 3 == 2:
        heat = [(KINDS["allocator"], 1), (KINDS["allocator"], 2)]
    else:
        heat = [(KINDS["heat in joules" if flat % 5 == 3 else "heat"], 1)]
    return [*heat, (KINDS["warm water"], 1), (KINDS["cold water"], 1)]


def users_of(first: datetime.date, after: datetime.date, rng: random.Random) -> List[User]:
    """One user for all the time, or two who follow one another in mid-month, sometimes after some empty days."""
    one, other = (rng.choice(HOSTILE if rng.random() < 0.3 else NAMES) for _ in range(2))
    languages = [rng.choice(("de", "de", "en")) for _ in range(2)]
    begin = first - datetime.timedelta(days=400)
    if rng.random() < 0.5:
        return [User(one, languages[0], begin, None)]
    moved = first + datetime.timedelta(days=rng.randrange((after - first).days))
    back = moved + datetime.timedelta(days=rng.choice((0, 0, 9, 40)))
    return [User(one, languages[0], begin, moved), User(other, languages[1], back, None)]


def plan_of(kind: Kind, index: int, first: datetime.date, after: datetime.date, hour: datetime.time,
            rng: random.Random) -> Plan:
    """Each third meter stores; of ten, one is exchanged, one dies, one dies and is exchanged, one is disturbed, and two
    aren't heard for some days."""
    is_storing, fate = index % 3 != 0, rng.randrange(10)
    day = middle(first + datetime.timedelta(days=rng.randrange(40, max((after - first).days - 100, 41))))
    none = Plan(is_storing, [], None, None, None)
    if fate == 0:
        return none._replace(exchanged_at=noon(day))
    if fate == 1:
        return none._replace(dead_since=day)
    if fate == 2:
        return none._replace(dead_since=day, exchanged_at=noon(middle(day + datetime.timedelta(days=40))))
    if fate == 3:
        last_of_month = next_month(day) - datetime.timedelta(days=1)
        return none._replace(false_on=day if is_storing or rng.random() < 0.5 else last_of_month,
                             is_high=rng.random() < 0.5)
    if fate in (4, 5):
        begins = day if is_storing else next_month(day) - datetime.timedelta(days=rng.randrange(1, GAP_DAYS))
        return none._replace(lost=[begins + datetime.timedelta(days=number) for number in range(GAP_DAYS)])
    return none


def middle(day: datetime.date) -> datetime.date:
    """A day of the same month that is neither among its first nor its last."""
    return day.replace(day=min(max(day.day, 6), 20))


def noon(day: datetime.date) -> Moment:
    return datetime.datetime.combine(day, datetime.time(11, 30), BERLIN).astimezone(UTC)


def factors_of(houses: List[House]) -> Dict[Tuple[str, str], str]:
    """kWh a cubic metre of warm water, in all houses but each third; an allocator's kWh in none."""
    return {(house.name, "warm water"): "117.5" for number, house in enumerate(houses, 1) if number % 3}


