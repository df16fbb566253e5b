"""Reads the office's pages as a reader sees them, and compares each number on a sheet with the truth."""

import datetime
import html.parser
import pathlib
import re
from fractions import Fraction
from typing import Any, Dict, Iterator, List, Optional, Set, Tuple

from people.houses import BERLIN, House, Place, User, begin_of, next_month
from people.truth import (DECIMALS, DISTURBED, ESTIMATED, HAND, HELD, MISSING, PROVISIONAL, VALUE, Number, Truth,
                          places_of, written)

WORDS = {"de": {ESTIMATED: "geschätzt", HAND: "abgelesen", PROVISIONAL: "vorläufig:", MISSING: "nicht gelesen",
                DISTURBED: "ein Zählerstand wird geprüft", HELD: "auffällig hoch", "before": "eingezogen",
                "none": "kein Wert", "only": "nur"},
         "en": {ESTIMATED: "estimated", HAND: "person", PROVISIONAL: "provisional:", MISSING: "wasn’t read",
                DISTURBED: "a reading is being checked", HELD: "unusually high", "before": "moved in",
                "none": "no value", "only": "only"}}
MONTHS = {"de": "Jan Feb Mär Apr Mai Jun Jul Aug Sep Okt Nov Dez".split(),
          "en": "Jan Feb Mar Apr May Jun Jul Aug Sep Oct Nov Dec".split()}
METER_CELLS = 6  # of a meter's row on a house page
CHARTED, CHART_MONTHS = ("heat", "allocator", "warm water"), 13
NUMBER = re.compile(r"-?[\d.,]*\d")


class Page(html.parser.HTMLParser):
    """The cells of a page by use and column, the texts of its charts, and the rows of its readings."""

    def __init__(self, text: str) -> None:
        super().__init__(convert_charrefs=True)
        self.cells: Dict[Tuple[str, str], str] = {}
        self.charts: List[str] = []
        self.readings: List[List[str]] = []
        self.heads: List[str] = []  # of the rows
        self.use, self.flat, self.at = "", "", None  # type: str, str, Any
        self.feed(text)
        self.close()

    def handle_starttag(self, tag: str, attrs: Any) -> None:
        of = dict(attrs)
        if tag == "tr":
            self.use, self.flat = of.get("data-use", ""), of.get("data-flat", "")
            self.readings.append([])
            self.heads.append("")
        elif tag == "th" and of.get("scope") == "row":
            self.at = "th"
        elif tag == "td":
            self.readings[-1].append("")
            self.at = (self.use, of["data-month"]) if "data-month" in of else (
                (of["data-use"], self.flat) if "data-use" in of else ("", ""))
        elif tag == "desc":
            self.charts.append("")
            self.at = "desc"

    def handle_endtag(self, tag: str) -> None:
        if tag in ("td", "th", "desc"):
            self.at = None

    def handle_data(self, data: str) -> None:
        if self.at == "desc":
            self.charts[-1] += data
        elif self.at == "th":
            self.heads[-1] += data
        elif self.at is not None:
            self.cells[self.at] = self.cells.get(self.at, "") + data
            self.readings[-1][-1] += data


class Checker:
    """Compares pages with the truth, and counts the numbers."""

    def __init__(self, truth: Truth) -> None:
        self.truth, self.count, self.problems = truth, 0, []  # type: Truth, int, List[str]
        self.jumps: Set[str] = set()  # measured numbers with a jump that no rule over one meter can tell
        self.told: Dict[Tuple[str, str, str], Dict[Tuple[str, str], str]] = {}  # by house, flat and language

    def same(self, where: str, found: str, wanted: str) -> None:
        self.count += 1
        if " ".join(found.split()) != wanted:
            self.problems.append(f"{where}: {' '.join(found.split())!r} and not {wanted!r}")

    def wanted(self, number: Optional[Number], unit: str, user: User, month: datetime.date) -> Optional[str]:
        """What a cell has to say; None where it has a number that only the office knows, marked as estimated."""
        words = WORDS[user.language]
        if number is None:
            return words["before" if user.begins >= next_month(month) else "none"]
        if number.state != "value":
            return words[number.state]
        is_part = (number.begins, number.ends) != (begin_of(month), begin_of(next_month(month)))
        said = [] if number.value is None else [written(number.value, DECIMALS[unit], user.language)]
        said += [words[number.mark]] if number.mark else []
        said += [words["only"]] if is_part else []
        return " ".join(said)

    def cell(self, where: str, found: str, number: Optional[Number], unit: str, user: User,
             month: datetime.date) -> None:
        """A cell: its number and marks, or the word that says why there is none."""
        wanted = self.wanted(number, unit, user, month) or ""
        words = WORDS[user.language]
        if number is None or number.state != "value":
            self.same(where, wanted if wanted in found and not NUMBER.search(found) else found, wanted)
            return
        pieces = found.split()
        kept = [pieces[0]] if number.value is not None else []
        kept += [word for word in (*(words[mark] for mark in (ESTIMATED, HAND, PROVISIONAL)), words["only"])
                 if word in pieces]
        self.same(where, " ".join(kept), wanted)

    def sheet(self, path: pathlib.Path, house: House, flat: str, user: User, month: datetime.date) -> None:
        """Every number of a user's sheet."""
        page, where = Page(path.read_text(encoding="utf-8")), f"{house.name} {flat} {user.name} {month}"
        for use in sorted({place.use for place in house.places if place.flat == flat}):
            unit = self.truth.unit(house.name, use)
            for shown in (month, shifted(month, -1), shifted(month, -12)):
                number = self.truth.of_user(house, flat, use, user, shown) if shown >= self.first_month else None
                self.cell(f"{where} {use} {shown}", page.cells.get((use, str(shown)), ""), number, unit, user, shown)
                if number is not None and number.jumps and number.state == VALUE and not number.mark:
                    self.jumps.add(f"{house.name} {flat} {use} {number.begins}")
            average = self.truth.average(house, use, unit, month)
            self.same(f"{where} {use} average", page.cells.get((use, "average"), "").partition(" ")[0], "–"
                      if average is None else written(
                average * house.flats[flat], DECIMALS[unit], user.language))
        self.charts(page, where, house, flat, user, month)
        self.readings(page, where, house, flat, user.language)

    first_month = datetime.date(2024, 1, 1)

    def charts(self, page: Page, where: str, house: House, flat: str, user: User, month: datetime.date) -> None:
        """Each month of each chart."""
        uses = [use for use in CHARTED if places_of(house, flat, use)]
        if len(uses) != len(page.charts):
            self.problems.append(f"{where}: {len(page.charts)} charts")
        for use, text in zip(uses, page.charts):
            said = dict(part.rsplit(": ", 1) for part in text.split("; "))
            for back in range(CHART_MONTHS):
                shown = shifted(month, -back)
                number = self.truth.of_user(house, flat, use, user, shown) if shown >= self.first_month else None
                label = f"{MONTHS[user.language][shown.month - 1]} {shown.year}"
                found = said.get(label, "")
                if number is None and label not in said:
                    continue  # the chart begins later
                if number is None or number.state != "value":
                    self.same(f"{where} chart {label}", found, "kein Wert" if user.language == "de" else "no value")
                elif number.value is not None:
                    self.same(f"{where} chart {label}", found,
                              written(number.value, DECIMALS[self.truth.unit(house.name, use)], user.language))

    def told_in(self, house: House, flat: str, language: str) -> Dict[Tuple[str, str], str]:
        """What the meters of a flat told, by meter and moment as they are written."""
        told = self.told.setdefault((house.name, flat, language), {})
        if not told:
            told.update({(device.identity, moment_text(at, language)): value_text(device.shown(digits), device,
                                                                                  language)
                         for place in house.places if place.flat == flat for device, at, digits in told_by(place)})
        return told

    def readings(self, page: Page, where: str, house: House, flat: str, language: str) -> None:
        """Each reading that is named is what the meter told then."""
        told = self.told_in(house, flat, language)
        for row in page.readings:
            if len(row) == 5 and not any(WORDS[language][ESTIMATED] in cell for cell in row):
                self.same(f"{where} {row[:2]}", row[2], told.get((row[1].strip(), row[0].strip()), "nothing"))

    def house(self, path: pathlib.Path, house: House, month: datetime.date) -> None:
        """The flats of a house page, that they add up to the house, and what each meter stands at."""
        page = Page(path.read_text(encoding="utf-8"))
        office = User("", "de", month, None)
        for use in sorted({place.use for place in house.places}):
            unit, where = self.truth.unit(house.name, use), f"{house.name} {use} {month}"
            for flat in house.flats:
                if places := places_of(house, flat, use):
                    number = self.truth.of_flat(house, flat, places, month)
                    self.cell(f"{where} {flat}", page.cells.get((use, flat), ""), number, unit, office, month)
            places = [place for place in house.places if place.use == use]
            if self.truth.is_held(house, use, month):
                self.same(where, page.cells.get((use, ""), ""), "–")
            else:
                self.total(where, page.cells.get((use, ""), ""), [self.truth.of_flat(house, it.flat, [it], month)
                                                                  for it in places], unit)
        self.meters(page, house, month)

    def total(self, where: str, found: str, numbers: List[Number], unit: str) -> None:
        """The sum of a house, and how many of its places have no number."""
        number, *rest = found.split()
        without = sum(it.state != "value" for it in numbers)
        places = "Messstelle" if without == 1 else "Messstellen"
        self.same(f"{where} without", " ".join(rest), f"{without} {places} ohne Wert" if without else "")
        if without == len(numbers):
            self.same(where, number, "–")
        elif all(it.value is not None for it in numbers if it.state == "value"):
            total = sum((it.value for it in numbers if it.value is not None), Fraction())
            self.same(where, number, written(total, DECIMALS[unit], "de"))

    def meters(self, page: Page, house: House, month: datetime.date) -> None:
        """The last value of each meter is what it told then; and there is a row of each meter at the month's end."""
        end = begin_of(next_month(month))
        wanted = {device.identity for place in house.places for device in place.devices
                  if device.begins < end and (device.ends is None or device.ends >= end)}
        told = {key: value for flat in house.flats for key, value in self.told_in(house, flat, "de").items()}
        rows = {head: row for head, row in zip(page.heads, page.readings) if len(row) == METER_CELLS}
        self.same(f"{house.name} {month} meters", " ".join(sorted(rows)), " ".join(sorted(wanted)))
        for identity, (_, _, value, moment, *_) in rows.items():
            if WORDS["de"][ESTIMATED] not in moment and moment != "–":
                self.same(f"{house.name} {identity} {moment}", value, told.get((identity, moment.strip()), "nothing"))


def told_by(place: Place) -> Iterator[Tuple[Any, datetime.datetime, int]]:
    """What a place's devices told: by telegrams, stored, and when they were fitted and removed."""
    for device in place.devices:
        yield device, device.begins, device.first
        if device.ends is not None and device.last is not None:
            yield device, device.ends, device.last
        for telegram in device.telegrams:
            yield device, telegram.at, telegram.digits
            if telegram.stored is not None:
                yield device, begin_of(telegram.stored[0] + datetime.timedelta(days=1)), telegram.stored[1]


def shifted(month: datetime.date, count: int) -> datetime.date:
    number = month.year * 12 + month.month - 1 + count
    return datetime.date(number // 12, number % 12 + 1, 1)


def moment_text(moment: datetime.datetime, language: str) -> str:
    local = moment.astimezone(BERLIN)
    clock = f"{local:%H:%M}"
    if clock == "00:00":
        local, clock = local - datetime.timedelta(hours=12), "24:00"
    day = f"{local:%d.%m.%Y}" if language == "de" else f"{local.day} {MONTHS['en'][local.month - 1]} {local.year}"
    return f"{day}, {clock}"


def value_text(shown: str, device: Any, language: str) -> str:
    """A meter's value: watt hours as kWh, else as it is."""
    unit = device.kind.unit
    number, unit = (f"{int(shown) / 1000:,.3f}".rstrip("0").rstrip("."), "kWh") if unit == "Wh" else (
        f"{float(shown):,.3f}".rstrip("0").rstrip(".") if "." in shown else f"{int(shown):,}",
        {"m3": "m³", "HCA": "Einheiten" if language == "de" else "units"}.get(unit, unit))
    return f"{number.translate(str.maketrans(',.', '.,')) if language == 'de' else number} {unit}"
