"""The words of pages, sheets and mails in German and English, and numbers and dates as the reader writes them."""

import datetime
import decimal
import functools
import pathlib
import re
import zoneinfo
from typing import Dict, NamedTuple, Optional, Tuple

FILE = pathlib.Path(__file__).resolve().parent / "templates/words.txt"
LANGUAGES = ("de", "en")
MARKS: Dict[str, Dict[int, Optional[int]]] = {"de": str.maketrans(",.", ".,"), "en": {}}  # thousands, decimals
DECIMALS = {"kWh": 1, "m³": 2, "HCA": 1}  # of a consumption
PUBLISHED = re.compile(r"-?[0-9]+(\.[0-9]+)?")
NARROW = "\N{NO-BREAK SPACE}"
READ = ("Wh", "MWh", "m3", "HCA")  # units of meters that have words


@functools.lru_cache(maxsize=None)
def texts() -> Dict[str, Tuple[str, ...]]:
    """The texts in each language by their key; of an item also those that explain it."""
    lines = FILE.read_text(encoding="utf-8").replace("\n ", " ").splitlines()
    entries = [line.replace("\\n", "\n").split(" | ") for line in lines if line and not line.startswith("#")]
    return {key: tuple(of_languages) for key, *of_languages in entries}


def printed_reading(shown: str, unit: str) -> Tuple[str, str]:
    """What a meter stood at as it is printed: watt hours as kWh. Exact."""
    number = decimal.Decimal(shown)
    if unit in ("Wh", "MWh"):
        number, unit = number.scaleb(-3 if unit == "Wh" else 3), "kWh"
    return f"{number.normalize():f}" if number else "0", unit


class Catalogue(NamedTuple):
    """A language, and the time zone of a house."""
    language: str
    zone: str

    def word(self, key: str, **values: object) -> str:
        text = texts()[key][LANGUAGES.index(self.language)]
        return text.format(**values) if values else text

    def of(self, kind: str, key: str, **values: object) -> str:
        """A word of a kind, or the word of that key, where the kind has no other."""
        return self.word(f"{kind}.{key}" if f"{kind}.{key}" in texts() else key, **values)

    def page(self, key: str, **values: object) -> str:
        return self.of("page", key, **values)

    def field(self, name: str) -> str:
        return self.of("field", name)

    def action(self, name: str) -> str:
        return self.of("do", name)

    def explained(self, key: str) -> str:
        return texts()[key][len(LANGUAGES) + LANGUAGES.index(self.language)]

    def use(self, name: str) -> str:
        """A use; its own name where there is no word for it."""
        return self.word(name) if name in texts() else name

    def month(self, month: datetime.date) -> str:
        return f"{self.word('month_names').split()[month.month - 1]} {month.year}"

    def short_month(self, month: datetime.date) -> str:
        return self.month(month)[:3]

    def day(self, day: datetime.date) -> str:
        if self.language == "de":
            return f"{day:%d.%m}.{day.year}"
        return f"{day.day} {self.short_month(day)} {day.year}"

    def local(self, moment: datetime.datetime) -> datetime.datetime:
        return moment.astimezone(zoneinfo.ZoneInfo(self.zone))

    def long_day(self, moment: datetime.datetime) -> str:
        """The day of a moment, with the month's name."""
        day = self.local(moment).date()
        return f"{day.day}{'.' if self.language == 'de' else ''} {self.month(day)}"

    def moment(self, moment: datetime.datetime) -> str:
        """A date and time in the house's zone; midnight ends the day before it."""
        local = self.local(moment)
        if local.time() == datetime.time():
            return f"{self.day(local.date() - datetime.timedelta(days=1))}, 24:00"
        return f"{self.day(local.date())}, {local:%H:%M}"

    def period(self, begins: datetime.datetime, ends: datetime.datetime) -> str:
        """The days of a period."""
        last = self.local(ends - datetime.timedelta(microseconds=1))
        return f"{self.day(self.local(begins).date())} – {self.day(last.date())}"

    def printed(self, text: str) -> str:
        """A number that was published, as the reader writes it; other text as it is."""
        return self.marked(f"{decimal.Decimal(text):,f}") if PUBLISHED.fullmatch(text) else text

    def exact(self, number: decimal.Decimal) -> str:
        """With the decimals that it has, and no zeros after them."""
        return self.marked(f"{number.normalize():,f}" if number else "0")

    def share(self, share: object) -> str:
        """A number up to 1 in per cent; anything else as it is."""
        is_share = isinstance(share, (int, float)) and not isinstance(share, bool) and 0 <= share <= 1
        return f"{self.exact(decimal.Decimal(str(share)) * 100)}{NARROW}%" if is_share else str(share)

    def whole(self, number: int) -> str:
        return self.marked(f"{number:,}")

    def marked(self, text: str) -> str:
        return text.translate(MARKS[self.language])

    def amount(self, number: decimal.Decimal, unit: str) -> str:
        """A consumption in kWh, cubic metres or an allocator's units, without its unit, rounded half up."""
        places = decimal.Decimal(1).scaleb(-DECIMALS[unit])
        return self.marked(f"{number.quantize(places, rounding=decimal.ROUND_HALF_UP):,f}")

    def unit_of_reading(self, unit: str) -> str:
        """The unit that a meter's value is printed in."""
        return self.word({"Wh": "kWh", "MWh": "kWh", "m3": "m³"}.get(unit, unit)) if unit in READ else unit

    def reading(self, shown: str, unit: str) -> str:
        """What a meter stood at, exact; watt hours as kWh."""
        text, _ = printed_reading(shown, unit)
        return f"{self.printed(text)}{NARROW}{self.unit_of_reading(unit)}"
