"""Sheets and house pages as HTML (Jinja2, everything escaped) and PDF (WeasyPrint, which may load nothing)."""

import datetime
import decimal
import functools
import hashlib
import importlib
import importlib.util
import os
import pathlib
import re
from typing import Any, Callable, Iterator, List, NamedTuple, Optional, Tuple

import jinja2
from markupsafe import Markup

from catalogue import Catalogue
from database import Cursor, plain, rows_of
from exporting import DECLARED, NONE, Numbers, Own, Printable, Printed, is_whole, month_key, place_key, use_key
from periods import DAY, later_month, next_month
from program import Key
from sheet_data import MARKED, MONTHS, Number, Sheet, Use

WIDTH, HEIGHT = 650, 130  # pixels: letters of 11 have 8 points
TOP, BOTTOM, LEFT = 24, 36, 8
GAP = 8
QUIET = 4  # modules around a code


# A month: its name below the bar, its value (None: no value), and the value as the reader writes it, with attributes.
Bar = NamedTuple("Bar", [("label", str), ("year", str), ("value", Optional[decimal.Decimal]), ("shown", str),
    ("is_estimated", bool), ("is_january", bool), ("of", Markup)])


# A bar as it is drawn.
Shape = NamedTuple("Shape", [("x", float), ("y", float), ("width", float), ("height", float), ("middle", float),
    ("bar", Bar)])


# base: where the bars stand
Chart = NamedTuple("Chart", [("width", float), ("height", int), ("base", int), ("shapes", List[Shape])])


def chart_of(bars: List[Bar]) -> Chart:
    """The bars from the left, the highest as high as the chart; thirteen of them are WIDTH."""
    most = max((bar.value for bar in bars if bar.value is not None), default=decimal.Decimal())
    step, base = (WIDTH - 2 * LEFT) / MONTHS, HEIGHT - BOTTOM
    shapes = []
    for place, bar in enumerate(bars):
        height = float(bar.value / most) * (base - TOP) if bar.value is not None and most > 0 else 0.0
        sizes = (LEFT + place * step + GAP / 2, base - height, step - GAP, height, LEFT + (place + 0.5) * step)
        x, y, width, height, middle = (round(size, 1) for size in sizes)
        shapes.append(Shape(x, y, width, height, middle, bar))
    return Chart(round(2 * LEFT + len(bars) * step, 1), HEIGHT, base, shapes)


Code = NamedTuple("Code", [("path", str), ("size", int), ("link", str)])  # a QR code, and where it leads


def code_of(link: str) -> Optional[Code]:
    """The code of a link; None where there is no library."""
    if importlib.util.find_spec("qrcode") is None:
        return None
    qrcode, svg = (importlib.import_module(it) for it in ("qrcode", "qrcode.image.svg"))  # type: Any, Any
    made = qrcode.QRCode(error_correction=qrcode.constants.ERROR_CORRECT_L, border=QUIET)
    made.add_data(link)
    image = made.make_image(svg.SvgPathImage)
    return Code(image.path.get("d"), image.width + 2 * QUIET, link)

LONGEST_GAP = datetime.timedelta(hours=48)  # between the readings around an end of what counts as measured
Sentences = Iterator[Tuple[Use, Markup]]


def element(text: object, of: Markup) -> Markup:
    """A text with attributes by which `mbdc audit --sheet` reads a page."""
    return Markup("<span{}>{}</span>").format(of, text)


def fixed(kind: str, text: object) -> Markup:
    """What isn't in the file: a date, an identity, the file's hash."""
    return element(text, Markup(' data-fixed="{}"').format(kind))


def wrote(text: object) -> Markup:
    return Markup('<bdi><address data-fixed="contact">{}</address></bdi>').format(plain(text))


def name_of(use: str, words: Catalogue) -> object:
    """The name of a use, which people may have given it."""
    return wrote(words.use(use)) if any(letter.isdecimal() for letter in use) else words.use(use)


class Said(NamedTuple):
    """The sentences of a sheet, each with its use."""
    sheet: Sheet
    words: Catalogue
    numbers: Numbers

    def sentence(self, word: str, **values: object) -> Markup:
        return Markup(self.words.word(word)).format(**values)

    def number(self, key: Key) -> Optional[Markup]:
        printed = printed_in(self.numbers, self.words)(key)
        return None if printed is None or printed.text == NONE else element(printed.text, printed.of)

    def known(self, what: str) -> Sentences:
        """The uses that have such a number, as it is printed."""
        for use in self.sheet.uses:
            found = self.number(use_key(self.sheet.user.flat, use.use, what))
            if found is not None:
                yield use, found

    def changes(self) -> Sentences:
        """Of each use and month that it is compared with: how much less or more it is, in per cent."""
        for use in self.sheet.uses:
            sentences = []
            for month in (later_month(self.sheet.month, -12), later_month(self.sheet.month, -1)):
                key = use_key(self.sheet.user.flat, use.use, f"change {month:%Y-%m}")
                percent, then = self.number(key), fixed("date", self.words.month(month))
                if percent is not None:
                    text = self.numbers[key].text
                    word = "as_much" if text == "0" else "less" if text.startswith("-") else "more"
                    sentences.append(self.sentence(word, percent=percent, then=then))
            if sentences:
                yield use, Markup(", ").join(sentences)

    def beside(self, what: str, word: str) -> Sentences:
        """Of each use: what the month of last year would have been in this month's weather; the emissions of the user's
        own consumption, in kg; what it costs, by the exact amount, without fixed costs."""
        then = fixed("date", self.words.month(later_month(self.sheet.month, -12)))
        prices = {use.use: price for use, price in self.known("price")}
        for use, amount in self.known(what):
            yield use, self.sentence(word, then=then, amount=amount, price=prices.get(use.use),
                                     unit=self.words.word(use.unit))

    def factors(self) -> Sentences:
        """By which factor an amount is in kWh."""
        for use, kwh in self.known("factor"):
            source = self.sheet.facts.factors[use.use]
            unit = self.words.word("unit_of_allocators" if use.quantity == "allocation" else "m³")
            said = self.sentence("factor", unit=unit, kwh=kwh)
            yield use, said + Markup(" ") + wrote(f"({source})") if source else said

    def emission(self) -> Optional[Markup]:
        """The grams a kWh: by the file, or as they are known."""
        known = self.sheet.user.co2_g_per_kwh
        return next((found for _, found in self.known("emission")), None if known is None else wrote(
            self.words.exact(known)))

    def decided(self) -> Sentences:
        """Of each use why a meter counts it, where its device type doesn't say so."""
        uses = {use.use: use for use in self.sheet.uses}
        for key in (key for key in self.numbers if key.kind == "as" and key.use in uses):
            yield uses[key.use], self.sentence("decided", use=name_of(key.use, self.words), why=wrote(self.numbers[key].text))

    def estimates(self) -> Sentences:
        """How each estimated number of the month was made."""
        for use, place in ((use, place) for use in self.sheet.uses for place in use.places):
            printed = self.numbers.get(place_key(self.sheet.user.flat, use, place))
            if printed is None or printed.mark != "estimated":
                continue
            hows = [self.sheet.facts.hows[it.id] for it in place.readings if it.id in self.sheet.facts.hows]
            gaps = [[fixed("date", self.words.moment(it.at)) for it in (one, other)]
                    for one, other in zip(place.readings, place.readings[1:])
                    if one.meter == other.meter and other.at - one.at > LONGEST_GAP
                    and any(one.at <= end <= other.at for end in (place.amount.begins, place.amount.ends))]
            yield from ((use, self.sentence("estimated_by", how=self.words.use(how))) for how in dict.fromkeys(hows))
            yield from ((use, self.sentence("estimated_between", since=since, until=until)) for since, until in gaps
                        if not hows)

    def corrected(self) -> Markup:
        """What a version that isn't the first one says at its beginning; nothing of a first one."""
        it, words = self.sheet.facts.correction, self.words
        parts: List[Markup] = []
        if it is None:
            return Markup()
        for use in self.sheet.uses:
            key = month_key(self.sheet.user.flat, use, self.sheet.month)
            now, before = self.numbers.get(key), self.sheet.facts.before.get((self.sheet.user.id, key))
            if now is not None and before is not None and words.printed(now.text) != words.printed(before):
                parts.append(self.sentence("corrected_use", use=name_of(use.use, words), now=self.number(key) or NONE,
                                           unit=words.word(use.unit), before=wrote(words.printed(before))))
        return self.sentence("corrected", day=fixed("date", words.long_day(it.at)), version=wrote(it.version),
                             changes=Markup(" ").join(parts), why=wrote(it.why))


TEMPLATES = pathlib.Path(__file__).resolve().parent / "templates"
SOURCES = {"telegrams": "readings", "put": "by hand", "estimates": "estimated"}  # of the audit's last line, by its word
ESTIMATED = "estimated"
SAID = ("changes", "estimates", "factors", "decided")
BESIDE = {"weather": ("weather", "weather"), "carbon": ("co2", "own_co2"), "costs": ("cost", "cost")}
STYLES = ("page.css", "dark.css")  # which add no text to a page
PAPER = (*STYLES, "paper.css")
COUNTS = re.compile(r" \([^()]*\)")  # which a sheet doesn't say: they are in no file


# A sheet's audit file, which lies beside it, its lines, and the last line that the audit says of it.
Evidence = NamedTuple("Evidence", [("name", str), ("sha256", str), ("lines", List[str]), ("says", str)])


@functools.lru_cache(maxsize=None)
def environment() -> jinja2.Environment:
    return jinja2.Environment(loader=jinja2.FileSystemLoader(TEMPLATES), autoescape=True, trim_blocks=True,
                              lstrip_blocks=True, undefined=jinja2.StrictUndefined)


@functools.lru_cache(maxsize=None)
def style(*files: str) -> Markup:
    """The one text that isn't escaped: the repository's own style."""
    return Markup("".join((TEMPLATES / it).read_text(encoding="utf-8") for it in files))


def html_of(name: str, words: Catalogue, styles: Tuple[str, ...] = PAPER, **values: Any) -> str:
    template = environment().get_template(name)
    return str(template.render(words=words, style=style(*styles), plain=plain, marked=MARKED, **values))


# A number as the reader writes it, its mark, and the attributes of its element.
Shown = NamedTuple("Shown", [("text", str), ("mark", str), ("of", Markup)])


def printed_in(numbers: Numbers, words: Catalogue) -> Callable[..., Optional[Shown]]:
    """What a page's macro prints of a key. It has no other source."""
    def number(key: Any, *parts: Any) -> Optional[Shown]:
        key = Key(key, *parts) if parts else key
        found = numbers.get(key)
        return None if found is None else Shown(words.printed(found.text), found.mark, attributes(found, key))
    return number


def attributes(it: Printed, key: Key) -> Markup:
    """Which line of the sheet's file has a number; of an earlier month, which is copied, the month."""
    if it.line:
        return Markup(' data-line="{}"').format(it.line)
    return Markup(' data-fixed="{}"').format(key.period) if key.kind == "month" and it.is_number else Markup()


def sheet_html(sheet: Sheet, published: Printable, options: Any, evidence: Optional[Evidence],
               is_paper: bool = False) -> str:
    """A sheet; on paper with a code that leads to it on the web.
    options: the words `decoder`, `auditor` and `link` of office/sheets."""
    user, words, known = sheet.user, Catalogue(sheet.user.language, sheet.user.zone), published.of(sheet.user.id)
    numbers: Numbers = {**known, **(Own(sheet, evidence.lines).numbers if evidence else {})}
    months = [use.months[sheet.month] for use in sheet.uses]
    number, flat, sentences = printed_in(numbers, words), user.flat, Said(sheet, words, numbers)
    means = {use.use: use_key(flat, use.use, "average", use.unit) for use in sheet.uses}
    estimated = [number(month_key(flat, use, sheet.month)) for use in sheet.uses]
    link = f"{options.link}/{user.token}/{sheet.month:%Y-%m}.html" if is_paper and options.link else ""
    return html_of(
        "sheet.html", words, PAPER if is_paper else STYLES, sheet=sheet, user=user, months=compared(sheet.month),
        audit=published.audit, number=number,
        audited=COUNTS.sub("", audited_of(published.audit, evidence.says if evidence else published.says, words)),
        of_month=lambda use, month: number(month_key(flat, use, month)), average=lambda use: number(means[use.use]),
        is_average_declared=any(key in known and known[key].mark == DECLARED for key in means.values()),
        of_place=lambda use, place: number(place_key(flat, use, place)), evidence=evidence, auditor=options.auditor,
        begins=min(month.begins for month in months), ends=max(month.ends for month in months),
        charts=charts_of(sheet, numbers, words), last_of=lambda month: (next_month(month) - DAY),
        is_estimated=any(it is not None and it.mark == ESTIMATED for it in estimated),
        corrected=sentences.corrected(), said={
            **{name: list(getattr(sentences, name)()) for name in SAID},
            **{name: list(sentences.beside(*of)) for name, of in BESIDE.items()}},
        emission=sentences.emission(), wrote=wrote, fixed=fixed, name_of=lambda use: name_of(use, words),
        part=lambda month, of: part_of(month, of, words), decoder=options.decoder, is_paper=is_paper,
        code=code_of(link) if link else None)


def audited_of(audit: Optional[int], says: str, words: Catalogue) -> str:
    """Which audit, and what it counted: telegrams, values that people put, and estimates. Nothing without one."""
    if audit is None:
        return ""
    counts = dict(it.rsplit(" ", 1) for it in says.split(", "))
    counted = [words.word(it, count=counts[of]) for it, of in SOURCES.items() if counts.get(of, "0") != "0"] or ["-"]
    parts = filter(None, [", ".join(counted[:-1]), counted[-1]])
    return words.word("audited", id=audit, sources=f" {words.word('and')} ".join(parts))


def replaced_html(text: str, words: Catalogue, version: int) -> str:
    """A sheet that another version has replaced: as it was, with a banner."""
    banner = Markup(words.word("replaced")).format(version=wrote(version))
    return text.replace("<main ", f'<div class="banner">{banner}</div>\n<main ', 1)


def compared(month: datetime.date) -> List[datetime.date]:
    """The month, the one before, and the same one of the year before."""
    return [month, later_month(month, -1), later_month(month, -12)]


def part_of(number: Number, month: datetime.date, words: Catalogue) -> str:
    """Of a number that isn't of the whole month: which days it is of."""
    if is_whole(number, month, words.zone):
        return ""
    return words.word("part_of", period=words.period(number.begins, number.ends))


def charts_of(sheet: Sheet, numbers: Numbers, words: Catalogue) -> List[Tuple[Use, Chart]]:
    """The charts of the uses that have one: the last thirteen months, from the first on of which there is something to
    say."""
    months = [later_month(sheet.month, number - MONTHS + 1) for number in range(MONTHS)]
    return [(use, chart_of([bar_of(numbers, month_key(sheet.user.flat, use, month), month, words)
                            for month in months if month >= min(use.months)])) for use in sheet.uses if use.is_charted]


def bar_of(numbers: Numbers, key: Key, month: datetime.date, words: Catalogue) -> Bar:
    printed = numbers.get(key)
    value = decimal.Decimal(printed.text) if printed is not None and printed.is_number else None
    text = words.word("none") if printed is None or value is None else words.printed(printed.text)
    is_estimated = printed is not None and printed.mark == ESTIMATED
    return Bar(words.short_month(month), str(month.year), value, text, is_estimated, month.month == 1,
               Markup() if printed is None else attributes(printed, key))


def refuse(url: str) -> Any:
    raise ValueError(f"nothing is loaded: {url}")


def pdf_of(html: str) -> bytes:
    """A PDF, of the same page the same bytes: its fonts would carry the time else."""
    os.environ.setdefault("SOURCE_DATE_EPOCH", "0")
    weasyprint: Any = importlib.import_module("weasyprint")
    return bytes(weasyprint.HTML(string=html, url_fetcher=refuse).write_pdf())


READY = "ready"
OUT = "SELECT path, sha256 FROM sheets WHERE month = %s AND form = 'html' AND out_at IS NOT NULL"


def move_out(cursor: Cursor, out: pathlib.Path, month: datetime.date) -> None:
    """Moves the sheets of a month that are out from DIR/ready, each with its files, the page last. It follows the
    release's commit; where that was cut off, the next office/sheets or office/send does it. Raises OSError."""
    for sheet in rows_of(cursor, OUT, month):
        page, public = out / READY / sheet.path, out / sheet.path
        if page.exists() and hashlib.sha256(page.read_bytes()).hexdigest() == sheet.sha256:
            public.parent.mkdir(parents=True, exist_ok=True)
            for file in sorted(page.parent.glob(f"{month:%Y-%m}.*"), key=lambda it: bool(it == page)):
                os.replace(file, public.with_name(file.name))
