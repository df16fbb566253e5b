"""The manager's morning: its kinds of items with their words, the readings behind them, and what a person can do."""

import collections
import csv
import datetime
import decimal
import io
import re
import shlex
import urllib.parse
from typing import Any, Callable, Dict, List, Mapping, NamedTuple, Optional, Sequence, Tuple

import psycopg2
import psycopg2.extras

from catalogue import Catalogue, texts
from database import Cursor, Row, grouped, plain, row_of, rows_of, value_of
from periods import DAY, next_month
from rendering import html_of

MORNING = "SELECT * FROM morning ORDER BY waits DESC, since DESC, id"
VALUES = """
SELECT k.item, d.id, d.day, d.at, d.value, d.unit, d.amount, d.source, NULL::numeric AS used, false AS is_marked
FROM (VALUES %s) AS k (item, fitting, first, last) JOIN day_values d ON d.fitting = k.fitting::bigint
 AND d.day BETWEEN k.first::date AND k.last::date AND d.struck_at IS NULL ORDER BY k.item, d.day"""
ZONE = "SELECT coalesce(mode() WITHIN GROUP (ORDER BY zone), 'UTC') FROM houses"
COUNTS = "SELECT * FROM mornings ORDER BY at DESC LIMIT 1"
RELEASING = "SELECT EXISTS (SELECT FROM jobs WHERE what IN ('release', 'send') AND ended_at IS NULL)"
BEFORE, AFTER = 2, 2  # readings that are shown around a fall or a leap
DAYS = datetime.timedelta(days=6)
# of what is shown
SMALLEST = {"volume": (1_000_000, "m³"), "allocation": (1000, "HCA"), "energy": (3_600_000_000, "kWh")}
STATUS_BITS, APPLICATION = (4, 8, 16), 3  # of a status byte (EN 13757-3)
SECTIONS = ("holds", "new", "open", "known", "done", "ended")


# ---- what a person can do

class Action(NamedTuple):
    """A function of the database's schema `desk`: its parameters but the last one, `why`, with their types."""
    fields: Dict[str, str]
    role: str = "clerk"


TYPES = {"value": "numeric", "day": "date", "place": "bigint", "month": "date", "digits": "integer", "at": "timestamp",
         "last": "numeric", "first": "numeric", "line": "integer", "area": "numeric", "since": "date", "until": "date",
         "item": "bigint"}  # of those that aren't text


def action(names: str, role: str = "clerk", **types: str) -> Action:
    return Action({name: types.get(name, TYPES.get(name, "text")) for name in names.split()}, role)


ACTIONS: Dict[str, Action] = {
    "strike": action("value", value="bigint"), "put_value": action("house meter day value unit"),
    "see_number": action("place month"), "declare_counter": action("house meter digits"),
    "restart": action("house meter at last first unit"), "exchange": action("house old new at last first unit"),
    "decide_use": action("house meter use vib"), "meter": action("house meter line address flat"),
    "house": action("house address postcode zone category contact advice complaints"),
    "flat": action("house flat area"), "tenant": action("house flat since until person language wants mail"),
    "take_over": action("item"), "hand_back": action("item"), "collect": action("box"),
    "leave_month": action("house month"), "address": action("house flat wants mail"),
    "returned": action("house flat month"), "release": action("month", "publisher"),
    "send": action("month", "publisher"), "correct_month": action("house month", "publisher")}
# The words of lines of a CSV (office/import) by their functions; a line has the function's parameters, and may have a
# reason
LINES = {"house": "house", "flat": "flat", "user": "tenant", "meter": "meter", "value": "put_value",
         "counter": "declare_counter", "restart": "restart", "exchange": "exchange"}


def act(cursor: Cursor, name: str, values: Dict[str, str], why: str) -> None:
    """Does what a person wants: one function of the database, which checks the role and writes the log."""
    fields = ACTIONS[name].fields
    placed = ", ".join(f"{field} => %s::{kind}" for field, kind in [*fields.items(), ("why", "text")])
    cursor.execute(f"SELECT desk.{name}({placed})",
                   [*((values.get(field) or "").strip() or None for field in fields), why.strip()])


class Offer(NamedTuple):
    """Something that can be done, with what is known of its parameters."""
    action: str
    values: Dict[str, Any]

    def command(self) -> str:
        words = [str(self.values.get(name) or name.upper()) for name in ACTIONS[self.action].fields]
        return " ".join(["office/act", self.action, *map(shlex.quote, words), "--why", "'...'"])

    def query(self, **others: Any) -> str:
        """Of the form's link."""
        return urllib.parse.urlencode({**{name: it for name, it in self.values.items() if it is not None}, **others})


def offered(action: str, item: Row, readings: List[Row]) -> Optional[Offer]:
    """A form, filled with what is known of its fields by an item and the readings behind it; none where there is no
    reading to strike."""
    facts, fields = item.facts, ACTIONS[action].fields
    day = next((one for one in readings if one.is_marked), readings[-1] if readings else None)
    if action == "strike":
        return Offer(action, {"value": day.id}) if day else None
    meters, month = facts.get("meters"), facts.get("month")
    meters = meters[-2:] if isinstance(meters, list) else []  # the last two of a place; of a box it is their count
    known = {"house": item.house, "meter": facts.get("identity"),
             "use": "heat" if facts.get("why") == "two energies" else "-",
             "day": day.day if day else month and next_month(datetime.date.fromisoformat(month)) - DAY,
             "unit": day.unit if day and action != "exchange" else None, "old": facts.get("identity"),
             **(dict(zip(("old", "new"), meters)) if len(meters) == 2 else {}),
             **{it: facts.get(it) for it in ("box", "digits", "flat", "month", "place")}}
    return Offer(action, {name: it for name, it in known.items() if name in fields})


# ---- kinds of items: what finds them (kind, house and subject; other columns are the facts), and what can be done

COLLECTOR = """
SELECT 'collector' AS kind, NULL AS house, 'office/collect' AS subject, max(ended_at) AS since
FROM collections WHERE begun_at <= %(at)s
HAVING coalesce(max(ended_at) < %(at)s - make_interval(hours => %(hours)s), true)"""
# What the collector noted at a box: in a column that has the name of its kind
CLOCKS, LATE, TALKS = (f"""
SELECT '{kind}' AS kind, house, name AS subject, name AS box, {facts}
FROM boxes WHERE active AND {kind} IS NOT NULL ORDER BY name""" for kind, facts in (
    ("clock", "clock -> 'wrong' AS wrong, clock -> 'of' AS of, clock -> 'first' AS first"),
    ("late", "late -> 'values' AS values, late -> 'meters' AS meters, late -> 'first' AS first"),
    ("talks", "talks AS text")))
# Of a box that isn't collected, and of one without a meter that is heard, one item; its meters are counted there
BOXES = """
SELECT 'box' AS kind, b.house, s.box AS subject, s.box, s.why, s.fault, coalesce(o.count, 0) AS meters, s.since
FROM stale_boxes_at(%(at)s) s JOIN boxes b ON b.name = s.box AND (b.talks IS NULL OR s.why <> 'failed')
LEFT JOIN (SELECT box, count(*) FROM overdue_at(%(at)s) GROUP BY box) o ON o.box = s.box"""
SILENT_BOXES = """
SELECT 'box' AS kind, b.house, o.box AS subject, o.box, 'none heard' AS why, NULL AS fault, o.meters, o.since
FROM (SELECT box, count(*) AS meters, max(last_heard) AS since FROM overdue_at(%(at)s) GROUP BY box) o
JOIN boxes b ON b.name = o.box
WHERE o.meters > 1 AND o.meters = (SELECT count(*) FROM meters m WHERE m.box = o.box)"""
SILENT = """
SELECT 'silent' AS kind, b.house, o.box || ' ' || o.identity AS subject, o.box, o.identity, o.flat, o.why,
       o.last_heard AS heard
FROM (SELECT *, count(*) OVER (PARTITION BY box) AS silent FROM overdue_at(%(at)s)) o JOIN boxes b ON b.name = o.box
WHERE (o.silent = 1 OR o.silent < (SELECT count(*) FROM meters m WHERE m.box = o.box))
  AND NOT EXISTS (SELECT FROM stale_boxes_at(%(at)s) s
                  WHERE s.box = o.box AND s.why IN ('never collected', 'not collected'))
ORDER BY o.box, o.identity"""
STATES = """
SELECT CASE WHEN s.status & 4 <> 0 THEN 'power' ELSE 'error' END AS kind, b.house,
       s.box || ' ' || s.identity AS subject, s.box, s.identity, s.flat, s.status, s.says AS text
FROM meter_states s JOIN boxes b ON b.name = s.box WHERE s.says <> ''"""
# Of each meter that is fitted: its last value, what was used a day on the way to it, and the median of these; and its
# last fall that is no restart and no turn, which a counter of some digits would explain (turn), or not
STEPS = """
WITH of_each AS (
    SELECT f.id, f.house, f.identity, p.flat, p.use AS of_use, s.* FROM fittings f JOIN places p ON p.id = f.place
    LEFT JOIN limits l ON l.use = p.use CROSS JOIN LATERAL (
        SELECT max(value || ' ' || unit) FILTER (WHERE is_last) AS shown, max(use) FILTER (WHERE is_last) AS use,
               count(use) AS count, max(day) AS day, max(day) FILTER (WHERE is_fall) AS fallen,
               percentile_cont(0.5) WITHIN GROUP (ORDER BY use) AS median, bool_or(is_fall) AS has_fall,
               (array_agg(ARRAY[last, amount, room] ORDER BY day DESC)
                FILTER (WHERE is_fall AND f.size IS NULL))[1:1] AS fall
        FROM (
            SELECT *, CASE WHEN amount >= last THEN (amount - last) / greatest(seconds / 86400, 0.5) END AS use,
                   amount < last AND NOT coalesce(last < f.size AND f.size - last + amount <= room, false)
                   AND NOT EXISTS (SELECT FROM restarts r
                                   WHERE r.fitting = f.id AND r.at >= since AND r.at < at) AS is_fall
            FROM (SELECT *, (coalesce(f.most, l.most) * (floor(seconds / 3600) + 2))::numeric AS room FROM (
                SELECT d.day, d.at, d.value, d.unit, d.amount, lag(d.amount) OVER before AS last,
                       lag(d.at) OVER before AS since, date_part('epoch', d.at - lag(d.at) OVER before) AS seconds,
                       lead(d.day) OVER before IS NULL AS is_last
                FROM day_values d WHERE d.fitting = f.id AND d.struck_at IS NULL
                  AND d.day BETWEEN %(at)s::date - %(days)s AND %(at)s::date
                WINDOW before AS (ORDER BY d.day)) w) k) j) s
    WHERE f.during @> %(at)s)
SELECT kind, house, house || ' ' || identity AS subject, identity, flat, of_use AS use, id AS fitting, shown AS value,
       CASE kind WHEN 'leap' THEN day ELSE fallen END AS day, digits,
       CASE WHEN median > 0 THEN round((use / median)::numeric) END AS times
FROM of_each
LEFT JOIN LATERAL (SELECT min(n) AS digits FROM generate_series(6, 8) n
                   WHERE has_fall AND size_of(id, n) > fall[1][1]
                     AND size_of(id, n) - fall[1][1] + fall[1][2] <= fall[1][3]) t ON true
CROSS JOIN LATERAL (VALUES ('disturbed', has_fall AND digits IS NULL), ('turn', has_fall AND digits IS NOT NULL),
    ('leap', use >= 10 * median AND median > 0 AND count >= 10)) AS found (kind, is_so)
WHERE is_so ORDER BY kind, identity"""
# A meter of which nobody knows what it counts, and one that doesn't send what it should
NO_TYPE = """
SELECT 'no use' AS kind, b.house, b.house || ' ' || m.identity AS subject, m.box, m.identity, m.flat,
       right(m.identity, 2) AS type, 'type' AS why
FROM meters m JOIN boxes b ON b.name = m.box
WHERE b.active AND b.house IS NOT NULL AND NOT EXISTS (SELECT FROM device_types t WHERE t.medium = right(m.identity, 2))
  AND NOT EXISTS (SELECT FROM decided_uses d WHERE (d.house, d.identity) = (b.house, m.identity))"""
NO_RECORD = """
SELECT CASE g.why WHEN 'too large' THEN g.why ELSE 'no use' END AS kind, f.house,
       f.house || ' ' || f.identity AS subject, f.identity, p.flat, right(f.identity, 2) AS type, g.why, p.use,
       f.id AS fitting, g.day
FROM fittings f JOIN places p ON p.id = f.place
JOIN LATERAL (SELECT day, why FROM gaps WHERE fitting = f.id ORDER BY day DESC LIMIT 1) g
  ON g.why <> 'error' AND g.day BETWEEN %(at)s::date - %(days)s AND %(at)s::date
WHERE f.during @> %(at)s
  AND NOT EXISTS (SELECT FROM day_values d WHERE d.fitting = f.id AND d.struck_at IS NULL AND d.day > g.day)"""
STILL = """
SELECT 'no consumption' AS kind, p.house, f.house || ' ' || f.identity AS subject, f.identity, p.flat, p.use,
       f.id AS fitting, %(still)s AS days, max(d.value) || ' ' || max(d.unit) AS value
FROM fittings f JOIN places p ON p.id = f.place JOIN uses u ON u.use = p.use
JOIN tenancies t ON (t.house, t.flat) = (p.house, p.flat)
JOIN day_values d ON d.fitting = f.id AND d.struck_at IS NULL
WHERE f.during @> %(at)s AND u.is_daily AND t.days @> daterange(%(at)s::date - %(still)s, %(at)s::date)
  AND d.day BETWEEN %(at)s::date - %(still)s AND %(at)s::date
GROUP BY p.house, f.id, p.flat, p.use
HAVING count(*) >= %(still)s / 2 AND min(d.day) <= %(at)s::date - %(still)s + 5 AND max(d.amount) = min(d.amount)"""
NIGHT = """
SELECT 'night' AS kind, p.house, f.house || ' ' || f.identity AS subject, f.identity, p.flat, p.use, f.id AS fitting,
       count(*) AS nights
FROM night_use n JOIN fittings f ON f.id = n.fitting JOIN places p ON p.id = f.place
WHERE f.during @> %(at)s AND n.amount > 0 AND n.night BETWEEN %(at)s::date - %(nights)s + 1 AND %(at)s::date
GROUP BY f.id, p.house, p.flat, p.use HAVING count(*) >= %(nights)s"""
# A place without a number in a month, with the meters that stood there then and the sheets that wait for it
NO_NUMBER = """
SELECT 'no number' AS kind, u.house,
       concat_ws('/', u.house, u.flat, u.use, u.number) || to_char(u.month, ' YYYY-MM') AS subject, u.flat, u.use,
       u.number, u.place, u.month, u.grade, k.meters, k.fitting, k.identity,
       CASE WHEN n.out_at IS NULL AND u.month >= %(at)s::date - %(waiting)s THEN (
           SELECT count(*) FROM tenancies t WHERE (t.house, t.flat) = (u.house, u.flat) AND t.wants <> 'nothing'
           AND t.days && daterange(u.month, (u.month + interval '1 month')::date)) ELSE 0 END AS sheets
FROM month_kwh u JOIN month_now n ON (n.month, n.place, n.part) = (u.month, u.place, 0)
CROSS JOIN LATERAL (
    SELECT jsonb_agg(f.identity ORDER BY lower(f.during)) AS meters,
           (array_agg(f.id ORDER BY lower(f.during) DESC))[1] AS fitting,
           (array_agg(f.identity ORDER BY lower(f.during) DESC))[1] AS identity
    FROM fittings f WHERE f.place = u.place AND f.during && tstzrange(u.begins, u.ends, '[]')) k
WHERE u.part = 0 AND u.month >= %(at)s::date - 400
  AND (u.grade IN ('missing', 'disturbed', 'unclear', 'held') OR n.out_at IS NULL AND waits_for_a_step(u.month, u.place)
       AND u.month + interval '1 month' <= %(at)s::timestamptz - make_interval(days => %(step)s))
  AND u.month + interval '1 month' <= %(at)s
ORDER BY u.house, u.place, u.month"""
CHANGES = """
SELECT 'changed' AS kind, house, house || to_char(month, ' YYYY-MM') AS subject, month, NULL AS why, says AS change
FROM changes WHERE left_why IS NULL
UNION ALL
SELECT 'changed', house, house || ' bill ' || lower(days) || '..' || upper(days) - 1, NULL, 'bill', changed
FROM bills_now WHERE changed IS NOT NULL AND left_why IS NULL ORDER BY subject"""
NOT_SENT = """
SELECT 'not sent' AS kind, t.house, t.house || ' ' || to_char(s.month, 'YYYY-MM') AS subject, s.month,
       count(DISTINCT t.id) AS count, min(s.failed_why) AS failed, min(t.flat) AS flat
FROM sheets s JOIN tenancies t ON t.id = s.tenancy WHERE s.failed_at IS NOT NULL AND s.month >= %(at)s::date - 400
GROUP BY t.house, s.month ORDER BY 3"""
# A month whose numbers `mbdc audit` refused: its sheets wait
REFUSED = """
SELECT 'audit' AS kind, r.house, r.house || ' ' || r.period AS subject, r.period, r.says AS text,
       CASE WHEN length(r.period) = 7 THEN (
           SELECT count(*) FROM tenancies t WHERE t.house = r.house AND t.wants <> 'nothing' AND t.days && daterange(
               (r.period || '-01')::date, ((r.period || '-01')::date + interval '1 month')::date)) ELSE 0 END AS waits
FROM refusals r ORDER BY 3"""
FALL, LEAP = True, False  # which reading doesn't fit
MISSING = ("silent", "error", "power", "no use", "too large", "no consumption")
ANY = ("",)
OF_BOXES_ALL = ("never collected", "not collected", "failed", "no meters", "none heard")


class Kind(NamedTuple):
    """A kind of items. Its items differ by a fact, their detail: why, or the grade; its words are those of
    `item.KIND.DETAIL`, or of `item.KIND`. The other fields are by detail; the empty one is any that isn't named."""
    queries: Sequence[str] = ()  # which find it; some find other kinds, too
    offers: Mapping[str, Sequence[str]] = {}  # what can be done, the first one first
    readings: Mapping[str, bool] = {}  # which readings are shown
    over_houses: Sequence[str] = ()  # one cause may be that of many houses
    causes: Mapping[str, Sequence[str]] = {}  # the kinds of items at which it is counted
    detail: str = "why"

    def detail_of(self, facts: Dict[str, Any]) -> str:
        return str(facts.get(self.detail) or "")


COLLECT = ("collect",)
KINDS: Dict[str, Kind] = {
    "collector": Kind((COLLECTOR,)),
    "box": Kind((BOXES, SILENT_BOXES), dict.fromkeys(OF_BOXES_ALL[:3], COLLECT), over_houses=OF_BOXES_ALL),
    "clock": Kind((CLOCKS,), over_houses=ANY), "late": Kind((LATE,), over_houses=ANY),
    "talks": Kind((TALKS,), {"": COLLECT}, over_houses=ANY),
    "silent": Kind((SILENT,), {"": ("exchange", "put_value")}),
    "error": Kind((STATES,), {"": ("exchange", "put_value")}), "power": Kind((), {"": ("exchange",)}),
    "no use": Kind((NO_TYPE, NO_RECORD), {"": ("decide_use",), "other date": ("exchange",)}),
    "too large": Kind((), {"": ("exchange",)}),
    "disturbed": Kind((STEPS,), {"": ("strike", "put_value", "restart")}, {"": FALL}),
    "turn": Kind((), {"": ("declare_counter", "strike")}, {"": FALL}), "leap": Kind((), {}, {"": LEAP}),
    "no consumption": Kind((STILL,)), "night": Kind((NIGHT,)),
    "changed": Kind((CHANGES,), {"": ("correct_month", "leave_month"), "bill": ()}),
    "not sent": Kind((NOT_SENT,), {"": ("address", "send")}, over_houses=ANY),
    "audit": Kind((REFUSED,), over_houses=ANY), "no number": Kind((NO_NUMBER,), {
        "missing": ("put_value",), "disturbed": ("strike", "put_value"), "unclear": ("exchange",),
        "held": ("see_number", "strike"), "provisional": ("put_value", "see_number")},
        {"held": LEAP, "disturbed": FALL}, ("many",),
        {"missing": MISSING, "disturbed": ("disturbed", "turn", "error"), "unclear": ("no use",)}, "grade")}


def kind_of(name: str) -> Kind:
    """A kind; of an item of an older office the one that says the least."""
    return KINDS.get(name, KINDS["changed"])


def offers_of(item: Row, readings: List[Row]) -> List[Offer]:
    kind = kind_of(item.kind)
    actions = [it for it in kind.offers.get(kind.detail_of(item.facts), kind.offers.get("", ()))
               if "houses" not in item.facts or it == "send"]  # what many houses have
    found = [offer for it in actions if (offer := offered(it, item, readings)) is not None]
    return [*found, Offer("hand_back" if item.known_by else "take_over", {"item": item.id})]


# ---- the words of items

def key_of(kind: str, facts: Dict[str, Any]) -> str:
    """Under which the words of an item are."""
    key = f"item.{kind}.{kind_of(kind).detail_of(facts)}"
    return next(it for it in (key, f"item.{kind}", "item.changed") if it in texts())


def title(kind: str, facts: Dict[str, Any], words: Catalogue) -> str:
    return words.word(key_of(kind, facts))


def body(kind: str, facts: Dict[str, Any], words: Catalogue) -> str:
    """Why it is an item."""
    return words.explained(key_of(kind, facts)).format_map(values_of(facts, words)).strip()


def brief(kind: str, facts: Dict[str, Any]) -> str:
    """An item in a line, in English, for terminals and logs."""
    words = Catalogue("en", "UTC")
    where = f" (flat {facts['flat']})" if facts.get("flat") else ""
    where = f" ({len(facts['houses'])} houses)" if "houses" in facts else where
    return plain(f"{title(kind, facts, words)}{where}: {body(kind, facts, words)}")


def values_of(facts: Dict[str, Any], words: Catalogue) -> Dict[str, str]:
    """The facts as the reader writes them."""
    forms: Dict[str, Callable[[Any], str]] = {"since": lambda it: words.moment(datetime.datetime.fromisoformat(it)),
        "heard": lambda it: words.moment(datetime.datetime.fromisoformat(it)),
        "day": lambda it: words.day(datetime.date.fromisoformat(it)),
        "month": lambda it: words.month(datetime.date.fromisoformat(it)), "use": words.use,
        "value": lambda it: words.reading(*it.split()) if re.fullmatch(r"\S+ \S+", it) else plain(it),
        "fault": lambda it: words.page("fault", fault=plain(it)), "status": lambda it: status_words(it, words),
        "failed": lambda it: words.use(plain(it)), "change": lambda it: changes(it, words)}
    said = {key: forms.get(key, lambda it: plain(it))(it) for key, it in facts.items() if it not in (None, "")}
    never = words.page("never_before")
    return collections.defaultdict(str, {"since": never, "heard": never, **said})


def status_words(status: int, words: Catalogue) -> str:
    bits = [bit for bit in (*STATUS_BITS, status & APPLICATION) if status & bit]
    return ", ".join(words.word(f"status.{bit}") for bit in bits) or f"{status:02X}h"


def changes(change: Dict[str, Any], words: Catalogue) -> str:
    """The numbers of a month or bill that would be others (months.differences), or why it can't be computed."""
    if "text" in change:
        return plain(change["text"])
    parts = [words.page("change_of", place=plain(it["place"]), out=amount_of(it["out"], it["quantity"], words),
                        now=amount_of(it["now"], it["quantity"], words)) for it in change["numbers"]]
    return " ".join([*parts, words.page("more_changes", count=change["more"])] if change["more"] else parts)


def amount_of(number: Optional[Tuple[Optional[int], str]], quantity: str, words: Catalogue) -> str:
    """A number of smallest units with its grade, or that there is none."""
    if number is None or number[0] is None:
        return words.page("not")
    smallest, unit = SMALLEST[quantity]
    return f"{words.amount(decimal.Decimal(number[0]) / smallest, unit)} {words.word(unit)} ({words.use(number[1])})"


# ---- the readings behind items

def readings_of(cursor: Cursor, items: List[Row]) -> Dict[int, List[Row]]:
    """The readings around what is wrong, of the items that are of readings."""
    wanted = {item.id: item for item in items
              if item.ended_at is None and item.facts.get("fitting") and misfit_of(item) is not None}
    windows = [(item.id, item.facts["fitting"], *window_of(item.facts)) for item in wanted.values()]
    found = psycopg2.extras.execute_values(cursor, VALUES, windows, fetch=True, page_size=len(wanted)) if wanted else []
    return {item: around(of_item, wanted[item]) for item, of_item in grouped((it.item, it) for it in found).items()}


def misfit_of(item: Row) -> Optional[bool]:
    """Which reading doesn't fit; None where an item is of none."""
    kind = kind_of(item.kind)
    return kind.readings.get(kind.detail_of(item.facts))


def window_of(facts: Dict[str, Any]) -> Tuple[datetime.date, datetime.date]:
    """The days in which the item's readings are."""
    first = datetime.date.fromisoformat(facts.get("day") or facts["month"])
    return first - DAYS, (first if facts.get("day") else next_month(first)) + DAYS


def around(readings: List[Row], item: Row) -> List[Row]:
    """The readings before and after the greatest fall, or the greatest step; the one that doesn't fit is marked."""
    steps = [(other.amount - one.amount) for one, other in zip(readings, readings[1:])]
    if not steps:
        return readings
    falls = min(steps) < 0 and misfit_of(item) is FALL
    place = (steps.index(min(steps)) if falls else steps.index(max(steps))) + 1
    # of a fall the first is false where the second one fits what is before it
    is_first = falls and place >= 2 and readings[place - 2].amount <= readings[place].amount
    shown = [one._replace(used=None if number == 0 else one.value - readings[number - 1].value,
                          is_marked=number == place - is_first) for number, one in enumerate(readings)]
    return shown[max(place - BEFORE, 0):place + AFTER]


# ---- the page

class Viewer(NamedTuple):
    """Who looks at a page: none where it is a file."""
    person: str
    role: str
    root: str  # the path of the pages

    def may(self, action: str) -> bool:
        return self.role == "publisher" or self.role == ACTIONS[action].role == "clerk"


# An item as it is shown.
Card = NamedTuple("Card", [("item", Row), ("title", str), ("body", str), ("readings", List[Row]),
    ("offers", List[Offer]), ("words", Catalogue)])


Morning = NamedTuple("Morning", [("counts", Optional[Row]), ("sections", List[Tuple[str, List[Card]]]), ("houses", int),
    ("is_releasing", bool)])


def words_for(cursor: Cursor, language: str) -> Catalogue:
    return Catalogue(language, value_of(cursor, ZONE))


def section_of(item: Row) -> str:
    if item.ended_at is not None or item.done_at is not None:
        return "done" if item.ended_at is None else "ended"
    return "known" if item.known_by is not None else "holds" if item.waits else "new" if item.is_new else "open"


def morning_of(cursor: Cursor, words: Catalogue) -> Morning:
    """What is to be done, in the order in which it is looked at."""
    items = rows_of(cursor, MORNING)
    readings = readings_of(cursor, items)
    cards: Dict[str, List[Card]] = {section: [] for section in SECTIONS}
    for item in items:
        own, shown = Catalogue(words.language, item.zone or words.zone), readings.get(item.id, [])
        cards[section_of(item)].append(Card(item, title(item.kind, item.facts, own), body(item.kind, item.facts, own),
                                            shown, offers_of(item, shown), own))
    houses = {house for item in items if item.ended_at is None
              for house in ([item.house] if item.house else item.facts.get("houses", []))}
    return Morning(row_of(cursor, COUNTS), [(name, of_section) for name, of_section in cards.items() if of_section],
                   len(houses), value_of(cursor, RELEASING))


def page(name: str, words: Catalogue, viewer: Optional[Viewer], **values: Any) -> str:
    return html_of(name, words, ("desk.css",), viewer=viewer, **values)


def morning_page(morning: Morning, words: Catalogue, viewer: Optional[Viewer], said: str = "") -> str:
    return page("desk_morning.html", words, viewer, morning=morning, said=said, here="today")


def mail_text(morning: Morning, words: Catalogue) -> str:
    return page("desk_mail.txt", words, None, morning=morning).rstrip("\n")


# ---- lines of a CSV

GERMAN_DAY = re.compile(r"\d{1,2}\.\d{1,2}\.\d{4}")
DONE = "SELECT id, subject, before, after FROM log WHERE id > %s ORDER BY id LIMIT 1"
FALLBACK = "windows-1252"  # of spreadsheets that don't write UTF-8


class Line(NamedTuple):
    """A line of the file: what it does, or why it can't be."""
    number: int
    action: str = ""
    subject: str = ""
    before: str = ""
    after: str = ""
    fault: str = ""


def decoded(content: bytes) -> str:
    try:
        return content.decode("utf-8-sig")
    except UnicodeDecodeError:
        return content.decode(FALLBACK, "replace")


def imported(cursor: Cursor, text: str, why: str, is_wanted: bool) -> Tuple[List[Line], int]:
    """Does each line of the text; how many have a fault. Where one has, or nothing is wanted yet, none stays done."""
    head = text.partition("\n")[0]
    separator = ";" if head.count(";") > head.count(",") else ","
    last, lines, rows = value_of(cursor, "SELECT coalesce(max(id), 0) FROM log"), [], csv.reader(
        io.StringIO(text), delimiter=separator)
    try:
        for row in rows:
            if not any(map(str.strip, row)) or row[0].startswith("#"):
                continue
            cursor.execute("SAVEPOINT line")
            try:
                action = done(cursor, row, why, separator)
            except (ValueError, psycopg2.Error) as fault:
                cursor.execute("ROLLBACK TO SAVEPOINT line")
                lines.append(Line(rows.line_num, fault=fault_of(fault)))
                continue
            last, subject, before, after = row_of(cursor, DONE, last) or (last, "", None, None)
            lines.append(Line(rows.line_num, action, subject, *said(before, after)))
    except csv.Error as fault:
        lines.append(Line(rows.line_num, fault=str(fault)))
    faults = sum(bool(line.fault) for line in lines)
    if faults or not is_wanted:
        cursor.connection.rollback()
    return lines, faults


def done(cursor: Cursor, row: List[str], why: str, separator: str) -> str:
    """Does a line; the function that did it. Raises ValueError and psycopg2.Error."""
    action = LINES.get(row[0].strip().lower())
    if action is None:
        raise ValueError(f"no line begins with {row[0]!r}")
    fields = ACTIONS[action].fields
    *values, reason = [*(it.strip() for it in row[1:]), *([""] if len(row) == len(fields) + 1 else [])] or [""]
    if len(values) != len(fields):
        raise ValueError(f"{len(fields)} words after {row[0]!r}, and perhaps a reason: {', '.join(fields)}")
    given = {name: normal(value, kind, separator) for (name, kind), value in zip(fields.items(), values)}
    act(cursor, action, given, reason or why)
    return action


def normal(value: str, kind: str, separator: str) -> str:
    """A day and a number as the database reads them; German ones are taken, too."""
    if kind == "date" and GERMAN_DAY.fullmatch(value):
        return str(datetime.datetime.strptime(value, "%d.%m.%Y").date())
    if kind == "numeric" and separator == ";":
        return value.replace(".", "").replace(",", ".") if "," in value else value
    return value


def fault_of(fault: Exception) -> str:
    """The first line of what the database says, without where."""
    primary: Optional[str] = getattr(getattr(fault, "diag", None), "message_primary", None)
    return plain(primary or str(fault))


def said(before: Any, after: Any) -> List[str]:
    """What differs, in words."""
    if isinstance(before, dict) and isinstance(after, dict):
        keys = [key for key in after if before.get(key) != after[key]]
        before, after = {key: before.get(key) for key in keys}, {key: after[key] for key in keys}
    return [in_words(before), in_words(after)]


def in_words(value: Any) -> str:
    if isinstance(value, dict):
        return ", ".join(f"{key}: {it}" for key, it in value.items() if it not in (None, ""))
    return "" if value is None else str(value)
