"""The manager's page as a web application (WSGI), on a local socket behind a web server that signs people in.

    gunicorn --bind unix:/run/mbdc-desk/socket --preload 'desk_web:application()'

The web server names who is there (X-Remote-User) and where the pages are (X-Script-Name). The connection's role is a
member of `desk`; each request becomes the role of its person. Only the functions of the schema `desk` write.
"""

import contextlib
import functools
import hashlib
import os
import secrets
import sys
import urllib.parse
from typing import Any, Dict, Iterable, Iterator, List, NamedTuple, Optional, Tuple

sys.dont_write_bytecode = True
import flask
import itsdangerous
import psycopg2
import psycopg2.errors
from werkzeug.exceptions import HTTPException, RequestEntityTooLarge

from catalogue import Catalogue
from database import Cursor, Database, Row, column_of, grouped, row_of, rows_of
from decoding import UNITS
from desk_items import (ACTIONS, LINES, Offer, Viewer, act, decoded, fault_of, imported, in_words, morning_of,
                        morning_page, page, title, words_for)
from sheet_data import BOXES, natural

MOST, FARTHEST = 500, 10**9  # rows of a page, and before it
READER = "reader"  # a role that sees no names
HOUSES = """
SELECT h.house, h.address, (SELECT count(*) FROM flats f WHERE f.house = h.house) AS flats,
       (SELECT count(*) FROM alarms a
        WHERE (a.house = h.house OR a.facts -> 'houses' ? h.house) AND a.ended_at IS NULL) AS items
FROM houses h WHERE concat_ws(' ', h.house, h.address, h.postcode) ILIKE %(like)s
   OR EXISTS (SELECT FROM fittings f WHERE f.house = h.house AND f.identity ILIKE %(like)s)
   OR EXISTS (SELECT FROM flats f WHERE f.house = h.house AND h.house || ' ' || f.flat ILIKE %(like)s) {names}
ORDER BY h.house LIMIT %(most)s OFFSET %(skipped)s"""
NAMES = "OR EXISTS (SELECT FROM tenancies t WHERE t.house = h.house AND t.person ILIKE %(like)s)"
HOUSE = "SELECT house, address, postcode, zone, category, contact, advice, complaints FROM houses WHERE house = %s"
FLATS = "SELECT house, flat, area_m2 FROM flats WHERE house = %s"
USERS = """
SELECT house, flat, person, lower(days) AS since, upper(days) - 1 AS until, language, wants, coalesce(mail, '') AS mail
FROM tenancies WHERE house = %s AND coalesce(upper(days) > current_date - 400, true) ORDER BY flat, days"""
METERS = """
SELECT f.house, f.identity, p.flat, p.use, d.at, d.value::text, d.unit FROM fittings f JOIN places p ON p.id = f.place
LEFT JOIN LATERAL (SELECT * FROM day_values k WHERE k.fitting = f.id AND k.struck_at IS NULL
                   ORDER BY k.day DESC LIMIT 1) d ON true
WHERE f.house = %s AND upper_inf(f.during) ORDER BY p.flat, p.use, f.identity"""
READINGS = """
SELECT d.id, d.at, d.value::text, d.unit, d.source, d.struck_why, d.struck_by FROM day_values d
JOIN fittings f ON f.id = d.fitting WHERE (f.house, f.identity) = (%(house)s, %(meter)s)
ORDER BY d.day DESC, d.struck_at DESC NULLS FIRST, d.id LIMIT %(most)s OFFSET %(skipped)s"""
MONTHS = """
SELECT v.month, v.version, count(*) AS houses, count(v.out_at) AS out, max(v.out_at) AS at FROM versions v
GROUP BY v.month, v.version ORDER BY v.month DESC, v.version DESC LIMIT %(most)s OFFSET %(skipped)s"""
SENDING = """
SELECT s.month, s.version, count(DISTINCT s.tenancy) FILTER (WHERE s.sent_at IS NOT NULL) AS sent,
       count(DISTINCT s.tenancy) FILTER (WHERE s.failed_at IS NOT NULL) AS failed
FROM sheets s WHERE s.out_at IS NOT NULL GROUP BY s.month, s.version"""
JOBS = ("SELECT what, words, asked_at, asked_by, ended_at, status, coalesce(says, '') AS says FROM jobs"
        " ORDER BY id DESC LIMIT 20")
LOG = """
SELECT at, who, what, house, subject, why{details} FROM log
WHERE concat_ws(' ', who, what, house, subject, why) ILIKE %(like)s
ORDER BY id DESC LIMIT %(most)s OFFSET %(skipped)s"""


def path_of(*parts: str) -> str:
    return "/".join(urllib.parse.quote(part, safe="") for part in parts)


def form_path(action: str, **values: Any) -> str:
    return f"do/{action}?{Offer(action, values).query()}"


class Desk(NamedTuple):
    """A request: its transaction, who it is of, the words, and of a list what is looked for, and from which row on."""
    cursor: Cursor
    viewer: Viewer
    words: Catalogue
    query: str
    first: int

    def found(self, query: str, **others: str) -> List[Row]:
        """The rows of a page, and one more where there is a next one."""
        safe = self.query.replace("\0", "").replace("\\", "\\\\").replace("%", "\\%").replace("_", "\\_")
        skipped = min(max(self.first, 0), FARTHEST)
        return rows_of(self.cursor, query, like=f"%{safe}%", most=MOST + 1, skipped=skipped, **others)

    def shown(self, name: str, here: str, heading: str, links: Iterable[Tuple[str, str]] = (),
              is_searched: bool = False, **tables: List[Any]) -> str:
        """A page of tables, with a link to the next one where a table has more rows."""
        has_next = any(len(it) > MOST for it in tables.values())
        after = urllib.parse.urlencode({"q": self.query, "from": self.first + MOST}) if has_next else ""
        return page(f"desk_{name}.html", self.words, self.viewer, here=here, heading=heading, links=links, most=MOST,
                    after=after, query=self.query if is_searched else None, first=self.first, path_of=path_of,
                    form_path=form_path, wanted=WANTED, in_words=in_words, **tables)

    def links(self, names: str, **values: Any) -> List[Tuple[str, str]]:
        """The forms that the viewer may use."""
        may = filter(self.viewer.may, names.split())
        return [(f"{self.words.action(name)} …", form_path(name, **values)) for name in may]

    def houses(self) -> str:
        found = self.found(HOUSES.format(names="" if self.viewer.role == READER else NAMES))
        links = [(self.words.action("house"), "do/house")] if self.viewer.may("house") else []
        return self.shown("houses", "houses", self.words.page("houses"), links, True, houses=found)

    def house(self, house: str) -> str:
        """A house: boxes, flats with their users where the role may see them, meters. Raises LookupError."""
        row = row_of(self.cursor, HOUSE, house)
        if row is None:
            raise LookupError(house)
        own = self._replace(words=self.words._replace(zone=row.zone))
        seen = rows_of(self.cursor, USERS, house) if self.viewer.role != READER else []
        users = grouped((it.flat, it) for it in seen)
        flats = sorted(rows_of(self.cursor, FLATS, house), key=lambda it: natural(it.flat))
        boxes, meters = (rows_of(self.cursor, query, house) for query in (BOXES, METERS))
        links = [*own.links("house", **row._asdict()),
                 *own.links("flat tenant address returned meter exchange put_value", house=house)]
        return own.shown("house", "houses", f"{house}, {row.address}", links, boxes=boxes[self.first:],
                         flats=[(it, user) for it in flats for user in users.get(it.flat, [None])][self.first:],
                         meters=meters[self.first:])

    def meter(self, house: str, meter: str) -> str:
        """The readings of a meter, each with a link to strike it."""
        links = self.links("put_value exchange restart declare_counter decide_use", house=house, meter=meter, old=meter)
        return self.shown("meter", "houses", f"{house}, {meter}", links,
                          values=self.found(READINGS, house=house, meter=meter))

    def months(self) -> str:
        sent = {it[:2]: it for it in rows_of(self.cursor, SENDING)} if self.viewer.role != READER else {}
        return self.shown("months", "months", self.words.page("months"), jobs=rows_of(self.cursor, JOBS),
                          months=[(it, sent.get(it[:2])) for it in self.found(MONTHS)])

    def log(self) -> str:
        details = "" if self.viewer.role == READER else ", before, after"
        return self.shown("log", "log", self.words.page("log"), (), True, rows=self.found(LOG.format(details=details)))


# ---- the application

SECRET = secrets.token_bytes(32)  # of the forms; the processes share it (--preload), and a new start makes another
FORM_SECONDS = 12 * 3600
LARGEST_FORM, LARGEST_FILE = 64 << 10, 1 << 20
SECONDS = 60
ROLES = {"reader": "SET LOCAL ROLE reader", "clerk": "SET LOCAL ROLE clerk", "publisher": "SET LOCAL ROLE publisher"}
POLICY = ("default-src 'none'; style-src 'unsafe-inline'; form-action 'self'; frame-ancestors 'none'; base-uri 'none'")
HEADERS = {"Content-Security-Policy": POLICY, "Referrer-Policy": "same-origin", "X-Content-Type-Options": "nosniff",
           "Cache-Control": "no-store", "X-Frame-Options": "DENY"}
USES = "SELECT use FROM uses ORDER BY position"
LISTS = {"/houses": Desk.houses, "/houses/<house>": Desk.house, "/houses/<house>/<meter>": Desk.meter,
         "/months": Desk.months, "/log": Desk.log}
ITEM = "SELECT house, kind, facts FROM morning WHERE id = %s"
VALUE = """
SELECT f.identity, d.at, d.value::text, d.unit FROM day_values d JOIN fittings f ON f.id = d.fitting WHERE d.id = %s"""
WANTED = {"paper": "post", "link": "link", "nothing": "none_wanted"}
# How a field is asked for: the type of an input, or what may be chosen
INPUTS = {"date": "date", "timestamp": "datetime-local", "bigint": "hidden"}
CHOICES = {"unit": dict.fromkeys(UNITS, ""), "language": {"de": "", "en": ""}, "wants": WANTED}  # with their words
OPTIONAL = ("vib", "postcode", "zone", "category", "contact", "advice", "complaints", "area", "until", "language",
            "wants", "mail", "last", "first")
WIDE = ("address", "contact", "advice", "complaints", "person")


class Refused(Exception):
    """A request that isn't done: a status, and why, as a word of the page."""

    def __init__(self, status: int, key: str) -> None:
        super().__init__(key)
        self.status, self.key = status, key


def new_token(person: str) -> str:
    """What a form carries, so that no other site can send it: who it was made for and when."""
    return str(signer_of(person).sign(secrets.token_hex(12)), "ascii")


def signer_of(person: str) -> itsdangerous.TimestampSigner:
    return itsdangerous.TimestampSigner(SECRET, salt=person, digest_method=hashlib.sha256)


def language_of(known: str) -> str:
    wanted = str(flask.request.args.get("lang") or flask.request.cookies.get("language"))
    return wanted if wanted in ("de", "en") else known


@contextlib.contextmanager
def desk(database: Database) -> Iterator[Desk]:
    """The transaction of a request, as the person's role. Raises Refused where the person isn't known."""
    person = flask.request.headers.get("X-Remote-User", "")
    with database.transaction() as cursor:
        row = row_of(cursor, "SELECT role, language FROM people WHERE person = %s", person)
        if row is None:
            raise Refused(403, "nobody")
        cursor.execute(ROLES[row.role])
        item = flask.request.form.get("item", "")
        cursor.execute("SELECT set_config('office.person', %s, true), set_config('office.item', %s, true)",
                       (person, item if item.isdecimal() else ""))
        viewer, asked = Viewer(person, row.role, flask.request.script_root), flask.request.args
        yield Desk(cursor, viewer, words_for(cursor, language_of(row.language)), asked.get("q", ""),
                   asked.get("from", 0, int))


def use_form(cursor: Cursor, person: str) -> None:
    """Takes a form of this page, sent from this page, once. Raises Refused."""
    request = flask.request
    site = request.headers.get("Sec-Fetch-Site")
    origin = request.headers.get("Origin")
    if site not in (None, "same-origin") or origin is not None and urllib.parse.urlsplit(origin).netloc != request.host:
        raise Refused(403, "foreign")
    token = str(request.form.get("token", ""))
    try:
        signer_of(person).unsign(token, FORM_SECONDS)
        cursor.execute("SELECT desk.use_form(%s)", (token,))
    except (itsdangerous.SignatureExpired, psycopg2.errors.UniqueViolation):
        raise Refused(409, "twice") from None
    except itsdangerous.BadSignature:
        raise Refused(403, "foreign") from None


def morning(database: Database) -> str:
    with desk(database) as it:
        done = flask.request.args.get("done", "")
        said = it.words.page("done", what=it.words.action(done)) if done in ACTIONS else ""
        return morning_page(morning_of(it.cursor, it.words), it.words, it.viewer, said)


# A field of a form: `kind` is that of an input, or `choice`.
Field = NamedTuple("Field", [("name", str), ("label", str), ("kind", str), ("value", str),
    ("choices", List[Tuple[str, str]]), ("is_needed", bool), ("is_wide", bool)])


def fields_of(it: Desk, action: str, values: Dict[str, str]) -> Iterator[Field]:
    """The fields of a form, filled with what is known."""
    for name, kind in ACTIONS[action].fields.items():
        choices = [(one, it.words.page(of) if of else one) for one, of in CHOICES.get(name, {}).items()]
        if name == "use":
            uses = column_of(it.cursor, USES)
            choices = [*((use, it.words.use(use)) for use in uses), ("-", it.words.page("no_use"))]
        yield Field(name, it.words.field(name), "choice" if choices else INPUTS.get(kind, "text"), values.get(name, ""),
                    choices, name not in OPTIONAL, name in WIDE)


def form(database: Database, action: str) -> Any:
    """A form, and what it does."""
    if action not in ACTIONS:
        raise Refused(404, "not_found")
    request, fault = flask.request, ""
    sent = request.form if request.method == "POST" else request.args
    given = {name: value.replace("\0", "") for name, value in sent.items()}
    if request.method == "POST":
        try:
            with desk(database) as it:
                use_form(it.cursor, it.viewer.person)
                act(it.cursor, action, given, given.get("why", ""))
            return flask.redirect(f"{request.script_root}/?done={action}#main", 303)
        except psycopg2.errors.InsufficientPrivilege:
            raise Refused(403, "no_right") from None
        except (psycopg2.DataError, psycopg2.IntegrityError, psycopg2.errors.NoDataFound,
                psycopg2.errors.RaiseException) as error:
            fault = fault_of(error)
    with desk(database) as it:
        if not it.viewer.may(action):
            raise Refused(403, "no_right")
        about = about_of(it, given.get("item", "")[:18], given.get("value", "") if action == "strike" else "")
        text = page("desk_form.html", it.words, it.viewer, here="", action=action, about=about, fault=fault,
                    token=new_token(it.viewer.person), fields=list(fields_of(it, action, given)),
                    item=given.get("item", ""), why=given.get("why", ""))
    return text, 422 if fault else 200


def about_of(it: Desk, item: str, value: str) -> str:
    """The item that a form is of, and the reading."""
    parts: List[str] = []
    for one in rows_of(it.cursor, ITEM, item) if item.isdecimal() else ():
        parts += [one.house or "", one.facts.get("flat") or "", title(one.kind, one.facts, it.words)]
    for one in rows_of(it.cursor, VALUE, value) if value.isdecimal() else ():
        parts += [one.identity, it.words.moment(one.at), it.words.reading(one.value, one.unit)]
    return " · ".join(filter(None, parts))


def csv_import(database: Database) -> "str | Tuple[str, int]":
    """A file is looked at, and then taken as a whole."""
    text, lines, said, fault = "", [], "", ""  # type: Tuple[str, List[Any], str, str]
    is_applied = False
    with desk(database) as it:
        if it.viewer.role == "reader":
            raise Refused(403, "no_right")
        if flask.request.method == "POST":
            file = flask.request.files.get("file")
            text = decoded(file.read()) if file is not None and file.filename else flask.request.form.get("text", "")
            text = text.replace("\0", "").lstrip("\n")
            use_form(it.cursor, it.viewer.person)
            is_wanted = flask.request.form.get("apply") == "yes"
            lines, faults = imported(it.cursor, text, "import", is_wanted)
            is_applied = is_wanted and not faults and bool(lines)
            fault = it.words.page("import_faults", count=faults) if faults else ""
            said = it.words.page("applied", count=len(lines)) if is_applied else ""
        html = page("desk_import.html", it.words, it.viewer, here="import", said=said, fault=fault, lines=lines,
                    text="" if is_applied else text, is_right=bool(lines) and not fault and not is_applied,
                    token=new_token(it.viewer.person),
                    forms=[(name, list(ACTIONS[action].fields)) for name, action in LINES.items()])
    return html, 422 if fault else 200


def refusal(fault: Any) -> Tuple[str, int]:
    """The page that says why a request isn't done."""
    is_large = isinstance(fault, HTTPException) and fault.code == 413
    status = 404 if isinstance(fault, LookupError) else getattr(fault, "status", None) or fault.code or 500
    key = fault.key if isinstance(fault, Refused) else "too_large" if is_large else "not_found"
    words = Catalogue(language_of("de"), "UTC")
    return page("desk_form_refused.html", words, None, text=words.page(key)), status


def sized() -> None:
    """Refuses what is larger than a form, or a file, may be."""
    if (flask.request.content_length or 0) > (LARGEST_FILE if flask.request.path == "/import" else LARGEST_FORM):
        raise RequestEntityTooLarge


def headed(answer: Any) -> Any:
    """Adds the policy, and keeps the language that was chosen."""
    answer.headers.update(HEADERS)
    if flask.request.args.get("lang") in ("de", "en"):
        answer.set_cookie("language", flask.request.args["lang"], max_age=365 * 86400, samesite="Strict", httponly=True,
                          path=f"{flask.request.script_root}/")
    return answer


def listed(database: Database, function: Any, **words: str) -> str:
    """A list as an answer."""
    with desk(database) as it:
        return str(function(it, **words))


def application(name: Optional[str] = None) -> Any:
    """The application over a database (that of libpq's variables)."""
    database = Database(os.environ.get("DESK_DATABASE", "") if name is None else name, SECONDS)
    app = flask.Flask(__name__, static_folder=None)
    app.config["MAX_CONTENT_LENGTH"] = LARGEST_FILE
    app.add_url_rule("/", "morning", lambda: morning(database))
    app.add_url_rule("/do/<action>", "form", lambda action: form(database, action), methods=["GET", "POST"])
    app.add_url_rule("/import", "import", lambda: csv_import(database), methods=["GET", "POST"])
    for rule, function in LISTS.items():
        app.add_url_rule(rule, function.__name__, functools.partial(listed, database, function))
    app.before_request(sized)
    app.after_request(headed)
    for kind in (Refused, LookupError, HTTPException):
        app.register_error_handler(kind, refusal)
    inner: Any = app.wsgi_app  # below the path that the web server names
    app.wsgi_app = lambda environ, start: inner(  # type: ignore[method-assign]
        {**environ, "SCRIPT_NAME": environ.get("HTTP_X_SCRIPT_NAME", "")}, start)
    return app
