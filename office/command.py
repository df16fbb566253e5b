"""What the office's commands have in common: their words, and how each ends."""

import argparse
import email.message
import os
import pathlib
import subprocess
import sys
from typing import Any, Callable, Dict, List, NoReturn, Optional, Tuple

import psycopg2

from database import Database, plain
from periods import month_word, next_month, period_word
from program import NotComputed

LONGEST_FAULT = 1000
USAGE, FAILED, NO_DATABASE = 2, 3, 4
STATUSES = "Status: 0 done, 2 usage or no such name, 3 the program failed, 4 the database wasn't reached or refused it."
SECONDS = 3600  # a transaction may wait for a program
MAIL_SECONDS = 60
SENDMAIL_PROGRAM = "/usr/sbin/sendmail"
Word = Tuple[Tuple[str, ...], Dict[str, Any]]


class Failed(Exception):
    """A command can't be done: why, and its status."""

    def __init__(self, why: object, status: int = FAILED) -> None:
        super().__init__(str(why))
        self.status = status


def count_word(text: str) -> int:
    if not text.isdecimal() or int(text) < 1:
        raise argparse.ArgumentTypeError("at least 1")
    return int(text)


def word(*names: str, **how: Any) -> Word:
    """A word of a command, as argparse takes it."""
    return names, how


def flag(name: str, meaning: str) -> Word:
    return word(name, action="store_true", help=meaning)


DATABASE = word("--database", default="", metavar="DSN", help="of libpq, as 'host=db.example dbname=office'")
WORKERS = word("--workers", type=count_word, default=os.cpu_count() or 1, metavar="N",
               help="processes (as many as processors)")
HOUSES = word("--house", action="append", default=[], help="only this house; may be repeated")
HOUSE = word("house", metavar="HOUSE")
MONTH = word("month", type=month_word, metavar="MONTH", help="as 2025-01")
PERIOD = word("period", type=period_word, metavar="PERIOD", help="a month as 2025-01; of a bill also 2025 or DAY..DAY")
OUT = word("--out", type=pathlib.Path, required=True, metavar="DIR", help="of the sheets")
LINK = word("--link", required=True, metavar="URL", help="of DIR/sheets, as https://office.example/sheets")
PDF = ("paper", "all", "none")
WHY = word("--why", required=True, metavar="TEXT", help="the reason, which is kept")
SENDMAIL = word("--sendmail", default=SENDMAIL_PROGRAM, metavar="PROGRAM", help=f"({SENDMAIL_PROGRAM})")
MAIL = word("--mail", action="append", default=[], metavar="ADDRESS", help="by sendmail; may be repeated")
LANGUAGE = word("--language", choices=("de", "en"), default="de", help="(de)")
BILL = flag("--bill", "the bill of that period")
TRIES = word("--tries", type=count_word, default=5, help="to reach a box (5)")
PAUSE = word("--pause", type=float, default=2, help="seconds before the second try, then twice as many (2)")
TIMEOUT = word("--timeout", type=float, default=60, help="seconds of one run at a box (60)")


def main(doc: Optional[str], work: Callable[[Database, Any], Optional[int]], *words: Word,
         wrong: Callable[[Any], Optional[str]] = lambda _: None, epilog: str = "") -> NoReturn:
    """Runs a command with its docstring, its work and its words, and ends with its status.
    wrong: what is wrong with the words together."""
    parser = argparse.ArgumentParser(description=doc, epilog=f"{epilog} {STATUSES}")
    for names, how in (*words, DATABASE):
        parser.add_argument(*names, **how)
    given = parser.parse_args()
    why = wrong(given)
    if why:
        parser.error(why)
    database = Database(given.database, getattr(given, "timeout", SECONDS))
    status = ended(parser.prog, lambda: work(database, given))
    database.close()
    sys.exit(status)


def no_month(given: Any) -> Optional[str]:
    """Of a command over a month's or a bill's period: whether the month is none."""
    days = given.period
    is_month = days.lower.day == 1 and days.upper == next_month(days.lower)
    return None if given.bill or is_month else "the period is no month"


def ended(name: str, work: Callable[[], Optional[int]]) -> int:
    """Does some work; its status."""
    try:
        return work() or 0
    except Failed as fault:
        return failed(name, fault, fault.status)
    except LookupError as fault:
        return failed(name, fault.args[0], USAGE)
    except NotComputed as fault:
        return failed(name, fault, FAILED)
    except psycopg2.Error as fault:
        return failed(name, fault, NO_DATABASE)


def failed(name: str, fault: object, status: int) -> int:
    print(f"{name}: {plain(fault, LONGEST_FAULT)}", file=sys.stderr)
    return status


def refusal(sendmail: str, to: List[str], subject: str, text: str, sender: Optional[str] = None, html: str = "") -> str:
    """Sends a mail; why it wasn't taken, or nothing."""
    message = email.message.EmailMessage()
    try:
        message["To"], message["Subject"] = ", ".join(to), subject
        if sender:
            message["From"] = sender
        message.set_content(text)
        if html:
            message.add_alternative(html, subtype="html")
        done = subprocess.run([sendmail, "-t", "-i"], input=bytes(message), stderr=subprocess.PIPE, check=False,
                              timeout=MAIL_SECONDS)
    except Exception as fault:  # of any kind, as a header that can't be written: others get their mails
        return plain(str(fault) or repr(fault))
    said = done.stderr.decode(errors="replace") or done.returncode
    return plain(f"sendmail: {said}") if done.returncode else ""
