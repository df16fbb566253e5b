"""A cron over the months of demo/office: what it releases stays as it was, but for versions that have a reason.

Each month goes out once it is compared. What would be another later is corrected with a reason as long as its days are
there; bills of quarters go out, days are dropped, and users who left are forgotten.
"""

import csv
import datetime
import io
import pathlib
from typing import Any, Dict, List, Tuple

from people.houses import next_month
from people.pages import shifted
from people.story import Office

KEPT_MONTHS = 4  # before the present one
QUARTER = 3  # months of a bill
WHY = "readings came late"
# What is out, but who it was of: months, what was printed, and versions with their reasons
OUT = ("SELECT 'month', u.month::text, u.place, u.part, u.version, u.amount, u.grade, u.is_held, u.begins, u.ends FROM"
       " month_use u WHERE u.out_at IS NOT NULL",
       "SELECT 'printed', id, house, coalesce(month::text, days::text), version, kind, flat, use, place, period, unit,"
       " text, mark FROM published",
       "SELECT 'version', house, month::text, version, why, out_at FROM versions WHERE out_at IS NOT NULL",
       "SELECT 'bill', house, days::text, version, why, out_at FROM bills WHERE out_at IS NOT NULL")
CHANGED = "SELECT house, to_char(month, 'YYYY-MM') FROM changes WHERE left_why IS NULL AND month > %s ORDER BY 1, 2"
CHANGED_BILLS = """
SELECT house, lower(days) || '..' || upper(days) - 1 FROM bills_now WHERE changed IS NOT NULL AND lower(days) > %s
    ORDER BY 1, 2"""
WAITING = """
SELECT see_number(m, p.id, 'read at the meter') FROM places p, (VALUES (%s::date)) AS k (m)
WHERE waits_for_a_step(m, p.id)"""
LEFT = "SELECT id FROM tenancies WHERE upper(days) < %s ORDER BY id"
WITHOUT_A_REASON = """
SELECT count(*) FROM (SELECT version, why FROM versions UNION ALL SELECT version, why FROM bills) v
WHERE (version = 1) <> (why = 'first')"""


class Cron:
    """What a cron of the office runs, and what was out after its steps."""

    def __init__(self, office: Office, out: pathlib.Path) -> None:
        self.office, self.out = office, out
        self.known: List[Tuple[Any, ...]] = []
        self.bills: Dict[Tuple[str, str], str] = {}
        self.problems: List[str] = []
        self.corrected = self.forgotten = 0

    def same(self, step: str) -> None:
        """What was out is as it was; more may be out."""
        now = [row for query in OUT for row in self.office.sql(query)]
        lost = set(self.known) - set(now)
        self.problems += [f"{step}: not there as it was: {row}" for row in sorted(map(str, lost))[:5]]
        self.known = now

    def release(self, month: datetime.date, *words: str) -> None:
        self.office.run("publish", "-", f"{month:%Y-%m}")
        sheets = ("sheets", f"{month:%Y-%m}", "--out", str(self.out), "--pdf", "none", "--release", *words)
        self.office.run(*sheets, statuses=(0, 5))
        if self.office.sql(WAITING, month):  # of meters that weren't heard since: a person takes the number as it is
            self.office.run(*sheets)

    def correct(self, month: datetime.date) -> None:
        """In the month after this one a person corrects what would be another now, as far as its days are there."""
        kept = shifted(month, -KEPT_MONTHS)
        for house, changed in self.office.sql(CHANGED, kept):
            self.office.run("correct", house, changed, "--why", WHY)
            self.office.run("publish", house, changed)
            self.office.run("sheets", changed, "--out", str(self.out), "--pdf", "none", "--release", "--house", house)
            self.corrected += 1
        for house, period in self.office.sql(CHANGED_BILLS, kept):
            self.office.run("correct", house, period, "--bill", "--why", WHY)
            self.bill(house, period)
            self.corrected += 1
        self.same(f"{month} corrected")

    def bill(self, house: str, period: str) -> None:
        self.office.run("publish", house, period, "--bill")
        self.bills[house, period] = self.office.run("bill", house, period, "--release", statuses=(0, 1))

    def after(self, month: datetime.date) -> None:
        """Once a month is compared: it goes out, and with it each third one the bill of its quarter; what is old
        goes."""
        self.release(month)
        self.same(f"{month} released")
        present = next_month(month)
        if (month.month - 1) % QUARTER == QUARTER - 1:
            first = shifted(month, 1 - QUARTER)
            for house in self.office.houses:
                self.bill(house.name, f"{first}..{present - datetime.timedelta(days=1)}")
            self.same(f"{month} billed")
        self.office.run("close", "--month", f"{month:%Y-%m}")
        self.office.run("alarms", statuses=(0, 1))
        today = datetime.date.today()
        age = (today.year - present.year) * 12 + today.month - present.month + KEPT_MONTHS
        self.office.run("retain", "--days", str(age), "--readings", str(age), "--alarms", str(age))
        self.same(f"{month} retained")
        for tenancy, in self.office.sql(LEFT, shifted(month, -1)):
            self.office.run("forget", str(tenancy))
            self.forgotten += 1
        self.office.run("close")
        self.same(f"{month} forgotten")

    def end(self) -> None:
        """Each bill is printed as it was, but for who was forgotten; and no version is without a reason."""
        for (house, period), text in self.bills.items():
            if without_users(self.office.run("bill", house, period, statuses=(0, 1))) != without_users(text):
                self.problems.append(f"bill {house} {period}: another than it was")
        if self.office.sql(WITHOUT_A_REASON) != [(0,)]:
            self.problems.append("a version without a reason")


def without_users(text: str) -> List[Dict[str, str]]:
    """The rows of a bill without their users."""
    return [{name: cell for name, cell in row.items() if name not in ("tenancy", "user")}
            for row in csv.DictReader(io.StringIO(text))]
