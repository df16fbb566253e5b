"""Runs `mbdc audit`, which computes each number, and stores what it accepts: no other way leads to `published`."""

import functools
import hashlib
import os
import pathlib
import shutil
import subprocess
import tempfile
from typing import Any, Callable, List, NamedTuple, Optional, Tuple

import psycopg2

from database import Cursor, insert, plain, value_of

MBDC = os.environ.get("MBDC", "mbdc")  # an installed program
SECONDS = 600  # at most, of one run
HOLDS, DOES_NOT_HOLD = 0, 1
AT_FAULT = "LINE "  # which line spells nothing


class NotComputed(Exception):
    """The program failed, or doesn't judge."""


class AtFault(NotComputed):
    """A line of a file is at fault: which one, and why."""


Program = NamedTuple("Program", [("version", str), ("sha256", str)])  # what it says it is, and the hash of its file


class Key(NamedTuple):
    """Which number it is: columns of `published`. place: its number, or of a reading the meter. period: a month, the
    ends of a part of one, or the moment of a reading."""
    kind: str
    flat: str = ""
    use: str = ""
    place: int = 0
    period: str = ""
    unit: str = ""


KEY = ", ".join(f"p.{it}" for it in Key._fields)  # of published p
Published = Tuple[Optional[int], Key, str, str]  # tenancy, key, text, mark


class File(NamedTuple):
    """An audit file in which numbers are asked for, and what the filled one publishes."""
    lines: List[str]
    read: Callable[[List[str]], List[Published]]


# What the program prints of a file, what it says beside, and whether all holds.
Audited = NamedTuple("Audited", [("lines", List[str]), ("says", List[str]), ("holds", bool)])


def run(*words: str) -> "subprocess.CompletedProcess[str]":
    """Raises NotComputed where the program can't be run."""
    try:
        return subprocess.run([MBDC, *words], capture_output=True, encoding="utf-8", timeout=SECONDS, check=False,
                              errors="replace")
    except (OSError, subprocess.TimeoutExpired) as fault:
        raise NotComputed(f"{MBDC} {words[0]}: {fault} (the variable MBDC names the program)") from fault


@functools.lru_cache(maxsize=None)
def program() -> Program:
    """Raises NotComputed."""
    done, path = run("--version"), shutil.which(MBDC)
    if done.returncode != 0 or not done.stdout.strip() or path is None:
        raise NotComputed(f"{MBDC} doesn't say which version it is")
    return Program(plain(done.stdout), hashlib.sha256(pathlib.Path(path).resolve().read_bytes()).hexdigest())


def content_of(lines: List[str]) -> bytes:
    return "".join(f"{line}\n" for line in lines).encode()


def audited(lines: List[str], *words: str) -> Audited:
    """What the program says of an audit file. Raises NotComputed where it doesn't judge."""
    with tempfile.TemporaryDirectory(prefix="audit-") as folder:
        path = pathlib.Path(folder, "numbers.audit")
        path.write_bytes(content_of(lines))
        done = run("audit", *words, str(path))
    if done.returncode not in (HOLDS, DOES_NOT_HOLD) or not done.stdout and AT_FAULT not in done.stderr:
        raise NotComputed(
            f"{MBDC} audit ended with status {done.returncode}: {plain(done.stdout + done.stderr)}")
    return Audited(done.stdout.split("\n")[:-1], done.stderr.split("\n")[:-1], done.returncode == HOLDS)


def filled(lines: List[str]) -> Audited:
    """An audit file with what holds in the place of each `?`. Raises AtFault, and NotComputed."""
    found = audited(lines, "--fill")
    if len(found.lines) < len(lines):
        raise AtFault(plain("; ".join(found.says[-1:] + found.says[:-1])))
    return found


AUDIT = """
INSERT INTO audits (house, month, days, version, file, sha256, program, program_sha256, says)
    VALUES (%s, %s, %s, %s, %s, %s, %s, %s, %s)
RETURNING id"""
# Whether the present audit is of the very file, by the same program
IS_PRESENT = """
SELECT EXISTS (SELECT FROM audits_now n JOIN audits a ON a.id = n.id WHERE n.house = %s
  AND n.month IS NOT DISTINCT FROM %s
               AND n.days IS NOT DISTINCT FROM %s::daterange AND (a.sha256, a.program_sha256) = (%s, %s))"""
PUBLISHED = f"published (audit, house, month, days, version, tenancy, {', '.join(Key._fields)}, text, mark)"
REFUSAL = """
INSERT INTO refusals (house, period, says) VALUES (%(house)s, %(period)s, %(says)s)
ON CONFLICT (house, period) DO UPDATE SET says = excluded.says, at = now()"""


# What an audit is of: a house's month, or the days of a bill.
Of = NamedTuple("Of", [("house", str), ("month", Optional[Any]), ("days", Optional[Any]), ("version", int),
    ("period", str)])


def publish(cursor: Cursor, of: Of, file: File) -> Optional[str]:
    """Has a file filled and judged; stores it and its numbers, or returns why it isn't accepted. Raises NotComputed."""
    try:
        made = filled(file.lines)
    except AtFault as fault:
        return str(fault)
    if not made.holds:
        return plain("; ".join(made.says))
    content = content_of(made.lines)
    sha256 = hashlib.sha256(content).hexdigest()
    if value_of(cursor, IS_PRESENT, of.house, of.month, of.days, sha256, program().sha256):
        return None
    found = audited(made.lines)
    if not found.holds:
        return plain("; ".join(found.lines[:-1] or found.lines))
    audit = value_of(cursor, AUDIT, *of[:4], psycopg2.Binary(content), sha256, *program(), found.lines[-1])
    insert(cursor, PUBLISHED, [(audit, *of[:4], tenancy, *key, text, mark)
                               for tenancy, key, text, mark in dict.fromkeys(file.read(made.lines))])
    cursor.execute("DELETE FROM refusals WHERE (house, period) = (%s, %s)", (of.house, of.period))
    return None
