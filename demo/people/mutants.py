"""Wrong offices, for demo/office: what refuses each mutant, and what it would change where nothing did.

A mutant of demo/office-mutants.txt is some lines: its name and what is wrong; `in FILE by JUDGE`, a test of the office
or demo/office with some words, and `, the audit` where that has to refuse it, too; and small edits, `OLD => NEW`, or of
several lines the old ones (-) and then the new ones (+); the old text is in the file once. Each is played over a copy of one house that is ready to be computed (of
the office's tests), then judged:

    refused NAME: by the audit: DIFFERS line ..
    refused NAME: by test_x.py::test_y: ..; 4 numbers, 2 pages are others
    passed NAME

A mutant that no audit and no judge refuses is judged wrongly.
"""

import concurrent.futures
import importlib
import itertools
import os
import pathlib
import re
import shutil
import subprocess
import sys
import tempfile
import threading
from typing import Any, Dict, List, NamedTuple, Optional, Set, Tuple

ROOT = pathlib.Path(__file__).resolve().parent.parent.parent
LONGEST_WHY = 150
BY_DEMO, SCHEMA = "demo/office", "schema/"
BY_AUDIT, AUDITED = ", the audit", "test_publish.py::test_the_audit_accepts"
REFUSED = re.compile(r"refused: (.*)")
MONTH = "2025-01"
# What is done with the house, and whether a person reads what is printed
STEPS: Tuple[Tuple[Tuple[str, ...], bool], ...] = (
    (("close", *(word for month in ("2024-01", "2024-12", MONTH) for word in ("--month", month))), False),
    (("publish", "-", "2024-01"), False), (("publish", "-", "2024-12"), False), (("estimate", MONTH), False),
    (("publish", "-", MONTH), False),
    (("publish", "-", MONTH, "--bill"), False), (("publish", "-", "2024-12-01..2025-01-31", "--bill"), False),
    (("bill", "elm-1", MONTH), True), (("bill", "elm-1", "2024-12-01..2025-01-31"), True))
PUBLISHED = """
SELECT coalesce(month::text, days::text), tenancy, kind, flat, use, place, period, unit, text, mark FROM published"""


class Mutant(NamedTuple):
    """A wrong office. judge: the test of the office that has to refuse it, or demo/office with some words."""
    name: str
    file: str
    judge: str
    is_audited: bool  # the audit has to refuse it
    edits: List[Tuple[str, str]]  # what is there once, and what is there instead

    def written(self, office: pathlib.Path) -> None:
        path = office / self.file
        text = path.read_text(encoding="utf-8")
        for old, new in self.edits:
            if text.count(old) != 1:
                raise SystemExit(f"{self.name}: {self.file} has this {text.count(old)} times: {old}")
            text = text.replace(old, new)
        path.write_text(text, encoding="utf-8")


def signed(row: str) -> List[str]:
    """The lines of `OLD => NEW`."""
    old, _, new = row.partition(" =>")
    return [f"-{old}", f"+{new.removeprefix(' ')}"]


def mutants_of(path: pathlib.Path) -> List[Mutant]:
    found = []
    for head, place, *rows in (it.split("\n") for it in path.read_text(encoding="utf-8").strip("\n").split("\n\n")):
        file, _, judge = place.removeprefix("in ").partition(" by ")
        lines = [line for row in rows for line in ([row] if row[0] in "-+" else signed(row))]
        texts = ["\n".join(line[1:] for line in run) for _, run in itertools.groupby(lines, lambda line: line[:1])]
        found.append(Mutant(head.partition(":")[0], file, judge.removesuffix(BY_AUDIT),
                            judge.endswith((BY_AUDIT, AUDITED)), list(zip(texts[::2], texts[1::2]))))
    return found


class Played(NamedTuple):
    """What an office makes of the house."""
    refused: str  # what the audit says first, or nothing
    numbers: Set[Tuple[Any, ...]]
    pages: Dict[str, str]


class House:
    """A server with the house, ready to be computed."""

    def __init__(self, folder: pathlib.Path, mbdc: pathlib.Path) -> None:
        os.environ["MBDC"] = str(mbdc)  # of conftest, which else builds one
        sys.path.insert(0, str(ROOT / "office/tests"))
        self.conftest, self.made = importlib.import_module("conftest"), importlib.import_module("test_publish")
        self.folder, self.lock = folder, threading.Lock()
        self.server = self.conftest.Server(folder)
        self.template = self.furnished(ROOT / "office", folder)

    def office(self, database: str, folder: pathlib.Path, programs: pathlib.Path) -> Any:
        return self.conftest.Office(self.server, database, folder, programs)

    def make(self, template: str) -> str:
        with self.lock:
            return str(self.server.make(template))

    def furnished(self, programs: pathlib.Path, folder: pathlib.Path) -> str:
        """A database of an office with the house."""
        name = self.make("template1")
        office = self.office(name, folder, programs)
        assert office.run("migrate").status == 0
        self.made.furnish(office, self.made.elm_of(office))
        office.connection.close()
        return name

    def played(self, programs: pathlib.Path, folder: pathlib.Path, has_own_schema: bool) -> Played:
        """What a person gets of the house, computed by an office."""
        template = self.furnished(programs, folder) if has_own_schema else self.template
        name, out = self.make(template), folder / "out"
        office, refused, pages = self.office(name, folder, programs), "", {}
        for words, is_read in STEPS:
            printed = printed_of(office, *words)
            refused = refused or next(iter(REFUSED.findall(printed)), "")
            if is_read:
                pages[" ".join(words)] = printed
        printed_of(office, "sheets", MONTH, "--out", str(out), "--pdf", "none")
        users = dict(office.sql("SELECT token, id FROM tenancies"))  # (a token is another in each database)
        pages.update({f"{users.get(path.parent.name, path.parent.name)}/{path.name}": path.read_text(encoding="utf-8")
                      for path in out.rglob("*.html")})
        numbers = set(office.sql(PUBLISHED))
        office.connection.close()
        self.server.drop(name)
        return Played(refused, numbers, pages)


def printed_of(office: Any, *words: str) -> str:
    """What a command prints; of one that fails the last line."""
    try:
        return str(office.run(*words).printed)
    except AssertionError as fault:  # a traceback
        return f"{words[0]} failed: {str(fault).strip().splitlines()[-1]}"


def made(mutant: Optional[Mutant], folder: pathlib.Path) -> pathlib.Path:
    """An office with a mutant, or as it is."""
    folder.chmod(0o711)
    office = folder / "office"
    shutil.copytree(ROOT / "office", office)
    for name in ("demo", "packaging"):
        (folder / name).symlink_to(ROOT / name)
    if mutant:
        mutant.written(office)
    return office


def judged(office: pathlib.Path, judges: List[str]) -> Tuple[str, str]:
    """Which of these refuses an office (none: an empty name), and why."""
    for judge in judges:
        is_demo = judge.startswith(BY_DEMO)
        words = [ROOT / "demo/office", "--office", office, "--stop", *judge.split()[1:]] if is_demo else [
            sys.executable, "-m", "pytest", "-q", "-x", "-p", "no:cacheprovider", office / "tests" / judge]
        done = subprocess.run([*map(str, words)], capture_output=True, text=True, check=False,
                              # where a run that differs leaves its own
                              env={**os.environ, "TMPDIR": str(office.parent)})
        printed = done.stdout + done.stderr
        if done.returncode and (" numbers compared, " if is_demo else "\nFAILED ") in printed:
            return judge, why(printed)
        if done.returncode:
            raise SystemExit(f"office: {office}: {judge} wasn't run: {printed[-1000:]}")
    return "", ""


def why(printed: str) -> str:
    """The line that says what differs, or the last one."""
    lines = printed.strip().splitlines()
    found = [line for line in lines if " and not " in line or " may: " in line or line.startswith("FAILED")] or lines[
        -1:]
    return found[0][:LONGEST_WHY]


def changed(found: Played, right: Played) -> str:
    """How many numbers and pages of the house are others, or aren't there."""
    pages = [name for name in right.pages.keys() | found.pages.keys() if right.pages.get(name) != found.pages.get(name)]
    return f"{len({it[:3] for it in right.numbers ^ found.numbers})} numbers, {len(pages)} pages are others"


def sentence_of(house: House, right: Optional[Played], mutant: Optional[Mutant], judges: List[str]) -> Tuple[str, bool]:
    """What is said of a mutant, or of the office as it is, and whether it is judged rightly."""
    with tempfile.TemporaryDirectory(prefix="office-mutant-") as name:
        folder = pathlib.Path(name)
        office = made(mutant, folder)
        found = house.played(office, folder, mutant is not None and mutant.file.startswith(SCHEMA))
        by, reason = judged(office, judges)
        what = mutant.name if mutant else "the office as it is"
        other = changed(found, right) if right else f"{len(found.numbers)} numbers, {len(found.pages)} pages"
        audit = f"; the audit: {found.refused[:LONGEST_WHY]}" if found.refused else ""
        said = f"refused {what}: by {by}: {reason}; {other}{audit}" if by else f"passed {what}; {other}{audit}"
        is_right = not judges or bool(by) == (mutant is not None)
        return said, is_right and (not found.refused if mutant is None else bool(found.refused)
                                   or not mutant.is_audited)


def tried(names: List[str], mbdc: pathlib.Path, workers: int, by_audit: bool) -> int:
    """Tries the right office and each mutant, or those of these names; the status is 1 where one is judged wrongly."""
    mutants = [it for it in mutants_of(ROOT / "demo/office-mutants.txt") if it.name in names or not names]
    wrong: List[str] = []
    with tempfile.TemporaryDirectory(prefix="office-mutants-") as name:
        folder = pathlib.Path(name)
        folder.chmod(0o711)
        house = House(folder, mbdc)
        try:
            (folder / "right").mkdir()
            right = house.played(ROOT / "office", folder / "right", False)
            tries: List[Tuple[Optional[Mutant], List[str]]] = [(it, [] if by_audit else [it.judge]) for it in mutants]
            tries += [] if names or by_audit else [(None, sorted({it.judge for it in mutants}))]
            with concurrent.futures.ThreadPoolExecutor(workers) as pool:
                for done in concurrent.futures.as_completed([
                        pool.submit(sentence_of, house, right if mutant else None, mutant, judges) for mutant,
                    judges in tries]):
                    said, is_right = done.result()
                    print(said, flush=True)
                    wrong += [] if is_right else [said.split()[1].rstrip(":;")]
        finally:
            house.server.stop()
    print(f"{len(wrong)} judged wrongly{': ' if wrong else ''}{', '.join(wrong)}")
    return 1 if wrong else 0
