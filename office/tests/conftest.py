"""A PostgreSQL server in a temporary folder, a database of the office for each test, and boxes."""

import dataclasses
import json
import os
import pathlib
import shutil
import subprocess
import sys
import tempfile
from typing import Any, Iterator, List, Tuple

import pytest

OFFICE = pathlib.Path(__file__).resolve().parent.parent
TESTS = OFFICE / "tests"
ROOT = OFFICE.parent
sys.path[:0] = [str(OFFICE), str(ROOT / "demo")]
import fleet_database
from fleet_database import OWNER
from world.frames import answer

# The program that decodes and audits: MBDC names it, else ./mbdc builds it once, without a proof where none is proved
BUILT = ("./mbdc decode /dev/null >/dev/null && root=$PWD && . tools/built.sh"
         " && { is_built && echo $built/mbdc || echo $built/unproved/mbdc; }")
MBDC = os.environ.get("MBDC") or subprocess.check_output(["bash", "-euc", BUILT], cwd=ROOT, text=True).strip()
os.environ["MBDC"] = MBDC  # of the modules that a test calls
TEMPLATE = "migrated"
MORE, SELECTED = 0x1F, 253  # the end of a telegram that another one follows; the address of a selected meter
MOMENT = 1_735_689_600  # 2025-01-01, UTC
SECONDS = 900  # at most, of a command, also on a machine with much to do
Meter = Tuple[str, int, str, str]


class Server(fleet_database.Server):
    """The server, with a database for each test. Nothing of it is kept."""

    def __init__(self, folder: pathlib.Path) -> None:
        super().__init__(folder, "-c", "fsync=off")
        self.count = 0
        self.start()

    def do(self, statement: str) -> None:
        with self.connect().cursor() as cursor:
            cursor.execute(statement)

    def make(self, template: str = "template1") -> str:
        self.count += 1
        self.do(f"CREATE DATABASE office_{self.count} TEMPLATE {template}")
        return f"office_{self.count}"

    def drop(self, database: str) -> None:
        """Its files are some megabytes."""
        self.do(f"DROP DATABASE {database} WITH (FORCE)")


@dataclasses.dataclass
class Ended:
    status: int
    printed: str

    def ok(self, status: int = 0) -> str:
        """What it printed, of one that had to end so."""
        assert self.status == status, self.printed
        return self.printed


class Office:
    """The office's programs over one database, and the boxes that they reach."""

    def __init__(self, server: Server, database: str, folder: pathlib.Path, programs: pathlib.Path = OFFICE) -> None:
        self.server, self.folder, self.name, self.programs = server, folder, server.dsn(database), programs
        self.connection = server.connect(database)
        (folder / "bin").mkdir(exist_ok=True)
        if not (folder / "bin/mbdc").exists():
            (folder / "bin/mbdc").symlink_to(pathlib.Path(MBDC).resolve())
        self.environment = {**os.environ, "PYTHONPATH": ""}

    def sql(self, query: str, *values: Any, role: str = OWNER) -> List[Tuple[Any, ...]]:
        with self.connection.cursor() as cursor:
            cursor.execute(f"SET ROLE {role}")
            cursor.execute(query, values or None)
            return list(cursor.fetchall()) if cursor.description else []

    def box(self, name: str) -> "Box":
        self.sql("INSERT INTO boxes (name, command) VALUES (%s, %s)", name, f"{TESTS}/way {self.folder} {{box}}")
        return Box(self.folder, name)

    def run(self, program: str, *words: str, **environment: str) -> Ended:
        done = subprocess.run([self.programs / program, "--database", self.name, *words], capture_output=True,
                              text=True, check=False, env={**self.environment, **environment}, timeout=SECONDS)
        assert "Traceback" not in done.stderr, done.stderr
        return Ended(done.returncode, done.stdout + done.stderr)

    def collect(self, *words: str, **environment: str) -> Ended:
        return self.run("collect", "--pause", "0.01", "--timeout", "10", "--workers", "3", *words, **environment)

    def order(self, *words: str) -> Ended:
        return self.run("order", "--pause", "0.01", "--timeout", "10", *words)


class Box:
    """A box: an image of the program, and what was done there."""

    def __init__(self, folder: pathlib.Path, name: str, is_new: bool = True) -> None:
        self.folder, self.name, self.image = folder, name, folder / f"{name}.image"
        self.journal = folder / f"{name}.image.journal"
        (folder / f"{name}.conf").write_text(f"IMAGE={self.image}\n", encoding="ascii")
        if is_new:
            self.image.unlink(missing_ok=True)
            subprocess.run([MBDC, "format", self.image, "1000"], check=True)

    def run(self, *lines: str) -> List[str]:
        script = self.folder / "script"
        script.write_text("".join(f"{it}\n" for it in lines), encoding="ascii")
        done = subprocess.run([MBDC, "run", self.image, script], capture_output=True, text=True, check=True)
        return done.stdout.splitlines()

    def last(self) -> int:
        return int(self.run("OFFICE 999999999999999999 CONFIRM 0")[0].split()[2])

    def confirmed(self) -> int:
        said = self.run("OFFICE WINDOW 1 1")[0].split()
        return int(said[2]) if said[:2] == ["ERR", "GONE"] else 0

    def numbers(self) -> List[Tuple[int, str]]:
        """The commands that changed the image, with their numbers, by its journal."""
        rows = map(json.loads, self.journal.read_text(encoding="ascii").splitlines() if self.journal.exists() else [])
        lines = [row["line"].partition(" ") for row in rows if row["event"] == "command"]
        return [(int(number), line) for number, _, line in lines]

    def faults(self, *words: str) -> None:
        (self.folder / f"{self.name}.faults").write_text("".join(f"{it}\n" for it in words), encoding="ascii")

    def says(self, *lines: str) -> List[str]:
        """Does office lines at the box, as from another place."""
        script = "".join(["BOX ?\n", *(f"OFFICE {line}\n" for line in lines), "END\n"])
        done = subprocess.run([TESTS / "way", self.folder, self.name], input=script, capture_output=True, text=True,
                              check=True)
        return done.stdout.splitlines()[1:]

    def hears(self, count: int, first: int = 1, moment: int = MOMENT) -> None:
        """Readings of the registered meters, one after the other."""
        meters = [line.split()[1] for line in self.run("OFFICE REGISTER")[:-1]]
        self.tells(*((meters[it % len(meters)], moment + it, [telegram(it)]) for it in range(first, first + count)))

    def tells(self, *readings: Tuple[str, float, List[str]]) -> None:
        """Readings of registered meters: identity, moment, and the telegrams, which get the identity of the meter."""
        meters = {it[1]: it[2:4] for it in (line.split() for line in self.run("OFFICE REGISTER")[:-1])}
        script = []
        for identity, moment, telegrams in readings:
            (line, address), (number, _, version, medium) = meters[identity], identity.split(".")
            script += [f"AT {int(moment)}", f"START {line} {identity}", *[f"HEAR {line} E5"] * (1 + (address == "S"))]
            for place, it in enumerate(telegrams, 1):
                more = f"{MORE:X}" if place < len(telegrams) else ""
                body = bytes.fromhex(number)[::-1] + bytes.fromhex(f"{it[8:12]}{version}{medium}{it[16:]}{more}")
                script += [f"HEAR {line} {answer(SELECTED if address == 'S' else int(address), body).hex()}", "COMMIT"]
        said = self.run(*script)
        assert not any(it.startswith(("REFUSED", "FAILED")) for it in said), said


def telegram(litres: int, status: int = 0, due: str = "", number: str = "12345678") -> str:
    """A telegram without its frame, in hex digits: header and volume, and a due date (type G) with a litre at it."""
    header = bytes.fromhex(number)[::-1] + bytes.fromhex("2440010701") + bytes([status, 0, 0])
    stored = f"426C{due}4C1301000000" if due else ""
    return (header + bytes.fromhex("0C13") + bytes.fromhex(f"{litres:08}")[::-1] + bytes.fromhex(stored)).hex().upper()


def sendmail(folder: pathlib.Path) -> str:
    """A program that keeps each mail, and refuses those to `refused`."""
    program = folder / "sendmail"
    program.write_text(f"#!/bin/sh\ncat > {folder}/mail.$$\nif grep -q 'To: refused@' {folder}/mail.$$; then echo 'no"
                       " such user' >&2; exit 67; fi\n", encoding="ascii")
    program.chmod(0o755)
    return str(program)


@pytest.fixture(scope="session")
def server() -> Iterator[Server]:
    """Not in pytest's folder, which the next pytest closes to the server's user."""
    folder = pathlib.Path(tempfile.mkdtemp(prefix="office-tests-"))
    folder.chmod(0o711)
    running = Server(folder)
    running.do(f"CREATE DATABASE {TEMPLATE}")
    subprocess.run([OFFICE / "migrate", "--database", running.dsn(TEMPLATE)], check=True, stdout=subprocess.DEVNULL)
    yield running
    running.stop()
    shutil.rmtree(folder)


@pytest.fixture
def office(server: Server, tmp_path: pathlib.Path) -> Iterator[Office]:
    made = Office(server, server.make(TEMPLATE), tmp_path)
    yield made
    name = made.connection.info.dbname
    made.connection.close()
    server.drop(name)


@pytest.fixture
def elm(office: Office) -> Any:
    """A house with one box, and without a meter."""
    from supplied import Supplied
    return Supplied(office)


FITS = ["FIT 11111111.PAD.01.07 1 1 A1", "FIT 22222222.PAD.01.07 1 2 A2"]


@pytest.fixture
def box(office: Office) -> Box:
    made = office.box("house-1")
    office.order("house-1", *FITS).ok()
    return made
