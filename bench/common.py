"""What the benches share: scripts of readouts, the two programs, and how a run is timed."""
import datetime
import functools
import os
import pathlib
import platform
import shutil
import statistics
import subprocess
import sys
import tempfile
from collections.abc import Callable, Iterable, Sequence
from types import TracebackType
from typing import Optional, Type

HERE = pathlib.Path(__file__).resolve().parent
sys.path.insert(0, str(HERE.parent / "demo"))
from world.frames import Identity, answer, bcd, digits, header, type_g  # noqa: E402
from world.meters import STORED_DATE, STORED_VOLUME  # noqa: E402

MBDC = os.environ.get("MBDC", str(HERE.parent / "out/run/mbdc"))
SCRIPT = 2**20 - 4096  # bytes: scripts stay below the 1 MiB that an input may have
LARGEST_IMAGE = 131_075  # sectors
TELEGRAM = "68 1F 1F 68 08 02 72 78 56 34 12 24 40 01 07 55 00 00 00 03 13 15 31 00 DA 02 3B 13 01 8B 60 04 37 18 02 18 16\n"
VOLUME, MORE = "0C1378563412", "1F"  # records in hex digits
START = "AT 1735689600\n"
FIRST_DAY, DAYS = datetime.date(2010, 1, 1), 7000  # due dates


def frame(address: int, number: int, records: str) -> str:
    """An answer of the meter with that number, in hex digits."""
    return digits(answer(address, header(Identity(number), access=1) + bytes.fromhex(records)))


def ident(number: int) -> str:
    return str(Identity(number))


def due_records(day: datetime.date, value: int) -> str:
    """A date of storage 1, and a volume of eight digits for it."""
    return (STORED_DATE + type_g(day) + STORED_VOLUME + bcd(value)).hex().upper()


def fit(number: int, place: int, line: int, address: object) -> str:
    """The office's line that registers a meter."""
    return f"OFFICE {number} FIT {ident(place)} {line} {address} A{place}\n"


def fits(meters: int) -> str:
    return "".join(fit(n + 1, n + 1, 1 + n % 4, 1 + n // 4) for n in range(meters))


def readout(line: int, place: int, telegrams: Iterable[str]) -> str:
    return f"START {line} {ident(place)}\nHEAR {line} E5\n" + "".join(f"HEAR {line} {it}\n" for it in telegrams)


def reading(n: int, meters: int) -> str:
    """The n-th reading of `meters` meters on four lines, of one telegram. Those of one round have one due date."""
    place, day = n % meters, FIRST_DAY + datetime.timedelta(n // meters % DAYS)
    line, address = 1 + place % 4, 1 + place // 4
    return readout(line, place + 1, [frame(address, place + 1, due_records(day, n % 10**8))])


def readings(first: int, count: int, meters: int, each: int) -> list[str]:
    """Scripts of so many readings, from that one on, by `meters` meters; `each` a commit."""
    texts: list[str] = []
    text, size = [START], 0
    for n in range(first, first + count):
        piece = reading(n, meters)
        piece += "COMMIT\n" if (n - first) % each == each - 1 or n == first + count - 1 else ""
        size += len(piece)
        if size > SCRIPT and (n - first) % each == 0:
            texts.append("".join(text))
            text, size = [START], len(piece)
        text.append(piece)
    return [*texts, "".join(text)]


class Spent:
    """What a run took, and what it printed."""

    def __init__(self, seconds: float, processor: float, memory: int, path: str) -> None:
        self.seconds, self.processor, self.memory = seconds, processor, memory  # KiB at most
        self.text = pathlib.Path(path).read_text()


Run = Callable[..., Spent]


class Bench:
    """A folder to work in, with the peer built in it."""

    def __init__(self, folder: Optional[str] = None) -> None:
        if not os.access(MBDC, os.X_OK):
            sys.exit("the program isn't built: run ./mbdc --build first, or name it as MBDC=")
        self.folder = tempfile.mkdtemp(dir=folder or None)
        self.launch = self.compiled("launch")

    def compiled(self, name: str, *libraries: str) -> str:
        subprocess.run(["gcc", "-O3", "-march=x86-64-v2", "-o", self.path(name), HERE / f"{name}.c", *libraries], check=True)
        return self.path(name)

    @functools.cached_property
    def peer(self) -> str:
        """The same work with SQLite, in C."""
        return self.compiled("peer", "-lsqlite3")

    def __enter__(self) -> "Bench":
        words = ["findmnt", "-n", "-o", "FSTYPE", "-T", self.folder]
        kind = subprocess.run(words, capture_output=True, text=True).stdout.strip()
        model = [line.split(": ")[1].strip() for line in open("/proc/cpuinfo") if line.startswith("model name")]
        print(f"{os.cpu_count()} cores of {model[0] if model else platform.processor()}, {kind}, load {os.getloadavg()[0]:.1f}")
        return self

    def __exit__(self, kind: Optional[Type[BaseException]], fault: Optional[BaseException],
                 trace: Optional[TracebackType]) -> None:
        shutil.rmtree(self.folder)

    def path(self, name: str) -> str:
        return f"{self.folder}/{name}"

    def write(self, name: str, text: str) -> str:
        pathlib.Path(self.path(name)).write_text(text)
        return self.path(name)

    def format(self, name: str, sectors: int = LARGEST_IMAGE) -> None:
        self.remove(name)
        subprocess.run([MBDC, "format", self.path(name), str(sectors)], check=True)

    def remove(self, name: str) -> None:
        for end in ("", "-wal", "-shm"):
            pathlib.Path(self.path(name) + end).unlink(missing_ok=True)

    def mbdc(self, image: str, script: str, before: Sequence[str] = ()) -> Spent:
        return self.run([*before, MBDC, "run", self.path(image), script], "mbdc.txt")

    def sqlite(self, database: str, script: str, before: Sequence[str] = ()) -> Spent:
        return self.run([*before, self.peer, self.path(database), script], "peer.txt")

    def run(self, words: Sequence[str], text: str, status: int = 0) -> Spent:
        """Runs a program, whose output goes to a file. Ends the bench at another status."""
        with open(self.path(text), "wb") as out:
            taken = self.path("taken")
            subprocess.run([self.launch, taken, *words], stdin=subprocess.DEVNULL, stdout=out, check=True)
        ended, spent, processor, memory = pathlib.Path(taken).read_text().split()
        if int(ended) != status:
            sys.exit(f"{' '.join(words)} ended with status {ended}")
        return Spent(float(spent), float(processor), int(memory), self.path(text))

    def fill(self, image: str, database: Optional[str], scripts: Iterable[str]) -> None:
        """Does the scripts on both sides, which have to print the same."""
        for n, text in enumerate(scripts):
            script = self.write(f"fill{n}", text)
            done = self.mbdc(image, script)
            if database is not None:
                same(done, self.sqlite(database, script))

    def calls(self, run: Run, *words: str) -> tuple[int, int]:
        """How often a run syncs, and how many bytes it writes to its files: from strace."""
        run(*words, before=["strace", "-f", "-e", "trace=pwrite64,fsync,fdatasync", "-o", self.path("calls")])
        syncs = written = 0
        for line in open(self.path("calls")):
            syncs += "sync(" in line
            if "pwrite64(" in line and " = " in line:
                written += int(line.rsplit(" = ", 1)[1].split()[0])
        return syncs, written


def same(ours: Spent, theirs: Spent) -> None:
    """Ends the bench where the two sides printed different texts."""
    if ours.text != theirs.text:
        sys.exit("the two sides print different texts")


def median(spent: Iterable[Spent]) -> float:
    return statistics.median(it.seconds for it in spent)
