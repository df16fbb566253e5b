"""Talks to a box: runs a script of office lines over the box's command, and reads the replies (docs/COMMANDS.md)."""

import contextlib
import datetime
import os
import re
import selectors
import shlex
import signal
import subprocess
import time
from typing import Iterator, List, NamedTuple, Optional, Tuple, TypeVar

PAGE = 100  # the most readings that one WINDOW shows
# Bytes of one run at a box, of one of its lines, and of what is kept of its complaints. A page of readings of 32
# telegrams has 1.7 MB, and a line of a telegram 540 bytes.
LONGEST_ANSWER, LONGEST_LINE, LAST_COMPLAINT = 3 << 20, 1024, 4096
CHUNK = 1 << 16
# A numbered line that no box accepts, since its number isn't the next one's: it is answered `ERR ORDER last`.
PROBE = "999999999999999999 CONFIRM 0"
LOOK = (PROBE, "WINDOW 1 1", "REGISTER")  # shows the last number, the confirmed serial and the register
REPLY_ENDS = ("OK", "ERR", "END")
# The first line of each script names the box that it is for, or asks, and its last one is END: packaging/office-line
# does nothing where another box is meant, or where the script isn't whole.
ASKING = "?"
NAMED = re.compile(r"(BOX|ERR BOX) ([0-9a-f]{32})")
COMMAND = re.compile(r"COMMAND ([0-9]+) (.*)")
UTC = datetime.timezone.utc


class Unreached(Exception):
    """The box gave no whole answer. What it did isn't known, and the same may be sent again."""


class Talks(Unreached):
    """The box says more than any box has to say. Nothing of it is kept."""


class Disagreement(Exception):
    """The box contradicts the database. Nothing is confirmed until somebody has looked."""


class WrongCommand(Exception):
    """The command of the box in the database is none: it can't be split into words."""


class Reading(NamedTuple):
    """A reading as the box shows it."""
    serial: int
    identity: str
    flat: str
    heard: Tuple[datetime.datetime, ...]  # a moment for each telegram
    bodies: Tuple[bytes, ...]  # the telegrams without their frames


# A row of the box's register.
Meter = NamedTuple("Meter", [("identity", str), ("line", int), ("address", str), ("flat", str)])


class Seen(NamedTuple):
    """What a box shows at one moment."""
    identity: str  # which box it is
    number: int  # of the last command that it did
    confirmed: int  # the serial up to which it has confirmed
    meters: List[Meter]
    readings: List[Reading]  # from the serial asked for on, at most PAGE
    is_all: bool  # there are no further ones


Command = NamedTuple("Command", [("number", int), ("line", str)])  # that a box has done


Reply = List[str]
Shown = TypeVar("Shown")


class Link:
    """A box behind its command; `identity` is the one that it has to have, None where that isn't known."""

    def __init__(self, box: str, command: str, timeout: float, identity: Optional[str]) -> None:
        self.box, self.timeout, self.identity = box, timeout, identity
        try:
            words = shlex.split(command)
        except ValueError as fault:
            raise WrongCommand(f"its command can't be read: {fault}") from fault
        if not words or "\0" in command:
            raise WrongCommand("its command is empty, or has a byte of 0")
        self.words = [word.replace("{box}", box) for word in words]

    def run(self, lines: List[str]) -> List[Reply]:
        """The replies to these office lines, each a list of lines. Raises Unreached where the command failed, took too
        long, or a reply isn't whole, and Disagreement where another box answers, which has done nothing then."""
        script = "".join([f"BOX {self.identity or ASKING}\n", *(f"OFFICE {line}\n" for line in lines), "END\n"])
        first, _, rest = self.printed(script).decode("ascii", "replace").partition("\n")
        named = NAMED.fullmatch(first)
        if named is None:
            raise Unreached("it doesn't say which box it is")
        if self.identity is None:
            self.identity = named[2]
        if named[1] == "ERR BOX" or named[2] != self.identity:
            raise Disagreement(f"another box answers: {named[2]}, and not {self.identity}")
        return whole_replies(rest, len(lines))

    def printed(self, script: str) -> bytes:
        """What the command prints."""
        try:
            process = subprocess.Popen(self.words, stdin=subprocess.PIPE, stdout=subprocess.PIPE,
                                       stderr=subprocess.PIPE, start_new_session=True)
        except OSError as fault:
            raise Unreached(f"{self.words[0]}: {fault.strerror}") from fault
        end = time.monotonic() + self.timeout
        with process:
            try:
                printed, complaint = self.told(process, script.encode(), end)
                process.wait(max(end - time.monotonic(), 0.1))
            except subprocess.TimeoutExpired as late:
                raise Unreached(f"no answer within {self.timeout:g} s") from late
            finally:
                if process.returncode is None:
                    with contextlib.suppress(ProcessLookupError):
                        os.killpg(process.pid, signal.SIGKILL)
        if process.returncode != 0:
            last = complaint.decode(errors="replace").strip().rpartition("\n")[2]
            raise Unreached(f"status {process.returncode} {last}".strip())
        return printed

    def told(self, process: "subprocess.Popen[bytes]", script: bytes, end: float) -> Tuple[bytes, bytes]:
        """What a process prints of a script up to a moment, and the last bytes that it complains in.

        Raises TimeoutExpired and Talks."""
        assert process.stdin and process.stdout and process.stderr
        printed, complaint = bytearray(), b""
        with contextlib.suppress(BrokenPipeError), process.stdin:
            process.stdin.write(script)
        with selectors.DefaultSelector() as waiting:
            waiting.register(process.stdout, selectors.EVENT_READ)
            waiting.register(process.stderr, selectors.EVENT_READ)
            while waiting.get_map():
                ready = waiting.select(max(end - time.monotonic(), 0))
                if not ready or time.monotonic() > end:
                    raise subprocess.TimeoutExpired(self.words, self.timeout)
                stream = ready[0][0].fileobj
                chunk = os.read(ready[0][0].fd, CHUNK)
                if not chunk:
                    waiting.unregister(stream)
                elif stream is process.stderr:
                    complaint = (complaint + chunk)[-LAST_COMPLAINT:]
                else:
                    printed += chunk
                    check_length(printed)
        return bytes(printed), complaint

    def look(self, first: int) -> Seen:
        """What the box shows, with the readings from that serial on, or from the first that isn't confirmed.

        Raises Unreached and Disagreement."""
        try:
            return self.seen_from(first)
        except (ValueError, IndexError, OverflowError, StopIteration) as fault:
            raise Unreached(f"an answer can't be read: {fault}") from fault

    def commands(self, first: int, last: int) -> List[Command]:
        """The commands with these numbers, as the journal beside the box's image has them; none of a box without one.

        Raises Unreached and Disagreement."""
        found = map(COMMAND.fullmatch, self.run([f"JOURNAL {first}"])[0][:-1])
        return [Command(int(it[1]), it[2]) for it in found if it is not None and int(it[1]) <= last]

    def seen_from(self, first: int) -> Seen:
        order, mark, register, window = self.run([*LOOK, f"WINDOW {first} {PAGE}"])
        confirmed = gone(mark)
        if gone(window):
            order, mark, register, window = self.run([*LOOK, f"WINDOW {confirmed + 1} {PAGE}"])
        number = re.fullmatch(r"ERR ORDER (\d+)", order[0])
        if number is None or self.identity is None or gone(mark) != confirmed or gone(window):
            raise Unreached(f"unexpected answers: {order[0]}, {mark[0]}, {window[0]}")
        readings = readings_of(window)
        return Seen(self.identity, int(number[1]), confirmed, meters_of(register), readings, len(readings) < PAGE)


def check_length(printed: bytearray) -> None:
    """Raises Talks where an answer, or the line that it ends with, is longer than any can be."""
    if len(printed) > LONGEST_ANSWER:
        raise Talks(f"it says more than {LONGEST_ANSWER >> 20} MB at once")
    if len(printed) - printed.rfind(b"\n") > LONGEST_LINE:
        raise Talks(f"it says a line of more than {LONGEST_LINE} bytes")


def whole_replies(text: str, count: int) -> List[Reply]:
    """The replies in a text; the last line of each begins with OK, ERR or END."""
    lines = text.splitlines() if text.endswith("\n") and text.replace("\n", "").isprintable() else []
    ends = [place + 1 for place, line in enumerate(lines) if line.split(" ")[0] in REPLY_ENDS]
    replies = [lines[begin:end] for begin, end in zip([0, *ends], ends)]
    if len(replies) != count or ends[-1:] != [len(lines)]:
        raise Unreached(f"{len(replies)} whole replies of {count}")
    for reply in replies:
        if reply[-1] in ("ERR STORE", "ERR MEMORY"):
            raise Unreached(reply[-1])
    return replies


def gone(window: Reply) -> int:
    """The confirmed serial that a WINDOW was refused with, or 0."""
    found = re.fullmatch(r"ERR GONE (\d+)", window[0])
    return int(found[1]) if found else 0


def readings_of(window: Reply) -> List[Reading]:
    """The readings of a WINDOW's reply."""
    readings: List[Reading] = []
    rest: Iterator[str] = iter(window[:-1])
    for line in rest:
        _, serial, identity, flat, count = line.split(" ")
        parts = [next(rest).split(" ") for _ in range(int(count))]
        heard = tuple(datetime.datetime.fromtimestamp(int(part[2]), UTC) for part in parts)
        readings.append(Reading(int(serial), identity, flat, heard, tuple(bytes.fromhex(part[3]) for part in parts)))
    return counted(window, readings)


def meters_of(register: Reply) -> List[Meter]:
    """The meters of a REGISTER's reply."""
    fields = [line.split(" ") for line in register[:-1]]
    return counted(register, [Meter(it[1], int(it[2]), it[3], it[4]) for it in fields])


def counted(reply: Reply, found: List[Shown]) -> List[Shown]:
    """What a reply shows. Raises Unreached where its END has another count."""
    if reply[-1] != f"END {len(found)}":
        raise Unreached(f"{len(found)} rows before {reply[-1]}")
    return found
