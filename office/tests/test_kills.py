"""A kill at each line that a collection and an order execute: nothing is lost, doubled or done twice.

Each life runs in a child process, which kills itself as it comes to one line of the office's modules, where that line
is executed for the first time. Then the same is done again without a kill, and everything is compared.
"""

import os
import pathlib
import signal
import subprocess
import sys
from types import FrameType
from typing import Any, Callable, List, Optional, Tuple

from conftest import FITS, OFFICE, Box, Office, telegram

import database
import visit

READINGS = 3
MOVED, KNOWN = "MOVE 11111111.PAD.01.07 B1", FITS[1]
Line = Tuple[str, int]


def life(office: Office) -> None:
    """Orders, of which one is refused, and a collection."""
    connection = database.Database(office.name, 10)
    ordering = visit.Visit(connection, "house-1", 60)
    ordering.queue([MOVED, KNOWN], "key")
    ordering.settle()
    collecting = visit.Visit(connection, "house-1", 60)
    collecting.collect()
    connection.close()


def traced(stops: Callable[[Line], None], work: Callable[[Office], None], office: Office) -> None:
    """Does the work; `stops` is called before each line of the office's modules."""
    def of_line(frame: FrameType, event: str, _: Any) -> Any:
        if event == "line":
            stops((frame.f_code.co_filename, frame.f_lineno))
        return of_line

    def of_call(frame: FrameType, _event: str, _: Any) -> Optional[Callable[..., Any]]:
        return of_line if pathlib.Path(frame.f_code.co_filename).parent == OFFICE else None

    sys.settrace(of_call)
    try:
        work(office)
    finally:
        sys.settrace(None)


def killed_at(office: Office, turn: int) -> None:
    """A life in a child process, killed before the line of that turn."""
    left = turn

    def stops(_: Line) -> None:
        nonlocal left
        left -= 1
        if left < 0:
            os.kill(os.getpid(), signal.SIGKILL)

    child = os.fork()
    if child == 0:
        try:
            traced(stops, life, office)
        finally:
            os._exit(0)
    os.waitpid(child, 0)


class Table:
    """Puts a box and the database back to their beginning."""

    def __init__(self, office: Office, box: Box) -> None:
        self.office, self.box = office, box
        self.files = {path: path.read_bytes() for path in (box.image, box.journal)}

    def begin(self) -> None:
        # a killed visit's connection may still end: its locks go first
        self.office.sql("SELECT pg_terminate_backend(pid) FROM pg_stat_activity WHERE pid <> pg_backend_pid()"
                        " AND datname = current_database()")
        self.office.sql("TRUNCATE readings, points, due_readings")
        self.office.sql("DELETE FROM orders WHERE id > 2")
        self.office.sql("UPDATE boxes SET number = 2, confirmed = 0, stored = 0, fault = NULL")
        self.office.sql("UPDATE meters SET serial = NULL, heard = NULL, stored_at = NULL, status = NULL, flat = 'A'"
                        " || address")
        for path, content in self.files.items():  # once nobody at the box works on them any more
            subprocess.run(["flock", f"{self.box.image}.lock", "tee", path], input=content, stdout=subprocess.DEVNULL,
                           check=True)

    def compare(self, turn: int) -> None:
        """Each order was done once, each reading is stored once, and all of them are confirmed."""
        rows = self.office.sql("SELECT key, state::text FROM orders WHERE key LIKE 'key%%' ORDER BY key")
        assert rows == [("key.1", "done"), ("key.2", "refused")], turn
        assert self.box.numbers()[2:] == [(3, MOVED), (4, f"CONFIRM {READINGS}")], turn
        stored = self.office.sql("SELECT serial, encode(bodies[1], 'hex') FROM readings ORDER BY serial")
        assert stored == [(it, telegram(it, number="22222222" if it % 2 else "11111111").lower())
                          for it in range(1, READINGS + 1)], turn
        assert self.office.sql("SELECT count(*) FROM points") == [(READINGS,)], turn
        assert self.office.sql("SELECT number, confirmed, stored FROM boxes") == [(4, READINGS, READINGS)], turn
        assert self.office.sql("SELECT flat FROM meters ORDER BY identity") == [("B1",), ("A2",)], turn


def test_a_kill_at_each_line(office: Office, box: Box) -> None:
    box.hears(READINGS)
    table = Table(office, box)
    lines: List[Line] = []
    traced(lines.append, life, office)
    table.compare(-1)
    turns = [lines.index(line) for line in dict.fromkeys(lines)]
    for turn in turns:
        table.begin()
        killed_at(office, turn)
        life(office)
        table.compare(turn)
    assert turns
    print(f"{len(turns)} kills at {len(set(lines))} lines")
