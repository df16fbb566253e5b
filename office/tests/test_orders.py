"""office/order: each order once, what a refused one may become, what was done at a box, and new commands."""

import json
import pathlib
import re
import shutil
import subprocess
from typing import Callable, Dict, List

import pytest
from conftest import FITS, MBDC, OFFICE, Box, Office, Server
from test_boxes import fitted, housed
from test_schema import ORDER, refused

from box_commands import BOX_COMMANDS

THIRD, FOURTH = "FIT 33333333.PAD.01.07 1 3 A3", "FIT 44444444.PAD.01.07 1 4 A4"
MOVED = "MOVE 11111111.PAD.01.07 B1"


def test_orders_are_done_once(office: Office, box: Box) -> None:
    assert office.sql("SELECT number, state::text, made_by FROM orders ORDER BY id") == [
        (1, "done", "office"), (2, "done", "office")]
    box.faults("", "lost")
    assert office.order("--key", "a", "house-1", MOVED).status == 0
    assert f"house-1 3 {MOVED}: OK 3" in office.order("--key", "a", "house-1", MOVED).ok()
    assert box.numbers()[2:] == [(3, MOVED)]
    assert "that of another order" in office.order("--key", "a", "house-1", THIRD).ok(5)


def test_an_order_that_the_collection_sends(office: Office, box: Box) -> None:
    """The box wasn't reached, or the order was put into the table alone."""
    box.faults(*["refuse"] * 3)
    assert "not answered yet" in office.order("--tries", "2", "house-1", MOVED).ok(6)
    assert office.order("--later", "house-1", THIRD).status == 6 and box.last() == 2
    assert office.collect("--tries", "2").status == 0
    assert box.numbers()[2:] == [(3, MOVED), (4, THIRD)]


def test_a_refused_number_is_used_again(office: Office, box: Box) -> None:
    assert f"house-1 3 {FITS[0]}: ERR KNOWN" in office.order("house-1", FITS[0], MOVED).ok(3)
    assert box.numbers()[2:] == [(3, MOVED)]


def full(office: Office, box: Box) -> None:
    """The box had no room for a third meter; then it has, and a copy of the order that was on its way arrives."""
    box.faults("", "full")
    assert "ERR FULL" in office.order("--key", "third", "house-1", THIRD).ok(3)


def test_a_refused_order_that_is_done_late(office: Office, box: Box) -> None:
    """Before the next visit: what the box did counts, and the next order gets the number after it."""
    full(office, box)
    assert box.says(f"3 {THIRD}") == ["OK 3"]
    assert office.order("house-1", MOVED).status == 0
    assert box.numbers()[2:] == [(3, THIRD), (4, MOVED)]
    assert office.sql("SELECT state::text FROM orders WHERE key = 'third.1'") == [("done",)]
    assert office.sql("SELECT count(*) FROM meters") == [(3,)]
    assert office.collect().status == 0


def pending(office: Office, box: Box, line: str) -> None:
    """Leaves an order with number 3 that wasn't sent: its visit was killed after the commit."""
    box.faults("", "refuse")
    assert office.order("--tries", "1", "--key", "next", "house-1", line).status == 6
    assert office.sql("SELECT number FROM orders WHERE state = 'pending'") == [(3,)]


def test_a_refused_order_that_takes_the_number_of_a_pending_one(office: Office, box: Box) -> None:
    full(office, box)
    pending(office, box, FOURTH)
    assert box.says(f"3 {THIRD}") == ["OK 3"]
    office.order("--key", "next", "house-1", FOURTH).ok()
    assert box.numbers()[2:] == [(3, THIRD), (4, FOURTH)]
    assert office.sql("SELECT key, number, state::text FROM orders WHERE id > 2 ORDER BY number") == [
        ("third.1", 3, "done"), ("next.1", 4, "done")]


def test_a_refused_order_that_takes_the_number_of_a_confirm(office: Office, box: Box) -> None:
    full(office, box)
    box.hears(2)
    box.faults("", "refuse")
    assert office.collect("--tries", "1").status == 1
    assert box.says(f"3 {THIRD}") == ["OK 3"]
    office.collect().ok()
    assert box.numbers()[2:] == [(3, THIRD), (4, "CONFIRM 2")]
    assert office.sql("SELECT count(*) FROM readings") == [(2,)]


def test_a_number_that_nobody_gave(office: Office, box: Box) -> None:
    """Somebody sent two numbered lines by hand, and a new journal has only the last: a person has to look first."""
    full(office, box)
    assert box.says(f"3 {FOURTH}") == ["OK 3"] and box.says(f"4 {THIRD}") == ["OK 4"]
    box.journal.unlink()
    assert "the box's last order is 4, the database's 2" in office.order("house-1", MOVED).ok(5)
    assert box.last() == 4


def test_the_cure_after_an_older_dump_ends_what_was_queued(office: Office, box: Box) -> None:
    """The dump has a MOVE as queued that was done since, and so was a later one: it isn't sent again."""
    dumped = office.sql("SELECT number, confirmed FROM boxes")[0]
    assert office.order("--key", "one", "house-1", MOVED).status == 0
    assert office.order("--key", "two", "house-1", "MOVE 11111111.PAD.01.07 C1").status == 0
    office.sql("DELETE FROM orders WHERE key = 'two.1'")
    office.sql("UPDATE orders SET state = 'queued', number = NULL, answer = NULL WHERE key = 'one.1'")
    office.sql("UPDATE boxes SET number = %s, confirmed = %s", *dumped)
    office.sql("UPDATE meters SET flat = 'A1' WHERE flat = 'C1'")
    box.journal.unlink()
    assert "STOPPED: the box's last order is 4, the database's 2" in office.collect().ok(1)
    listed = office.sql("SELECT t.box, t.line, t.answer FROM boxes b, take_as_it_is(b.name) t"
                        " WHERE b.fault LIKE 'STOPPED: the box''s last order is %%'")
    assert listed == [("house-1", MOVED, "given up")]
    assert office.collect().status == 0
    assert box.last() == 4
    assert office.sql("SELECT flat FROM meters ORDER BY identity") == [("C1",), ("A2",)]
    assert office.sql("SELECT key, state::text FROM orders WHERE state = 'given_up'") == [("one.1", "given_up")]


# ---- what was done at a box: the office learns it from the box's journal, and believes nothing that it doesn't show

SWAPPED, MOVED_ON = "SWAP 11111111.PAD.01.07 55555555.PAD.01.07 S", "MOVE 55555555.PAD.01.07 B1"
STOP = "STOPPED: the box's last order is 4, the database's 2"


def test_a_swap_at_the_box(office: Office, box: Box) -> None:
    """The new meter has the old one's place, and its readings come with the same visit."""
    housed(office)
    box.hears(2)
    assert office.collect().status == 0
    assert box.says(f"4 {SWAPPED}", "5 MOVE 22222222.PAD.01.07 B2") == ["OK 4", "OK 5"]
    box.hears(3)
    assert "3 readings, confirmed up to 5" in office.collect().ok()
    assert office.sql("SELECT identity, line, address, flat FROM meters ORDER BY identity") == [
        ("22222222.PAD.01.07", 1, "2", "B2"), ("55555555.PAD.01.07", 1, "S", "A1")]
    assert ("A1", "cold water", 1, "55555555", True) in fitted(office)
    assert office.sql(
        "SELECT number, line, state::text, answer FROM orders WHERE number BETWEEN 4 AND 5 ORDER BY number") == [
        (4, SWAPPED, "done", "OK 4"), (5, "MOVE 22222222.PAD.01.07 B2", "done", "OK 5")]


def test_the_number_of_a_pending_order_was_taken(office: Office, box: Box) -> None:
    """It is sent again with the next one."""
    pending(office, box, FOURTH)
    assert box.says(f"3 {SWAPPED}") == ["OK 3"]
    assert office.collect().status == 0
    assert box.numbers()[2:] == [(3, SWAPPED), (4, FOURTH)]


def test_a_pending_order_was_done_and_another_one_after_it(office: Office, box: Box) -> None:
    """Its answer was lost; nothing is sent twice."""
    box.faults("", "lost")
    assert office.order("--tries", "1", "--key", "next", "house-1", THIRD).status == 6
    assert box.says(f"4 {SWAPPED}") == ["OK 4"]
    assert f"3 {THIRD}: OK 3" in office.order("--key", "next", "house-1", THIRD).ok()
    assert office.collect().status == 0 and box.last() == 4


def test_a_queued_order_was_done_at_the_box(office: Office, box: Box) -> None:
    """The technician did what the office was about to send. Torn lines of the journal are passed over."""
    assert office.order("--later", "house-1", MOVED).status == 6
    assert box.says(f"3 {MOVED}", f"4 {SWAPPED}") == ["OK 3", "OK 4"]
    with box.journal.open("ab") as journal:
        journal.write(b'{"at":1,"event":"command","number":5,"line":"5 OUT 2\n\xff\n{}\n')
    assert office.collect().status == 0
    assert box.last() == 4
    assert office.sql("SELECT number, state::text FROM orders WHERE id > 2 ORDER BY id") == [(3, "done"), (4, "done")]


Rows = List[Dict[str, object]]


def changed(line: str, to: str) -> Callable[[Rows], Rows]:
    """Another line in the place of one."""
    return lambda rows: [{**row, "line": row["line"].replace(line, to)} for row in rows]  # type: ignore[attr-defined]


LIES: Dict[str, Callable[[Rows], Rows]] = {
    "another flat": changed(MOVED_ON, "MOVE 55555555.PAD.01.07 B2"),
    "another address": changed(SWAPPED, SWAPPED[:-1] + "9"),
    "a command is missing": lambda rows: rows[:2] + rows[3:],
    "the last line is another, of the same end": changed(f"4 {MOVED_ON}", "4 MOVE 22222222.PAD.01.07 A2"),
    "a confirmation that nobody ordered": changed(f"3 {SWAPPED}", "3 CONFIRM 1"),
    "a command of a meter that isn't there": changed(f"3 {SWAPPED}", "3 OUT 99999999.PAD.01.07"),
    "a meter that is there": changed(f"3 {SWAPPED}", f"3 {FITS[1]}"),
    "a command that no box has": changed(f"3 {SWAPPED}", "3 STRIKE 1"),
    "two lines of one number": lambda rows: rows + [{**rows[2], "line": f"3 {FOURTH}"}],}


@pytest.mark.parametrize("lie", LIES)
def test_a_lie_of_the_journal(office: Office, box: Box, lie: str) -> None:
    """The office stops as without a journal, and nothing is changed."""
    assert box.says(f"3 {SWAPPED}", f"4 {MOVED_ON}") == ["OK 3", "OK 4"]
    rows = [json.loads(line) for line in box.journal.read_text(encoding="ascii").splitlines()]
    box.journal.write_text("".join(json.dumps(row, separators=(",", ":")) + "\n" for row in LIES[lie](rows)),
                           encoding="ascii")
    before = [office.sql(f"SELECT * FROM {table} ORDER BY 1, 2") for table in ("orders", "meters")]
    assert STOP in office.collect("--tries", "1").ok(1)
    assert before == [office.sql(f"SELECT * FROM {table} ORDER BY 1, 2") for table in ("orders", "meters")]
    assert box.last() == 4


# ---- a new command of a box is a row of office/box_commands.py

FORM = re.compile(r"^  n ([A-Z]+)((?: [a-z]+)*)  ", re.MULTILINE)  # of a line that the program's help has
CHANGED = "CHANGE 11111111.PAD.01.07 55555555.PAD.01.07 9"  # what a box knows as SWAP
ROW = 'BOX_COMMANDS["CHANGE"] = BOX_COMMANDS["SWAP"]\n'


@pytest.fixture
def newer(office: Office, box: Box, server: Server, tmp_path: pathlib.Path) -> Office:
    """The programs of an office that knows one command more, over the same database. The box does it."""
    programs = tmp_path / "newer"
    shutil.copytree(OFFICE, programs)
    with open(programs / "box_commands.py", "a", encoding="ascii") as file:
        file.write(ROW)
    (tmp_path / "verbs").write_text("s/ CHANGE / SWAP /\n", encoding="ascii")
    return Office(server, office.connection.info.dbname, tmp_path, programs)


def migrated(newer: Office) -> str:
    return newer.run("migrate").ok()


def test_the_rows_are_the_commands_of_the_program() -> None:
    said = subprocess.run([MBDC, "run", "--help"], capture_output=True, text=True, check=True).stdout
    rows = {verb: len(command.words) for verb, command in BOX_COMMANDS.items()}
    assert {verb: len(words.split()) for verb, words in FORM.findall(said)} == {**rows, "CONFIRM": 1}


def test_a_new_command_is_a_row(office: Office, box: Box, newer: Office) -> None:
    """Order, the database and the register take it."""
    assert "no order" in office.order("house-1", CHANGED).ok(2)
    assert "is_a_command" in refused(office, ORDER, CHANGED)
    assert "is_a_command" in newer.order("--tries", "1", "house-1", CHANGED).ok(4)
    assert migrated(newer) == "command CHANGE\n"
    assert migrated(newer) == ""
    newer.order("house-1", CHANGED).ok()
    assert box.numbers()[2:] == [(3, CHANGED.replace("CHANGE", "SWAP"))]
    assert office.sql("SELECT address FROM meters ORDER BY identity") == [("2",), ("9",)]
    assert "is_a_command" in refused(office, ORDER, f"{CHANGED} 9")
    assert newer.collect().status == 0


def test_an_order_that_an_older_office_doesnt_know(office: Office, box: Box, newer: Office) -> None:
    """It stops at that box, and the newer one goes on."""
    migrated(newer)
    office.sql(ORDER, CHANGED)
    assert f"STOPPED: order 3 {CHANGED} is none that this office knows" in office.collect().ok(1)
    newer.collect().ok()
    assert box.numbers()[2:] == [(3, CHANGED.replace("CHANGE", "SWAP"))]
    assert office.sql("SELECT address FROM meters ORDER BY identity") == [("2",), ("9",)]
