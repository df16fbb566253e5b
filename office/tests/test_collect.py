"""office/collect: each reading once, each box's failure its own, and records from the decoder's JSON objects."""

import os
import pathlib
import signal
import subprocess
import sys
import time
from typing import Any, Dict, List

import pytest
from conftest import FITS, MOMENT, OFFICE, Box, Office, telegram

import database
import decoding
import link
import storing
import visit


def test_readings_are_stored_once_and_confirmed(office: Office, box: Box) -> None:
    box.hears(250)
    assert "house-1: 250 readings, confirmed up to 250" in office.collect().ok()
    assert office.sql("SELECT count(*), min(serial), max(serial) FROM readings") == [(250, 1, 250)]
    assert office.sql("SELECT count(*) FROM points WHERE value = 0.25") == [(1,)]
    assert box.confirmed() == 250 and box.run("OFFICE WINDOW 251 1") == ["END 0"]
    assert office.sql("SELECT boxes, failed, readings, ended_at IS NOT NULL FROM collections") == [(1, 0, 250, True)]
    assert office.collect().status == 0
    assert office.sql("SELECT count(*) FROM readings") == [(250,)]
    box.hears(3)
    box.faults("refuse", "torn", "", "lost")  # answers that are lost and torn
    office.collect("--tries", "6").ok()
    assert [line for _, line in box.numbers()[2:]] == ["CONFIRM 100", "CONFIRM 200", "CONFIRM 250", "CONFIRM 253"]


def test_each_box_fails_for_itself(office: Office, box: Box) -> None:
    """An open quote, an empty command, none that exists, a NUL byte in an error, a NUL byte in an answer."""
    box.hears(2)
    answer = office.folder / "answer"
    answer.write_text("#!/bin/sh\nprintf 'BOX %032d\\nERR \\0\\n' 0\n", encoding="ascii")
    answer.chmod(0o755)
    for name, command in (("quote", "ssh 'here"), ("empty", ""), ("none", "/nowhere/at/all"),
                          ("nul", "sh -c 'printf \"a\\\\0b\" >&2; exit 1'"), ("answer", str(answer))):
        office.sql("INSERT INTO boxes (name, command) VALUES (%s, %s)", name, command)
    ended = office.collect("--tries", "2")
    assert ended.status == 1
    assert ended.printed.splitlines()[-1].startswith("6 boxes, 2 readings, 5 failed")
    faults = {name: fault for name, fault in office.sql("SELECT name, fault FROM boxes")}
    assert faults["house-1"] is None
    assert faults["quote"] == "FAILED: its command can't be read: No closing quotation"
    assert faults["empty"] == "FAILED: its command is empty, or has a byte of 0"
    assert faults["none"] == "FAILED: /nowhere/at/all: No such file or directory"
    assert faults["nul"] == "FAILED: status 1 a\N{REPLACEMENT CHARACTER}b"
    assert faults["answer"].startswith("FAILED: 0 whole replies")


def test_without_a_decoder(office: Office, box: Box) -> None:
    box.hears(2)
    other = office.box("house-2")
    assert "house-2: 0 readings" in office.collect(MBDC="/nowhere/mbdc").ok(1) and other.last() == 0
    assert office.sql("SELECT fault LIKE 'FAILED: no decoder%%' FROM boxes WHERE name = 'house-1'") == [(True,)]
    assert box.confirmed() == 0
    assert office.collect().status == 0 and box.confirmed() == 2


def started(office: Office, *words: str) -> "subprocess.Popen[str]":
    """A collection that goes on meanwhile."""
    return subprocess.Popen([OFFICE / "collect", "--database", office.name, *words], text=True, stdout=subprocess.PIPE,
                            env=office.environment, start_new_session=True)


def begun_by(pid: int) -> Dict[int, str]:
    """The processes that a process has begun, each with its program: of a collection its workers."""
    told = subprocess.run(["ps", "-o", "pid=,comm=", "--ppid", str(pid)], capture_output=True, text=True, check=False)
    return {int(number): program for number, program in (it.split(None, 1) for it in told.stdout.splitlines())}


def is_asleep(pid: int) -> bool:
    """Whether a worker waits for a box that sleeps."""
    return "sleep" in begun_by(pid).values()


def test_processes_that_are_killed(office: Office, box: Box) -> None:
    """Its box fails, and no other. The collection comes to its end."""
    box.hears(2)
    office.sql("INSERT INTO boxes (name, command) VALUES ('sleeps', 'sleep 100')")
    for place in range(4):
        office.box(f"other-{place}")
    process = started(office, "--workers", "3")
    end, asleep = time.monotonic() + 60, []  # type: float, List[int]
    while not asleep or office.sql(
            "SELECT count(*) FROM boxes WHERE collected_at IS NOT NULL AND confirmed = stored") != [(5,)]:
        assert time.monotonic() < end
        time.sleep(0.1)
        asleep = [pid for pid in begun_by(process.pid) if is_asleep(pid)]
    assert len(asleep) == 1
    os.kill(asleep[0], signal.SIGKILL)
    printed, _ = process.communicate(timeout=60)
    assert process.returncode == 1
    assert "sleeps: FAILED: its process ended" in printed
    assert printed.splitlines()[-1].startswith("6 boxes, 2 readings, 1 failed")
    assert office.sql("SELECT name FROM boxes WHERE fault IS NOT NULL") == [("sleeps",)]


def test_a_box_that_comes_to_no_end(office: Office, box: Box) -> None:
    """Its process is killed at the deadline, also a stopped one."""
    box.hears(2)
    office.sql("INSERT INTO boxes (name, command) VALUES ('sleeps', 'sleep 100')")
    assert "sleeps: FAILED: no end within 1 s" in office.collect("--longest", "1", "sleeps").ok(1)
    process = started(office, "--workers", "1", "--longest", "8", "sleeps", "house-1")
    while not (found := begun_by(process.pid)):
        assert process.poll() is None
        time.sleep(0.05)
    os.kill(min(found), signal.SIGSTOP)
    printed, _ = process.communicate(timeout=60)
    assert "sleeps: FAILED: no end within 8 s" in printed and "house-1: 2 readings" in printed


def test_processes_end_with_their_parent(office: Office, box: Box) -> None:
    office.sql("INSERT INTO boxes (name, command) VALUES ('sleeps', 'sleep 10')")
    process = started(office, "--workers", "2", "--tries", "1")
    while not any(map(is_asleep, found := begun_by(process.pid))):
        assert process.poll() is None
        time.sleep(0.05)
    process.kill()
    process.wait()
    end = time.monotonic() + 30
    while any(pathlib.Path(f"/proc/{pid}").exists() for pid in found):
        assert time.monotonic() < end
        time.sleep(0.1)


def test_few_records_are_in_memory_at_once(office: Office, box: Box, monkeypatch: pytest.MonkeyPatch) -> None:
    """A page of large readings is decoded and stored in turns, each meter's last reading with the last one."""
    counts: List[int] = []

    def points_of(bodies: List[bytes]) -> Any:
        counts.append(len(bodies))
        return decoding.points_of(bodies)
    box.tells(*((FITS[number % 2].split()[1], MOMENT + number, [telegram(number)] * 3) for number in range(9)))
    monkeypatch.setattr(storing, "points_of", points_of)
    monkeypatch.setattr(storing, "TELEGRAMS_A_TURN", 10)
    reached = visit.Visit(database.Database(office.name, 10), "house-1", 10)
    assert reached.collect() == 9
    reached.database.close()
    assert counts == [9, 9, 9]
    assert office.sql("SELECT count(*), count(DISTINCT serial) FROM points") == [(27, 9)]
    assert office.sql("SELECT max(serial), min(serial) FROM meters") == [(9, 8)]


def test_two_boxes_exchange_their_addresses_within_a_visit(office: Office, monkeypatch: pytest.MonkeyPatch) -> None:
    """Both show the same number, register and serials; the CONFIRM of one reaches the other, and is refused there."""
    boxes = [office.box(f"house-{place}") for place in (1, 2)]
    for box in boxes:
        assert office.order(box.name, *FITS).status == 0
        box.hears(3, first=10 * int(box.name[-1]))
    reached = visit.Visit(database.Database(office.name, 10), "house-1", 10)
    reached.settle()
    assert reached.take_page() == (3, True)
    for box, other in zip(boxes, reversed(boxes)):
        (office.folder / f"{box.name}.address").write_text(f"{other.name}\n", encoding="ascii")
    try:
        reached.settle()
    except link.Disagreement as fault:
        assert "another box answers" in str(fault)
    else:
        raise AssertionError("the CONFIRM went to the other box")
    finally:
        reached.database.close()
    assert [box.confirmed() for box in boxes] == [0, 0]
    ended = office.collect()
    assert ended.printed.count("STOPPED: another box answers") == 2, ended.printed
    for box in boxes:
        (office.folder / f"{box.name}.address").unlink()
    assert office.collect().status == 0
    assert [box.confirmed() for box in boxes] == [3, 3]
    assert office.sql("SELECT count(*) FROM readings") == [(6,)]


def test_a_box_that_has_another_name_and_was_formatted_anew(office: Office, box: Box) -> None:
    box.hears(3)
    assert office.collect().status == 0
    office.box("house-2")
    (office.folder / "house-2.address").write_text("house-1\n", encoding="ascii")
    assert "house-2: STOPPED: the box of house-1 answers" in office.collect("house-2").ok(1)
    new = Box(office.folder, "house-1")
    new.says(*(f"{number} {line}" for number, line in enumerate(FITS, 1)))
    new.hears(2, first=7)
    assert "STOPPED: the box's last order is 2, the database's 3" in office.collect().ok(1)
    assert office.sql("SELECT count(*) FROM readings") == [(3,)] and new.confirmed() == 0


# Runs a program, and prints the most memory that a process below it has taken, in KB
MEASURED = ("import resource, subprocess, sys; subprocess.run(sys.argv[1:]);"
            " print(resource.getrusage(resource.RUSAGE_CHILDREN).ru_maxrss)")


def test_boxes_that_say_too_much(office: Office, box: Box) -> None:
    """Endlessly many lines, a line without an end, complaints without an end, more readings than pages: each fails for
    itself, or is taken in parts, and none takes memory."""
    box.hears(350)
    for name, command in (("yes", "yes READING"), ("zeros", "cat /dev/zero"), ("errs", "sh -c 'yes error >&2'")):
        office.sql("INSERT INTO boxes (name, command) VALUES (%s, %s)", name, command)
    done = subprocess.run([sys.executable, "-c", MEASURED, OFFICE / "collect", "--database", office.name, "--tries",
                           "2", "--pause", "0.01", "--timeout", "3", "--pages", "3"], env=office.environment,
                          capture_output=True, text=True, check=True)
    *lines, summary, most = done.stdout.splitlines()
    assert int(most) < 100_000, done.stdout
    assert summary.startswith("4 boxes, 300 readings, 3 failed")
    said = {name: rest.strip() for name, _, rest in (line.partition(":") for line in lines)}
    assert said["yes"] == "FAILED: it says more than 3 MB at once"
    assert said["zeros"] == "FAILED: it says a line of more than 1024 bytes"
    assert said["errs"] == "FAILED: no answer within 3 s"
    assert said["house-1"].startswith("300 readings, confirmed up to 300")
    told = office.run("alarms").printed.splitlines()
    assert ("NEW talks house-1: A box says too much: it has more than 300 readings, and the rest waits for the next"
            " collection.") in told
    assert {"NEW box errs", "NEW box yes", "NEW talks yes"} & {line.split(":")[0] for line in told} == {
        "NEW box errs", "NEW talks yes"}
    assert "house-1: 50 readings, confirmed up to 350" in office.collect("house-1").ok()
    assert office.sql("SELECT talks, collected_at IS NULL FROM boxes WHERE name = 'house-1'") == [(None, False)]


# ---- records

ENERGY: Dict[str, Any] = {"storage": 0, "tariff": 0, "subunit": 0, "function": "instantaneous", "vib": "8400",
                          "data": "", "quantity": "energy", "qualifiers": ["no error"], "reading": "qualified",
                          "value": "1480", "unit": "Wh"}


@pytest.mark.parametrize("other, vib, value", [
    ({}, "04", 1480), ({"vib": "FB8000", "unit": "MWh"}, "FB00", 1480),  # the first extension stays
    ({"qualifiers": ["no error", "at phase L1"]}, "", 1480), ({"qualifiers": ["backward flow only"]}, "", 1480),
    ({"quantity": "power"}, "", 1480), ({"value": None}, "", None),
    ({"reading": "plain", "qualifiers": []}, "", None)])  # a REAL
def test_an_energy_without_error_is_the_meters_value(other: Dict[str, Any], vib: str, value: Any) -> None:
    """And with other qualifiers, quantities and errors it isn't."""
    point = decoding.point_of_object({**ENERGY, **other})
    assert (point.vib, point.value, point.is_point) == (vib or "8400", value, bool(vib))


def test_a_stored_energy_without_error_has_its_due_date() -> None:
    date = {**ENERGY, "storage": 1, "vib": "6C", "quantity": "date", "qualifiers": [], "reading": "point",
            "value": "2024-12-31", "unit": None}
    points = [decoding.point_of_object(date), decoding.point_of_object({**ENERGY, "storage": 1})]
    assert decoding.due_days(points) == [None, "2024-12-31"]
