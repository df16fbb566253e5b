"""mbdc-house and the settings of a house, over a program that stands in for mbdc."""

import os
import pathlib
import shutil
import socket
import subprocess
import tempfile
from typing import BinaryIO, Optional

import pytest

HOUSE = pathlib.Path(__file__).resolve().parents[2] / "packaging/mbdc-house"
NOBODY = 65534
STATE = "METERS 2\nREADINGS 3\nMARK 1\nCOMMAND 2\n"
# Stands in for mbdc: an image is a file of such lines. `report` has a meter on line 1 and one on line 2.
MBDC = """#!/bin/sh
case $1 in
poll | run | scan) echo "$@" ;;
copy | rescue) grep -q METERS "$2" && cp "$2" "$3" ;;
inspect) grep METERS -A3 "$2" || exit 3 ;;
*) grep -q METERS "$2" || { echo 'mbdc: open: 1 NotImage' >&2; exit 3; }
   printf 'flat,meter,medium,line,address,open\\n"A,1",18034063.PAD.21.06,water,1,S,0\\nA2,12345678.PAD.01.07,water,2,9,0\\n' ;;
esac
"""


class House:
    """A folder with settings, an image and the program."""

    def __init__(self, folder: pathlib.Path) -> None:
        self.folder, self.image = folder, folder / "house.image"
        self.put("mbdc", MBDC).chmod(0o755)
        self.put("house.image", STATE)
        self.put("house.conf", f"IMAGE={self.image}\nLINE_1=tcp://127.0.0.1:1\nLINE_2=serial:/dev/none\n")

    def put(self, name: str, text: str) -> pathlib.Path:
        file = self.folder / name
        file.write_text(text)
        return file

    def does(self, *words: str, stdin: Optional[BinaryIO] = None) -> "subprocess.CompletedProcess[str]":
        path = f"{self.folder}:{HOUSE.parent}:/usr/bin:/bin"
        return subprocess.run([HOUSE, *words], stdin=stdin, capture_output=True, text=True, env={
            "MBDC_SETTINGS": str(self.folder), "PATH": path})


@pytest.fixture
def house(tmp_path: pathlib.Path) -> House:
    return House(tmp_path)


@pytest.mark.parametrize("line, says", [
    ("LINE_1=tpc://10.0.0.7:10001", "LINE_1 takes tcp://HOST:PORT, serial:/PATH or blocks://HOST:PORT, not tpc://10.0.0.7:10001"),
    ("LINE_1=tcp://10.0.0.7", "LINE_1 takes tcp://HOST:PORT, serial:/PATH or blocks://HOST:PORT, not tcp://10.0.0.7"),
    ("LINE_3=blocks://a:65536", "LINE_3 takes tcp://HOST:PORT, serial:/PATH or blocks://HOST:PORT, not blocks://a:65536"),
    ("LINE_3=serial:ttyUSB0", "LINE_3 takes tcp://HOST:PORT, serial:/PATH or blocks://HOST:PORT, not serial:ttyUSB0"),
    ("LINE_2=tcp://b:1", "LINE_2 takes a link that no other line of this file has, not tcp://b:1"),
    ("LINE_3=tcp://a:1", "LINE_3 takes a link that no other line of this file has, not tcp://a:1"),
    ("LINE_9=tcp://a:1", "no setting: LINE_9=tcp://a:1"), ("TRIES=10", "TRIES takes a number from 1 to 9, not 10"),
    ("PATIENCE=60001", "PATIENCE takes a number from 1 to 60000, not 60001"), ("IMAGE=house.image", "IMAGE takes a path from / on"),
    ("BAUD=2500", "BAUD takes 300, "), ("LINE_4=tcp://a b:1", "LINE_4 takes tcp://HOST:PORT"), ("a line", "no setting: a line"),
    *((f"BAUD_1={speed}", "BAUD_1 takes 300, ") for speed in ("", "2400,", "2400,7E1", ",8N1", "fast"))])
def test_what_is_no_setting_is_named_with_its_file_and_line(house: House, line: str, says: str) -> None:
    first_line = "" if line.startswith("LINE_1") else "LINE_1=tcp://c:1"
    file = house.put("house.conf", f"# Lines\n{first_line}\nLINE_2=tcp://a:1\n\n{line}\nBAD=1\n")
    done = house.does("status")
    first, second = done.stderr.splitlines()
    assert (done.returncode, second) == (78, f"mbdc-house: {file}:6: no setting: BAD=1")
    assert first.startswith(f"mbdc-house: {file}:5: {says}")


@pytest.mark.parametrize("words, wanted", [
    ("poll", "poll IMAGE --tries 2 --line 1=tcp://127.0.0.1:1 --line 2=serial:/dev/none"), ("run script.txt", "run IMAGE script.txt"),
    ("poll --line 1=tcp://c:1 --tries 1", "poll IMAGE --line 1=tcp://c:1 --tries 1"), ("scan 1 --csv", "scan tcp://127.0.0.1:1 --csv 1")])
def test_a_command_gets_the_bus_lines_that_it_takes(house: House, words: str, wanted: str) -> None:
    assert house.does(*words.split()).stdout == wanted.replace("IMAGE", str(house.image)) + "\n"


@pytest.mark.parametrize("settings, port", [("", "2400"), ("BAUD=300", "300"), ("BAUD=300\nBAUD_1=2400,8N1", "2400 8N1"),
                                            ("BAUD_2=300", "2400"), ("BAUD=9600,8E1", "9600 8E1")])
def test_the_port_of_a_bus_line_is_set_up_by_the_settings(house: House, settings: str, port: str) -> None:
    for name in ("mbdc", "mbdc-port"):
        house.put(name, f'#!/bin/sh\necho {name} "$@" >&2\n').chmod(0o755)
    house.put("house.conf", f"IMAGE={house.image}\nLINE_1=serial:/dev/ttyUSB0\n{settings}\n")
    assert house.does("scan", "1").stderr == f"mbdc-port /dev/ttyUSB0 {port}\nmbdc scan serial:/dev/ttyUSB0\n"


def test_a_word_that_is_no_command_is_named(house: House) -> None:
    done = house.does("mistyped")
    assert (done.returncode, done.stdout) == (2, "")
    assert done.stderr == "mbdc-house: mistyped: no command; mbdc-house --help lists them\n"


def test_a_check_prints_the_settings_the_image_and_what_a_poll_would_do(house: House) -> None:
    hooks = house.folder / "after-poll.d"
    hooks.mkdir()
    (hooks / "page").symlink_to("/bin/true")
    done = house.does("check")
    assert (done.returncode, done.stderr) == (0, "")
    assert done.stdout.splitlines() == [
        f"{house.folder}/house.conf:1: IMAGE={house.image}", f"{house.folder}/house.conf:2: LINE_1=tcp://127.0.0.1:1",
        f"{house.folder}/house.conf:3: LINE_2=serial:/dev/none",
        f"in force: IMAGE={house.image} BACKUP={house.image}.backup TRIES=2 PATIENCE=6000 over tcp://, otherwise 2000",
        f"image: {house.image}: METERS 2 READINGS 3 MARK 1 COMMAND 2 ", f"the newest copy: none in {house.image}.backup",
        "poll: line 1: meters 1, tries of each 2", "poll: line 2: meters 1, tries of each 2", f"after a poll: {hooks}/page"]


def test_a_check_names_each_fault_and_ends_with_the_first(house: House) -> None:
    hooks = house.folder / "after-poll.d"
    hooks.mkdir()
    (hooks / "a.sh").symlink_to("/bin/true")
    house.put("house.conf", f"IMAGE={house.image}\nLINE_1=tcp://127.0.0.1:1\n")
    done = house.does("check", "--ports")
    assert done.returncode == 4
    assert done.stderr.splitlines() == [
        "mbdc-house: line 1: tcp://127.0.0.1:1: Connection refused",
        f"mbdc-house: {house.folder}/house.conf: no LINE_2 is set, so these meters aren't read: 12345678.PAD.01.07 ",
        f"mbdc-house: not run after a poll, for its name or as it isn't executable: {hooks}/a.sh "]
    assert house.does("check").returncode == 1


def test_a_check_opens_ports_where_it_is_asked_to(house: House) -> None:
    with socket.create_server(("127.0.0.1", 0)) as converter:
        port = converter.getsockname()[1]
        house.put("house.conf", f"IMAGE={house.image}\nLINE_1=tcp://127.0.0.1:{port}\nLINE_2=serial:/dev/none\n")
        done = house.does("check", "--ports")
    assert f"line 1: it is connected: tcp://127.0.0.1:{port}\n" in done.stdout
    assert (done.returncode, done.stderr) == (
        4, "mbdc-house: line 2: serial:/dev/none: mbdc-port: /dev/none: there is no such port; plugged in: none\n")


def test_the_next_step_is_named_where_an_image_is_refused(house: House) -> None:
    house.image.write_text("rotten\n")
    backups = house.folder / "house.image.backup"
    backups.mkdir()
    (backups / "2026-11-27.gz").touch()
    for word in ("values", "check"):
        done = house.does(word)
        assert done.returncode == 3
        assert done.stderr.splitlines()[:2] == ["mbdc: open: 1 NotImage", (
            f"mbdc-house: {house.image} doesn't open; next: mbdc-house house rescue, or mbdc-house house restore FILE; "
            f"the newest copy: {backups}/2026-11-27.gz")]


def test_restore_keeps_two_files_of_before_and_names_them(house: House) -> None:
    copy = house.put("copy", STATE.replace("READINGS 3", "READINGS 1"))
    for stamp in ("20260101T000000", "20260102T000000", "20260103T000000"):
        house.put(f"house.image.{stamp}", STATE)
        house.put(f"house.image.{stamp}.journal", "{}")
    done = house.does("restore", str(copy))
    kept = sorted(house.folder.glob("house.image.????????T??????"))
    assert done.returncode == 0 and house.image.read_text() == copy.read_text()
    assert [it.name for it in kept][0] == "house.image.20260103T000000" and len(kept) == 2
    assert [it.name for it in house.folder.glob("*.journal")] == ["house.image.20260103T000000.journal"]
    assert f"{house.image} is {copy} now; the files of before, of which 2 are kept: {kept[1]} {kept[0]}\n" in done.stderr
    assert "next: mbdc-house house poll" in done.stderr


@pytest.mark.parametrize("given, says", [
    (b"no image\n", ": it doesn't open as an image"), (b"\x1f\x8b\x08\x00cut", ": it can't be unpacked (unexpected end of file)")])
def test_a_copy_that_is_none_is_named_and_nothing_is_left_of_it(house: House, given: bytes, says: str) -> None:
    copy = house.folder / "copy"
    copy.write_bytes(given)
    for words, file in (((str(copy),), None), (("-", "my copy"), copy.open("rb"))):
        done = house.does("restore", *words, stdin=file)
        assert done.returncode in (3, 4) and f"{words[-1]}{says}" in done.stderr and f"{house.image} is as before" in done.stderr
    assert house.image.read_text() == STATE and not list(house.folder.glob("*.new"))


def test_a_folder_in_which_the_account_may_not_be_is_no_fault() -> None:
    with tempfile.TemporaryDirectory() as name:
        house, closed = House(pathlib.Path(name)), pathlib.Path(name, "closed")
        for script in ("mbdc-house", "house.sh"):
            shutil.copy(HOUSE.parent / script, name)
        closed.mkdir()
        closed.chmod(0o700)
        account = None
        if os.geteuid() == 0:
            os.chown(name, NOBODY, NOBODY)
            account = NOBODY
        done = subprocess.run(["sh", "-c", f"chmod -f 0 .; exec {name}/mbdc-house backup"], cwd=closed, capture_output=True, text=True,
                              env={"MBDC_SETTINGS": name, "PATH": f"{name}:/usr/bin:/bin"}, user=account)
        closed.chmod(0o700)
    assert (done.returncode, done.stderr) == (0, "") and done.stdout.startswith(f"{house.image}.backup/")
