"""Cases of demo/losses: images that are replaced or that an older version wrote, and output that nobody takes."""

import fcntl
import functools
import os
import pathlib
import re
import resource
import shutil
import subprocess
from typing import Any

from world.audit_page import EXAMPLE
from world.box import readings_of
from world.cases import Case, Failed, wants
from world.frames import Identity
from world.gateways import TransparentGateway, serve

ROOT = pathlib.Path(__file__).resolve().parent.parent
METER, SECTORS, LARGEST = str(Identity(12345678)), "131", "131075"
FIT = f"OFFICE 1 FIT {METER} 1 1 A1\n"
LENGTH = 512 * int(SECTORS)
ROOM = 48 << 20  # bytes; the file of the largest image has 64 MiB
GIVEN_UP, MARGIN = 5, 10  # seconds


class Program:
    """Runs the program in a folder."""

    def __init__(self, path: pathlib.Path, folder: pathlib.Path) -> None:
        self.path, self.folder = path, folder

    @functools.cached_property
    def shim(self) -> str:
        """A library that stands for a drive and fails a sync (demo/failing_sync.c)."""
        source, library = ROOT / "demo/failing_sync.c", f"{self.folder}/failing_sync.so"
        subprocess.run(["gcc", "-shared", "-fPIC", "-O1", "-w", "-o", library, source], check=True)
        return library

    def start(self, *words: str, stderr: Any = subprocess.PIPE, **how: Any) -> "subprocess.Popen[bytes]":
        return subprocess.Popen([self.path, *words], cwd=self.folder, stderr=stderr, **how)

    def run(self, *words: str, seconds: float = 60, **how: Any) -> tuple[int, str]:
        """Its status, and the line on standard error."""
        with self.start(*words, stdout=subprocess.DEVNULL, **how) as process:
            try:
                _, line = process.communicate(timeout=seconds)
            except subprocess.TimeoutExpired:
                process.kill()
                raise Failed(f"{words[0]} hasn't ended after {seconds} s") from None
        return process.returncode, line.decode()

    def answers(self, wanted: tuple[int, str], *words: str, **how: Any) -> None:
        status, line = self.run(*words, **how)
        wants((status, line) == wanted, f"{' '.join(words)[:60]}: status {status}, {line.strip()[:60] or 'no line'}")

    def shown(self, *words: str, **env: object) -> tuple[str, str, int]:
        """What a run prints, its line on standard error and its status."""
        how: dict[str, Any] = {"cwd": self.folder, "capture_output": True, "text": True, "timeout": 60}
        how["env"] = {**os.environ, **{name: str(value) for name, value in env.items()}}
        ended = subprocess.run([self.path, *words], **how)
        return ended.stdout, ended.stderr, ended.returncode

    def failing(self, *words: str, **env: object) -> tuple[str, str, int]:
        """The same beside a drive, or a clock, that fails as `env` says."""
        return self.shown(*words, LD_PRELOAD=self.shim, **env)

    def formats(self, name: str = "house.image") -> None:
        self.answers((0, ""), "format", name, SECTORS)

    def fits(self, name: str = "day.txt") -> None:
        """An image with the meter in its register."""
        self.formats()
        self.answers((0, ""), "run", "house.image", script(self.folder, FIT, name))

    def holds_a_meter(self, name: str) -> bool:
        """Whether it is an image with the meter in its register."""
        printed = subprocess.run([self.path, "report", name, "register"], cwd=self.folder, capture_output=True)
        return METER.encode() in printed.stdout


def script(folder: pathlib.Path, text: str, name: str = "day.txt") -> str:
    (folder / name).write_text(text)
    return name


# Polls


def bus_of(program: Program, folder: pathlib.Path, count: int) -> str:
    """The link of a bus with that many meters, which the image has."""
    gateway = serve(count)
    program.formats()
    rows = "".join(f"{it.name},1,{it.address},{it.flat}\n" for it in gateway.bus.meters)
    (folder / "meters.csv").write_text("meter,line,address,flat\n" + rows)
    wants(program.run("fit", "house.image", "meters.csv") == (0, ""), "the list isn't done")
    return f"1={gateway.link}"


def readings_in(program: Program, image: str = "house.image") -> int:
    text = program.shown("inspect", image)[0]
    return next((int(line.split()[1]) for line in text.splitlines() if line.startswith("READINGS")), -1)


def a_poll_into_a_replaced_image_stops(program: Program, folder: pathlib.Path) -> None:
    """Another file gets the image's name, or none has it, or a copy is written over it: no reading is told that is in no file
    with a name, and the copy stays as it is."""
    count = 100  # a poll of a few is over before the file is another one
    for how in ("renamed", "removed", "overwritten"):
        link = bus_of(program, folder, count)
        copy = (folder / "house.image").read_bytes()
        with program.start("poll", "house.image", "--line", link, stdout=subprocess.PIPE) as polling:
            assert polling.stdout and polling.stderr
            first = polling.stdout.readline()
            if how == "renamed":
                (folder / "copy").write_bytes(copy)
                (folder / "copy").rename(folder / "house.image")
            elif how == "removed":
                (folder / "house.image").unlink()
            else:
                (folder / "house.image").write_bytes(copy)
            rest, line = polling.stdout.read(), polling.stderr.read()
        wants(first.startswith(b"READ"), f"the first line is {first!r}")
        wants(polling.returncode == 3 and b"mbdc: disk: 1 Device" in line, f"status {polling.returncode}, {line!r}")
        wants(rest.count(b"READ") < count - 1, f"all was told to be read: {rest!r}")
        wants(how == "removed" or (folder / "house.image").read_bytes() == copy, f"{how}: the copy was written")
        (folder / "house.image").unlink(missing_ok=True)


def a_poll_outlives_its_output(program: Program, folder: pathlib.Path) -> None:
    """A pipe that nobody empties, and a log that is as long as a file may be."""
    link = bus_of(program, folder, 3)
    reading, writing = os.pipe()
    flags = fcntl.fcntl(writing, fcntl.F_GETFL)
    fcntl.fcntl(writing, fcntl.F_SETFL, flags | os.O_NONBLOCK)
    try:
        while True:
            os.write(writing, bytes(4096))
    except BlockingIOError:
        fcntl.fcntl(writing, fcntl.F_SETFL, flags)
    words = ("poll", "house.image", "--line", link)
    with program.start(*words, stdout=writing) as polling:
        _, line = polling.communicate(timeout=GIVEN_UP + MARGIN)
    wants((polling.returncode, line) == (4, b"mbdc: file: -\n"), f"status {polling.returncode}, {line!r}")
    wants(readings_in(program) == 3, f"{readings_in(program)} of 3 readings")
    os.close(reading)
    os.close(writing)
    (folder / "house.image").unlink()
    link = bus_of(program, folder, 3)
    (folder / "log").write_bytes(bytes(LENGTH))
    with open(folder / "log", "ab") as log, program.start(*words[:3], link, stdout=log, preexec_fn=lambda: limited(LENGTH)) as polling:
        polling.communicate(timeout=MARGIN)
    wants(polling.returncode == 4, f"a full log: status {polling.returncode}")
    wants(readings_in(program) == 3, f"a full log: {readings_in(program)} of 3 readings")


def a_full_log_is_named(program: Program, folder: pathlib.Path) -> None:
    """What is printed into a log that is as long as a file may be; and a trace without room for a line, which stops nothing."""
    link = bus_of(program, folder, 2)[2:]
    meter = (folder / "meters.csv").read_text().splitlines()[1].split(",")[0]
    (folder / "register").write_text("OFFICE REGISTER\n")
    (folder / "numbers").write_text(EXAMPLE)
    patience = ["--patience", "300"]
    for words in (["run", "house.image", "register"], ["fit", "house.image", "meters.csv"], ["scan", link, *patience],
                  ["read", link, meter, *patience], ["decode", "numbers"], ["audit", "numbers"], ["inspect", "house.image"]):
        for stream, said in ((subprocess.PIPE, b"mbdc: file: -\n"), (subprocess.STDOUT, None)):
            (folder / "log").write_bytes(bytes(LENGTH - 5))
            with open(folder / "log", "ab") as log, program.start(*words, stdout=log, stderr=stream, preexec_fn=lambda: limited(LENGTH)) as ran:
                _, line = ran.communicate(timeout=60)
            wants((ran.returncode, line) == (4, said), f"{words[0]}: status {ran.returncode}, {line!r}")
            wants((folder / "log").stat().st_size == LENGTH, f"{words[0]}: the log isn't full")
    for trace in ("trace.txt", "-"):
        with open(folder / "errors", "wb") as errors:
            ran = program.start("scan", link, "--trace", trace, *patience, stdout=subprocess.PIPE, stderr=errors,
                                preexec_fn=lambda: limited(1500))
            text, _ = ran.communicate(timeout=60)
        said, lines = (folder / "errors").read_bytes(), (folder / "errors" if trace == "-" else folder / trace).read_bytes()
        wants(ran.returncode == 0 and b"FOUND" in text, f"a full trace: status {ran.returncode}, {text!r}")
        wants(trace == "-" or said.count(b"mbdc: trace: trace.txt: File too large\n") == 1, f"of a full trace is said: {said!r}")
        wants(800 < len(lines) <= 1500 and lines.endswith(b"\n"), f"a full trace has {len(lines)} bytes")


def limited(length: int) -> None:
    """No file of this process gets longer."""
    resource.setrlimit(resource.RLIMIT_FSIZE, (length, length))


def a_look_takes_the_memory_of_the_state(program: Program, folder: pathlib.Path) -> None:
    """And not that of the file, which is larger than what the look may take."""
    wants(program.run("format", "large.image", LARGEST) == (0, ""), "no image of that size")

    def limit() -> None:
        resource.setrlimit(resource.RLIMIT_AS, (ROOM, ROOM))

    for words in (["inspect"], ["values"], ["status"], ["report"]):
        ended, text = program.run(*words, "large.image", *(["register"] if words == ["report"] else []), preexec_fn=limit)
        wants(ended == 0, f"{words[0]}: status {ended}, {text!r}")


# What 0.2.0 wrote (tests/upgrade/make)

PRINTED_AT = "1794895200"  # when 0.2.0 looked at its images
# 0.2.0 printed the last telegram in the journal of a meter whose readings are all confirmed
CONFIRMED = re.compile(r"(METER \S+ \S+ \S+ )\d+ \S+ JOURNAL\n(?:.*\n){3}")
MOVE = "MOVE 08470054.PAD.3A.07 C9"  # the last command of the house, which the power cut broke off


def box_of_0_2_0(program: Program, folder: pathlib.Path) -> TransparentGateway:
    """Unpacks the box, and starts its meters."""
    shutil.unpack_archive(ROOT / "tests/upgrade/0.2.0.tar.xz", folder)
    (folder / "mbdc").symlink_to(program.path)
    return serve(6)


def ends_as(wanted: int, folder: pathlib.Path, *words: str, given: str = "") -> str:
    """What a program that ends with that status prints on both streams, by the settings in the folder."""
    environment = {"PATH": f"{folder}:{ROOT}/packaging:/usr/bin:/bin", "MBDC_SETTINGS": str(folder)}
    done = subprocess.run(words, cwd=folder, env=environment, input=given, text=True, stdout=subprocess.PIPE, stderr=subprocess.STDOUT)
    wants(done.returncode == wanted, f"{words}: status {done.returncode}, {done.stdout}")
    return done.stdout


def looks_at_older_images_print_the_same(program: Program, folder: pathlib.Path) -> None:
    """Each look at an image of 0.2.0 prints what 0.2.0 printed, but no value of a meter whose readings are all confirmed."""
    box_of_0_2_0(program, folder)
    for name in ("house", "full", "cut"):
        for look, wanted in re.findall(r"(?m)^\$ (.*)\n((?:[^$].*\n)*)", (folder / f"{name}.txt").read_text()):
            verb, *words = look.split()
            text, line, _ = program.failing(verb, f"{name}.image", *words, CLOCK=PRINTED_AT)
            wants((text, line) == (CONFIRMED.sub(r"\1NONE\n", wanted), ""), f"{look} of {name}: {text!r}, {line!r}")


def older_settings_are_taken_or_named(program: Program, folder: pathlib.Path) -> None:
    """Each setting of the package of 0.2.0 is taken. A line that isn't taken any more is named."""
    box_of_0_2_0(program, folder)
    file, check = folder / "house.conf", ("mbdc-house", "house", "check")
    settings = re.sub("(?m)^#(?=[A-Z])", "", file.read_text()).replace("/var/lib/mbdc", str(folder))
    file.write_text(settings)
    text = ends_as(0, folder, *check)
    leads_to = ["meters 5, tries of each 2", "MARK 10 COMMAND 8 ", *re.findall("(?m)^[A-Z].*=.*", settings)]
    wants(all(f"{it}\n" in text for it in leads_to), f"check: {text}")
    gone = ["LINE_3=tcp://192.0.2.10:10001", "LINE_4=serial:ttyUSB0", "BAUD_4=57600"]
    file.write_text("\n".join([settings, *gone]))
    named = [(line.split()[2], line.split()[-1]) for line in ends_as(78, folder, *check).splitlines()]
    wants(named == [(it.partition("=")[0], it.partition("=")[2]) for it in gone], f"named: {named}")


def an_older_house_goes_on(program: Program, folder: pathlib.Path) -> None:
    """Polls, the office, compactions and restore go on over the image, journal, identity and copies of 0.2.0."""
    gateway = box_of_0_2_0(program, folder)
    (folder / "house.conf").write_text(f"IMAGE={folder}/house.image\nLINE_1={gateway.link}\nPATIENCE=1000\n")
    house = ("mbdc-house", "house")
    wants("END 5 0\n" in ends_as(0, folder, *house, "poll") and "NONE" not in ends_as(0, folder, *house, "values"), "the poll")
    box, held = ((folder / f"house.{name}").read_text().partition(end)[0] for name, end in (("office", "READING"), ("readings", "END")))
    text = ends_as(0, folder, "office-line", "house", given=f"{box}WINDOW 11 100\n9 CONFIRM 22\nJOURNAL 7\nEND\n")
    wants(text.startswith(f"{box}{held}READING 18 ") and text.endswith(f"COMMAND 8 {MOVE}\nCOMMAND 9 CONFIRM 22\nEND 3\n"), text)
    sent = {body for meter in gateway.bus.meters for readout in meter.readouts for body in readout.bodies}
    wants(sent >= {body for it in readings_of(text.splitlines()) if it.number > 17 for body in it.bodies}, text)
    moves = "".join(f"OFFICE {number} {MOVE}{number}\n" for number in range(10, 60))  # a half hasn't room for so many
    wants(ends_as(0, folder, *house, "run", "-", given=moves).endswith("OK 59\n"), "a compaction")
    copies = [(ends_as(0, folder, *house, "backup").strip(), "READINGS 0 MARK 22 COMMAND 59", True),
              ("house.image.backup/2026-10-05.gz", "READINGS 7 11 17 MARK 10 COMMAND 7", False)]
    for copy, state, is_same in copies:
        wants(f"now: METERS 5 {state} \n" in ends_as(0, folder, *house, "restore", copy), f"{copy} isn't restored")
        wants((ends_as(0, folder, "office-line", "house", given="BOX ?\nEND\n") == box) == is_same, f"the identity of {copy}")
        wants("END 5 0\n" in ends_as(0, folder, *house, "poll"), f"the poll over {copy}")


def older_images_go_on_where_they_stopped(program: Program, folder: pathlib.Path) -> None:
    """A full image of 0.2.0 takes readings once some are confirmed. A command that a power cut broke off is done again."""
    poll = ("mbdc", "poll", "full.image", "--line", f"1={box_of_0_2_0(program, folder).link}", "--patience", "1000")
    windows = [f"OFFICE WINDOW {number} 100\n" for number in (11, 111, 211)]
    wants("3 Full\n" in ends_as(1, folder, *poll), "a full image takes a reading")
    held = (folder / "full.readings").read_text()
    wants(ends_as(0, folder, "mbdc", "run", "full.image", script(folder, "".join(windows))) == held, "the readings of the full image")
    ends_as(0, folder, "mbdc", "run", "full.image", script(folder, "OFFICE 6 CONFIRM 100\n"))
    wants("END 5 0\n" in ends_as(0, folder, *poll), "the poll")
    text = ends_as(0, folder, "mbdc", "run", "cut.image", script(folder, f"OFFICE 8 {MOVE}\n{windows[0]}OFFICE REGISTER\n"))
    held = (folder / "house.readings").read_text().partition("END 0")[0]
    wants(text.startswith(f"OK 8\n{held}METER 08470054.PAD.3A.07 1 S C9 0\n"), f"after the cut: {text}")


def cases_in(names: dict[str, Any]) -> list[Case]:
    """Of these the functions that take a program and its folder, and return nothing."""
    of_a_case = {"program": Program, "folder": pathlib.Path, "return": None}
    return [it for it in names.values() if getattr(it, "__annotations__", None) == of_a_case]
