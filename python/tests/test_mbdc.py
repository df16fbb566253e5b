"""Tests of the package mbdc: what no clause of the library says. Values are those of the README, put together by hand."""

import concurrent.futures
import dataclasses
import datetime
import decimal
import doctest
import pathlib
import pickle
import shutil
import subprocess
import types
import zipfile
from typing import Any, Callable

import mbdc
import mbdc._frames
import mbdc._library
import pytest
from world.frames import REQ_UD2, Identity, answer, digits, header, long_frame, short_frame

ROOT = pathlib.Path(__file__).resolve().parents[2]
TELEGRAM = ("68 1F 1F 68 08 02 72 78 56 34 12 24 40 01 07 55 00 00 00 03 13 15 31 00 DA 02 3B 13 01 8B 60 04 37 18 02 18 16")
TEXT = ("LONG 08 02 72 28\nMETER 12345678.PAD.01.07 85 0\nRECORD 0 0 0 0 13 153100 = 12.565 m3\n"
        "RECORD 5 0 0 1 3B 1301 = 0.113 m3/h\nRECORD 0 2 1 0 04 371802 = 218370 Wh\nEND\n")
HEADER = header(Identity(12345678), access=0x55)
VOLUME = bytes.fromhex("0313153100")


def record_of(data: str) -> mbdc.Record:
    """The one record of a telegram."""
    record, = mbdc.telegram(HEADER + bytes.fromhex(data)).records
    return record


def test_telegram() -> None:
    frame, = mbdc.frames(bytes.fromhex(TELEGRAM))
    assert (frame.kind, frame.control, frame.address, frame.ci, frame.at, frame.size) == ("long", 8, 2, 0x72, 0, 37)
    assert frame.fault is None and frame.telegram and frame.body == bytes.fromhex(TELEGRAM)[7:-2]
    telegram = frame.telegram
    assert telegram.meter == mbdc.Meter("12345678", "PAD", 1, "water", 7) and str(telegram.meter) == "12345678.PAD.01.07"
    assert (telegram.access, telegram.status, telegram.more, telegram.manufacturer_data, telegram.fault) == (85, 0, False, None, None)
    assert [(one.value, one.unit) for one in telegram.records] == [
        (decimal.Decimal("12.565"), "m3"), (decimal.Decimal("0.113"), "m3/h"), (decimal.Decimal("218370"), "Wh")]
    maximum = telegram.records[1]
    assert (maximum.storage, maximum.tariff, maximum.subunit, maximum.function) == (5, 0, 0, "maximum")
    assert (maximum.vib, maximum.data, maximum.reading) == (b"\x3b", b"\x13\x01", "point")


def test_values() -> None:
    assert record_of("026C 1F3C").value == datetime.date(2024, 12, 31)
    assert record_of("046D 3B173F3C").value == datetime.datetime(2025, 12, 31, 23, 59)
    assert record_of("02FD17 0B01").value == 0x010B
    assert record_of("0B13 150000").value == decimal.Decimal("0.015")
    assert record_of("0A5A 5802").value == decimal.Decimal("25.8")
    assert record_of("0178 07").data == b"\x07"


def test_endings() -> None:
    assert [(it.more, it.manufacturer_data) for it in (mbdc.telegram(HEADER + bytes.fromhex(end)) for end in (
        "1F0102", "2F2F0F", "0F2F", "2F", ""))] == [(True, b"\1\2"), (False, b""), (False, b"/"), (False, None), (False, None)]


def test_several_frames_in_any_kind_of_bytes() -> None:
    data = b"\xe5" + short_frame(REQ_UD2[0], 1) + answer(2, HEADER + VOLUME)
    wanted = mbdc.frames(data)
    assert [(it.kind, it.at, it.size) for it in wanted] == [("ack", 0, 1), ("short", 1, 5), ("long", 6, 26)]
    for given in (bytearray(data), memoryview(data), memoryview(data + b"x")[:-1], memoryview(bytes(2 * len(data)))[::2]):
        if bytes(given) == data:
            assert mbdc.frames(given) == wanted
    assert mbdc.decode(data.hex(" ")) == wanted


CUT, ENCRYPTED = HEADER + VOLUME + b"\x04\x13\x10", HEADER[:-2] + b"\x00\x05" + bytes(16)
FAULTS = [(b"", 0, "frame", 1, "Empty"), (b"\x00", 0, "frame", 2, "Start"), (bytes.fromhex("E5104005461610"), 1, "frame", 7, "Checksum"),
          (b"\xe5" + bytes.fromhex(TELEGRAM)[:20], 1, "frame", 3, "Truncated"), (b"\xe5" + answer(2, b""), 8, "body", 1, "Short"),
          (b"\xe5" + answer(2, CUT), 25, "body", 9, "Cut"), (answer(2, HEADER + b"\x2f\x2f" + CUT[-3:]), 21, "body", 9, "Cut"),
          (bytes.fromhex("68131368082B73749DDF3129DD9EBB2F1F105BE5F62D03EA16"), 15, "body", 2, "BadIdentity"),
          (answer(2, ENCRYPTED), 19, "body", 3, "Encrypted"), (answer(2, ENCRYPTED[:12] + b"\x2f" * 16), 19, "body", 3, "Encrypted")]


@pytest.mark.parametrize("data, at, place, number, name", FAULTS, ids=[it[-1] for it in FAULTS])
def test_a_fault_has_its_byte_number_and_name(data: bytes, at: int, place: str, number: int, name: str) -> None:
    with pytest.raises(mbdc.TelegramFault) as raised:
        mbdc.frames(data)
    for fault in (raised.value, pickle.loads(pickle.dumps(raised.value))):
        assert (fault.at, fault.place, fault.number, fault.name) == (at, place, number, name)
    assert str(raised.value) == f"byte {at}: {place} fault {number} {name}"


def test_c_says_the_same_of_faults(tmp_path: pathlib.Path) -> None:
    library, program = pathlib.Path(mbdc._library._path()), tmp_path / "readings"
    if not library.exists() or not shutil.which("gcc"):
        pytest.skip("gcc, and a library that tools/library makes")
    subprocess.run(["gcc", f"-I{ROOT}/library", ROOT / "library/readings.c", library, f"-Wl,-rpath,{library.parent}", "-o", program], check=True)
    for data, _, place, number, name in FAULTS[1:]:  # (of no byte C says that nothing comes)
        said = subprocess.run([program], input=data.hex(), capture_output=True, text=True, check=True).stdout.splitlines()
        assert (f"none\t{name}" if place == "frame" else str(16 + number)) in said


def test_javascript_says_the_same_of_faults() -> None:
    module = pathlib.Path(mbdc._library._path()).with_name("npm") / "mbdc.mjs"
    if not module.exists() or not shutil.which("node"):
        pytest.skip("node, and the package for npm of tools/library")
    script = f"""const {{ frames }} = await import("{module}");
for (const digits of {[it[0].hex() for it in FAULTS]})
  try {{
    frames(Uint8Array.from(digits.match(/../g) ?? [], (it) => parseInt(it, 16)));
  }} catch (fault) {{
    console.log(fault.message, fault.fault);
  }}
try {{ frames("E5"); }} catch (fault) {{ console.log(String(fault)); }}"""
    done = subprocess.run(["node", "--input-type=module", "--eval", script], capture_output=True, text=True, check=True)
    wanted = [f"byte {at}: {place} fault {number} {name} {name}" for _, at, place, number, name in FAULTS]
    assert done.stdout.splitlines() == [*wanted, "TypeError: frames takes a Uint8Array"]


@pytest.mark.parametrize("body, at, name, values", [(CUT, 17, "Cut", ["12.565"]), (ENCRYPTED, 12, "Encrypted", []), (b"", 0, "Short", []),
                                                    (HEADER[:5], 5, "Short", [])])
def test_not_strictly_a_fault_comes_with_the_records_before_it(body: bytes, at: int, name: str, values: list[str]) -> None:
    with pytest.raises(mbdc.TelegramFault, match=f"byte {at}: body fault . {name}"):
        mbdc.telegram(body)
    for found in (mbdc.telegram(body, strict=False), mbdc.frames(answer(2, body), strict=False)[0].telegram):
        assert found and found.fault and found.fault.name == name and [str(it.value) for it in found.records] == values
        assert found.headline == ()


def test_not_strictly_bytes_that_are_no_frame_are_in_their_place() -> None:
    found = mbdc.frames(bytes.fromhex("E5 1040054616 E5"), strict=False)
    assert [(it.kind, it.at, it.size, it.fault and it.fault.name) for it in found] == [
        ("ack", 0, 1, None), ("none", 1, 5, "Checksum"), ("ack", 6, 1, None)]
    assert mbdc.frames(b"", strict=False) == ()


def test_a_body_after_another_ci_field_is_no_telegram() -> None:
    frame, = mbdc.frames(long_frame(0x53, 1, 0x51, b"\x01"))
    assert frame.telegram is None and frame.fault is None and frame.body == b"\x01"
    with pytest.raises(ValueError, match="CI 51h"):
        mbdc.telegram(b"\x01", 0x51)
    with pytest.raises(ValueError, match="no CI field is 100h"):
        mbdc.telegram(b"\x01", 256)


@pytest.mark.parametrize("call, given, says", [
    (mbdc.decode, b"E5", "mbdc.frames takes bytes"), (mbdc.decode_text, b"E5", "mbdc.frames takes bytes"),
    (mbdc.decode_json, b"E5", "mbdc.frames takes bytes"), (mbdc.frames, "E5", "mbdc.decode takes hex digits"),
    (mbdc.frames, None, "not NoneType"),
    (mbdc.telegram, "00", "mbdc.decode takes hex digits"), (mbdc.frames, [0xE5], "not list")])
def test_another_type_is_told_what_to_call(call: Callable[[Any], object], given: object, says: str) -> None:
    with pytest.raises(TypeError, match=says):
        call(given)


@pytest.mark.parametrize("wrong", ["XY", "1", "\ud800", "<script>"])
def test_what_is_no_hex_digit_is_refused(wrong: str) -> None:
    with pytest.raises(ValueError):
        mbdc.decode(wrong)
    assert mbdc.decode_text(wrong) == "HEX FAULT\n"


def test_text() -> None:
    assert mbdc.decode_text(TELEGRAM) == TEXT
    assert mbdc.decode_text("") == ""


def test_a_text_longer_than_the_first_room() -> None:
    lines = 3000
    assert mbdc.decode_text(f"{TELEGRAM}\n" * lines) == TEXT * lines
    assert mbdc.decode_text(TELEGRAM) == TEXT


def test_threads() -> None:
    inputs = [f"{digits(short_frame(REQ_UD2[0], address))}\n" * (1 + address) for address in range(200)]
    data = [answer(address, HEADER + VOLUME * address) for address in range(40)]
    with concurrent.futures.ThreadPoolExecutor(8) as pool:
        texts = list(pool.map(mbdc.decode_text, inputs * 20))
        found = list(pool.map(mbdc.frames, data * 20))
    assert texts == [f"SHORT 5B {address:02X}\n" * (1 + address) for address in range(200)] * 20
    assert [(it.address, len(it.telegram.records)) for it, in found if it.telegram] == [(address, address) for address in range(40)] * 20


def test_frozen() -> None:
    frame, = mbdc.decode("E5")
    with pytest.raises(dataclasses.FrozenInstanceError):
        frame.kind = "short"  # type: ignore[misc]


def test_no_library(monkeypatch: pytest.MonkeyPatch) -> None:
    monkeypatch.setenv("MBDC_LIBRARY", "/nonexistent/libmbdc.so.0")
    with pytest.raises(mbdc.LibraryFault, match="MBDC_LIBRARY"):
        mbdc._library._load()


@pytest.mark.parametrize("module", [mbdc, mbdc._library, mbdc._frames])
def test_examples(module: types.ModuleType) -> None:
    assert doctest.testmod(module).failed == 0


def test_a_wheel_has_the_package_and_its_metadata(tmp_path: pathlib.Path) -> None:
    tried = [subprocess.run([it, "-c", "import setuptools, wheel"], capture_output=True) for it in ("python3", "/usr/bin/python3")]
    if all(it.returncode for it in tried):
        pytest.skip("setuptools and wheel")
    subprocess.run([ROOT / "tools/library", "--pure", tmp_path], check=True)
    made, = tmp_path.iterdir()
    assert made.name == f"mbdc-{mbdc.__version__}-py3-none-any.whl"
    with zipfile.ZipFile(made) as wheel:
        names = {name.removeprefix(f"mbdc-{mbdc.__version__}.") for name in wheel.namelist()}
        assert names == {*(f"mbdc/{name}" for name in ("__init__.py", "_frames.py", "_library.py", "py.typed")),
                         *(f"dist-info/{name}" for name in ("METADATA", "RECORD", "WHEEL", "top_level.txt"))}
