"""Each code, record, body and headline of the tables beside this file is read as its row says, by both ways."""

import decimal
import itertools
import json
import pathlib
import re
from typing import Any, Dict, Iterator, List, Optional, Tuple

import pytest

import mbdc
from world.frames import RSP_UD, answer, long_frame
from world.said import frame_object, same_object

HEADER = bytes.fromhex("785634122440010755000000")  # 12345678.PAD.01.07
FIELDS = ("quantity", "qualifiers", "reading", "value", "unit", "type", "error", "phase", "direction", "maker", "label", "summer_time")
SENT = ("storage", "subunit", "vib", "data", "quantity", "qualifiers", "reading", "value", "unit", "error")


def rows_of(name: str) -> List[List[str]]:
    text = pathlib.Path(__file__).with_name(name).read_text(encoding="ascii")
    return [line.split("\t") for line in text.splitlines() if not line.startswith("#")]


# Of the value information before a code: data fields, their data and what these are
DATA: Dict[str, List[Tuple[str, str, str]]] = {
    "": [("04", "10000000", "16"), ("05", "0000C03F", "1.5")], "FB": [("04", "10000000", "16")],
    "FD": [("04", "0B0BCD13", "332204811"), ("02", "9F2C", "11423"), ("0D", "0431204241", "AB 1")]}
REAL, TEXT = "05", "0D"


def read_as(field: str, data: str, value: str, unit: str, power: int, kind: str) -> List[str]:
    """How a record is read: reading, value, unit and type."""
    if kind == "other" or field == TEXT and kind != "text":
        return ["other", "-", "-", "-"]
    if kind == "flags":
        return ["plain", bytes.fromhex(data)[::-1].hex().upper(), "flags", "flags"]
    if field == TEXT:
        return ["plain", value, "-", "text"]
    return ["point" if kind == "point" and field != REAL else "plain", f"{decimal.Decimal(value).scaleb(power):f}", unit, "number"]


def codes_of(cell: str) -> Iterator[str]:
    """The codes of a cell: single ones, and of several the first and the last byte."""
    for part in cell.split(","):
        first, _, last = part.partition("-")
        for byte in range(int(first[-2:], 16), int(last or first[-2:], 16) + 1):
            yield f"{first[:-2]}{byte:02X}"


def rows_of_codes(row: List[str]) -> Iterator[List[str]]:
    """The rows of readings that a row of codes is."""
    codes, quantity, units, power, kind = row
    of_codes = units.split("|")
    for n, code in enumerate(codes_of(codes)):
        unit, grown = (of_codes[n], 0) if len(of_codes) > 1 else (units, n)
        for field, data, value in DATA[code[:-2]]:
            reading, *others = read_as(field, data, value, unit, int(power) + grown, kind)
            yield [f"{field}{code}{data}", quantity, "-", reading, *others, *"------"]


# A volume and an energy with a VIFE: what is before and after it, the quantity, the number, its power of ten, the unit, and the data as a
# moment: value, unit, type, and whether it is summer time
WITH_VIFE = [("0493", "0B0BCD13", "volume", 332204811, -3, "m3", ["2014-03-13T11:11", "-", "minute", "false"]),
             ("0285", "BF1C", "energy", 7359, 2, "Wh", ["2013-12-31", "-", "date", "-"])]


def rows_of_vifes(row: List[str]) -> Iterator[List[str]]:
    """The rows of readings that a row of VIFEs is."""
    codes, name, parts, units, kind = row
    for code, part, unit in zip(codes_of(codes), itertools.cycle(parts.split("|")), itertools.cycle(units.split("|"))):
        for before, after, quantity, number, power, base, moment in WITH_VIFE:
            scaled = decimal.Decimal(number).scaleb(power + int(part if kind == "power" else 0))
            value, of, type_, summer = {
                "moment": moment, "count": [str(number), "-", "number", "-"], "time": [str(number), part, "number", "-"],
                "error": list("----"), "other": list("----"),
            }.get(kind, [f"{scaled:f}", base + unit.strip("-"), "number", "-"])
            said = name.format(part)
            yield [f"{before}{code}{after}", quantity, said, "other" if kind == "other" else "qualified", value, of, type_,
                   said if kind == "error" else "-", *"----", summer]


READINGS = [*rows_of("readings.tsv"), *(made for row in rows_of("codes.tsv") for made in rows_of_codes(row)),
            *(made for row in rows_of("vifes.tsv") for made in rows_of_vifes(row))]
# Units of fixed data (EN 13757-3): the code of the first of nine, quantity, unit, and its power of ten
NINE = [(2, "energy", "Wh", 0), (11, "energy", "J", 3), (20, "power", "W", 0), (29, "power", "J/h", 3), (38, "volume", "m3", -6),
        (47, "volume_flow", "m3/h", -6)]
FIXED = {**{first + n: (quantity, unit, power + n) for first, quantity, unit, power in NINE for n in range(9)},
         56: ("temperature", "C", -3), 57: ("heat_cost_allocation", "HCA", 0), 63: ("dimensionless", "-", 0)}


def fixed_row(status: int, code: int) -> List[str]:
    """A frame of fixed data of water whose counters have a unit, and what it says: counters are binary by the first bit of the
    status, and both of a due date by the second; otherwise the second one has the unit of the first, of its due date."""
    units, dated = (0xC0 | code, 0x40 | code if status & 2 else 0x7E), status >> 1 & 1
    body = bytes([*bytes.fromhex("7856341207"), status, *units, *bytes.fromhex("0100000035010000")])
    quantity, unit, power = FIXED.get(code, ("reserved", "-", 0))
    records = []
    for storage, byte, data, count in ((dated, units[0], "01000000", 1), (1, units[1], "35010000", 309 if status & 1 else 135)):
        value = f"plain,{decimal.Decimal(count).scaleb(power):f}" if code in FIXED else "other,-"
        records.append(f"{storage},0,{byte:02X},{data},{quantity},-,{value},{unit},-")
    frame = long_frame(RSP_UD, 1, 0x73, body).hex().upper()
    return [frame, "fixed", "12345678 water", "7", "0", "-", " ".join(records), "-", "fixed data (CI 73): not registered"]


CONTENTS = [*rows_of("contents.tsv"), *(fixed_row(status, code) for status in range(4) for code in range(64))]
# The VIFEs of a volume with which a meter stands at it, and their powers of ten (Headline in docs/JSON.md)
CORRECTED = {0x00: 0, 0x3A: 0, 0x3B: 0, 0x3E: 0, **{0x70 + n: n - 6 for n in range(8)}, 0x7D: 3}
OF_VIFES = [[f"{HEADER.hex()}0493{vife:02X}0B0BCD13", f"0:332204811e{CORRECTED[vife] - 3}:m3" if vife in CORRECTED else "-"]
            for vife in range(128)]
# A water meter stands at each volume that is a current one and has no VIFE, or several that multiply it
OTHERWISE = re.compile("(^|; )(?!-|multiplicative|multiplied by 1000)")
OF_VOLUMES = [[f"{HEADER.hex()}{record}", "-" if value == "-" or OTHERWISE.search(vifes) else f"0:{value}:{unit}"]
              for record, quantity, vifes, _, value, unit, kind, *_ in READINGS
              if quantity == "volume" and (";" in vifes or (vifes, kind) == ("-", "number")) and int(record[:2], 16) < 0x10]
HEADLINES = [*rows_of("headlines.tsv"), *OF_VIFES, *OF_VOLUMES]


def wanted_of(field: str, cell: str) -> object:
    """A cell as JSON has it."""
    if field == "qualifiers":
        return [] if cell == "-" else cell.split("; ")
    if cell == "-":
        return None
    if field == "summer_time":
        return {"true": True, "false": False}[cell]
    shown: str = json.loads(f'"{cell}"')
    return shown


@pytest.mark.parametrize("row", READINGS, ids=[row[0] for row in READINGS])
def test_a_record_is_read_as_its_row_says(row: List[str]) -> None:
    record, *cells = row
    found: Dict[str, Any] = json.loads(mbdc.decode_json(answer(1, HEADER + bytes.fromhex(record)).hex()))["records"][0]
    assert {field: found[field] for field in FIELDS} == {field: wanted_of(field, cell) for field, cell in zip(FIELDS, cells)}


FRAMES = [*(answer(1, HEADER + bytes.fromhex(row[0])) for row in READINGS), *(bytes.fromhex(row[0]) for row in CONTENTS)]


@pytest.mark.parametrize("frame", FRAMES, ids=[frame.hex() for frame in FRAMES])
def test_values_are_those_of_json_to_the_last_digit(frame: bytes) -> None:
    found, = mbdc.frames(frame, strict=False)
    assert frame_object(found) == same_object(json.loads(mbdc.decode_json(frame.hex())))


def cell_of(value: object) -> str:
    return "-" if value is None else str(value)


def meter_of(meter: Optional[Dict[str, Any]]) -> str:
    """A meter as a cell has it; fixed data have no identity."""
    return "-" if meter is None else meter["id"] or f"{meter['number']} {meter['medium']}"


def sent_of(record: Dict[str, Any]) -> str:
    cells = {**record, "qualifiers": ";".join(record["qualifiers"]) or None}
    return ",".join(cell_of(cells[field]) for field in SENT).replace(" ", "_")


@pytest.mark.parametrize("row", CONTENTS, ids=[row[0] for row in CONTENTS])
def test_a_body_says_what_its_row_says(row: List[str]) -> None:
    frame, *cells = row
    found = json.loads(mbdc.decode_json(frame))["content"]
    assert list(found) == ["structure", "meter", "access", "status", "security", "records", "more", "manufacturer_data", "fault", "reason"]
    security = found["security"] and "|".join(cell_of(value) for value in found["security"].values())
    status, fault = found["status"] and found["status"]["code"], found["fault"] and found["fault"]["name"]
    assert cells == [found["structure"], meter_of(found["meter"]), cell_of(found["access"]), cell_of(status), cell_of(security),
                     " ".join(map(sent_of, found["records"])) or "-", cell_of(fault), cell_of(found["reason"])]


@pytest.mark.parametrize("row", HEADLINES, ids=[row[0] for row in HEADLINES])
def test_a_meter_stands_at_what_its_row_says(row: List[str]) -> None:
    body, cell = row
    wanted = [] if cell == "-" else [value.split(":") for value in cell.split(" ")]
    found = [(record.tariff, record.value, record.unit) for record in mbdc.telegram(bytes.fromhex(body), strict=False).headline]
    assert found == [(int(tariff), decimal.Decimal(value), unit) for tariff, value, unit in wanted]
