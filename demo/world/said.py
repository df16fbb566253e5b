"""The lines of `mbdc decode` and `mbdc poll` that say what an object of their `--json`, or of the web page, says; and what the Python
package says, as these objects do."""

import datetime
from collections.abc import Iterator
from typing import Any, Optional

FUNCTIONS = ("instantaneous", "maximum", "minimum", "error state")

Object = dict[str, Any]

REPORTED = ("moment", "utc", "status", "headline", "values", "also")  # of a reading's telegrams


def value_of(record: Object) -> str:
    """What is after `=` in the line of a record."""
    if record["reading"] != "point":
        return "other"
    if record["value"] is None:
        return "none"
    return f"{record['value']} {record['unit']}" if record["unit"] else str(record["value"])


def telegram_lines(found: Object) -> Iterator[str]:
    yield f"METER {found['meter']['id']} {found['access']} {found['status']['code']}"
    for one in found["records"]:
        about = f"{one['storage']} {one['tariff']} {one['subunit']} {FUNCTIONS.index(one['function'])}"
        yield f"RECORD {about} {one['vib'] or '-'} {one['data'] or '-'} = {value_of(one)}"
    rest = found["manufacturer_data"]
    yield "END" if rest is None else f"{'MORE' if found['more'] else 'LAST'} {len(rest) // 2}"


def fault_line(fault: Object) -> str:
    is_hex = fault["kind"] == "hex"
    return "HEX FAULT" if is_hex else f"{fault['kind'].upper()} FAULT {fault['number']} {fault['name']}"


def lines_of(found: Object) -> Iterator[str]:
    """The lines that say what an object says; a long frame's without the body's length."""
    if found["frame"] == "ack":
        yield "ACK"
    elif found["frame"] != "none":
        ci = f" {found['ci']:02X}" if "ci" in found else ""
        yield f"{found['frame'].upper()} {found['control']:02X} {found['address']:02X}{ci}"
    if "fault" in found:
        yield fault_line(found["fault"])
    if "meter" in found:
        yield from telegram_lines(found)


def without_length(line: str) -> str:
    """A long frame's line without the body's length."""
    return " ".join(line.split()[:4]) if line.startswith("LONG") else line


def value_text(record: Any) -> Optional[str]:
    """The text in JSON of the value of the package's record."""
    value = record.value
    if value is None or isinstance(value, str):
        return value
    if isinstance(value, int):
        return f"{value:0{2 * len(record.data)}X}"
    if isinstance(value, datetime.datetime):
        return value.isoformat(timespec="minutes" if record.type == "minute" else "seconds")
    return value.isoformat() if isinstance(value, (datetime.date, datetime.time)) else f"{value:f}"


def record_object(record: Any) -> Object:
    """The object in JSON of the package's record."""
    sent = {name: getattr(record, name) for name in ("vib", "data", "maker")}
    bytes_of = {name: found if found is None else found.hex().upper() for name, found in sent.items()}
    return {**vars(record), **bytes_of, "qualifiers": list(record.qualifiers), "value": value_text(record)}


def frame_object(frame: Any) -> Object:
    """What the package's frame says, by the names of JSON."""
    found: Any = frame.telegram
    meter = found and found.meter and {**vars(found.meter), "id": str(found.meter) if found.meter.manufacturer else None}
    fault = frame.fault and {"kind": frame.fault.place, "number": frame.fault.number, "name": frame.fault.name}
    data = found and found.manufacturer_data
    return {"frame": frame.kind, "control": frame.control, "address": frame.address, "ci": frame.ci, "fault": fault, "telegram": found and {
        "meter": meter, "access": found.access, "status": found.status, "records": list(map(record_object, found.records)),
        "more": found.more, "manufacturer_data": data if data is None else data.hex().upper()}}


def same_object(one: Object) -> Object:
    """What `mbdc decode --json` says of a frame, as `frame_object` has it."""
    found = one if "meter" in one else one.get("content")
    telegram = found and {**{name: found[name] for name in ("meter", "access", "records", "more", "manufacturer_data")},
                          "status": found["status"] and found["status"]["code"]}
    return {"frame": one["frame"], **{name: one.get(name) for name in ("control", "address", "ci")},
            "fault": one.get("content", one).get("fault"), "telegram": telegram}


def poll_line_of(event: Object) -> str:
    """The line that says what an event of a poll says."""
    kind = event["event"]
    if kind == "lost":
        return f"LINE {event['line']} LOST"
    fault = event.get("fault")
    body = f" {fault['number']} {fault['name']}" if fault else ""
    rest = {"read": ("meter", "serial", "parts"), "failed": ("meter", "number", "name"),
            "refused": ("meter", "number", "name"), "late": ("line", "answers"), "end": ("read", "failed")}[kind]
    more = {"failed": ("line", "heard"), "read": ("bodies", *REPORTED)}.get(kind, ())
    assert list(event) == ["event", *rest, *(["fault"] if fault else []), *more], event
    assert list(event.get("heard", {})) in ([], ["silent", "noise", "others"]), event
    return " ".join([kind.upper(), *(str(event[field]) for field in rest)]) + body
