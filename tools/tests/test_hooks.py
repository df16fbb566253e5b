"""The programs after a poll and mbdc-page: what they say where something isn't there, and metrics of what a house may have."""

import json
import pathlib
import subprocess
from typing import Any

import mbdc_json
import pytest

PACKAGING = pathlib.Path(__file__).resolve().parents[2] / "packaging"
METER: dict[str, Any] = {"id": "12345678.PAD.01.07", "number": "12345678", "manufacturer": "PAD", "version": 1, "medium": "water",
                         "medium_code": 7}
VALUE: dict[str, Any] = {"storage": 0, "tariff": 0, "subunit": 0, "quantity": "volume", "value": "12.565", "unit": "m3", "type": "number"}


def run(*words: object, **environment: str) -> "subprocess.CompletedProcess[str]":
    return subprocess.run(list(map(str, words)), capture_output=True, text=True, env={"PATH": "/nowhere", **environment})


def test_a_page_without_mbdc_is_one_line(tmp_path: pathlib.Path) -> None:
    done = run(PACKAGING / "mbdc-page", tmp_path / "house.image")
    assert (done.returncode, done.stdout) == (1, "")
    assert done.stderr == "mbdc-page: mbdc: No such file or directory; it is in Debian's package mbdc\n"


def test_mqtt_without_paho_names_its_package(tmp_path: pathlib.Path) -> None:
    (tmp_path / "paho.py").write_text("")
    done = run(PACKAGING / "hooks/mqtt", "house", "house.image", PYTHONPATH=str(tmp_path))
    assert (done.returncode, done.stderr) == (1, "mqtt: it needs Debian's package python3-paho-mqtt\n")


def test_metrics_of_a_flat_with_any_letters_and_of_polls(tmp_path: pathlib.Path) -> None:
    state = {"flat": 'A "1\\', "meter": METER, "moment": 1795900080, "silent": False, "status": {"code": 4}}
    reading = {"headline": [VALUE, VALUE, {**VALUE, "type": "date"}, {**VALUE, "tariff": 1, "value": None}], "values": []}
    size = {"bytes": 195, "budget": 249856, "days": None, "room": None}
    for name, text in {"status": f"{json.dumps(state)}\n{json.dumps(size)}\n", "--version": "mbdc 1.2.3, logic 0a\n",
                       "inspect": "DISK 2051\nREADINGS 1 7 7\nMARK 6\n",
                       "values": f"{json.dumps({'flat': state['flat'], 'meter': METER, 'reading': reading})}\n"}.items():
        (tmp_path / name).write_text(text)
    lost, ends = {"event": "lost"}, [{"event": "end", "read": 0, "failed": 1}, {"event": "end", "read": 1, "failed": 0}]
    events: list[dict[str, Any]] = [lost, lost, ends[0], lost, ends[1], {"event": "command"}, lost]
    lines = (json.dumps({"at": at, **it}) for at, it in enumerate(events))
    (tmp_path / "house.image.journal").write_text("\n".join([*lines, '{"event":"en']))
    mbdc = tmp_path / "mbdc"
    mbdc.write_text(f'#!/bin/sh\nexec cat "{tmp_path}/$1"\n')
    mbdc.chmod(0o755)
    done = run(PACKAGING / "hooks/prometheus", "house", tmp_path / "house.image", PATH=f"{tmp_path}:/bin", MBDC_METRICS=str(tmp_path))
    labels = r'flat="A \"1\\",meter="12345678.PAD.01.07",medium="water"'
    assert (done.returncode, done.stderr) == (0, "")
    assert [line for line in (tmp_path / "mbdc-house.prom").read_text().splitlines() if line[0] != "#"] == [
        'mbdc_build_info{version="1.2.3",logic="0a"} 1', "mbdc_poll_timestamp_seconds 4", "mbdc_poll_meters_read 1",
        "mbdc_poll_meters_failed 0", "mbdc_poll_lines_lost 1", f"mbdc_meter_heard_timestamp_seconds{{{labels}}} 1795900080", f"mbdc_meter_status{{{labels}}} 4",
        f'mbdc_meter_value{{{labels},quantity="volume",tariff="0",subunit="0",unit="m3"}} 12.565', "mbdc_image_bytes 195",
        "mbdc_image_budget_bytes 249856"]


@pytest.mark.parametrize("facts", ["READINGS 2 4 5\nMARK 3\n", "READINGS 0\nMARK 5\n"])
def test_the_journal_of_another_image_is_passed_over(tmp_path: pathlib.Path, monkeypatch: pytest.MonkeyPatch, facts: str) -> None:
    """Up to a reading with a number that the image hasn't given, and what isn't whole, is no event, or is no journal."""
    monkeypatch.setattr(mbdc_json, "lines_of", lambda *words: facts.splitlines())
    events = [{"at": 1, "event": "failed"}, {"at": 2, "serial": 6}, {"at": 3, "event": "end"}, {"at": 4, "serial": 4}, {"at": 5, "event": "end"}]
    file, image = tmp_path / "house.image.journal", str(tmp_path / "house.image")
    for count, own in ((1, events[:1]), (2, []), (3, []), (4, events[3:4]), (5, events[3:])):
        file.write_text("\n".join([*map(json.dumps, events[:count]), "[5]", '{"at":"now"}', '{"at":6']))
        assert mbdc_json.journal(image) == own
    file.rename(tmp_path / "other")
    file.symlink_to("other")
    assert mbdc_json.journal(image) == []
