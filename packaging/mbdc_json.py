"""The JSON objects that commands of mbdc print, and those of the journal beside an image, for the hooks and mbdc-page."""

import json
import pathlib
import subprocess
import sys
from collections.abc import Iterator, Sequence
from typing import Any

SILENT = 1  # the status of `mbdc status` where a meter is silent


def lines_of(*words: str, statuses: Sequence[int] = (0, )) -> list[str]:
    """The lines that a command of mbdc prints. Ends this program with the command's status where that is another one."""
    try:
        done = subprocess.run(["mbdc", *words], stdout=subprocess.PIPE, text=True, check=False)
    except OSError as fault:
        sys.exit(f"{pathlib.Path(sys.argv[0]).name}: mbdc: {fault.strerror}; it is in Debian's package mbdc")
    if done.returncode not in statuses:
        sys.exit(done.returncode)
    return done.stdout.splitlines()


def printed(*words: str, statuses: Sequence[int] = (0, )) -> list[Any]:
    """The objects that a command of mbdc prints with --json."""
    return [json.loads(line) for line in lines_of(*words, "--json", statuses=statuses)]


def states(image: str, *words: str) -> tuple[list[Any], Any]:
    """The object of `mbdc status` of each meter, and that of the image."""
    *meters, size = printed("status", image, *words, statuses=(0, SILENT))
    return meters, size


def readings(image: str) -> dict[str, Any]:
    """The last reading of each registered meter by identity, None where there is none."""
    return {it["meter"]["id"]: it["reading"] for it in printed("values", image)}


def lines_beside(image: str) -> Iterator[str]:
    """The lines of the journal. What is no regular file that begins with an object is passed over, as `mbdc` does."""
    for path in (pathlib.Path(f"{image}.journal.1"), pathlib.Path(f"{image}.journal")):
        if path.is_file() and not path.is_symlink() and (text := path.read_text(errors="replace")).startswith("{"):
            yield from text.splitlines()


def journal(image: str) -> list[Any]:
    """The events of the journal, the oldest first, without those up to a reading whose number the image hasn't given: these are of another
    image, and `values` and `status` pass over them, too. So is what isn't whole."""
    lines = list(lines_beside(image))  # (before the image is asked: a poll may go on meanwhile)
    facts = dict(line.partition(" ")[::2] for line in lines_of("inspect", image))
    given = max(int(number) for number in [*facts["READINGS"].split()[2:], facts["MARK"]])
    own, is_own = list[Any](), True
    for line in lines:
        try:
            event = json.loads(line)
        except ValueError:
            continue
        if not isinstance(event, dict) or not isinstance(event.get("at"), int):
            continue
        if isinstance(serial := event.get("serial"), int):
            is_own = serial <= given
        if is_own:
            own.append(event)
        else:
            own.clear()
    return own


def is_number(value: Any) -> bool:
    """Whether a record has a number."""
    return value["type"] == "number" and value["value"] is not None
