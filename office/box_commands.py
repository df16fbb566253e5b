"""The commands of a box that may be ordered: the words of each, and what it does to the register.

A new command is a row here (docs/COMMANDS.md says what the box does). office/order takes its lines, office/migrate has
the database take them (the table `box_commands`), and office/visit.py does its statement once the box has done it.
CONFIRM isn't one of them: only the collector sends it.
"""

from typing import Dict, List, NamedTuple, Optional, Tuple


class BoxCommand(NamedTuple):
    """A command. The statement has the words as parameters, and the name of the box."""
    words: List[str]  # after the verb
    statement: str  # does to the table `meters` what the box does to its register


METER = "box = %(box)s AND identity = %(identity)s"
BOX_COMMANDS: Dict[str, BoxCommand] = {"FIT": BoxCommand(["identity", "line", "address", "flat"],
                      "INSERT INTO meters (box, identity, line, address, flat)"
                      " VALUES (%(box)s, %(identity)s, %(line)s, %(address)s, %(flat)s)"),
    "MOVE": BoxCommand(["identity", "flat"], f"UPDATE meters SET flat = %(flat)s WHERE {METER}"),
    "OUT": BoxCommand(["identity"], f"DELETE FROM meters WHERE {METER}"), "SWAP": BoxCommand(["old", "new", "address"],
                       "UPDATE meters SET identity = %(new)s, address = %(address)s, since = now(), serial = NULL,"
                       " heard = NULL, stored_at = NULL, status = NULL WHERE box = %(box)s AND identity = %(old)s"),}


def change_of(box: str, line: str) -> Optional[Tuple[str, Dict[str, str]]]:
    """The statement of a line without its number, and its parameters; None where the line is no command."""
    verb, *words = line.split(" ")
    command = BOX_COMMANDS.get(verb)
    if command is None or len(words) != len(command.words):
        return None
    return command.statement, {"box": box, **dict(zip(command.words, words))}
