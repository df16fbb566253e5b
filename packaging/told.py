"""The help that the program prints, made of its sources: crates/mbdc_commands/src/words/rows.rt has the words, help.rt the texts."""

import functools
import pathlib
import re

WORDS = pathlib.Path(__file__).resolve().parents[1] / "crates" / "mbdc_commands" / "src" / "words"
Row = dict[str, str]


@functools.cache
def source(name: str) -> str:
    """A file of the crate, without its comments."""
    return re.sub(r"^ *//.*\n", "", (WORDS / name).read_text(encoding="utf-8"), flags=re.M)


@functools.cache
def texts() -> dict[str, str]:
    """The texts of help.rt, by their names."""
    return dict(re.findall(r'pub const (\w+): &str = "(.*?)";', source("help.rt"), re.S))


def row_of(fields: str) -> Row:
    """A row by its fields, and those of the row that it is made from."""
    base = re.search(r"\.\.(\w+)", fields)
    given = re.findall(r'^ *(\w+): (?:Some\(|&\[)?(?:"(.*)"|(?:\w+::)*([\w ,(]*)).*$', fields, re.M)
    own = {name: quoted.replace('", "', " ") or word.rstrip(",") for name, quoted, word in given}
    return {**(constant(base[1]) if base else {}), **own}


@functools.cache
def constant(name: str) -> Row:
    """A row that several commands have."""
    return row_of(source("rows.rt").partition(f"const {name}: Row = Row {{")[2].partition("};")[0])


@functools.cache
def commands() -> dict[str, tuple[Row, list[Row]]]:
    """Each command, and its words."""
    found = {}
    for block in re.split(r"^    CommandRow \{", source("rows.rt"), flags=re.M)[1:]:
        head, _, words = block.partition("args: &[")
        rows = re.findall(r"Row \{([^{}]*)\}|([A-Z_]{3,})(?=,|\])", words.partition("\n    },")[0])
        command = row_of(head)
        found[command["name"]] = command, [row_of(fields) if fields else constant(name) for fields, name in rows]
    return found


def is_argument(row: Row) -> bool:
    return row["long"] == "None"


def is_required(row: Row) -> bool:
    return row["is_required"] == "true"


def word_of(row: Row) -> str:
    """An option, or the name of an argument."""
    return row["id"] if is_argument(row) else f"--{row['long']}"


def spelled(row: Row) -> str:
    if is_argument(row):
        return f"<{row['id']}>" if is_required(row) else f"[{row['id']}]"
    return f"{word_of(row)} <{row['values']}>" if row["values"] else word_of(row)


def text_of(row: Row) -> str:
    return row["help"] + (f" [default: {row['defaults']}]" if row["defaults"] else "")


def section(title: str, rows: list[Row], indent: str, *others: tuple[str, str]) -> list[str]:
    """The words of a section below each other, with what they do."""
    shown = [*((indent + spelled(row), text_of(row)) for row in rows), *others]
    width = max((len(word) for word, _ in shown), default=0)
    return [title, *(f"{word:{width}}  {text}" for word, text in shown), ""] if shown else []


def help_of(name: str) -> str:
    """What `mbdc NAME --help` prints."""
    command, rows = commands()[name]
    options, arguments = ([row for row in rows if is_argument(row) == wanted] for wanted in (False, True))
    needed = [spelled(row) for row in options if is_required(row)]
    return "\n".join([command["about"], "", " ".join(["Usage: mbdc", name, "[OPTIONS]", *needed, *map(spelled, arguments)]), "",
                      *section("Arguments:", arguments, "  "),
                      *section("Options:", [*options, constant("VERBOSE")], "      ", ("  -h, --help", "Print help")),
                      texts()[command["after"]], ""])


def groups() -> dict[str, list[str]]:
    """The commands of each group of the program's help, in its order."""
    sections = re.findall(r"^(\w[^\n]*:)\n((?:  .*\n)+)", texts()["PROGRAM"], re.M)
    return {title: re.findall(r"^  (\w+)", rows, re.M) for title, rows in sections if title != "Options:"}


def synopsis_of(name: str) -> str:
    """A command with its words: [X] is optional, X... may be repeated, and of A | B one is given."""
    _, rows = commands()[name]
    words = [re.sub("[<>]", "", spelled(row)).strip("[]") for row in rows]
    shown = [name]
    for row, word in zip(rows, words):
        other = next((it for it, of in zip(words, rows) if row["id"] in of["others"].split() or of["id"] in row["others"].split()), None)
        if other and words.index(other) < words.index(word):
            place = next(at for at, it in enumerate(shown) if other in it)
            shown[place] = f"{shown[place][:-1]} | {word}]"
        else:
            shown.append((word if is_required(row) else f"[{word}]") + "..." * (row["action"] == "Append"))
    return " ".join(shown)
