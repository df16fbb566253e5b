"""Rattle's sources, read without the toolchain: functions with their owners, clauses and doc comments."""

import itertools
import pathlib
import re

ITEM = re.compile(r"^\s*(?:pub(?:\([a-z]+\))? )?(?:(?:const|unsafe|final|async|extern \"C\") )*"
                  r"(fn|trait|struct|enum|type|const)\s+(\w+)")
IMPL = re.compile(r"^\s*impl\b(.*)$")
CLAUSE = re.compile(r"^\s*(ensures|requires)\s*(\w*)\s*\{")


class Function:
    """A function of a crate: its name with its type's or trait's, its lines (the first, that of its body, the one after
    it), the names of the clauses that it ensures, and how many clauses it has."""

    def __init__(self, crate: str, file: pathlib.Path, owners: list[str], name: str, is_public: bool,
                 first: int) -> None:
        self.crate, self.file, self.owners, self.name = crate, file, owners, name
        self.is_public, self.first, self.body, self.last, self.text = is_public, first, first, first, ""
        self.clauses: list[str] = []
        self.count, self.has_body = 0, False

    def names(self) -> list[str]:
        return [f"{owner}::{self.name}" for owner in self.owners] or [self.name]

    def label(self) -> str:
        return self.names()[0]

    def is_theorem(self) -> bool:
        """Whether it has no parameters and an empty body, so that its contract is all that it is for."""
        return bool(re.search(rf"fn {self.name}\s*(<.*>)?\(\)", self.text)) and self.text.rstrip().endswith("{}")

    def comment(self) -> list[str]:
        """The lines of its doc comment."""
        lines, place = self.file.read_text().splitlines(), self.first - 1
        while place >= 0 and lines[place].lstrip().startswith(("///", "#[")):
            place -= 1
        return [line.strip()[3:].strip() for line in lines[place + 1:self.first] if line.lstrip().startswith("///")]

    def errors(self) -> list[str]:
        """The lines of its doc comment after `# Errors`."""
        text = self.comment()
        return [line for line in text[text.index("# Errors") + 1:] if line] if "# Errors" in text else []

    def promise(self) -> str:
        """Its name and clauses, and the first paragraph of its doc comment."""
        says = " ".join(itertools.takewhile(bool, self.comment()))
        clauses = f" ({', '.join(filter(None, self.clauses))})" if any(self.clauses) else ""
        return f"{self.crate}/{self.label()}{clauses}: {says}"


def braces(line: str) -> int:
    """How far the braces of a line open, without those of texts, characters and comments."""
    line = re.sub(r'"(?:\\.|[^"\\])*"', '""', line)
    line = re.sub(r"'(?:\\.|[^'\\])'", "''", line).split("//")[0]
    return line.count("{") - line.count("}")


def owners_of(line: str) -> list[str]:
    """The names under which a function of this impl is called: its type's, or its trait's and its type's."""
    text = re.sub(r"^\s*impl\s*", "", line).split("{")[0]
    while re.search(r"<[^<>]*>", text):
        text = re.sub(r"<[^<>]*>", "", text.replace("->", ""))
    parts = re.sub(r"\bwhere\b.*", "", text).split(" for ")
    words = [re.findall(r"\w+", part) for part in parts]
    return [word[-1] for word in reversed(words) if word]


def clause_at(lines: list[str], place: int) -> tuple[str, int]:
    """The text of the clause that begins at this line, and the line after it."""
    depth, text = 0, []
    while place < len(lines):
        text.append(lines[place])
        depth += braces(lines[place])
        place += 1
        if depth <= 0:
            break
    return "\n".join(text), place


def functions_of(crate: str, file: pathlib.Path) -> list[Function]:
    """The functions of a source file."""
    lines = file.read_text().splitlines()
    depth, place = 0, 0
    owners: list[tuple[int, list[str], bool]] = []
    found: list[Function] = []
    while place < len(lines):
        line = lines[place]
        while owners and depth <= owners[-1][0]:
            owners.pop()
        item = ITEM.match(line)
        if IMPL.match(line) or (item and item[1] == "trait"):
            head = place
            while "{" not in lines[place] and place + 1 < len(lines):
                place += 1
            names = [item[2]] if item else owners_of(" ".join(lines[head:place + 1]))
            owners.append((depth, names, bool(item) or len(names) > 1))
        elif item and item[1] == "fn":
            is_public = bool(re.match(r"\s*pub ", line)) or bool(owners) and owners[-1][2]
            function = Function(crate, file, owners[-1][1] if owners else [], item[2], is_public, place)
            place = read_function(function, lines, place)
            found.append(function)
            continue
        depth += braces(lines[place])
        place += 1
    return found


def read_function(function: Function, lines: list[str], place: int) -> int:
    """Reads head, clauses and body; returns the line after it."""
    while place < len(lines) and not CLAUSE.match(lines[place]):
        if braces(lines[place]) > 0 or re.search(r"(;|\{.*\})\s*$", lines[place]):
            break
        place += 1
    while place < len(lines):
        clause = CLAUSE.match(lines[place])
        if clause:
            text, place = clause_at(lines, place)
            function.count += 1
            if clause[1] == "ensures":
                function.clauses.append(clause[2])
            if text.rstrip().endswith(";"):
                break
            continue
        bare = lines[place].strip()
        if bare == "}":
            break
        if bare.endswith(";") and "{" not in bare:
            place += 1
            break
        if bare and not bare.startswith("//") and "{" in bare:
            function.body, function.has_body = place, True
            _, place = clause_at(lines, place)
            break
        if ITEM.match(lines[place]) and place > function.first:
            break
        place += 1
    function.last, function.text = place, "\n".join(lines[function.first:place])
    return place
