"""The derives of a library's types, of the sources that tests are compiled over.

A derived `Debug`, `PartialEq` or `Eq` is proved as any function is. Most are needed by tests alone, which aren't proved: these are added
where tests/ is compiled, and stand in no source."""

import re
from collections.abc import Callable

OF_TESTS = ("Debug", "PartialEq", "Eq")
# A derive with what stands between it and the type: comments and other attributes
DERIVE = re.compile(r"#\[derive\(([^)]*)\)\]((?:\s*(?:#\[[^\n]*\]|//[^\n]*))*\s*(?:pub(?:\([a-z: ]+\))? )?(?:enum|struct) (\w+)([^{;(]*))")


def changed(text: str, choose: Callable[[str, str, list[str]], list[str]]) -> str:
    """The text with the names that are chosen, of a type's name, what follows it and the names derived so far."""

    def judge(found: re.Match[str]) -> str:
        has_lines = text[found.end() : found.end() + 1] == "{"
        rest = found[4] + text[found.end() :].split("\n}" if has_lines else ";")[0]
        names = choose(found[3], rest, [it.strip() for it in found[1].split(",")])
        return f"#[derive({', '.join(names)})]{found[2]}"

    return DERIVE.sub(judge, text)


def for_tests(text: str) -> str:
    """The text whose plain values all derive what tests compare and print. `std::io::Error` isn't compared, nor what refers to a type."""

    def choose(name: str, rest: str, names: list[str]) -> list[str]:
        is_plain = "Copy" in names and "Drop" not in names and not re.match(r"<(?!'\w+>)", rest) \
            and not re.search(r"\bio::Error\b|&'\w+ [A-Z]", rest)
        if not is_plain:
            return names
        by_hand = re.findall(rf"(?m)^impl (\w+) for {name}\b", text)
        return names + [it for it in OF_TESTS if it not in names and it not in by_hand]

    return changed(text, choose)
