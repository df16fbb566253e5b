#!/usr/bin/env python3
"""Makes completions and parts of manual pages of the words of mbdc, which its sources have, and of the help of mbdc-house and
mbdc-page and the comments of house.conf.

`words.py bash|zsh|fish|synopsis|commands|house|page|settings` prints that. `words.py check PROGRAM` prints each command
whose help isn't that of the sources, with status 1 where there is one.
"""

import os
import pathlib
import re
import shlex
import subprocess
import sys
from collections.abc import Iterator
from typing import Optional

import told

HERE = pathlib.Path(__file__).resolve().parent
CONF = HERE / "house.conf"
OF_THE_PROGRAM = ["--verbose", "--help", "--version"]
OF_EACH_COMMAND = OF_THE_PROGRAM[:2]
SCHEMES = ["tcp://", "serial:", "blocks://"]
BUS_LINES = range(1, 9)
OF_BUS_LINES = {"--line", "--csv"}  # which mbdc-house gives itself
FILES = {"FILE", "IMAGE", "LIST", "SCRIPT"}  # the words that are completed as names of files
USAGE = 2


class Command:
    """A command: its name, its words, its group, and the options among its words with the name of their value (None: a flag)."""

    def __init__(self, line: str, group: str) -> None:
        self.name, _, self.words = line.partition(" ")
        self.group = group
        plain = re.sub(r"[\[\]|]|\.\.\.", " ", self.words).split()
        self.options: dict[str, Optional[str]] = {}
        self.arguments: list[tuple[str, bool]] = []
        for word, after in zip(plain, [*plain[1:], ""]):
            if word.startswith("--"):
                is_flag = not after or after.startswith("--") or f"{word}]" in self.words or f"{word} |" in self.words
                self.options[word] = None if is_flag else after
        values = [it for it in self.options.values() if it]
        for word in plain:
            if word in values:
                values.remove(word)
            elif not word.startswith("--"):
                self.arguments.append((word, f"[{word}]" not in self.words))

    def common(self) -> list[str]:
        """The options that each command of mbdc has."""
        return OF_EACH_COMMAND if self.group else []


def listed() -> list[Command]:
    return [Command(told.synopsis_of(name), group) for group, names in told.groups().items() for name in names]


def about(name: str) -> str:
    return told.commands()[name][0]["about"]


def texts_of(name: str) -> dict[str, str]:
    return {told.word_of(row): told.text_of(row) for row in told.commands()[name][1] if not told.is_argument(row)}


def said_by(script: str) -> list[str]:
    """The lines of the help of a script beside this one."""
    done = subprocess.run([HERE / script, "--help"], stdout=subprocess.PIPE, text=True, check=True, env={**os.environ, "COLUMNS": "200"})
    return done.stdout.splitlines()


def of_house() -> list[tuple[Command, str]]:
    """The commands of mbdc-house and their texts. One of mbdc's takes its options, too, but those of bus lines."""
    options, found = {it.name: it.options for it in listed()}, list[tuple[Command, str]]()
    for line in said_by("mbdc-house"):
        if entry := re.match(r"  ([a-z]\S*.*?)  +(\S.*)", line):
            command = Command(entry[1], "mbdc" if entry[1].split()[0] in options else "")
            of_mbdc = {name: value for name, value in options.get(command.name, {}).items() if name not in OF_BUS_LINES}
            command.options = {**of_mbdc, **command.options}
            found.append((command, entry[2]))
        elif found and line.startswith("   "):
            found[-1] = (found[-1][0], f"{found[-1][1]} {line.strip()}")
    return found


def of_page() -> dict[str, tuple[str, str]]:
    """The options of mbdc-page, each with its value (en,de for one of these) and its text."""
    found = (re.match(r"  (--\w+) [{]?([\w,]+)[}]?(?:  +(.*))?$", line) for line in said_by("mbdc-page"))
    return {it[1]: (it[2], it[3] or "") for it in found if it}


def differences(program: str) -> Iterator[str]:
    texts = {"": told.texts()["PROGRAM"] + "\n", **{name: told.help_of(name) for name in told.commands()}}
    for name, text in texts.items():
        if subprocess.run([program, *name.split(), "--help"], stdout=subprocess.PIPE, text=True, check=True).stdout != text:
            yield f"mbdc {name}".rstrip()


def bash_case(command: Command) -> str:
    """One arm: what follows each option, and else the arguments or the options."""
    values = [f"            {option}) kind={kind_of(value)} ;;" for option, value in command.options.items() if value]
    kinds = dict.fromkeys(kind_of(argument) for argument, _ in command.arguments)
    return "\n".join([f"    {command.name})", f"        options='{' '.join([*command.options, *command.common()])}'",
                      f"        kind={''.join(kinds) if len(kinds) == 1 else shlex.quote(' '.join(kinds))}",
                      *(['        case $before in', *values, "        esac"] if values else []), "        ;;"])


def kind_of(value: str) -> str:
    """How a value is completed: the function of the completion that does it has this name."""
    return {"N=LINK": "line", "LINK": "link", "N": "number", "TABLE": "table"}.get(value, "file" if value in FILES else "none")


BASH = """
{function}() {{
    local word=${{COMP_WORDS[COMP_CWORD]}} before=${{COMP_WORDS[COMP_CWORD - 1]}} options='' kind='' each at=1
    COMPREPLY=()
    # bash makes a word of its own of each = and :
    case $word in
    = | :) before=$word word='' ;;
    esac
{house}    if ((COMP_CWORD == at)); then
        mapfile -t COMPREPLY < <(compgen -W '{names} {own}' -- "$word")
        return
    fi
    case ${{COMP_WORDS[at]}} in
{cases}
    esac
    case $before:$word in
    =:*) kind=link ;;
    ::*) kind=file ;;
    *:-*) kind=option ;;
    esac
    for each in $kind; do
        case $each in
        file) compopt -o filenames; mapfile -t COMPREPLY < <(compgen -f -- "$word") ;;
        link) compopt -o nospace; mapfile -t COMPREPLY < <(compgen -W '{schemes}' -- "$word") ;;
        line) compopt -o nospace; mapfile -t COMPREPLY < <(compgen -W '{lines}' -- "$word") ;;
        number) mapfile -t COMPREPLY < <(compgen -W '{numbers}' -- "$word") ;;
        table) mapfile -t -O "${{#COMPREPLY[@]}}" COMPREPLY < <(compgen -W register -- "$word") ;;
        option) mapfile -t COMPREPLY < <(compgen -W "$options" -- "$word") ;;
        esac
    done
}}
complete -F {function} {program}
"""
# The first word of mbdc-house may be a house.
BASH_HOUSE = """    case ${{COMP_WORDS[1]}} in
    {names} | -*) ;;
    *) ((COMP_CWORD == 1)) || at=2 ;;
    esac
"""
BASH_PAGE = """
_mbdc_page() {{
    local word=${{COMP_WORDS[COMP_CWORD]}}
    case ${{COMP_WORDS[COMP_CWORD - 1]}}:$word in
{cases}
    *:-*) mapfile -t COMPREPLY < <(compgen -W '{options}' -- "$word") ;;
    *) compopt -o filenames; mapfile -t COMPREPLY < <(compgen -f -- "$word") ;;
    esac
}}
complete -F _mbdc_page mbdc-page
"""
SPEEDS, FORMS = "300 600 1200 2400 4800 9600 19200 38400", "8E1 8N1"  # of mbdc-port
BASH_PORT = f"""
_mbdc_port() {{
    local word=${{COMP_WORDS[COMP_CWORD]}}
    case $COMP_CWORD in
    1) mapfile -t COMPREPLY < <(compgen -f -- "${{word:-/dev/tty}}") ;;
    2) mapfile -t COMPREPLY < <(compgen -W '{SPEEDS}' -- "$word") ;;
    3) mapfile -t COMPREPLY < <(compgen -W '{FORMS}' -- "$word") ;;
    esac
}}
complete -F _mbdc_port mbdc-port
"""


def bash_of(program: str, function: str, commands: list[Command], house: str = "") -> str:
    """The completion of a program that has commands."""
    return BASH.format(function=function, program=program, house=house, names=" ".join(it.name for it in commands),
                       own=" ".join(OF_THE_PROGRAM), cases="\n".join(bash_case(it) for it in commands), schemes=" ".join(SCHEMES),
                       lines=" ".join(f"{n}=" for n in BUS_LINES), numbers=" ".join(map(str, BUS_LINES)))


def bash() -> str:
    house, page = [it for it, _ in of_house()], of_page()
    cases = (f"    {option}:*) mapfile -t COMPREPLY < <(compgen -W '{value.replace(',', ' ') if value.islower() else ''}' -- \"$word\") ;;"
             for option, (value, _) in page.items() if value not in FILES)
    return "".join(["# Completion of mbdc, mbdc-house, mbdc-page and mbdc-port for bash.\n# Made by packaging/words.py.\n",
                    bash_of("mbdc", "_mbdc", listed()),
                    bash_of("mbdc-house", "_mbdc_house", house, BASH_HOUSE.format(names=" | ".join(it.name for it in house))),
                    BASH_PAGE.format(cases="\n".join(cases), options=" ".join([*page, "--help"])), BASH_PORT])


def fish_of(program: str, commands: list[tuple[Command, str]]) -> Iterator[str]:
    """The completion of a program that has commands."""
    for command, text in commands:
        after = f"complete -c {program} -n '__fish_seen_subcommand_from {command.name}'"
        yield f"complete -c {program} -f -n __fish_use_subcommand -a {command.name} -d {shlex.quote(text)}"
        if not any(argument in FILES for argument, _ in command.arguments):
            yield f"{after} -f"
        for option, value in {**command.options, **dict.fromkeys(command.common())}.items():
            yield f"{after} -l {option[2:]}{' -r' if value else ''}{' -F' if value in FILES else ''}"


def fish() -> str:
    page = (f"complete -c mbdc-page -l {option[2:]} -r" + (f" -f -a '{value.replace(',', ' ')}'" if value.islower() else "")
            for option, (value, _) in of_page().items())
    port = (f"complete -c mbdc-port -n 'test (count (commandline -opc)) -eq {at}' -f -a '{words}'"
            for at, words in ((2, SPEEDS), (3, FORMS)))
    return "\n".join(["# Completion of mbdc, mbdc-house, mbdc-page and mbdc-port for fish.", "# Made by packaging/words.py.",
                      *fish_of("mbdc", [(it, about(it.name)) for it in listed()]), *fish_of("mbdc-house", of_house()), *page,
                      *port]) + "\n"


def zsh_text(text: str) -> str:
    """A text within the brackets of an _arguments specification."""
    return text.replace("\\", "\\\\").replace("[", "\\[").replace("]", "\\]").replace(":", "\\:").replace("'", "'\\''")


def zsh_action(value: str) -> str:
    actions = {"file": "_files", "link": "_mbdc_links", "line": "_mbdc_lines", "table": "(register)"}
    return actions.get(kind_of(value), "")


def zsh_case(command: Command) -> str:
    texts, specs = texts_of(command.name), []
    for option, value in command.options.items():
        text = zsh_text(texts[option])
        shown = f":{zsh_text(value)}:{zsh_action(value)}" if value else ""
        is_repeated = re.search(rf"{option} [^\[\]|]*\.\.\.|\[{option}[^\]]*\]\.\.\.", command.words)
        specs.append(f"'{'*' if is_repeated else ''}{option}[{text}]{shown}'")
    for argument, is_required in command.arguments:
        specs.append(f"':{'' if is_required else ':'}{zsh_text(argument)}:{zsh_action(argument)}'")
    return f"    {command.name})\n        _arguments {' '.join([*specs, *OF_EACH_IN_ZSH])}\n        ;;"


OF_EACH_IN_ZSH = ["'--verbose[Says why a command failed]'", "'--help[Print help]'"]
ZSH = """#compdef mbdc
# Completion of mbdc for zsh.
# Made by packaging/words.py.

_mbdc_links() {{
    compadd -S '' -- {schemes}
}}

_mbdc_lines() {{
    if compset -P '[1-8]='; then
        _mbdc_links
    else
        compadd -S '=' -- {lines}
    fi
}}

_mbdc() {{
    local -a commands=(
{commands}
    )
    if ((CURRENT == 2)); then
        _describe command commands
        compadd -- {own}
        return
    fi
    shift words
    ((CURRENT--))
    case $words[1] in
{cases}
    esac
}}

_mbdc "$@"
"""


def zsh() -> str:
    commands = listed()
    described = (f"        '{it.name}:{zsh_text(about(it.name))}'" for it in commands)
    return ZSH.format(commands="\n".join(described), cases="\n".join(map(zsh_case, commands)),
                      schemes=" ".join(SCHEMES), lines=" ".join(map(str, BUS_LINES)), own=" ".join(OF_THE_PROGRAM))


def roff(text: str) -> str:
    """A text as a manual page prints it: with hyphens that can be copied, and without its last period."""
    return text.rstrip(".").replace("\\", "\\e").replace("-", "\\-")


def roff_words(words: str) -> str:
    """The words of a command: options bold, values in italics."""
    shown = re.sub(r"--[a-z-]+|[A-Z]+(?:[=:][A-Z]+)?", lambda it: f"\\fB{roff(it[0])}\\fR" if it[0].startswith("-")
                   else f"\\fI{it[0]}\\fR", words)
    return shown.replace("...", " ...")


def synopsis() -> str:
    return "\n.br\n".join(f".B mbdc {it.name}\n{roff_words(it.words)}".rstrip() for it in listed()) + "\n"


def commands_of() -> str:
    texts = []
    for command in listed():
        texts.append(f".TP\n.B {command.name}\n{roff(about(command.name))}.")
        options = [f".TP\n\\fB{roff(option)}\\fR{f' {chr(92)}fI{command.options[option]}{chr(92)}fR' if command.options[option] else ''}\n"
                   f"{roff(text)}." for option, text in texts_of(command.name).items()]
        texts += [".RS", *options, ".RE"] if options else []
    return "\n".join([*texts, VERBOSE_IN_ROFF]) + "\n"


def house() -> str:
    return "".join(f".TP\n\\fB{roff(it.name)}\\fR {roff_words(it.words)}\n{roff(text)}.\n" for it, text in of_house())


def page() -> str:
    return "".join(f".TP\n.BI {roff(option)} \" {value.replace(',', ' | ')}\"\n{roff(text) or 'The language of the page'}.\n"
                   for option, (value, text) in of_page().items())


def settings() -> str:
    """A paragraph for each setting of house.conf, by the comment before it."""
    made = []
    for block in CONF.read_text().split("\n\n")[1:]:
        lines = block.splitlines()
        names = [line.lstrip("#") for line in lines if "=" in line and " " not in line]
        texts = [line[2:] for line in lines if line.startswith("# ")]
        tags = "\n.TQ\n".join(f".B {roff(name)}" for name in names)
        body = [roff(it) + ("." if it.endswith(".") else "") for it in texts if not it.startswith(" ")]
        given = [it.split(maxsplit=1) for it in texts if it.startswith(" ")]
        values = [f".RS\n.TP\n.B {roff(value)}\n{roff(text)}.\n.RE" for value, text in given]
        made.append("\n".join([".TP", tags, *body, *values]) + "\n")
    return "".join(made)


VERBOSE_IN_ROFF = """.PP
Each command takes
.BR \\-\\-verbose :
where its line on standard error names a file, a bus line or a disk, a second line
.B mbdc: reason:
has what the system said of it."""


def main() -> int:
    makers = {"bash": bash, "zsh": zsh, "fish": fish, "synopsis": synopsis, "commands": commands_of, "house": house, "page": page,
              "settings": settings}
    words = sys.argv[1:]
    if len(words) == 1 and words[0] in makers:
        print(makers[words[0]](), end="")
        return 0
    if len(words) != 2 or words[0] != "check":
        print(__doc__, file=sys.stderr)
        return USAGE
    found = list(differences(words[1]))
    for it in found:
        print(f"{it} --help isn't that of crates/mbdc_commands", file=sys.stderr)
    return 1 if found else 0


if __name__ == "__main__":
    sys.exit(main())
