#!/usr/bin/env python3
"""Writes completions of `hidlog` for bash, zsh and fish, from the program's help and the Python package's commands.

    packages/completions.py PROGRAM DIR      write hidlog.bash, _hidlog and hidlog.fish to DIR
"""

from __future__ import annotations

import re
import subprocess
import sys
from dataclasses import dataclass
from pathlib import Path

TOP = Path(__file__).resolve().parent.parent
sys.path.insert(0, str(TOP / "bindings/python/src"))
sys.dont_write_bytecode = True

from hidlog.__main__ import CHECK_SIGNATURES, COMMANDS as PYTHON_COMMANDS

COMMAND = re.compile(r"^  (\w+) +(\S.*)$", re.MULTILINE)
OPTION = re.compile(r"^ +(?:(-\w), )?(--[\w-]+)( <\w+>)? +(\S.*)$", re.MULTILINE)


@dataclass(frozen=True)
class Option:
    """An option: the names, whether the value is a file, and the help text."""

    short: str
    long: str
    takes_file: bool
    summary: str


@dataclass(frozen=True)
class Command:
    """A command: the name, help text and options, and whether the arguments are log files."""

    name: str
    summary: str
    options: list[Option]
    takes_logs: bool


def read_help(program: str, *words: str) -> str:
    """Returns the program's output for --help."""
    return subprocess.run([program, *words, "--help"], check=True, capture_output=True, text=True).stdout


def parse_options(text: str) -> list[Option]:
    """Parses the options in a help text."""
    listed = text.partition("Options:\n")[2]
    return [Option(row[1] or "", row[2], bool(row[3]), row[4]) for row in OPTION.finditer(listed)]


def read_commands(program: str) -> list[Command]:
    """Returns the commands of the program and of the Python package."""
    listed = read_help(program).partition("Commands:\n")[2].partition("\n\n")[0]
    found = [(row[1], row[2]) for row in COMMAND.finditer(listed + "\n")]
    helps = [(name, summary, read_help(program, name)) for name, summary in found if name != "help"]
    own = [Command(name, summary, parse_options(text), "Arguments:\n" in text) for name, summary, text in helps]
    (check,) = (command for command in own if command.name == "check")
    check.options.append(Option("", "--signatures", False, CHECK_SIGNATURES.summary))
    return own + [Command(name, command.summary, [], True) for name, command in PYTHON_COMMANDS.items()]


def to_bash(commands: list[Command]) -> str:
    """Returns the completions for bash. Paths are completed after options whose value is a file, and for log
    arguments."""
    words = {command.name: [option.long for option in command.options] for command in commands}
    options = (option for command in commands for option in command.options)
    files = "|".join(sorted({option.long for option in options if option.takes_file}))
    cases = "".join(f"        {name}) words='{' '.join(named)}' ;;\n" for name, named in words.items())
    logs = "|".join(command.name for command in commands if command.takes_logs)
    return (
        "# Completion of hidlog for bash. Made by packages/completions.py from the program's help.\n"
        "_hidlog() {\n"
        "    local word=${COMP_WORDS[COMP_CWORD]} before=${COMP_WORDS[COMP_CWORD - 1]} words\n"
        f"    case $before in\n        {files})\n"
        '            mapfile -t COMPREPLY < <(compgen -f -- "$word")\n'
        "            compopt -o filenames 2>/dev/null\n"
        "            return ;;\n    esac\n"
        "    case ${COMP_WORDS[1]} in\n"
        f"{cases}"
        f"        *) words='{' '.join([*words, 'help', '--help', '--version'])}' ;;\n"
        "    esac\n"
        '    mapfile -t COMPREPLY < <(compgen -W "$words" -- "$word")\n'
        f"    case ${{COMP_WORDS[1]}} in\n        {logs})\n"
        "            ((COMP_CWORD > 1)) || return\n"
        '            mapfile -t -O ${#COMPREPLY[@]} COMPREPLY < <(compgen -f -- "$word")\n'
        "            compopt -o filenames 2>/dev/null ;;\n    esac\n"
        "}\n"
        "complete -F _hidlog hidlog\n"
    )


def quote_shell(text: str) -> str:
    """Quotes a text for a shell."""
    return "'" + text.replace("'", "'\\''") + "'"


def to_zsh(commands: list[Command]) -> str:
    """Returns the completions for zsh."""

    def format_option(option: Option) -> str:
        return quote_shell(f"{option.long}[{option.summary}]" + (":file:_files" if option.takes_file else ""))

    listed = "".join(f"        {quote_shell(f'{command.name}:{command.summary}')}\n" for command in commands)

    def format_case(command: Command) -> str:
        specs = [format_option(option) for option in command.options] + ["'*:log:_files'"] * command.takes_logs
        return f"        {command.name}) _arguments {' '.join(specs)} ;;\n"

    cases = "".join(format_case(command) for command in commands)
    return (
        "#compdef hidlog\n"
        "# Completion of hidlog for zsh. Made by packages/completions.py from the program's help.\n"
        f"_hidlog() {{\n    local -a commands=(\n{listed}    )\n"
        "    if ((CURRENT == 2)); then\n        _describe command commands\n        return\n    fi\n"
        "    shift words\n    ((CURRENT--))\n"
        f"    case $words[1] in\n{cases}    esac\n}}\n"
        '_hidlog "$@"\n'
    )


def to_fish(commands: list[Command]) -> str:
    """Returns the completions for fish."""
    lines = ["# Completion of hidlog for fish. Made by packages/completions.py from the program's help."]
    lines.append("complete -c hidlog -n __fish_use_subcommand -f")
    lines += [
        f"complete -c hidlog -n __fish_use_subcommand -a {command.name} -d {quote_shell(command.summary)}"
        for command in commands
    ]
    for command in commands:
        for option in command.options:
            file = " -r -F" if option.takes_file else ""
            seen = f"-n '__fish_seen_subcommand_from {command.name}'"
            lines.append(f"complete -c hidlog {seen} -l {option.long[2:]}{file} -d {quote_shell(option.summary)}")
    return "\n".join(lines) + "\n"


def main() -> int:
    words = sys.argv[1:]
    if len(words) != 2:
        print((__doc__ or "").strip(), file=sys.stderr)
        return 2
    commands, folder = read_commands(words[0]), Path(words[1])
    folder.mkdir(parents=True, exist_ok=True)
    for name, text in (
        ("hidlog.bash", to_bash(commands)),
        ("_hidlog", to_zsh(commands)),
        ("hidlog.fish", to_fish(commands)),
    ):
        (folder / name).write_text(text, encoding="utf-8")
    return 0


if __name__ == "__main__":
    sys.exit(main())
