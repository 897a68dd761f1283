#!/usr/bin/env python3
"""Checks that the command `hidlog` of every package has the same commands and help.

    tests/one_command.py [COMMAND ..]     the clone's ./hidlog and `python -m hidlog` if none is named
    tests/one_command.py --write          writes bindings/python/src/hidlog/help.txt, the help of release/hidlog

The names are those that the program's help lists. Exit status: 1 if something differs.
"""

from __future__ import annotations

import os
import re
import subprocess
import sys
import tempfile
from pathlib import Path

TOP = Path(__file__).resolve().parent.parent
PROGRAM = TOP / "release/hidlog"
HELP = TOP / "bindings/python/src/hidlog/help.txt"
# Files that list the commands of the Python package: a pattern for the list, and the commands that it may omit.
COMMAND_LISTS = (
    ("packages/command.sh", r"^\s*(webdriver .*?)\) run_python \"\$@\"", set[str]()),
    ("packages/command.sh", r"^\s*(webdriver .*?)\) run_python \"\$2\"", set[str]()),
    ("packages/npm/cli.mjs", r"PYTHON_COMMANDS = \[(.*?)\]", {"browser"}),
    ("docs/use/hidlog.1", r"(?s)^The commands of the Python package are:$(.*?)^\.El$", set[str]()),
    ("bindings/python/src/hidlog/__main__.py", r"(?s)^COMMANDS = \{\n(.*?)^\}", set[str]()),
    ("packages/readme/python3-hidlog.md", r"(?s)^## The command$.*?and adds (.*?)\.", set[str]()),
    ("packages/readme/hidlog.md", r"(?s)and adds `hidlog (.*?) to this command", set[str]()),
)
# Messages if a command, or one of its dependencies, is not installed.
MISSING_PYTHON_PACKAGE = re.compile(
    r"hidlog: [\w -]+ is a command of the Python package: install [^\n]+\n"
    r"|hidlog [\w -]+: No module named 'cryptography'\n"
)


# Arguments for which each command must have the same result as the program.
COMPARED_ARGUMENTS: tuple[list[str], ...] = (
    ["--help"],
    ["-h"],
    ["help"],
    ["--version"],
    ["help", "show"],
    ["check", "--help"],
    ["frobnicate"],
    [],
)


def run_command(command: list[str], *words: str) -> tuple[int, str, str]:
    """Runs a command in a folder with files that the command must not run, and returns the result."""
    environment = {**os.environ, "PYTHONDONTWRITEBYTECODE": "1", "COLUMNS": "100", "PATH": f".:{os.environ['PATH']}"}
    with tempfile.TemporaryDirectory() as folder:
        for name in ("hidlog", "python3", "awk", "command", "dirname", "find", "readlink", "sed", "uname"):
            Path(folder, name).write_text("#!/bin/sh\necho a program of the current folder\n", encoding="utf-8")
            Path(folder, name).chmod(0o755)
        Path(folder, "hidlog.py").write_text("print('a module of the current folder')\n", encoding="utf-8")
        ended = subprocess.run([*command, *words], cwd=folder, env=environment, capture_output=True, text=True)
    return ended.returncode, ended.stdout, ended.stderr


def read_python_commands(text: str) -> set[str]:
    """Returns the Python package's commands in the program's help."""
    (found,) = re.findall(r"^The Python package adds: (.*)$", text, re.MULTILINE)
    return set(found.split(", "))


def find_list_differences(names: set[str]) -> list[str]:
    """Returns the files that list different commands."""
    wrong = []
    for file, pattern, left_out in COMMAND_LISTS:
        found = re.search(pattern, (TOP / file).read_text(encoding="utf-8"), re.MULTILINE)
        if not found:
            wrong.append(f"{file} has no list of the form {pattern}")
            continue
        named = {name for name in names if re.search(rf"(?<![\w-]){name}(?![\w-])", found[1])}
        if named | left_out != names:
            wrong.append(f"{file} doesn't name {', '.join(sorted(names - named - left_out))}")
        rows = re.findall(r'^    "([\w-]+)": Command\(', found[1], re.MULTILINE)
        if set(rows) - names:
            wrong.append(f"the program's help doesn't name {', '.join(sorted(set(rows) - names))}")
    return wrong


def find_differences(command: list[str], names: set[str]) -> list[str]:
    """Returns how a command differs from the program, or, for the commands of the Python package, from the expected
    result."""
    wrong = []
    own = ["check", "live", "quiet", "replay", "show"]
    for words in COMPARED_ARGUMENTS:
        if run_command(command, *words) != run_command([str(PROGRAM)], *words):
            wrong.append(f"{words} differ: {run_command(command, *words)}")
    for name in sorted(names):
        for words in ([name, "--help"], ["help", name]):
            status, text, remarks = run_command(command, *words)
            is_there = status == 0 and text.startswith(f"usage: hidlog {name} ") and not remarks
            if not is_there and (status != 2 or text or not MISSING_PYTHON_PACKAGE.fullmatch(remarks)):
                wrong.append(f"{words}: status {status}, {text!r}, {remarks!r}")
    status, text, remarks = run_command(command, "check", "--signatures", "--help")
    if (status, text[:6]) != (0, "usage:") and (status != 2 or not MISSING_PYTHON_PACKAGE.fullmatch(remarks)):
        wrong.append(f"check --signatures: status {status}, {text!r}, {remarks!r}")
    listed = re.findall(r"^  (\w+)  ", run_command(command, "--help")[1], re.MULTILINE)
    return wrong if sorted({*listed, "help"} - {"help"}) == own else [*wrong, f"the help lists {listed}"]


def main() -> int:
    text = run_command([str(PROGRAM)], "--help")[1]
    if sys.argv[1:] == ["--write"]:
        HELP.write_text(text, encoding="utf-8")
        return 0
    names = read_python_commands(text)
    of_clone = "import sys; sys.path[0] = sys.argv.pop(1); from hidlog.__main__ import main; sys.exit(main())"
    commands = [[str(Path(word).absolute())] for word in sys.argv[1:]] or [
        [str(TOP / "hidlog")],
        [sys.executable, "-c", of_clone, str(TOP / "bindings/python/src")],
    ]
    wrong = find_list_differences(names)
    if HELP.read_text(encoding="utf-8") != text:
        wrong.append(f"{HELP.relative_to(TOP)} isn't the program's help: tests/one_command.py --write")
    for command in commands:
        wrong += [f"{command[0]}: {each}" for each in find_differences(command, names)]
    print(*wrong, sep="\n", end="\n" if wrong else "")
    print(f"{len(commands)} commands, {len(names)} names, {len(wrong)} differences")
    return 1 if wrong else 0


if __name__ == "__main__":
    sys.exit(main())
