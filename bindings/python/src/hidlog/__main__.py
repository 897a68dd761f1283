"""The command `hidlog` of the package, also as `python -m hidlog`.

The package implements the commands in `COMMANDS`; the program implements all others. If there is no program for the
processor, the library provides the commands on logs, and `--help` prints `help.txt`, a copy of the program's help.
"""

from __future__ import annotations

import importlib
import os
import subprocess
import sys
from collections.abc import Callable
from pathlib import Path
from typing import NamedTuple

from . import entry_point
from .errors import HidlogError, MissingDependencyError
from .subprocess_key import find_program


class Command(NamedTuple):
    """A command of the package: the module, the function that is called with the arguments, and a summary."""

    module: str
    function: str
    summary: str


# The commands by name. packages/command.sh and packages/npm/cli.mjs have the same list; tests/one_command.py compares
# the lists.
COMMANDS = {
    "webdriver": Command("webdriver.command", "main", "WebDriver proxy that provides virtual authenticators"),
    "browser": Command("browser_process", "main", "Registrations and sign-ins over JSON lines"),
    "import": Command(
        "captures.commands", "import_capture", "Convert a USB capture or client debug log to a session log"
    ),
    "export": Command("captures.commands", "export_log", "Convert a session log to pcapng for Wireshark"),
    "judge": Command("judge", "main", "Check a session against CTAP 2.1"),
    "shrink": Command("shrink", "main", "Minimize a log that makes a command fail"),
    "check-many": Command("batch_check_cli", "check_many_command", "Check many logs in parallel"),
    "mermaid": Command("mermaid", "main", "Print a session as a Mermaid sequence diagram"),
}
CHECK_SIGNATURES = Command("signature_checks", "main", "Check logs and verify each signature")
HELP_WORDS = (["--help"], ["-h"], ["help"])


def main() -> int:
    """Runs a command of the package, or replaces this process by the program, with the arguments of this process."""
    args = sys.argv[1:]
    if len(args) > 1 and args[0] == "help" and args[1] in COMMANDS:
        args = [args[1], "--help"]
    command = COMMANDS.get(args[0]) if args else None
    if args[:1] == ["check"] and "--signatures" in args:
        command = CHECK_SIGNATURES
    if command is None:
        return entry_point.run("hidlog", lambda: _become_program(args))
    run = _load(command)
    return entry_point.run(f"hidlog {args[0]}", lambda: run(args[1:]))


def _load(command: Command) -> Callable[[list[str]], int]:
    """Returns a function that imports a command's module and runs the command."""

    def run(args: list[str]) -> int:
        module = importlib.import_module(f".{command.module}", __package__)
        return int(getattr(module, command.function)(args))

    return run


def _become_program(args: list[str]) -> int:
    try:
        path = find_program()
    except MissingDependencyError:
        if "HIDLOG_PROGRAM" not in os.environ and args in HELP_WORDS:
            sys.stdout.write(Path(__file__).with_name("help.txt").read_text(encoding="utf-8"))
            return 0
        library_cli = importlib.import_module(".library_cli", __package__)  # imported only if there is no program
        if "HIDLOG_PROGRAM" in os.environ or not library_cli.is_supported(args):
            raise
        return entry_point.run_as_program(lambda: int(library_cli.run(args)))
    entry_point.restore_signals()
    try:
        if os.name == "nt":  # on Windows, os.execv would end this process before the program ends
            return subprocess.run([path, *args], check=False).returncode
        os.execv(path, ["hidlog", *args])
    except OSError as error:
        raise HidlogError(f"{path} cannot be started: {error.strerror}") from None


if __name__ == "__main__":
    sys.exit(main())
