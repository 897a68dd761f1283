"""Tests every command with a full, closed or broken standard stream: it prints one line of error, and exits with its
own status.

Commands that the program also has behave exactly as the program, byte for byte, also through the library.
"""

from __future__ import annotations

import os
import resource
import signal
import subprocess
import sys
from collections.abc import Iterator
from contextlib import contextmanager
from pathlib import Path
from tempfile import TemporaryFile

import pytest

from hidlog.subprocess_key import find_program

from test_logs import WITHOUT_PROGRAM

WITH_PROGRAM = [sys.executable, "-m", "hidlog"]
WITHOUT_PROGRAM_COMMAND = [sys.executable, "-c", WITHOUT_PROGRAM]
BROWSER_LINE = b'{"id": 1, "log": 0}\n'
WRITING_FAILED = b"hidlog: writing failed\n"
# Commands of the program that all write output.
PROGRAM_COMMANDS = [
    "check same.log",
    "replay same.log",
    "quiet same.log",
    "live same.log",
    "show same.log",
    "live",
    "replay",
]
PROGRAM_ONLY_COMMANDS = ["--version", "show --json same.log", "show --summary same.log", "check --all broken.log"]
# Commands of the package.
PYTHON_COMMANDS = [
    "import capture",
    "import --list capture",
    "export same.log",
    "export --dissector-path",
    "judge broken.log",
    "judge --format json same.log",
    "judge --format junit same.log",
    "check-many broken.log",
    "check-many --report json same.log",
    "check-many --report junit same.log",
    "shrink long.log awk /granted/{exit(1)}",
    "browser --origin https://example.com",
    "import --help",
    "export --help",
    "judge --help",
    "check-many --help",
    "shrink --help",
    "mermaid --help",
    "browser --help",
    "webdriver --help",
]
MIXED_COMMANDS = ["mermaid same.log", "check --signatures same.log"]


@pytest.fixture(scope="module")
def folder(tmp_path_factory: pytest.TempPathFactory) -> Path:
    """Provides a directory that contains logs and a capture."""
    examples, made = Path(os.environ["HIDLOG_EXAMPLES"]), tmp_path_factory.mktemp("streams")
    (made / "same.log").write_bytes((examples / "registration.log").read_bytes())
    (made / "broken.log").write_bytes((examples / "failing" / "stale_sign_count.log").read_bytes())
    (made / "long.log").write_bytes(b"t 1\np 2 granted\nt 3\n")
    subprocess.run([*WITH_PROGRAM, "export", "same.log", "-o", "capture"], cwd=made, check=True)
    return made


@contextmanager
def open_failing_stream(kind: str) -> Iterator[int]:
    """Provides a file descriptor to which writing fails."""
    if kind == "full":
        number = os.open("/dev/full", os.O_WRONLY)
    elif kind == "short":
        with TemporaryFile() as file:
            number = os.dup(file.fileno())
    else:
        reader, number = os.pipe()
        os.close(reader)
    try:
        yield number
    finally:
        os.close(number)


def limit_file_size() -> None:
    """Makes writes to a file fail after its tenth byte. SIGXFSZ kills processes that do not ignore it."""
    resource.setrlimit(resource.RLIMIT_CORE, (0, 0))
    resource.setrlimit(resource.RLIMIT_FSIZE, (10, 10))


def run_command(command: list[str], words: str, folder: Path, kind: str, stream: int = 1) -> tuple[int, bytes, bytes]:
    """Returns the result of a command with one standard stream (output, error or input) that is full, closed or
    broken."""
    log = BROWSER_LINE if "browser" in words else (folder / "same.log").read_bytes()
    line = ["sh", "-c", f'exec "$@" {stream}>&-', "sh", *command] if kind == "closed" else command
    with open_failing_stream("broken" if kind == "closed" else kind) as number:
        streams = {1: subprocess.PIPE, 2: subprocess.PIPE, **({} if kind == "closed" else {stream: number})}
        ran = subprocess.run(
            [*line, *words.split()],
            input=log,
            stdout=streams[1],
            stderr=streams[2],
            cwd=folder,
            timeout=600,
            preexec_fn=limit_file_size if kind == "short" else None,
        )
    return ran.returncode, ran.stdout or b"", ran.stderr or b""


@pytest.mark.parametrize("kind", ["full", "closed", "broken"])
@pytest.mark.parametrize("words", PROGRAM_COMMANDS)
def test_the_programs_commands_end_as_the_program(folder: Path, words: str, kind: str) -> None:
    for stream in (1, 2):
        theirs = run_command([find_program()], words, folder, kind, stream)
        assert run_command(WITH_PROGRAM, words, folder, kind, stream) == theirs, stream
        assert run_command(WITHOUT_PROGRAM_COMMAND, words, folder, kind, stream) == theirs, stream
    assert theirs[0] == 0
    assert run_command([find_program()], words, folder, kind)[::2] == (1, WRITING_FAILED)


@pytest.mark.parametrize("kind", ["full", "closed", "broken"])
@pytest.mark.parametrize("words", PROGRAM_ONLY_COMMANDS)
def test_what_the_program_serves_alone(folder: Path, words: str, kind: str) -> None:
    theirs = run_command([find_program()], words, folder, kind)
    assert run_command(WITH_PROGRAM, words, folder, kind) == theirs
    status, _, said = run_command(WITHOUT_PROGRAM_COMMAND, words, folder, kind)
    assert (status, said.count(b"\n")) == (2, 1) and b"program not found" in said


@pytest.mark.parametrize("kind", ["full", "closed", "broken"])
def test_help_is_written_without_the_program_too(folder: Path, kind: str) -> None:
    assert run_command(WITH_PROGRAM, "--help", folder, kind) == run_command([find_program()], "--help", folder, kind)
    assert run_command(WITHOUT_PROGRAM_COMMAND, "--help", folder, kind)[::2] == (2, b"hidlog: writing failed\n")


@pytest.mark.parametrize("words", PROGRAM_COMMANDS)
def test_a_short_write_ends_the_programs_commands_as_the_program(folder: Path, words: str) -> None:
    theirs = run_command([find_program()], words, folder, "short")
    assert (
        theirs
        == run_command(WITH_PROGRAM, words, folder, "short")
        == run_command(WITHOUT_PROGRAM_COMMAND, words, folder, "short")
    )
    assert theirs[::2] == (-signal.SIGXFSZ, b"")


@pytest.mark.parametrize("kind", ["full", "closed", "broken", "short"])
@pytest.mark.parametrize("words", [*PYTHON_COMMANDS, *MIXED_COMMANDS])
def test_the_packages_commands_end_with_a_line(folder: Path, words: str, kind: str) -> None:
    status, _, said = run_command(WITH_PROGRAM, words, folder, kind)
    assert status == 2 and b"Traceback" not in said and said.endswith(WRITING_FAILED), said
    if words in MIXED_COMMANDS:
        status, _, said = run_command(WITHOUT_PROGRAM_COMMAND, words, folder, kind)
        assert status == 2 and (b"program not found" in said or said == WRITING_FAILED)
    else:
        assert run_command(WITHOUT_PROGRAM_COMMAND, words, folder, kind)[::2] == (status, said)


@pytest.mark.parametrize("kind", ["full", "closed", "broken"])
@pytest.mark.parametrize("words", [*PYTHON_COMMANDS, *MIXED_COMMANDS])
def test_standard_error_changes_no_status(folder: Path, words: str, kind: str) -> None:
    right = subprocess.run([*WITH_PROGRAM, *words.split()], input=BROWSER_LINE, cwd=folder, capture_output=True)
    status, text, _ = run_command(WITH_PROGRAM, words, folder, kind, 2)
    assert (status, text) == (right.returncode, right.stdout) and right.returncode in (0, 1)


@pytest.mark.parametrize("kind", ["full", "closed", "broken"])
def test_a_failure_after_something_was_printed(folder: Path, kind: str) -> None:
    status, _, said = run_command(WITH_PROGRAM, "check --signatures same.log nothing.log", folder, kind)
    assert status == 2 and all(line.startswith(b"hidlog") for line in said.splitlines()), said


@pytest.mark.parametrize(
    "words", ["import -", "export -", "judge -", "shrink - false", "browser --origin http://a", "mermaid"]
)
def test_a_closed_standard_input_is_no_empty_one(folder: Path, words: str) -> None:
    ran = subprocess.run(
        ["sh", "-c", 'exec "$@" <&-', "sh", *WITH_PROGRAM, *words.split()], cwd=folder, capture_output=True, timeout=600
    )
    assert (ran.returncode, ran.stdout) == (2, b"") and ran.stderr and b"Traceback" not in ran.stderr


def test_a_closed_stream_is_no_file(folder: Path) -> None:
    """If a standard stream is closed, the file that is opened next does not become this stream."""
    target = folder / "out.log"
    shell = ["sh", "-c", 'exec "$@" <&- >&- 2>&-', "sh"]
    ran = subprocess.run([*shell, *WITH_PROGRAM, "import", "capture", "-o", "out.log"], cwd=folder, timeout=600)
    assert ran.returncode == 0 and target.read_bytes() == (folder / "same.log").read_bytes()
