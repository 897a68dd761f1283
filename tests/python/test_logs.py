"""The commands for logs: as functions, as `python -m hidlog`, as the console script, and without the program, as on
processors for which there is no program."""

from __future__ import annotations

import os
import subprocess
import sys
from collections.abc import Callable
from hashlib import sha256
from pathlib import Path

import pytest

import hidlog
from hidlog.subprocess_key import find_program

Example = Callable[[str], bytes]
# Runs the package's command without the program.
WITHOUT_PROGRAM = """
import sys
from pathlib import Path
import hidlog.subprocess_key
hidlog.subprocess_key.program_paths = lambda: [Path("/nowhere/hidlog")]
from hidlog.__main__ import main
sys.exit(main())
"""


@pytest.mark.parametrize("name", ["registration.log", "sign_in.log", "selection.log"])
@pytest.mark.parametrize("kind", [bytes, bytearray, memoryview])
def test_a_worked_log_is_its_own_replay(read_example: Example, name: str, kind: type) -> None:
    log = read_example(name)
    assert hidlog.replay(kind(log)).raise_for_fault().text == log
    assert hidlog.check(kind(log)).raise_for_fault().text.startswith(b"same ")


def test_a_log_on_a_snapshot(read_example: Example) -> None:
    log, snapshot = read_example("sign_in_again.log"), read_example("example_com.snapshot")
    assert hidlog.replay(log, memoryview(snapshot)).text == log
    with pytest.raises(hidlog.LogError, match="^line 4: differs at packet 1$"):
        hidlog.check(log).raise_for_fault()


def test_faults_are_reported() -> None:
    assert hidlog.quiet(b"t 1\nt x\n") == (b"t 1\n", 1, 1, 2, 0)
    with pytest.raises(hidlog.LogError, match="^line 1: longer than 255 bytes$"):
        hidlog.replay(b"#" * 256).raise_for_fault()
    with pytest.raises(hidlog.SnapshotError, match="^snapshot refused: 1 "):
        hidlog.replay(b"", b"no snapshot").raise_for_fault()


def test_show_writes_what_the_program_writes(read_example: Example) -> None:
    for log in (read_example("sign_in.log"), read_example("service_presence_denied.log"), b"t 1\nt x\n", b""):
        for explain, word in ((False, "--plain"), (True, "--explain")):
            theirs = subprocess.run([find_program(), "show", word], input=log, capture_output=True)
            shown = hidlog.show(log, explain=explain)
            assert (shown.text, shown.status) == (theirs.stdout, theirs.returncode)


def test_a_text_is_a_type_error() -> None:
    with pytest.raises(TypeError, match="must be bytes, bytearray or memoryview, not str"):
        hidlog.show("t 1\n")  # type: ignore[arg-type]
    for command in (hidlog.replay, hidlog.check, hidlog.quiet, hidlog.live):
        with pytest.raises(TypeError, match="must be bytes, bytearray or memoryview, not str"):
            command("t 1\n")  # type: ignore[arg-type]


def test_what_is_written_may_be_much_longer_than_the_log(read_example: Example) -> None:
    ticks = b"".join(b"t %d\n" % (1000 * index) for index in range(5000))
    start_shrinking = b"\n".join(read_example("registration.log").splitlines()[:5]) + b"\n"
    text = hidlog.replay(start_shrinking + ticks).raise_for_fault().text
    # There is a KEEPALIVE at the request, and one at each tick except the first, which has the same timestamp as the
    # request.
    assert text.count(b"\n< 00000001bb0001") == 5000


def run_command(*words: str, log: bytes = b"", **variables: str) -> tuple[int, bytes, bytes]:
    module = [sys.executable, "-m", "hidlog", *words]
    done = subprocess.run(module, input=log, capture_output=True, env={**os.environ, **variables})
    return done.returncode, done.stdout, done.stderr


@pytest.mark.parametrize("command", ["replay", "check", "quiet", "show"])
def test_each_command_is_the_program(read_example: Example, command: str) -> None:
    for log in (read_example("sign_in.log"), b"t 1\nt x\n"):
        theirs = subprocess.run([find_program(), command], input=log, capture_output=True)
        status, output, faults = run_command(command, log=log)
        assert (status, output) == (theirs.returncode, theirs.stdout)
        assert faults == theirs.stderr


def test_a_missing_program_is_said_in_one_line() -> None:
    status, output, text = run_command("show", HIDLOG_PROGRAM="/nowhere/hidlog")
    assert (status, output, text.count(b"\n")) == (2, b"", 1)
    assert text.startswith(b"hidlog: hidlog program not found (tried /nowhere/hidlog)")


def test_the_console_script_is_the_program(read_example: Example, tmp_path: Path) -> None:
    script = Path(sys.executable).parent / "hidlog"
    (tmp_path / "session.log").write_bytes(read_example("sign_in.log"))
    words: list[list[str]] = [
        ["--version"],
        ["show", "--summary", "session.log"],
        ["show", "--json", "session.log"],
        [],
    ]
    for given in words:
        theirs, own = (
            subprocess.run([path, *given], cwd=tmp_path, capture_output=True, stdin=subprocess.DEVNULL)
            for path in (find_program(), str(script))
        )
        assert (own.returncode, own.stdout, own.stderr) == (theirs.returncode, theirs.stdout, theirs.stderr)


def run_process(words: list[str], given: bytes, folder: Path) -> tuple[int, bytes, bytes]:
    """Returns the result of a command."""
    ran = subprocess.run(words, input=given, capture_output=True, cwd=folder)
    return ran.returncode, ran.stdout, ran.stderr


def run_both(words: list[str], given: bytes, folder: Path) -> tuple[tuple[int, bytes, bytes], tuple[int, bytes, bytes]]:
    """Returns the results of a command, first without the program and then with it."""
    own = run_process([sys.executable, "-c", WITHOUT_PROGRAM, *words], given, folder)
    return own, run_process([find_program(), *words], given, folder)


@pytest.mark.parametrize("command", ["check", "replay", "quiet", "live", "show", "show --explain"])
def test_logs_are_as_the_program_writes_them(read_example: Example, tmp_path: Path, command: str) -> None:
    good, changed = read_example("sign_in.log"), read_example("sign_in.log").replace(b"granted", b"denied")
    for log in (good, changed, b"", b"t 1\nt x\n", b"t " + b"1" * 300 + b"\n"):
        own, theirs = run_both(command.split(), log, tmp_path)
        if command != "show --explain":
            assert own == theirs
        else:  # the program explains errors, too
            assert (own[:2], own[2].splitlines()[:1]) == (theirs[:2], theirs[2].splitlines()[:1])


def test_files_and_snapshots(read_example: Example, tmp_path: Path) -> None:
    (tmp_path / "log").write_bytes(read_example("sign_in_again.log"))
    (tmp_path / "other").write_bytes(b"t 05\n")
    (tmp_path / "key").write_bytes(read_example("example_com.snapshot"))
    (tmp_path / "bad").write_bytes(b"\xa0")
    for words in (
        ["check", "--load", "key", "log"],
        ["check", "--load=key", "-"],
        ["replay", "log"],
        ["check", "log", "other"],
        ["check", "nothing"],
        ["replay", "--load", "nothing", "log"],
        ["replay", "--load", "bad", "log"],
        ["show", "--plain", "log"],
    ):
        own, theirs = run_both(words, read_example("sign_in_again.log"), tmp_path)
        assert own == theirs, words


def test_a_snapshot_that_is_not_that_of_its_sums(read_example: Example, tmp_path: Path) -> None:
    """The expected texts are those in docs/use/LOG_FORMAT.md and in the tests of the program."""
    words, data = [sys.executable, "-c", WITHOUT_PROGRAM, "check", "--load", "key", "-"], read_example(
        "example_com.snapshot"
    )
    key, sums, log = tmp_path / "key", tmp_path / "key.hidlog-sum", read_example("sign_in_again.log")
    key.write_bytes(data)
    number = b" %016x\n" % key.stat().st_ino
    own, other = (sha256(item).hexdigest().encode() for item in (data, b"other"))
    same = run_process(words, log, tmp_path)
    assert same[0] == 0
    for text in (own + number, other + number + own + number, own + number + other + number, other + b" %016x\n" % 1):
        sums.write_bytes(text)
        assert run_process(words, log, tmp_path) == same
    unread = b"hidlog: cannot read snapshot\n"
    for text in (b"", b"mine\n", own + number[:-1], (own + number) * 3):
        sums.write_bytes(text)
        assert run_process(words, log, tmp_path) == (2, b"", unread)
    sums.write_bytes(other + number)
    damaged = b"  its bytes don't match its .hidlog-sum: restore it, or remove the .hidlog-sum\n"
    assert run_process(words, log, tmp_path) == (2, b"", unread + damaged)


@pytest.mark.parametrize("words", [["check", "--all"], ["show", "--json"], ["replay", "--save", "x"], ["chek"], []])
def test_other_words_are_the_programs(tmp_path: Path, words: list[str]) -> None:
    status, output, said = run_process([sys.executable, "-c", WITHOUT_PROGRAM, *words], b"", tmp_path)
    assert (status, output, said.count(b"\n")) == (2, b"", 1) and b"program not found" in said
