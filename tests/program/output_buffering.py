"""Tests the buffering of output: it may be buffered while more input is available, but not while the program waits for
input."""

from __future__ import annotations

import os
import select
import subprocess
from pathlib import Path

from running import COUNTS, INIT, PROGRAM, check_result, run

KEY_PACKET = b"< " + b"00" * 64 + b"\n"
COMMANDS = ("replay", "quiet", "live", "show")


def count_writes(words: list[str], log: Path) -> tuple[int, bytes]:
    """Returns the number of writes to standard output, and the output."""
    calls = log.with_name("calls")
    said = run(words, stdin=log, trace=["-o", str(calls), "-e", "trace=write"])
    check_result(said, 0, b"")
    return calls.read_text(encoding="utf-8").count("write(1,"), said.stdout


def test_many_lines_take_few_writes(work_dir: Path) -> None:
    """For a long file, the output of many lines is written at once."""
    ticks = b"".join(b"t %d\n" % n for n in range(20_000))
    recording = b"".join(b"t %d\n%s" % (n, KEY_PACKET * 2) for n in range(2_000))
    counts = b"= held 0 rows 0 pending 0 requests 0 bytes 0 steps 0\n"
    shown = b"".join(b"%d t %d\n" % (n + 1, n) for n in range(20_000))
    for words, log, wanted in (
        (["replay"], b"\n" * 20_000, b"\n" * 20_000 + counts),
        (["replay"], b"# a\n" * 20_000, b"# a\n" * 20_000 + counts),
        (["replay"], ticks, ticks + counts),
        (["replay"], recording, recording.replace(KEY_PACKET, b"") + counts),
        (["quiet"], ticks, ticks),
        (["show"], ticks, shown),
    ):
        (work_dir / "log").write_bytes(log)
        count, text = count_writes(words, work_dir / "log")
        assert text == wanted, f"unexpected output of {words}"
        # The writes for a file: two for each 4096 bytes that are read, one for each 8192 bytes that are buffered, and
        # one for the counts.
        most = 3 * (len(log) // 4096 + 1) + len(text) // 4096 + 2
        assert count <= most, f"{words}: expected at most {most} writes, got {count}"


def read_until(program: subprocess.Popen[bytes], part: bytes) -> bytes:
    """Returns the output of a program up to this text. Fails if the text does not come."""
    assert program.stdout is not None
    text = b""
    while part not in text:
        ready, _, _ = select.select([program.stdout], [], [], 20)
        assert ready, f"expected {part!r} in the output, got {text!r}"
        more = os.read(program.stdout.fileno(), 65536)
        assert more, f"expected {part!r} in the output, which ended after {text!r}"
        text += more
    return text


def to_live_output(text: bytes) -> bytes:
    """Returns the output of `live` for ticks and comments, which `replay` copies."""
    need = b"# need nothing\n"
    return b"".join(line + need if line.startswith(b"t") else line for line in text.splitlines(keepends=True))


def test_output_precedes_next_read(_: Path) -> None:
    """All output is written before the next part of a log is read."""
    parts = (
        (b"t 1\n", b"t 1\n", b" t 1\n"),
        (b"t 2\nt 3\n" + KEY_PACKET, b"t 2\nt 3\n", b" t 3\n"),
        (b"t 4\n= of 1\n" + KEY_PACKET + b"t 5", b"t 4\n", b" t 4\n"),
        (b"\n# a\n\n", b"t 5\n# a\n\n", b" t 5\n"),
        (b"# b\nt 6\n\n# c\n" + KEY_PACKET * 2, b"# b\nt 6\n\n# c\n", b" t 6\n"),
        (b"t 7\n" * 3000, b"t 7\n" * 3000, b" t 7\n"),
    )
    for command in COMMANDS:
        with subprocess.Popen([PROGRAM, command], stdin=subprocess.PIPE, stdout=subprocess.PIPE, bufsize=0) as program:
            assert program.stdin is not None
            for part, text, shown in parts:
                program.stdin.write(part)
                if command == "show":
                    read_until(program, shown)
                    continue
                wanted = to_live_output(text) if command == "live" else text
                said = b""
                while said != wanted:
                    said += read_until(program, b"\n")
                    assert wanted.startswith(said), f"{command} wrote {said!r}"
            program.stdin.close()
            assert program.stdout is not None
            program.stdout.read()
        assert program.returncode == 0, f"{command}: status {program.returncode}"


def test_failed_write_precedes_later_error(_: Path) -> None:
    """A failed write is reported before an error in a later line, whose message is not written yet."""
    for words in (["replay"], ["quiet"], ["show"]):
        for log in (INIT * 9, b"t 1\nt 2\nt 3x\n", b"t 1\nt 2x\nt 3\n", b"t 1\n" + b"t" * 300):
            with open("/dev/full", "wb") as full:
                said = subprocess.run([PROGRAM, *words], input=log, stdout=full, stderr=subprocess.PIPE)
            check_result(said, 1, b"hidlog: writing failed\n")


def test_error_follows_earlier_output(work_dir: Path) -> None:
    """If standard output and standard error are the same file, the output before an error comes before its message."""
    lines = b"t 1\nt 2\n# a\n"
    with open(work_dir / "all", "wb") as out:
        said = subprocess.run([PROGRAM, "replay"], input=lines + b"t 3x\nt 4\n", stdout=out, stderr=out)
    assert said.returncode == 1
    wanted = lines + b"hidlog: line 4: not a log line\n"
    assert (work_dir / "all").read_bytes() == wanted, (work_dir / "all").read_bytes()


def test_any_write_can_fail(work_dir: Path) -> None:
    """Whichever write fails, the bytes written are a prefix of the output, and the failure is reported."""
    log = b"".join(b"t %d\n# a\n" % n for n in range(2_000))
    (work_dir / "log").write_bytes(log)
    count, whole = count_writes(["replay"], work_dir / "log")
    assert whole == log + COUNTS
    for when in range(1, count + 1):
        trace = ["-e", "trace=write", "-e", f"inject=write:error=ENOSPC:when={when}"]
        said = run(["replay"], stdin=work_dir / "log", trace=trace)
        check_result(said, 1, b"hidlog: writing failed\n")
        assert whole.startswith(said.stdout) and said.stdout != whole, f"write {when}"


TESTS_WITH_STRACE = {test_many_lines_take_few_writes, test_any_write_can_fail}
TESTS = [
    test_many_lines_take_few_writes,
    test_output_precedes_next_read,
    test_failed_write_precedes_later_error,
    test_error_follows_earlier_output,
    test_any_write_can_fail,
]
