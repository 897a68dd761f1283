"""Functions to run the program, shared by the tests of this folder."""

from __future__ import annotations

import fcntl
import subprocess
import sys
import termios
import time
from pathlib import Path
from typing import Callable, Optional, Sequence

TOP = Path(__file__).resolve().parents[2]
PROGRAM = str(Path(sys.argv[1]).resolve() if len(sys.argv) > 1 else TOP / "release/hidlog")
EXAMPLES = TOP / "examples"
SNAPSHOT = EXAMPLES / "example_com.snapshot"
SIGN_IN_AGAIN = EXAMPLES / "sign_in_again.log"
INIT = b"> 0 " + b"ffffffff8600080001020304050607".ljust(128, b"0") + b"\n"
COUNTS = b"= held 0 rows 0 pending 0 requests 0 bytes 0 steps 0\n"
# The stack size in bytes that docs/use/LIMITS.md states, which includes arguments and environment.
STACK_BYTES = 144 << 10

Said = subprocess.CompletedProcess[bytes]


def run(
    words: Sequence[str],
    log: bytes = b"",
    *,
    stdin: Optional[Path] = None,
    trace: Sequence[str] = (),
    before: Optional[Callable[[], None]] = None,
) -> Said:
    """Runs the program with arguments. Standard input is a log or a file. If a fault is to be injected, the program
    runs under strace."""
    command = [PROGRAM, *words]
    if trace:
        command = ["strace", "-f", "-qq", "-o", "/dev/null", *trace, *command]
    if stdin is None:
        return subprocess.run(command, input=log, capture_output=True, preexec_fn=before, timeout=600)
    with open(stdin, "rb") as file:
        return subprocess.run(command, stdin=file, capture_output=True, preexec_fn=before, timeout=600)


def run_explained(
    words: Sequence[str],
    log: bytes = b"",
    *,
    stdin: Optional[Path] = None,
    trace: Sequence[str] = (),
    before: Optional[Callable[[], None]] = None,
) -> Said:
    """Runs the program as `run` does, with --explain. Fails unless standard error without the explanations, which are
    notes and lines that begin with two spaces, is the plain text."""
    said = run([words[0], "--explain", *words[1:]], log, stdin=stdin, trace=trace, before=before)
    if "--save" not in words and not trace:
        fixed = run(words, log, stdin=stdin, before=before)
        lines = said.stderr.splitlines(keepends=True)
        left = b"".join(line for line in lines if not line.startswith(b"  ") and b": note: " not in line)
        assert fixed.returncode == said.returncode and fixed.stderr == left, (words, fixed, said)
    return said


def run_in_parts(words: Sequence[str], log: bytes, part: int) -> Said:
    """Runs the program on a log through a pipe, in parts of `part` bytes. Each part is written when the previous one
    was read."""
    with subprocess.Popen(
        [PROGRAM, *words], stdin=subprocess.PIPE, stdout=subprocess.PIPE, stderr=subprocess.PIPE, bufsize=0
    ) as program:
        assert program.stdin is not None
        for start in range(0, len(log), part):
            try:
                program.stdin.write(log[start : start + part])
                while program.poll() is None and count_unread(program.stdin.fileno()):
                    time.sleep(0.0002)
            except BrokenPipeError:
                break
        output, faults = program.communicate(timeout=600)
        return Said(program.args, program.returncode, output, faults)


def count_unread(pipe: int) -> int:
    """Returns the number of unread bytes in a pipe."""
    count = fcntl.ioctl(pipe, termios.FIONREAD, bytes(4))
    return int.from_bytes(count, sys.byteorder)


def check_result(said: Said, status: int, faults: bytes, output: Optional[bytes] = None) -> None:
    """Fails unless the exit status and the message are as expected."""
    assert said.returncode == status, f"expected exit status {status}, got {said.returncode}; stderr: {said.stderr!r}"
    assert said.stderr == faults, f"expected stderr {faults!r}, got {said.stderr!r}"
    if output is not None:
        assert said.stdout == output, f"expected stdout {output!r}, got {said.stdout!r}"
