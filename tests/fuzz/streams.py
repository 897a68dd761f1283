#!/usr/bin/env python3
"""Runs the program with its input in parts and with writes that fail, and on aarch64, and compares with plain runs.

    tests/fuzz/streams.py [--count N] [--seed N] [--program FILE] [--aarch64 FILE]

Each run takes a malformed log (malformed_requests.py) or one of the examples and a command, and is one of these:

- parts: the log comes through a pipe, in parts of random lengths, each after the previous part was read. The results
  must be those of a plain run.
- limit: standard output is a file with a maximum size. The file must contain the first bytes of the output of a plain
  run. If that output is longer, the error must be a failed write, with status 1.
- aarch64: the program for aarch64 in qemu, in parts or with a limit, as above. The plain run is that of the program for
  x86-64.

Half of the runs are on aarch64 if qemu-aarch64-static is installed. The last line is `N runs, M failed`.
"""

from __future__ import annotations

import argparse
import random
import resource
import shutil
import signal
import subprocess
import sys
import tempfile
import time
from dataclasses import dataclass
from pathlib import Path
from typing import List, Optional, Sequence

from malformed_requests import hostile_log

sys.path.insert(0, str(Path(__file__).resolve().parents[1] / "program"))
from running import count_unread

TOP = Path(__file__).resolve().parent.parent.parent
COMMANDS = (
    "replay",
    "check",
    "quiet",
    "live",
    "show",
    "show --plain",
    "show --explain",
    "show --json",
    "show --summary",
)
WRITE_ERROR = b"hidlog: writing failed\n"
# The text that --explain adds, with the system's error EFBIG.
WRITE_REASON = b"  standard output: File too large (os error 27)\n"


@dataclass
class RunResult:
    """The exit status and the output of a run."""

    status: int
    output: bytes
    errors: bytes


def run(command: Sequence[str], log: bytes) -> RunResult:
    """Runs a command on a whole log."""
    ran = subprocess.run(command, input=log, capture_output=True, check=False, timeout=600)
    return RunResult(ran.returncode, ran.stdout, ran.stderr)


def run_in_parts(command: Sequence[str], log: bytes, chance: random.Random) -> RunResult:
    """Runs a command on a log that is sent in parts."""
    longest = chance.choice((1, 7, 64, 300, 5000))
    with tempfile.TemporaryFile() as output, tempfile.TemporaryFile() as errors:
        with subprocess.Popen(command, stdin=subprocess.PIPE, stdout=output, stderr=errors, bufsize=0) as program:
            assert program.stdin is not None
            at = 0
            # For longer logs, parts of one byte would take minutes.
            shortest = max(1, len(log) // 2000)
            while at < len(log):
                part = chance.randint(shortest, max(shortest, longest))
                try:
                    program.stdin.write(log[at : at + part])
                    while program.poll() is None and count_unread(program.stdin.fileno()):
                        time.sleep(0.0002)
                except BrokenPipeError:
                    break
                at += part
            try:
                program.stdin.close()
            except BrokenPipeError:
                pass
            status = program.wait(600)
        output.seek(0)
        errors.seek(0)
        return RunResult(status, output.read(), errors.read())


def run_with_limit(command: Sequence[str], log: bytes, limit: int) -> RunResult:
    """Runs a command whose output file is limited to `limit` bytes."""

    def set_limit() -> None:
        signal.signal(signal.SIGXFSZ, signal.SIG_IGN)
        resource.setrlimit(resource.RLIMIT_FSIZE, (limit, limit))

    with tempfile.TemporaryFile() as output:
        ran = subprocess.run(
            command,
            input=log,
            stdout=output,
            stderr=subprocess.PIPE,
            check=False,
            timeout=600,
            preexec_fn=set_limit,
            restore_signals=False,
        )
        output.seek(0)
        return RunResult(ran.returncode, output.read(), ran.stderr)


def find_difference(plain: RunResult, ran: RunResult, limit: Optional[int], is_explained: bool) -> Optional[str]:
    """Returns how a run differs from the result that follows from a plain run, or None."""
    if limit is None or limit >= len(plain.output):
        return None if ran == plain else f"expected {plain}, got {ran}"
    if ran.output != plain.output[:limit]:
        return f"with a limit of {limit} bytes, expected {plain.output[:limit]!r}, got {ran.output!r}"
    if (ran.status, ran.errors) != (1, WRITE_ERROR + (WRITE_REASON if is_explained else b"")):
        return f"with a limit of {limit} bytes, expected status 1 and a failed write, got {ran.status}, {ran.errors!r}"
    return None


def main() -> int:
    parser = argparse.ArgumentParser(description="Run the program with partial reads and failed writes.")
    parser.add_argument("--count", type=int, default=200, help="number of runs (default: 200)")
    parser.add_argument("--seed", type=int, default=1, help="seed of logs and parts (default: 1)")
    parser.add_argument("--program", type=Path, default=TOP / "release/hidlog", help="the program")
    parser.add_argument("--aarch64", type=Path, default=TOP / "release/aarch64/hidlog", help="the program for aarch64")
    options = parser.parse_args()
    machines: List[List[str]] = [[str(options.program)]]
    if emulator := shutil.which("qemu-aarch64-static"):
        machines.append([emulator, str(options.aarch64)])
    examples = [path.read_bytes() for path in sorted((TOP / "examples").glob("**/*.log"))]
    failed = 0
    for number in range(options.count):
        chance = random.Random(f"{options.seed} {number}")
        log = chance.choice(examples) if chance.random() < 0.2 else hostile_log(options.seed, number)
        words = chance.choice(COMMANDS).split()
        plain = run([*machines[0], *words], log)
        machine = machines[number % len(machines)]
        limit = None if chance.random() < 0.5 else chance.randint(0, len(plain.output) + 1)
        if limit is None:
            ran = run_in_parts([*machine, *words], log, chance)
        else:
            ran = run_with_limit([*machine, *words], log, limit)
        if difference := find_difference(plain, ran, limit, "--explain" in words):
            failed += 1
            print(
                f"FAILED  run {number} of seed {options.seed}, {' '.join(machine)} {' '.join(words)}: {difference[:2000]}"
            )
    print(f"{options.count} runs, {failed} failed")
    return 1 if failed else 0


if __name__ == "__main__":
    sys.exit(main())
