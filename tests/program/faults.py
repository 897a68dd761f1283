#!/usr/bin/env python3
"""Makes each system call of the program fail, or kills the program at the call. Does the same when the Python package
saves.

    tests/program/faults.py [PROGRAM] [--only NAME ..] [--jobs N] [--every]    PROGRAM [default: release/hidlog]

After each run there must be a complete snapshot, the old or the new one, at its path or as a temporary file, and the
exit status and the message must agree with this. Standard output must be complete, or reported as incomplete. Then it
does the same for the package's commands (command_faults.py), with a sample of the faults, or with --every all of them.

Needs strace. Exit status: 1 if a result is wrong and not in the table of known failures, or a known failure no longer
occurs; 3 if strace is missing.
"""

from __future__ import annotations

import argparse
import os
import shutil
import signal
import subprocess
import sys
import tempfile
from dataclasses import dataclass
from pathlib import Path
from typing import Optional, Sequence

import command_faults
import injection
from injection import InjectedFault

TOP = Path(__file__).resolve().parents[2]
EXAMPLES = TOP / "examples"
SNAPSHOT, SIGN_IN_AGAIN = EXAMPLES / "example_com.snapshot", EXAMPLES / "sign_in_again.log"
# Calls that libc makes before main. If one of them fails, the program exits without a message.
STARTUP_CALLS = {"brk", "mprotect", "arch_prctl", "set_tid_address", "set_robust_list", "rseq", "prlimit64", "readlink"}
# Calls whose failure means that the file may not be on disk. This doesn't include close, which comes after fsync.
WRITE_CALLS = {"write", "pwrite64", "ftruncate", "fsync", "fdatasync", "rename", "openat"}

# Known failures: for each run, patterns of faults, and the reason. If a known failure no longer occurs, this is
# reported.
KNOWN_FAILURES: dict[str, dict[str, str]] = {}


@dataclass(frozen=True)
class Run:
    """A run of the program in a folder: its arguments, in which {} stands for the folder, its input, and the bytes of
    the file that it overwrites."""

    name: str
    words: tuple[str, ...]
    log: Path
    old: Optional[bytes] = None
    saves: bool = True

    def get_saved_path(self, folder: Path) -> Path:
        return folder / "keys"

    def run_once(self, program: str, folder: Path, trace: Sequence[str]) -> subprocess.CompletedProcess[bytes]:
        """Runs the program once, in a folder that contains only the old file."""
        if self.old is not None:
            self.get_saved_path(folder).write_bytes(self.old)
        command = [*trace, program, *(word.format(folder) for word in self.words)]
        with open(self.log, "rb") as log:
            return subprocess.run(command, stdin=log, capture_output=True, timeout=600, env=ENVIRONMENT)


ENVIRONMENT = {
    "PATH": os.environ["PATH"],
    "PYTHONPATH": str(TOP / "bindings/python/src"),
    "PYTHONDONTWRITEBYTECODE": "1",
}


def find_file_error(run: Run, program: str, folder: Path, new: bytes, status: int, said: str) -> Optional[str]:
    """Returns what is wrong with the files that a run left."""
    path, whole = run.get_saved_path(folder), {new} if run.old is None else {run.old, new}
    others = [path for path in folder.iterdir() if path.name not in ("keys", "strace", "keys.hidlog-sum")]
    there = path.read_bytes() if path.exists() else None
    if status == 0 and (there != new or others):
        return f"status 0, but the file isn't the new one, or these copies are left: {[other.name for other in others]}"
    if there is None and run.old is None:
        return None
    if there in whole:
        return find_load_error(program, path) if there in (new, SHORT) else None
    copies = [other for other in others if other.read_bytes() in whole]
    if not copies:
        return f"neither the old nor the new snapshot is left: {len(there or b'')} bytes"
    words = [program, "replay", "--explain", "--load", str(path)]
    loaded = subprocess.run(words, input=b"", capture_output=True, timeout=600)
    if loaded.returncode == 0 or copies[0].name not in loaded.stderr.decode(errors="replace"):
        return f"the error of --load does not name the copy {copies[0].name}: {loaded.stderr!r}"
    return (
        None
        if status == -signal.SIGKILL or copies[0].name in said
        else f"the error does not name the copy {copies[0].name}: {said!r}"
    )


def find_load_error(program: str, path: Path) -> Optional[str]:
    """Returns an error if a complete snapshot cannot be loaded. Files saved by Python are not snapshots."""
    if Path(program).name != "hidlog":
        return None
    loaded = subprocess.run([program, "replay", "--load", str(path)], input=b"", capture_output=True, timeout=600)
    return None if loaded.returncode == 0 else f"the new snapshot cannot be loaded: {loaded.stderr!r}"


def find_message_error(place: InjectedFault, log: Path, status: int, said: str) -> Optional[str]:
    """Returns what is wrong with the exit status and the message of a run."""
    is_injected = injection.was_injected(log, place)
    if status == -signal.SIGKILL and place.fault == "KILL":
        return None
    if status == 0:
        is_lost = is_injected and place.call in WRITE_CALLS and place.fault not in ("EINTR", "EAGAIN")
        is_lost = is_lost and not injection.left_file_unchanged(log)
        return f"status 0 after {place}" if is_lost or said else None
    if said or place.call in STARTUP_CALLS:
        return None
    return f"status {status} without a message"


def find_error(run: Run, program: str, new: bytes, output: bytes, place: InjectedFault, folder: Path) -> Optional[str]:
    """Runs the program with a fault, and returns what is wrong with the result."""
    log, work_dir = folder / "strace", folder / "work"
    work_dir.mkdir()
    ended = run.run_once(program, work_dir, place.make_strace_prefix(log))
    said = ended.stderr.decode(errors="replace")
    if ended.returncode == 0 and ended.stdout != output:
        return "status 0, but standard output is incomplete"
    if not output.startswith(ended.stdout):
        return f"standard output differs: {ended.stdout[:80]!r}"
    wrong = find_message_error(place, log, ended.returncode, said)
    if wrong is None and run.saves:
        wrong = find_file_error(run, program, work_dir, new, ended.returncode, said)
    return wrong


def run_faults(run: Run, program: str, jobs: int) -> int:
    """Runs the program with each fault. Returns the number of new failures and of known failures that no longer
    occur."""
    with tempfile.TemporaryDirectory() as first, tempfile.TemporaryDirectory() as second:
        right = run.run_once(program, Path(first), [])
        assert right.returncode == 0 and not right.stderr, right
        new = run.get_saved_path(Path(first)).read_bytes() if run.saves else b""
        counts = injection.count_calls(lambda trace: run.run_once(program, Path(first), trace), Path(second))
    base = count_interpreter_calls(run)
    added = {name for name, count in counts.items() if count > base.get(name, 0)}
    places = [place for place in injection.list_faults(counts, added) if place.number > base.get(place.call, 0)]
    wrong = injection.check_faults(
        places, lambda place, at: find_error(run, program, new, right.stdout, place, at), jobs
    )
    return injection.report_failures(run.name, len(places), wrong, KNOWN_FAILURES.get(run.name, {}))


# ---- the Python package, after its imports

# A key after INIT, so that there is something to save.
PYTHON_SETUP = """
import sys, hidlog
from pathlib import Path
key, path = hidlog.SecurityKey(), Path(sys.argv[1]) / "keys"
key.write_packet(bytes.fromhex("ffffffff8600080001020304050607").ljust(64, b"\\0"))
key.read_packet()
"""
NEW = " to a new file"
PYTHON_SAVES = {
    "SecurityKey.save": "key.save(path)",
    "SecurityKey.save_log": "key.save_log(path)",
    f"SecurityKey.save_log{NEW}": "key.save_log(path)",
}


def count_interpreter_calls(run: Run) -> dict[str, int]:
    """Returns how often the interpreter makes each call before the package saves."""
    if run.name not in PYTHON_SAVES:
        return {}
    with tempfile.TemporaryDirectory() as folder:
        words = ["-c", PYTHON_SETUP, folder]
        return injection.count_calls(
            lambda trace: subprocess.run([*trace, sys.executable, *words], env=ENVIRONMENT, capture_output=True),
            Path(folder),
        )


SHORT, LONG = bytes.fromhex("a201020280"), SNAPSHOT.read_bytes() + b"x" * 5000
LOAD_AND_SAVE = ("--load", str(SNAPSHOT), "--save", "{}/keys", "--explain")
RUNS = [
    Run("replay --save over a shorter file", ("replay", *LOAD_AND_SAVE), SIGN_IN_AGAIN, SHORT),
    Run("replay --save over a longer file", ("replay", *LOAD_AND_SAVE), SIGN_IN_AGAIN, LONG),
    Run("replay --save to a new file", ("replay", *LOAD_AND_SAVE), SIGN_IN_AGAIN),
    Run("live --save over a shorter file", ("live", *LOAD_AND_SAVE), SIGN_IN_AGAIN, SHORT),
    Run("replay --load", ("replay", "--load", str(SNAPSHOT)), SIGN_IN_AGAIN, saves=False),
    Run("replay", ("replay",), EXAMPLES / "registration.log", saves=False),
    Run("live", ("live",), EXAMPLES / "registration.log", saves=False),
    Run(
        "check of a named file",
        ("check", str(EXAMPLES / "registration.log")),
        EXAMPLES / "registration.log",
        saves=False,
    ),
    Run("show", ("show",), EXAMPLES / "registration.log", saves=False),
]
PYTHON_RUNS = [
    Run(name, ("-c", PYTHON_SETUP + text, "{}"), EXAMPLES / "registration.log", None if name.endswith(NEW) else b"old")
    for name, text in PYTHON_SAVES.items()
]


def main() -> int:
    parser = argparse.ArgumentParser(description=(__doc__ or "").splitlines()[0])
    parser.add_argument("program", nargs="?", default=str(TOP / "release/hidlog"))
    parser.add_argument("--only", nargs="*", metavar="NAME", default=[])
    parser.add_argument("--jobs", type=int, default=2)
    parser.add_argument(
        "--every", action="store_true", help="all faults for the package's commands instead of a sample"
    )
    words = parser.parse_args()
    if shutil.which("strace") is None:
        print("tests/program/faults.py: strace is missing (apt-get install strace); nothing was run", file=sys.stderr)
        return 3
    program = str(Path(words.program).resolve())
    chosen = [(run, program) for run in RUNS] + [(run, sys.executable) for run in PYTHON_RUNS]
    bad = sum(run_faults(run, of, words.jobs) for run, of in chosen if not words.only or run.name in words.only)
    bad += command_faults.run_all(words.only, words.jobs, words.every)
    return 1 if bad else 0


if __name__ == "__main__":
    sys.exit(main())
