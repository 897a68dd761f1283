#!/usr/bin/python3
"""Failures of system calls in `hidlog webdriver`: in each run, one call after startup fails or kills the process.

In each run, errors must be one line without a traceback, each response must be a valid WebDriver response, the driver
and its child processes must end, and a recording must be complete or reported as not written. Reads and writes of half
their size must change nothing.

    tests/webdriver/faults.py [--all] [--count 40] [--seed 1] [--jobs 2]

By default, tests a random sample of the calls; --all tests each. Needs strace. Exit status: 1 on a failure, 3 if strace
is missing.
"""

from __future__ import annotations

import argparse
import http.client
import json
import os
import random
import re
import shutil
import signal
import subprocess
import sys
import time
from collections import Counter
from pathlib import Path
from tempfile import TemporaryDirectory
from typing import Any, Optional
from urllib.error import URLError

HERE = Path(__file__).resolve().parent
sys.path.insert(0, str(HERE))
sys.path.insert(0, str(HERE.parent / "program"))

import injection
from injection import InjectedFault
from processes import RunningProxy, is_running, list_descendants, wait_until

DRIVER = f"{sys.executable} {HERE / 'processes.py'} --drive"
OPTIONS = {"protocol": "ctap2", "transport": "usb"}
LOG = "> 0 00\n"
TIMEOUT_SECONDS = 600
# The system calls that are made to fail. Calls that fail only if memory is short are excluded: Python then exits.
TRACED_CALLS = [
    "socket",
    "connect",
    "accept4",
    "bind",
    "setsockopt",
    "getsockopt",
    "getsockname",
    "getpeername",
    "shutdown",
]
TRACED_CALLS += [
    "sendto",
    "recvfrom",
    "poll",
    "pselect6",
    "ioctl",
    "fcntl",
    "openat",
    "read",
    "write",
    "close",
    "fsync",
    "rename",
]
TRACED_CALLS += ["mkdir", "unlink", "newfstatat", "fstat", "lseek", "readlink", "fchmod", "pipe2", "wait4"]
FAULTS = {"accept4": ("EMFILE", "EINTR", "ECONNABORTED"), "socket": ("EMFILE", "ENOBUFS"), "mkdir": ("ENOSPC", "EIO")}


def call(run: RunningProxy, method: str, path: str, given: Any = None) -> tuple[int, Any]:
    """Sends a command, and returns the status and the value. The status is 0 if the connection ends without a
    response."""
    try:
        return run.call(method, path, given)
    except (URLError, OSError, http.client.HTTPException) as error:
        return 0, str(error)


def run_scenario(run: RunningProxy) -> list[tuple[int, Any]]:
    """Runs a session with an authenticator and a recording. Any command may fail."""
    results = [call(run, "POST", "/session", {})]
    name = results[0][1].get("sessionId", "a") if isinstance(results[0][1], dict) else "a"
    at = f"/session/{name}"
    results.append(call(run, "POST", f"{at}/webauthn/authenticator", OPTIONS))
    key = results[1][1] if isinstance(results[1][1], str) and results[1][0] == 200 else "x"
    results.append(call(run, "GET", f"{at}/webauthn/authenticator/{key}/credentials"))
    results.append(call(run, "POST", f"{at}/url", {"url": "http://localhost:1/"}))
    results.append(call(run, "DELETE", f"{at}/webauthn/authenticator/{key}"))
    results.append(call(run, "DELETE", at))
    return results


def attach_strace(pid: int, words: list[str]) -> subprocess.Popen[bytes]:
    """Attaches strace to a process."""
    tracer = subprocess.Popen([*words, "-p", str(pid)], stdout=subprocess.DEVNULL, stderr=subprocess.PIPE)
    assert tracer.stderr
    line = tracer.stderr.readline()
    assert b"attached" in line, line
    return tracer


def make_strace_arguments(place: InjectedFault, log: Path) -> list[str]:
    """Returns the arguments of strace for a fault. strace reports when it is attached, and can't filter a running
    process."""
    return [word for word in place.make_strace_prefix(log) if word not in ("--seccomp-bpf", "-qq")]


def find_result_error(results: list[tuple[int, Any]]) -> Optional[str]:
    for status, value in results:
        if status not in (0, 200) and set(value or ()) != {"error", "message", "stacktrace"}:
            return f"not a WebDriver error: {status} {value}"
    return None


def find_file_error(folder: Path, is_killed: bool, is_told: bool) -> Optional[str]:
    """Returns what is wrong with the recordings in a folder."""
    files = [path for path in folder.rglob("*") if path.is_file()]
    logs = [path for path in files if path.suffix == ".log"]
    if any(path.read_text() != LOG or path.stat().st_mode & 0o777 != 0o600 for path in logs):
        return "a recording is incomplete"
    if not is_killed and len(files) != len(logs):
        return f"unexpected files: {[path.name for path in files]}"
    return None if logs or is_killed or is_told else "no recording, and no error message"


def find_error(place: InjectedFault, folder: Path) -> Optional[str]:
    """Runs a session with a fault, and returns what is wrong with the result."""
    run = RunningProxy(DRIVER, "--recordings", str(folder / "logs"))
    tracer = attach_strace(run.process.pid, make_strace_arguments(place, folder / "strace"))
    below = list_descendants(run.process.pid)
    try:
        results = run_scenario(run)
        run.process.send_signal(signal.SIGTERM)
        _, text = run.process.communicate(timeout=TIMEOUT_SECONDS)
    finally:
        run.process.kill()
        tracer.wait()
    is_killed = run.process.returncode == -signal.SIGKILL
    is_told = bool(text) or run.process.returncode != 0 or any(status != 200 for status, _ in results)
    if "Traceback" in text or text.count("\n") > 8:
        return f"a traceback: {text[-600:]!r}"
    if is_killed and place.fault != "KILL":
        return f"it ended with {run.process.returncode}"
    if not wait_until(lambda: not any(map(is_running, below))):
        return "the driver or one of its child processes still runs"
    return find_result_error(results) or find_file_error(folder / "logs", is_killed, is_told)


def list_faults(folder: Path) -> list[InjectedFault]:
    """Returns the faults for each system call of a session. Without faults, the session must succeed."""
    run = RunningProxy(DRIVER, "--recordings", str(folder / "logs"))
    tracer = attach_strace(run.process.pid, ["strace", "-f", "-o", str(folder / "calls")])
    results = run_scenario(run)
    run.process.terminate()
    _, text = run.process.communicate(timeout=TIMEOUT_SECONDS)
    tracer.wait()
    assert [status for status, _ in results] == [200] * 6 and run.process.returncode == 0 and not text, (results, text)
    assert find_file_error(folder / "logs", False, False) is None
    # strace counts the calls of each thread separately.
    found = Counter(re.findall(r"^(\d+) +([a-z_0-9]+)\(", (folder / "calls").read_text(errors="replace"), re.MULTILINE))
    counts = {name: max((found[place] for place in found if place[1] == name), default=0) for name in TRACED_CALLS}
    counts = {name: count for name, count in counts.items() if count}
    injection.FAULTS.update(FAULTS)
    return list(injection.list_faults(counts))


def find_short_io_error() -> Optional[str]:
    """Runs a session with reads and writes of half their size, and returns what is wrong with the result."""
    with TemporaryDirectory() as folder:
        _, library = injection.make_short_calls_prefix(Path(folder))
        name, _, value = library.partition("=")
        run = RunningProxy(DRIVER, "--recordings", f"{folder}/logs", env={name: value})
        results = run_scenario(run)
        run.process.terminate()
        _, text = run.process.communicate(timeout=TIMEOUT_SECONDS)
        if [status for status, _ in results] != [200] * 6 or run.process.returncode != 0 or text:
            return f"{results} {run.process.returncode} {text}"
        return find_file_error(Path(folder, "logs"), False, False)


def main() -> int:
    parser = argparse.ArgumentParser()
    parser.add_argument("--all", action="store_true")
    parser.add_argument("--count", type=int, default=40)
    parser.add_argument("--seed", type=int, default=1)
    parser.add_argument("--jobs", type=int, default=2)
    parser.add_argument("--only", help="only faults whose text contains this")
    given = parser.parse_args()
    if not shutil.which("strace"):
        print("tests/webdriver: strace is missing (apt-get install strace)", file=sys.stderr)
        return 3
    work_dir = Path(os.environ.get("TMPDIR", "/tmp")) / f"faults-{os.getpid()}"
    work_dir.mkdir()
    try:
        found = [place for place in list_faults(work_dir) if not given.only or given.only in str(place)]
    finally:
        shutil.rmtree(work_dir)
    some = found if given.all else random.Random(given.seed).sample(found, min(given.count, len(found)))
    begun = time.monotonic()
    wrong = injection.check_faults(some, find_error, given.jobs)
    if shutil.which("gcc") and (text := find_short_io_error()) is not None:
        wrong.append((InjectedFault("each call", 0, "half of the bytes"), text))
    for place, text in wrong:
        print(f"FAILED  {place}: {text}")
    took = "" if sys.stdout.isatty() is False else f" in {time.monotonic() - begun:.0f} s"
    print(
        f"{'FAILED' if wrong else 'ok'}  {len(some)} of {len(found)} faults of hidlog webdriver, {len(wrong)} wrong{took}"
    )
    return 1 if wrong else 0


if __name__ == "__main__":
    sys.exit(main())
