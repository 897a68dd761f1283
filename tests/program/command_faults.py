"""Makes each system call fail that a command of the Python package makes after its imports, or kills the command at the
call.

A command must end as without the failure, or with one line of error and status 2. Its output must be complete, or the
status must not be 0. An older file must stay complete; only a kill may leave a temporary file. With short reads and
writes, a command must end as without them.
"""

from __future__ import annotations

import os
import re
import shutil
import signal
import subprocess
import sys
import tempfile
from dataclasses import dataclass, field
from pathlib import Path
from typing import Dict, List, Optional, Sequence, Tuple

import injection
from injection import InjectedFault

TOP = Path(__file__).resolve().parents[2]
EXAMPLES = TOP / "examples"
CAPTURE = TOP / "tests/captures/data/python_cancel.pcapng"
ENVIRONMENT = {
    "PATH": os.environ["PATH"],
    "PYTHONPATH": f"{TOP / 'bindings/python/src'}:{TOP / 'conformance'}",
    "PYTHONDONTWRITEBYTECODE": "1",
    "PYTHONHASHSEED": "0",
    "HIDLOG_PROGRAM": str(TOP / "release/hidlog"),
}
START_MARK = "/hidlog-begins"
# The approximate number of faults that are injected for each call, unless all are injected.
SAMPLE_SIZE = 3
# Imports what a command imports, and marks in the output of strace where the command begins.
DRIVER_CODE = f"""
import importlib, os, sys
from hidlog import __main__
for name in sys.argv.pop(1).split():
    importlib.import_module(name)
if "hidlog.judge" in sys.modules:
    from hidlog.captures import conformance
    list(map(conformance.load_module, ("judged_log", "judged_report", "judged_host", "judged_key", "transactions")))
if "hidlog.browser_process" in sys.modules:
    from hidlog import SecurityKey
    with SecurityKey() as key: key.browser("https://example.com")
if "hidlog.core" in sys.modules:
    sys.modules["hidlog.core"].load_library()
os.access({START_MARK!r}, 0)
sys.exit(__main__.main())
"""
BROWSER_LINES = b'{"id": 1, "getCredentials": 0}\n{"id": 2, "getLog": 0}\n'
FIRST_ERROR_STATUS = 2
# Calls for which the kernel never returns an error of those that are injected.
NEVER_FAILS = {"futex", "getpid", "gettid"}


@dataclass(frozen=True)
class Run:
    """A run of a command in a folder, whose name replaces {} in the arguments. The files `kept` are created in the
    folder first."""

    name: str
    words: Tuple[str, ...]
    # The modules that are loaded before the command starts.
    modules: str
    data: bytes = b""
    kept: Dict[str, bytes] = field(default_factory=dict)
    # The file that the command writes, instead of the first of `kept`.
    output: str = ""
    # Whether strace follows the processes that the command starts.
    follows: bool = True
    # Whether the failure may change standard output: the result of one of several recordings, or the length of a log
    # that is shrunk.
    reports: bool = False

    def run_once(self, folder: Path, trace: Sequence[str]) -> "subprocess.CompletedProcess[bytes]":
        """Runs the command once in a folder."""
        for name, data in self.kept.items():
            (folder / name).write_bytes(data)
        trace = [word for word in trace if self.follows or word not in ("-f", "--seccomp-bpf")]
        command = [
            *trace,
            sys.executable,
            "-c",
            DRIVER_CODE,
            self.modules,
            *(word.format(folder) for word in self.words),
        ]
        ended = subprocess.run(command, input=self.data, capture_output=True, timeout=600, env=ENVIRONMENT)
        ended.stdout = ended.stdout.replace(os.fsencode(folder), b"FOLDER")
        return ended


REGISTRATION = (EXAMPLES / "registration.log").read_bytes()
STALE_COUNTER_LOG = (EXAMPLES / "failing/stale_sign_count.log").read_bytes()
LOADED_BY_IMPORT = "hidlog.captures.commands hidlog.core hidlog.captures.conformance hidlog_conformance.transactions"
LOADED_BY_JUDGE = "hidlog.judge cryptography.hazmat.backends.openssl.backend"
TICKS = b"t 1\np 2 granted\nt 3\n"
RUNS = [
    Run(
        "import -o",
        ("import", str(CAPTURE), "-o", "{}/out"),
        LOADED_BY_IMPORT,
        kept={"out": b"old"},
        output="out",
    ),
    Run("import -o to a new file", ("import", str(CAPTURE), "-o", "{}/out"), LOADED_BY_IMPORT, output="out"),
    Run("import", ("import", str(CAPTURE)), LOADED_BY_IMPORT),
    Run(
        "export -o",
        ("export", "{}/in", "-o", "{}/out"),
        "hidlog.captures.commands hidlog.core",
        kept={"in": REGISTRATION, "out": b"old"},
        output="out",
    ),
    Run("judge", ("judge", "{}/in"), LOADED_BY_JUDGE, kept={"in": STALE_COUNTER_LOG}),
    Run("judge of standard input", ("judge", "--format", "junit"), LOADED_BY_JUDGE, data=REGISTRATION),
    Run(
        "check-many",
        ("check-many", "--jobs", "1", "{}"),
        "hidlog.batch_check_cli concurrent.futures.thread",
        kept={"one.log": REGISTRATION, "two.log": STALE_COUNTER_LOG},
        reports=True,
    ),
    Run("mermaid", ("mermaid", "{}/in"), "hidlog.mermaid", kept={"in": REGISTRATION}),
    Run(
        "browser",
        ("browser", "--origin", "https://example.com"),
        "hidlog.browser_process encodings.idna",
        data=BROWSER_LINES,
    ),
    Run(
        "shrink",
        ("shrink", "{}/in", "sh", "-c", "! grep -q granted"),
        "hidlog.shrink",
        kept={"in": TICKS},
        follows=False,
        reports=True,
    ),
]


def count_calls(log: Path) -> Tuple[Dict[str, int], Dict[str, int], Dict[str, int]]:
    """Returns how often each call is made: by the first process before the mark, by the first process in all, and by
    other processes."""
    base: Dict[str, int] = {}
    whole: Dict[Tuple[str, str], int] = {}
    first = ""
    for line in log.read_text(encoding="utf-8", errors="replace").splitlines():
        found = re.match(r"(?:(\d+) +)?([a-z_0-9]+)\(", line)
        if not found:
            continue
        process, name = found[1] or "", found[2]
        first = first or process
        whole[process, name] = whole.get((process, name), 0) + 1
        if START_MARK in line:
            base = {call: count for (of, call), count in whole.items() if of == first}
    own = {call: count for (of, call), count in whole.items() if of == first}
    others: Dict[str, int] = {}
    for (of, call), count in whole.items():
        if of != first:
            others[call] = max(count, others.get(call, 0))
    return base, own, others


def list_faults(log: Path) -> List[InjectedFault]:
    """Returns the faults for the calls after the mark in a run, and for those of processes and threads that it starts."""
    base, own, others = count_calls(log)
    assert base, "the trace has no mark"
    found = []
    for name in sorted({*own, *others} - injection.NEVER_INJECTED - NEVER_FAILS):
        numbers = {*range(base.get(name, 0) + 1, own.get(name, 0) + 2), *range(1, others.get(name, 0) + 1)}
        if own.get(name, 0) == base.get(name, 0) and not others.get(name):
            continue
        faults = (*injection.FAULTS.get(name, injection.OTHER_ERRORS), "KILL")
        # Python waits forever for a thread that could not start because memory is short.
        starts = range(1, others.get(name, 0) + 1) if "ENOMEM" in faults else ()
        found += [
            InjectedFault(name, number, fault) for fault in faults for number in sorted(numbers.difference(starts))
        ]
    return found


def has_started(log: Path) -> bool:
    """Returns whether the command had started when the fault occurred, according to the output of strace."""
    text = log.read_text(encoding="utf-8", errors="replace")
    return START_MARK in text.partition("(INJECTED)")[0]


def find_error(
    run: Run, right: "subprocess.CompletedProcess[bytes]", new: bytes, place: InjectedFault, folder: Path
) -> Optional[str]:
    """Runs a command with a fault, and returns what is wrong with the result."""
    log, space = folder / "strace", folder / "space"
    space.mkdir()
    trace = [
        word.replace("trace=openat,", "trace=openat,access,faccessat,faccessat2,")
        for word in place.make_strace_prefix(log)
    ]
    ended = run.run_once(space, trace)
    if not has_started(log):
        return None
    status, said = ended.returncode, ended.stderr.decode(errors="replace")
    if "Traceback" in said or "Exception ignored" in said:
        return f"status {status}, and a traceback: {said[-300:]!r}"
    is_killed = place.fault == "KILL" and status == -signal.SIGKILL
    if status == right.returncode:
        if ended.stdout != right.stdout:
            return f"status {status}, but standard output is incomplete: {ended.stdout[-80:]!r}, {said!r}"
    elif status < FIRST_ERROR_STATUS and not is_killed:
        return f"status {status}: {said!r}"
    elif not is_killed and not said and place.call != "write":
        return f"status {status} without a message"
    if not right.stdout.startswith(ended.stdout) and not run.reports:
        return f"standard output differs: {ended.stdout[:80]!r}"
    return find_file_error(run, new, status == right.returncode, is_killed, space)


def find_file_error(run: Run, new: bytes, is_done: bool, is_killed: bool, space: Path) -> Optional[str]:
    """Returns what is wrong with the files that a run left."""
    names = {*run.kept, *([run.output] if run.output else [])}
    others = sorted(path.name for path in space.iterdir() if path.name not in names)
    if others and not is_killed:
        return f"unexpected files: {others}"
    for name in names:
        path, old = space / name, run.kept.get(name)
        there = path.read_bytes() if path.exists() else None
        if name != run.output and there != old:
            return f"{name} was changed"
        if name == run.output and there != new and (is_done or there != old):
            return f"{name} has neither the old bytes nor the new ones: {(there or b'')[:80]!r}"
    return None


def sample_faults(places: Sequence[InjectedFault]) -> List[InjectedFault]:
    """Returns some of the faults of each call, evenly distributed over errors and numbers."""
    found: List[InjectedFault] = []
    for call in sorted({place.call for place in places}):
        own = [place for place in places if place.call == call]
        found += own[len(own) // (SAMPLE_SIZE + 1) :: len(own) // (SAMPLE_SIZE + 1) + 1]
    return found


def run_faults(run: Run, jobs: int, is_whole: bool) -> int:
    """Runs a command with each fault, or with a sample of the faults. Returns the number of wrong results."""
    with tempfile.TemporaryDirectory() as first, tempfile.TemporaryDirectory() as second:
        right = run.run_once(Path(first), [])
        assert right.returncode in (0, 1) and b"Traceback" not in right.stderr, right
        new = Path(first, run.output).read_bytes() if run.output else b""
        run.run_once(Path(first), ["strace", "-f", "-qq", "-o", f"{second}/calls"])
        places = list_faults(Path(second, "calls"))
    chosen = places if is_whole else sample_faults(places)
    found = injection.check_faults(chosen, lambda place, at: find_error(run, right, new, place, at), jobs)
    return injection.report_failures(f"hidlog {run.name}", len(chosen), found, {})


def run_short_calls(run: Run) -> int:
    """Runs a command with short reads and writes. Returns 1 if the exit status or a written file differs from a run
    without them."""
    with tempfile.TemporaryDirectory() as first, tempfile.TemporaryDirectory() as second:
        with tempfile.TemporaryDirectory() as library:
            right, ended = run.run_once(Path(first), []), run.run_once(
                Path(second), injection.make_short_calls_prefix(Path(library))
            )
        files = [{path.name: path.read_bytes() for path in Path(folder).iterdir()} for folder in (first, second)]
    if (ended.returncode, ended.stdout) == (right.returncode, right.stdout) and files[0] == files[1]:
        return 0
    print(f"FAILED   hidlog {run.name}: short reads and writes: {ended.returncode} and not {right.returncode}, {ended}")
    return 1


def run_all(only: Sequence[str], jobs: int, is_whole: bool) -> int:
    """Runs all commands with faults. Returns the number of wrong results."""
    runs = [run for run in RUNS if not only or f"hidlog {run.name}" in only]
    wrong = sum(run_faults(run, jobs, is_whole) for run in runs)
    if shutil.which("gcc") is None:
        print("skipped  short reads and writes: gcc is missing")
        return wrong
    return wrong + sum(map(run_short_calls, runs))
