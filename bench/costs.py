#!/usr/bin/env python3
"""Measures costs of this clone as counts, which hardly depend on the machine, and fails if a cost exceeds its limit.

    bench/costs.py [NAME ..]      checks all costs, or the costs whose names begin with NAME

    flow      instructions of a flow of bench/flows.py on release/hidlog, by callgrind
    portable  instructions of a sign-in with the portable library, as a multiple of the proved library's
    slope     exponent of the growth of a cost: 1 is linear, 2 quadratic. The cost is the number of Python function
              calls for some sign-ins (import, export, judge, mermaid, sign-ins) or recordings (check-many), and the
              program's instructions for some credentials
    stored    characters that the thousandth sign-in of the key for pages writes to storage, divided by the first's
    growth    bytes of memory for each additional byte of input, by tracemalloc
    memory    bytes of a key in C; and of a key in Python, its library's memory included, by tracemalloc
    calls     Python function calls of a report of Locust's worker, for each user whose key did not change; and of
              `judge`, for each sign-in

The limits are in LIMITS. A flow's limit is 3 % above its last measurement, but at most 1.6 times bench/peer's for a
registration, and 1.4 times for a sign-in. Exit status: 1 if a cost is over its limit, 3 if something is missing:
valgrind for flows, nodejs for stored, wabt and a C compiler for the portable library, python3-locust for calls.
"""

from __future__ import annotations

import math
import os
import shutil
import subprocess
import sys
import tempfile
from pathlib import Path
from typing import Callable, Iterator

from flows import count_instructions, make_registrations_log

TOP = Path(__file__).resolve().parents[1]
# Debian's Python, which has the modules that tests/run --install installs.
PYTHON = next(path for path in ("/usr/bin/python3", sys.executable) if Path(path).exists())
LIMITS = {
    "flow ping": 1880,
    "flow long_ping": 2148,
    "flow get_info": 2717,
    "flow registration": 23019,
    "flow sign_in": 12815,
    "portable sign_in": 4,
    "slope judge": 1.1,
    "slope export": 1.1,
    "slope import": 1.1,
    "slope mermaid": 1.1,
    "slope sign-ins": 1.1,
    "slope credentials": 1.1,
    "slope recordings": 1.2,
    "stored sign-in": 1.1,
    "growth export": 0.1,
    "growth import": 0.5,
    "growth mermaid": 0.1,
    "growth judge": 0.5,
    "memory C key": 42000,
    "memory Python key": 100000,
    "calls idle user": 4,
    "calls judged sign-in": 790,
}
# Each number of sign-ins, recordings or credentials is twice the previous one, so that constant costs cancel out.
SIGN_IN_COUNTS = (100, 200, 400)
CREDENTIAL_COUNTS = (16, 32, 64)
KEY_SIGN_IN_COUNTS = (1000, 2000)
# Session lengths for memory. The shorter session has more packets than an import keeps in memory at a time. The longer
# session is much longer, since released memory may not be collected yet.
LONG_SIGN_IN_COUNTS = (800, 6400)
# Dependencies of each kind of cost besides Python: commands, or modules of Debian's Python.
DEPENDENCIES = {
    "flow": ("valgrind",),
    "portable": ("valgrind", "wasm2c", "cc", "make"),
    "slope": ("valgrind",),
    "stored": ("node",),
    "calls": ("locust",),
}
MODULES = ("locust",)
# Runs a program, and prints the number of calls of Python and C functions as the last line of stderr.
COUNT_CALLS_CODE = """
import itertools, runpy, sys, threading
calls = itertools.count()
def count(frame, event, argument):
    if event in ("call", "c_call"):
        next(calls)
threading.setprofile(count)
sys.setprofile(count)
try:
    runpy.run_module(sys.argv.pop(1), run_name="__main__", alter_sys=True)
except SystemExit as ended:
    status = ended.code
else:
    status = 0
sys.setprofile(None)
print(next(calls), file=sys.stderr)
sys.exit(status)
"""
COUNT_SCRIPT_CALLS_CODE = COUNT_CALLS_CODE.replace("run_module", "run_path").replace(", alter_sys=True", "")
# Runs a module, and prints its peak memory as the last line of stderr.
PEAK_MEMORY_CODE = """
import runpy, sys, tracemalloc
tracemalloc.start()
try:
    runpy.run_module(sys.argv.pop(1), run_name="__main__", alter_sys=True)
except SystemExit as ended:
    status = ended.code
else:
    status = 0
print(tracemalloc.get_traced_memory()[1], file=sys.stderr)
sys.exit(status)
"""
SIGN_INS_CODE = """
import sys, hidlog
from hidlog import SecurityKey
made = {"challenge": "AAAA", "rp": {"id": "example.com", "name": "A"}, "user": {"id": "AQ", "name": "a", "displayName": "A"},
        "pubKeyCredParams": [{"type": "public-key", "alg": -7}], "authenticatorSelection": {"residentKey": "required"}}
with SecurityKey() as key:
    browser = key.browser("https://example.com")
    browser.create(made)
    for _ in range(int(sys.argv[1])):
        browser.get({"challenge": "AAAA", "rpId": "example.com"})
    key.save_log(sys.argv[2])
"""
REPORT_CODE = """
import sys
from hidlog import SecurityKey
from hidlog.locust import Users
users, count = Users(), 100
text = SecurityKey().dumps()
for name in range(count):
    users.take(str(name), SecurityKey.loads(text), text)
calls = 0
def profile(frame, event, argument):
    global calls
    calls += event in ("call", "c_call")
sys.setprofile(profile)
report = users.report()
sys.setprofile(None)
assert report == {}
print(calls / count)
"""
MEMORY_CODE = """
import gc, tracemalloc
from hidlog import SecurityKey
spare = SecurityKey()
len(spare.credentials)
gc.collect()
tracemalloc.start()
keys = [SecurityKey() for _ in range(50)]
counts = [len(key.credentials) for key in keys]
print(tracemalloc.get_traced_memory()[0] // 50)
"""
KEY_SIZE_CODE = """
from hidlog.core import load_library
print(load_library().hidlog_key_size())
"""


def run(*command: str, allowed: int = 0) -> subprocess.CompletedProcess[str]:
    """Runs a command with the package of this clone. Exits with its error if its status is greater than `allowed`."""
    paths = os.pathsep.join(str(TOP / folder) for folder in ("bindings/python/src", "conformance"))
    environment = {**os.environ, "PYTHONPATH": paths, "HIDLOG_PROGRAM": str(TOP / "release/hidlog")}
    done = subprocess.run(command, capture_output=True, text=True, env=environment, check=False)
    if done.returncode > allowed:
        sys.exit(f"bench/costs.py: {' '.join(command)[:80]}: {done.stderr[-400:]}")
    return done


def count_calls(*words: str) -> int:
    """Returns the number of function calls of a command of the Python package."""
    return int(run(PYTHON, "-c", COUNT_CALLS_CODE, "hidlog", *words, allowed=1).stderr.splitlines()[-1])


def measure_flows() -> Iterator[tuple[str, float]]:
    """Yields the number of instructions of each flow."""
    for line in run(PYTHON, str(TOP / "bench/flows.py")).stdout.splitlines():
        name, count = line.split()
        yield f"flow {name}", int(count)


def count_key_sign_in(folder: str, library: str) -> float:
    """Returns the number of instructions of a sign-in of bench/key.c with a library. The folder has its headers."""
    program = f"{folder}/key"
    run("cc", "-std=c11", "-O2", "-I", folder, "-o", program, str(TOP / "bench/key.c"), library)
    counts = []
    for sign_ins in KEY_SIGN_IN_COUNTS:
        counted = ["valgrind", "--tool=callgrind", "--callgrind-out-file=/dev/null", program, str(sign_ins)]
        counts.append(int(run(*counted).stderr.partition("Collected : ")[2].split()[0]))
    return (counts[1] - counts[0]) / (KEY_SIGN_IN_COUNTS[1] - KEY_SIGN_IN_COUNTS[0])


def measure_portable() -> Iterator[tuple[str, float]]:
    """Yields the instructions of a sign-in with the portable library, divided by those with the proved library."""
    with tempfile.TemporaryDirectory() as folder:
        run(str(TOP / "bindings/c/sources.sh"), folder)
        run("make", "-C", folder, "libhidlog.a")
        libraries = (f"{folder}/libhidlog.a", str(TOP / "release/libhidlog.a"))
        ours, native = (count_key_sign_in(folder, library) for library in libraries)
    yield "portable sign_in", ours / native


def write_session_log(
    folder: str, sign_ins: int, interpreter: tuple[str, ...] = ()
) -> subprocess.CompletedProcess[str]:
    """Records a registration and `sign_ins` sign-ins in FOLDER/SIGN_INS.log."""
    script = f"{folder}/sign_ins.py"
    Path(script).write_text(SIGN_INS_CODE, encoding="utf-8")
    return run(PYTHON, *interpreter, script, str(sign_ins), f"{folder}/{sign_ins}.log")


def list_commands(folder: str, name: str) -> dict[str, list[str]]:
    """Returns the commands on FOLDER/NAME.log, and on the capture that the first one writes."""
    log, capture = f"{folder}/{name}.log", f"{folder}/{name}.pcapng"
    return {
        "export": ["export", log, "-o", capture],
        "import": ["import", capture, "-o", f"{folder}/imported"],
        "judge": ["judge", log],
        "mermaid": ["mermaid", log],
    }


def rename_writer(capture: str) -> None:
    """Changes the name of the program in a capture, so that import does not restore the log from its comments."""
    data = Path(capture).read_bytes()
    Path(capture).write_bytes(data.replace(b"hidlog", b"others"))


def compute_slope(counts: list[int]) -> float:
    """Returns the exponent of the growth: 1 is linear, 2 quadratic."""
    first, second, third = counts
    return math.log2((third - second) / (second - first))


def measure_slopes() -> Iterator[tuple[str, float]]:
    """Yields the slope of each command, measured with logs of SIGN_IN_COUNTS sign-ins, and the slopes of other
    costs."""
    with tempfile.TemporaryDirectory() as folder:
        counts: dict[str, list[int]] = {}
        for sign_ins in SIGN_IN_COUNTS:
            made = write_session_log(folder, sign_ins, ("-c", COUNT_SCRIPT_CALLS_CODE))
            counts.setdefault("sign-ins", []).append(int(made.stderr.splitlines()[-1]))
            for name, words in list_commands(folder, str(sign_ins)).items():
                counts.setdefault(name, []).append(count_calls(*words))
                if name == "export":
                    rename_writer(words[-1])
            recordings = Path(folder, f"recordings{sign_ins}")
            recordings.mkdir()
            for number in range(sign_ins):
                shutil.copy(TOP / "examples/sign_in.log", recordings / f"{number}.log")
            counts.setdefault("recordings", []).append(count_calls("check-many", "--jobs", "1", str(recordings)))
    for count in CREDENTIAL_COUNTS:
        instructions = count_instructions(str(TOP / "release/hidlog"), make_registrations_log(count))
        counts.setdefault("credentials", []).append(instructions)
    for name, found in counts.items():
        yield f"slope {name}", compute_slope(found)


def measure_stored() -> Iterator[tuple[str, float]]:
    """Yields the number of characters that the thousandth sign-in writes to a page's storage, divided by that of the
    first sign-in."""
    first, last = map(int, run("node", str(TOP / "bench/page_key.mjs"), "1000", "storage").stdout.split())
    yield "stored sign-in", last / first


def measure_growth() -> Iterator[tuple[str, float]]:
    """Yields, for each command, the additional memory in bytes for each additional byte of input."""
    with tempfile.TemporaryDirectory() as folder:
        peaks: dict[str, list[tuple[int, int]]] = {}
        for sign_ins in LONG_SIGN_IN_COUNTS:
            write_session_log(folder, sign_ins)
            for name, words in list_commands(folder, str(sign_ins)).items():
                peak = int(run(PYTHON, "-c", PEAK_MEMORY_CODE, "hidlog", *words, allowed=1).stderr.splitlines()[-1])
                peaks.setdefault(name, []).append((peak, Path(words[1]).stat().st_size))
                if name == "export":
                    rename_writer(words[-1])
    for name, ((peak, size), (larger_peak, larger_size)) in peaks.items():
        yield f"growth {name}", (larger_peak - peak) / (larger_size - size)


def measure_memory() -> Iterator[tuple[str, float]]:
    """Yields the memory of a key in C and of a key in Python, in bytes."""
    yield "memory C key", int(run(PYTHON, "-c", KEY_SIZE_CODE).stdout)
    yield "memory Python key", int(run(PYTHON, "-c", MEMORY_CODE).stdout)


def measure_calls() -> Iterator[tuple[str, float]]:
    """Yields the number of function calls of a report of Locust's worker for each user whose key did not change, and of
    `judge` for each sign-in."""
    yield "calls idle user", float(run(PYTHON, "-W", "ignore", "-c", REPORT_CODE).stdout)
    with tempfile.TemporaryDirectory() as folder:
        counts = []
        for sign_ins in SIGN_IN_COUNTS[1:]:
            write_session_log(folder, sign_ins)
            counts.append(count_calls("judge", f"{folder}/{sign_ins}.log"))
    yield "calls judged sign-in", (counts[1] - counts[0]) / (SIGN_IN_COUNTS[2] - SIGN_IN_COUNTS[1])


def find_missing(kinds: list[str]) -> str | None:
    """Returns a missing dependency of the costs, if any."""
    for name in (need for kind in kinds for need in DEPENDENCIES.get(kind, ())):
        if name in MODULES:
            is_there = (
                subprocess.run([PYTHON, "-c", f"import {name}"], capture_output=True, check=False).returncode == 0
            )
        else:
            is_there = shutil.which(name) is not None
        if not is_there:
            return name
    return None


def main() -> int:
    """Prints each cost and its limit."""
    chosen = tuple(sys.argv[1:]) or ("",)
    kinds: dict[str, Callable[[], Iterator[tuple[str, float]]]] = {
        "flow": measure_flows,
        "portable": measure_portable,
        "slope": measure_slopes,
        "stored": measure_stored,
        "growth": measure_growth,
        "memory": measure_memory,
        "calls": measure_calls,
    }
    measured = [kind for kind in kinds if any(name.startswith(kind) or kind.startswith(name) for name in chosen)]
    if missing := find_missing(measured):
        print(f"bench/costs.py: {missing} is missing (tests/run --install); nothing was measured", file=sys.stderr)
        return 3
    over = 0
    for kind in measured:
        for name, cost in kinds[kind]():
            if name.startswith(chosen):
                is_over = cost > LIMITS[name]
                over += is_over
                print(f"{name:22} {cost:10.6g} of {LIMITS[name]:10.6g}{'  OVER' if is_over else ''}", flush=True)
    return 1 if over else 0


if __name__ == "__main__":
    sys.exit(main())
