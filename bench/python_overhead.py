#!/usr/bin/env python3
"""Compares the costs of the Python package in this clone and in another clone, alternately.

    bench/python_overhead.py OTHER [ROUNDS]

    import      milliseconds that `import hidlog` adds to the start of Python
    sign in     milliseconds of a sign-in with an allow list, through the package's browser
    register    milliseconds of a registration and a sign-in, with a new key each time
    count       milliseconds of `len(key.credentials)` with 64 credentials
    change      milliseconds of a change of the signature counter of the oldest of 64 credentials
    newest      milliseconds of the same change for the newest credential
    memory      peak megabytes of pytest with 4,000 tests with a key, minus 4,000 without

Each figure is the median of ROUNDS runs [default: 15] in separate processes, alternating between the clones. OTHER must
have the same names (sign_count, update), or an error ends the measurement. Exits with 2 if OTHER is not a clone.
"""

from __future__ import annotations

import os
import statistics
import subprocess
import sys
from pathlib import Path

TOP = Path(__file__).resolve().parents[1]
OPTIONS = """
import time, hidlog
made = {"challenge": "AAAA", "rp": {"id": "example.com", "name": "A"}, "user": {"id": "AQ", "name": "a", "displayName": "A"},
        "pubKeyCredParams": [{"type": "public-key", "alg": -7}]}
def request(credential):
    return {"challenge": "AAAA", "rpId": "example.com", "allowCredentials": [{"type": "public-key", "id": credential["id"]}]}
"""
SIGN_IN_CODE = (
    OPTIONS
    + """
with hidlog.SecurityKey() as key:
    browser = key.browser("https://example.com")
    options = request(browser.create(made))
    for _ in range(20):
        browser.get(options)
    times = []
    for _ in range(300):
        began = time.perf_counter()
        browser.get(options)
        times.append(time.perf_counter() - began)
print(sorted(times)[150])
"""
)
REGISTER_CODE = (
    OPTIONS
    + """
times = []
for _ in range(60):
    began = time.perf_counter()
    with hidlog.SecurityKey() as key:
        browser = key.browser("https://example.com")
        browser.get(request(browser.create(made)))
    times.append(time.perf_counter() - began)
print(sorted(times)[30])
"""
)
IMPORT_CODE = """
import subprocess, sys, time
def measure_wall_time(words):
    began = time.perf_counter()
    subprocess.run([sys.executable, "-c", words], check=True)
    return time.perf_counter() - began
print(sorted(measure_wall_time("import hidlog") - measure_wall_time("pass") for _ in range(9))[4])
"""
CREDENTIALS_CODE = """
import time, hidlog
key = hidlog.SecurityKey()
for number in range(64):
    key.credentials.add("example.com", bytes([number]))
first, newest, times = key.credentials[0].id, key.credentials[63].id, []
for number in range(1, 20):
    began = time.perf_counter()
    {}
    times.append(time.perf_counter() - began)
print(sorted(times)[9])
"""
MEMORY_CODE = """
import resource, subprocess, sys, tempfile
def measure_peak_memory(fixture):
    with tempfile.NamedTemporaryFile("w", suffix="_test.py") as file:
        file.write(f"import pytest\\n@pytest.mark.parametrize('n', range(4000))\\ndef test_it(n{fixture}): pass\\n")
        file.flush()
        words = [sys.executable, "-m", "pytest", "-q", "-p", "hidlog.pytest_plugin", "-p", "no:cacheprovider", file.name]
        ran = subprocess.Popen(words, stdout=subprocess.DEVNULL, cwd=tempfile.gettempdir())
        import os
        return os.wait4(ran.pid, 0)[2].ru_maxrss / 1024
print((measure_peak_memory(", security_key") - measure_peak_memory("")) / 1000)
"""
MEASUREMENTS = {
    "import": IMPORT_CODE,
    "sign in": SIGN_IN_CODE,
    "register": REGISTER_CODE,
    "count": CREDENTIALS_CODE.format("len(key.credentials)"),
    "change": CREDENTIALS_CODE.format("key.credentials.update(first, sign_count=number)"),
    "newest": CREDENTIALS_CODE.format("key.credentials.update(newest, sign_count=number)"),
    "memory": MEMORY_CODE,
}


def run_measurement(clone: Path, text: str) -> float:
    """Runs a measurement with a clone's package. Returns the milliseconds, or megabytes for `memory`."""
    paths = {
        "PYTHONPATH": str(clone / "bindings" / "python" / "src"),
        "HIDLOG_LIBRARY": str(clone / "release" / "libhidlog.so.1"),
    }
    words = ["/usr/bin/python3", "-W", "ignore", "-c", text]
    ran = subprocess.run(words, env={**os.environ, **paths}, capture_output=True, text=True, check=True)
    return float(ran.stdout) * 1000


def main() -> int:
    if len(sys.argv) not in (2, 3) or not (Path(sys.argv[1]) / "bindings" / "python" / "src" / "hidlog").is_dir():
        print(__doc__, file=sys.stderr)
        return 2
    other, rounds = Path(sys.argv[1]).resolve(), int(sys.argv[2]) if len(sys.argv) > 2 else 15
    for name, text in MEASUREMENTS.items():
        pairs = [(run_measurement(other, text), run_measurement(TOP, text)) for _ in range(rounds)]
        there, here = (statistics.median(times) for times in zip(*pairs))
        print(f"{name:9} there {there:8.4f}, here {here:8.4f}, ratio {here / there:.3f}", flush=True)
    return 0


if __name__ == "__main__":
    sys.exit(main())
