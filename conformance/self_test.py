#!/usr/bin/env python3
"""Tests the connections to a device, the reports, and how the runner handles broken devices and clients.

    conformance/self_test.py          run all tests, in parallel processes, since they mostly wait
    conformance/self_test.py WORD ..  run the tests whose names contain a word, in this process

Each test of a broken device or client is run again with the tested code disabled, and must then fail.
"""

from __future__ import annotations

import os
import subprocess
import sys
import time
from concurrent.futures import ThreadPoolExecutor

HERE = os.path.dirname(os.path.abspath(__file__))
for folder in ("self_tests", "others", "mutants"):
    sys.path.insert(0, os.path.join(HERE, folder))

import generated  # noqa: E402
import interrupted  # noqa: E402
import persistent_device  # noqa: E402
import odd_clients  # noqa: E402
import odd_devices  # noqa: E402
import reports  # noqa: E402
import walked  # noqa: E402
import walks  # noqa: E402
import ways  # noqa: E402

TESTS = {
    **ways.TESTS,
    **persistent_device.TESTS,
    **odd_devices.TESTS,
    **odd_clients.TESTS,
    **walks.TESTS,
    **walked.TESTS,
    **generated.TESTS,
    **interrupted.TESTS,
    **reports.TESTS,
}


# The number of parallel processes. One of them runs the tests of ways.py, which measure real time.
JOBS = 6
REAL_TIME = "ways/"


def run_in_process(name: str) -> "subprocess.CompletedProcess[str]":
    """Runs the tests whose names contain a word in a separate process."""
    return subprocess.run([sys.executable, __file__, name], capture_output=True, text=True)


def run_all() -> int:
    """Runs all tests in parallel, and prints their output in order."""
    failed, names = 0, [REAL_TIME, *(test for test in TESTS if not test.startswith(REAL_TIME))]
    with ThreadPoolExecutor(JOBS) as pool:
        for ran in pool.map(run_in_process, names):
            print("\n".join(line for line in (ran.stdout + ran.stderr).splitlines() if line != "passed"), flush=True)
            failed += ran.returncode != 0
    print(f"{failed} of {len(names)} failed" if failed else "passed")
    return 1 if failed else 0


def main(words: "list[str]") -> int:
    """Runs the tests."""
    if not words:
        return run_all()
    chosen = {name: test for name, test in TESTS.items() if any(word in name for word in words)}
    for name, test in chosen.items():
        began = time.monotonic()
        test()
        print(f"ok  {name} ({time.monotonic() - began:.1f} s)", flush=True)
    print("passed" if chosen else f"self_test.py: no test matches {' '.join(words)}")
    return 0 if chosen else 2


if __name__ == "__main__":
    sys.exit(main(sys.argv[1:]))
