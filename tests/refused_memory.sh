#!/usr/bin/env bash
# Tests how the libraries handle failed memory allocations: runs their tests COUNT times [default: 12], and in the Nth
# run makes the Nth allocation of each test fail: tests/refused_memory.sh [COUNT]. Needs rt and Python 3.
#
# A test whose allocation fails may fail, but only with the allocation error. Tests named `*_after_refused_memory`
# repeat the failed call, and must pass. Exits with 1 if a test does not meet this. Ignores the results of the program's
# tests, since these compare its exit status.
set -u
cd "$(dirname "$0")/.." || exit 2
work=$(mktemp -d)
trap 'rm -r "$work"' EXIT
for n in $(seq 1 "${1:-12}"); do
    tests/unit.sh --fail-alloc "$n" >"$work/$n" 2>&1
done
python3 - "$work" <<'JUDGE'
import os
import re
import sys

REFUSED = re.compile(r"AllocError|AllocFailed|Memory")
wrong = []
refusals = 0
runs = sorted(os.listdir(sys.argv[1]))
for number in runs:
    with open(os.path.join(sys.argv[1], number)) as file:
        output = file.read()
    tests = re.findall(r"^test (\S+) \.\.\. (ok|FAILED)\n((?:    .*\n)*)", output, re.M)
    if not tests:
        wrong.append(f"allocation {number}: no test ran")
    for test, result, text in tests:
        if result == "ok" or test.startswith("logs::program::"):
            continue
        refusals += 1
        if test.endswith("_after_refused_memory") or not REFUSED.search(text):
            wrong.append(f"allocation {number}: {test}")
for line in wrong:
    print(line)
print(f"{len(runs)} runs, {refusals} tests failed since an allocation failed: {'see above' if wrong else 'all as expected'}")
sys.exit(1 if wrong else 0)
JUDGE
