#!/usr/bin/env python3
"""Checks the page's reader (bindings/web/transactions.js) with fuzzed logs of up to four misbehaving hosts.

    tests/web/walks_fuzzed.py [--seed N] [--count N] [--program FILE]

The transactions are compared with the model of the transport that also checks `show --json`
(tests/fuzz/transactions.py). The exit status is 3 if node is missing.
"""

from __future__ import annotations

import argparse
import json
import shutil
import subprocess
import sys
import tempfile
from pathlib import Path

sys.dont_write_bytecode = True

TOP = Path(__file__).resolve().parents[2]
sys.path.insert(0, str(TOP / "tests" / "fuzz"))

from transactions import FindingError, HostGenerator, TransportModel, check_objects, read_needs


def write_log(program: str, name: str, path: Path) -> None:
    """Writes a fuzzed log, with the packets that the key sends."""
    with path.open("wb") as file:
        subprocess.run([program, "replay"], input=HostGenerator(name).make_log(), stdout=file, check=True, timeout=600)


def main() -> int:
    parser = argparse.ArgumentParser(description=__doc__.split("\n", maxsplit=1)[0])
    parser.add_argument("--seed", default="page")
    parser.add_argument("--count", type=int, default=300)
    parser.add_argument("--program", default=str(TOP / "release" / "hidlog"))
    options = parser.parse_args()
    if not shutil.which("node"):
        print("walks_fuzzed.py: node is missing (apt-get install nodejs)", file=sys.stderr)
        return 3
    found = transactions = 0
    with tempfile.TemporaryDirectory() as folder:
        paths = [Path(folder, f"{number}.log") for number in range(options.count)]
        for number, path in enumerate(paths):
            write_log(options.program, f"{options.seed}/{number}", path)
        listed = "".join(f"{path}\n" for path in paths)
        walked = subprocess.run(
            ["node", str(TOP / "tests/web/walk_json.mjs")], input=listed, capture_output=True, text=True, check=True
        )
        for path, objects in zip(paths, walked.stdout.splitlines(), strict=True):
            live = subprocess.run(
                [options.program, "live", str(path)], capture_output=True, check=True, timeout=600
            ).stdout
            machine = TransportModel(path.read_bytes().splitlines(), read_needs(live.splitlines()))
            transactions += len(machine.transactions)
            try:
                check_objects(json.loads(objects), machine)
            except FindingError as error:
                found += 1
                print(f"FAILED  log {path.stem} of seed {options.seed}: {error}")
    print(f"{options.count} logs, {transactions} transactions, {found} logs that the page reads wrongly")
    return 1 if found else 0


if __name__ == "__main__":
    sys.exit(main())
