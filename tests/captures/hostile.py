#!/usr/bin/env python3
"""Imports and checks damaged captures: each gives a log or a CaptureError, in bounded time and memory.

    tests/captures/hostile.py [--seed N] [--count N]     default: 10,000 files, seed 1

Each file is a capture of data/, or one generated from them, with some bytes changed, removed, repeated or set to extreme numbers.
"""

from __future__ import annotations

import argparse
import collections
import gzip
import random
import resource
import sys
import time
from pathlib import Path

sys.path.insert(0, str(Path(__file__).resolve().parents[2] / "bindings" / "python" / "src"))

from hidlog.captures import CaptureError, read, to_pcapng  # noqa: E402
from hidlog.judge import judge  # noqa: E402
from variants import encode_usbpcap, read_transfers  # noqa: E402

DATA = Path(__file__).resolve().parent / "data"
BOUNDARY_VALUES = (0, 1, 0x7F, 0x80, 0xFF, 0xFFFF, 0x7FFFFFFF, 0x80000000, 0xFFFFFFFE, 0xFFFFFFFF)
# The maximum number of seconds for each file, and the maximum additional memory in bytes for all files.
SECONDS, MEMORY = 20.0, 256 << 20


def list_captures() -> list[bytes]:
    """Returns the captures to damage: those of data/, and one in each other format."""
    found = [path.read_bytes() for path in sorted(DATA.iterdir()) if path.suffix != ".log"]
    register = (DATA / "libfido2_register.pcap").read_bytes()
    log = (DATA / "python_cancel.log").read_bytes()
    chromium = b'FIDODebug[10:00:01.250] <- 1 {1: h\'AB\', 2: {"id": "a"}}\nFIDODebug[10:00:01.300] -> {1: ["b"]}\n'
    return [
        *found,
        encode_usbpcap(read_transfers(register)),
        to_pcapng(log),
        chromium * 20,
        gzip.compress(register, mtime=0),
    ]


def damage(data: bytes, chance: random.Random) -> bytes:
    """Returns a damaged capture."""
    changed = bytearray(data[: chance.randrange(len(data)) + 1] if chance.random() < 0.2 else data)
    for _ in range(chance.choice((1, 1, 2, 5, 30))):
        place = chance.randrange(len(changed)) if changed else 0
        kind = chance.randrange(6)
        size = chance.choice((1, 2, 4, 8))
        if kind == 0 and changed:
            changed[place] ^= 1 << chance.randrange(8)
        elif kind == 1:
            hard = chance.choice(BOUNDARY_VALUES).to_bytes(4, "little" if chance.random() < 0.5 else "big")
            changed[place : place + size] = (hard * 2)[:size]
        elif kind == 2:
            del changed[place : place + chance.choice((1, 3, 4, 16, 500))]
        elif kind == 3:
            changed[place:place] = changed[place : place + chance.choice((1, 4, 64, 2000))]
        elif kind == 4:
            changed[place:place] = b"9" * chance.choice((1, 12, 20, 5000))
        else:
            changed[place:place] = bytes(chance.randrange(256) for _ in range(size))
    return bytes(changed)


def read_outcome(data: bytes) -> str:
    """Returns the result of importing a capture: a log or an error."""
    try:
        found = read(data)
    except CaptureError as error:
        if not str(error) or len(str(error)) > 2100:
            return f"WRONG: an error of {len(str(error))} characters"
        return "an error"
    for result in found:
        judge(result.log)
        if len(result.log) > 40 * len(data) + 100000:
            return f"WRONG: a log of {len(result.log)} bytes"
    return "a log"


def main() -> int:
    """Imports and checks damaged captures."""
    parser = argparse.ArgumentParser(description="Import and check damaged captures.")
    parser.add_argument("--seed", type=int, default=1)
    parser.add_argument("--count", type=int, default=10000)
    options = parser.parse_args()
    whole = list_captures()
    for data in whole:
        if read_outcome(data) != "a log":
            print("an undamaged capture cannot be read")
            return 1
    used = int(Path("/proc/self/statm").read_text().split()[0]) * resource.getpagesize()
    resource.setrlimit(resource.RLIMIT_AS, (used + MEMORY, used + MEMORY))
    ends: collections.Counter[str] = collections.Counter()
    slowest = 0.0
    for number in range(options.count):
        chance = random.Random(f"{options.seed} {number}")
        data = damage(chance.choice(whole), chance)
        began = time.monotonic()
        try:
            end = read_outcome(data)
        except BaseException as error:  # pylint: disable=broad-except
            print(f"WRONG: file {number} of seed {options.seed}: {type(error).__name__}: {error}")
            raise
        slowest = max(slowest, time.monotonic() - began)
        ends[end] += 1
        if end.startswith("WRONG") or slowest > SECONDS:
            print(f"file {number} of seed {options.seed}: {end}, {slowest:.1f} s")
            return 1
    peak = resource.getrusage(resource.RUSAGE_SELF).ru_maxrss >> 10
    print(f"{options.count} files: {dict(ends)}; the slowest took {slowest:.2f} s; at most {peak} MiB")
    return 0


if __name__ == "__main__":
    sys.exit(main())
