"""Runs the reference authenticator: python3 -m hidlog_conformance.reference [--pin PIN] [--fingerprint]

Reads and writes packets as lines of 128 hexadecimal digits. The line `touch` means that the user touches the key.
"""

from __future__ import annotations

import argparse
import os
import select
import sys
import time
from typing import List

from hidlog_conformance.reference.authenticator import Authenticator
from hidlog_conformance.reference.traits import DeviceTraits


def take(authenticator: Authenticator, at: int, line: bytes) -> None:
    """Processes a line."""
    if line == b"touch":
        now = authenticator.transport.now
        if now is None or now.work is None:
            authenticator.u2f.touched = at
        authenticator.transport.touch(at)
    else:
        authenticator.transport.packet(at, bytes.fromhex(line.decode()))


def main(words: List[str]) -> int:
    """Runs until the end of input."""
    parser = argparse.ArgumentParser(
        prog="hidlog_conformance.reference", description="Run the reference authenticator."
    )
    parser.add_argument("--pin", default="", help="initial PIN")
    parser.add_argument(
        "--fingerprint", action="store_true", help="built-in user verification: a touch also verifies the user"
    )
    options = parser.parse_args(words)
    authenticator = Authenticator(DeviceTraits(pin=options.pin, built_in_uv=options.fingerprint))
    start, rest = time.monotonic(), b""
    while True:
        ready, _, _ = select.select([sys.stdin], [], [], 0.02)
        at = int((time.monotonic() - start) * 1000)
        piece = os.read(sys.stdin.fileno(), 4096) if ready else b""
        if ready and not piece:
            return 0
        *lines, rest = (rest + piece).split(b"\n")
        for line in lines:
            take(authenticator, at, line)
        authenticator.transport.tick(at)
        for packet in authenticator.transport.out:
            print(packet.hex(), flush=True)
        authenticator.transport.out.clear()


if __name__ == "__main__":
    sys.exit(main(sys.argv[1:]))
