#!/usr/bin/env python3
"""hidlog live as a real-time command: an example for `run.py --device COMMAND`.

Reads and writes packets as lines of 128 hexadecimal digits. The line `touch` means that the user touches the key.
"""

from __future__ import annotations

import os
import select
import sys
import time

from hidlog_conformance.devices import LiveDevice

START = time.monotonic()


def now_ms() -> int:
    """Returns the time in milliseconds."""
    return int((time.monotonic() - START) * 1000)


def provide_needs(device: LiveDevice) -> None:
    """Provides key pairs and signatures as needed, and writes the packets."""
    while device.need != "nothing" and device.need != "presence":
        if device.need == "key":
            device.key(now_ms(), ["yes"])
        else:
            device.signature(now_ms(), ["yes"])
    packet = device.read(0)
    while packet is not None:
        print(packet.hex(), flush=True)
        packet = device.read(0)


def handle_line(device: LiveDevice, line: bytes) -> None:
    """Processes a line of the input."""
    if line == b"touch":
        device.presence(now_ms(), "granted")
    else:
        device.send(now_ms(), bytes.fromhex(line.decode()))
    provide_needs(device)


def main() -> int:
    """Runs until the end of input."""
    device = LiveDevice()
    device.start()
    rest = b""
    while True:
        ready, _, _ = select.select([sys.stdin], [], [], 0.05)
        if not ready:
            device.tick(now_ms())
            provide_needs(device)
            continue
        piece = os.read(sys.stdin.fileno(), 4096)
        if not piece:
            break
        *lines, rest = (rest + piece).split(b"\n")
        for line in lines:
            handle_line(device, line)
    device.close()
    return 0


if __name__ == "__main__":
    sys.exit(main())
