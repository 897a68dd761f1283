#!/usr/bin/env python3
"""Finds logs that detect faulty authenticators by the fuzzer of tests/fuzz, and minimizes them.

    conformance/fuzzed/find.py FOLDER [--count N] [WORD ..]    write FOLDER/FAULT.log for the faults that match

A finding is a malformed log for which the packets with and without the fault differ. It is minimized as by `hidlog
shrink`, as long as the first difference is of the same kind. The logs in conformance/fuzzed are such findings, which
were compared with the standard before they became cases.
"""

from __future__ import annotations

import argparse
import os
import sys
from typing import Any, List, Optional, Tuple

HERE = os.path.dirname(os.path.abspath(__file__))
TOP = os.path.join(HERE, "..", "..")
for place in ("conformance", "conformance/checks", "conformance/faults", "tests/fuzz", "bindings/python/src"):
    sys.path.insert(0, os.path.join(TOP, place))

from faults import FAULTS  # noqa: E402
from faulty import Fault, FaultyDevice  # noqa: E402
from hidlog import shrink  # noqa: E402
from malformed_requests import hostile_log  # noqa: E402
from judge import is_log_line  # noqa: E402

PLAIN = Fault("none", "", "", lambda device, message: None)
PLAIN_LOGS = Fault("none", "", "", request=lambda device, request: request)
Sent = Tuple[int, bytes]


def list_inputs(log: bytes) -> List[bytes]:
    """Returns a log's input lines."""
    return [line for line in log.split(b"\n") if line[:1] in (b">", b"t", b"p", b"k", b"s") and is_log_line(line)]


def play_inputs(device: FaultyDevice, lines: List[bytes]) -> List[Sent]:
    """Plays input lines; returns the packets, each with the index of its input."""
    device.start()
    found: List[Sent] = []
    try:
        for number, line in enumerate(lines):
            kind, at, *words = line.decode().split(" ")
            if kind == ">":
                device.send(int(at), bytes.fromhex(words[0]))
            elif kind == "t":
                device.tick(int(at))
            elif kind == "p":
                device.presence(int(at), words[0])
            else:
                device.play(line.decode())
            packet: Optional[bytes] = device.read(0)
            while packet is not None:
                found.append((number, packet))
                packet = device.read(0)
    finally:
        device.close()
    return found


def read_head(packets: List[Sent], place: int) -> bytes:
    """Returns a packet's command and first byte; empty if there is no packet."""
    return packets[place][1][4:8] if place < len(packets) else b""


def find_difference(fault: Fault, lines: List[bytes]) -> Optional[Tuple[bytes, bytes]]:
    """Returns the commands and first bytes of the first packets that differ, with and without the fault, or None."""
    try:
        right, wrong = play_inputs(FaultyDevice(PLAIN_LOGS if fault.request else PLAIN), lines), play_inputs(
            FaultyDevice(fault), lines
        )
    except (OSError, KeyError, IndexError, ValueError, AttributeError, TypeError):
        # A malformed log may raise an exception in a fault, which is written for the conformance tests.
        return None
    for place in range(max(len(right), len(wrong))):
        if right[place : place + 1] != wrong[place : place + 1]:
            return read_head(wrong, place), read_head(right, place)
    return None


class DifferenceCheck(shrink.Command):
    """A command for `shrink`. It fails on a log if the packets with and without a fault differ, and its failure is the
    difference."""

    def __init__(self, fault: Fault) -> None:
        super().__init__([], None)
        self.fault = fault

    def failure(self, blocks: Any) -> Any:
        """Returns the difference that the fault makes, or None."""
        return find_difference(self.fault, list_inputs(shrink.join_blocks(blocks)))


def minimize_finding(fault: Fault, count: int) -> Optional[bytes]:
    """Returns the shortest log for which a fault makes a difference."""
    for number in range(count):
        lines = list_inputs(hostile_log("conformance", number))
        if find_difference(fault, lines) is None:
            continue
        command = DifferenceCheck(fault)
        blocks = shrink.split_blocks(b"".join(line + b"\n" for line in lines))
        expected: Any = command.failure(blocks)
        shrinking = shrink.Shrinking(command, blocks, expected, tell=lambda text: None)
        shrinking.remove_transactions()
        shrinking.remove_blocks()
        shortest: bytes = shrink.join_blocks(shrinking.blocks)
        return shortest
    return None


def main(arguments: List[str]) -> int:
    """Searches for a finding for each fault."""
    parser = argparse.ArgumentParser(description="Let the fuzzer detect faulty authenticators.")
    parser.add_argument("folder", metavar="FOLDER")
    parser.add_argument("--count", type=int, default=1500, help="number of malformed logs (default: 1500)")
    parser.add_argument("words", nargs="*", metavar="WORD")
    options = parser.parse_intermixed_args(arguments)
    os.makedirs(options.folder, exist_ok=True)
    for name, fault in FAULTS.items():
        if options.words and not any(word in name for word in options.words):
            continue
        log = minimize_finding(fault, options.count)
        print(f"{name}: {'nothing found' if log is None else str(log.count(bytes([10]))) + ' lines'}", flush=True)
        if log is not None:
            with open(os.path.join(options.folder, name + ".log"), "wb") as file:
                file.write(log)
    return 0


if __name__ == "__main__":
    sys.exit(main(sys.argv[1:]))
