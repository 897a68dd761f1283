#!/usr/bin/env python3
"""An authenticator that is conforming but unusual, or broken: odd_device.py KIND

It runs others/python_key.py, and sends other packets before, after or instead of its responses.
"""

from __future__ import annotations

import os
import select
import subprocess
import sys
import time
from typing import List

HERE = os.path.dirname(os.path.abspath(__file__))
for folder in ("..", "../others"):
    sys.path.insert(0, os.path.join(HERE, folder))

from hidlog_conformance import hid_packets as hid  # noqa: E402
from python_key import Key  # noqa: E402

# Milliseconds that a busy key works before it requests a touch.
WORK = 3500
EVIL = "\x1b[31mred\u202e\u0001"
START = time.monotonic()


def now_ms() -> int:
    """Returns the time in milliseconds."""
    return int((time.monotonic() - START) * 1000)


class OddKey:
    """Serves lines."""

    def __init__(self, kind: str, words: List[str]) -> None:
        self.kind, self.words = kind, words
        self.key = Key()
        # Requests in progress, and the time of the next KEEPALIVE.
        self.kept: List["tuple[int, bytes]"] = []
        self.due = 0

    def write_packet(self, packet: bytes) -> None:
        """Writes a packet."""
        print(packet.hex(), flush=True)

    def keepalive(self, channel: int, status: bytes = b"\1") -> None:
        """Writes a KEEPALIVE."""
        self.write_packet(hid.fragment_message(channel, hid.KEEPALIVE, status)[0])

    def take(self, line: bytes) -> None:
        """Processes a line of the host."""
        if line == b"touch":
            self.key.hid.touch(now_ms())
            return
        packet = bytes.fromhex(line.decode())
        channel, is_cbor = int.from_bytes(packet[:4], "big"), packet[4] == 0x80 | hid.CBOR
        if self.kind == "keepalive_first" and is_cbor:
            self.keepalive(channel)
        if self.kind == "keepalive_for_ever" and is_cbor and packet[7] not in (4, 11):
            while True:
                self.keepalive(channel)
                time.sleep(0.1)
        if self.kind == "busy" and is_cbor and packet[7] == 11:
            self.kept.append((now_ms() + WORK, packet))
            return
        if self.kind == "full" and is_cbor and packet[7] == 1:
            self.write_packet(hid.fragment_message(channel, hid.CBOR, b"\x28")[0])
            return
        self.key.hid.packet(now_ms(), packet)

    def tick(self) -> None:
        """Advances the clock."""
        for ready, packet in self.kept[:]:
            if now_ms() >= ready:
                self.kept.remove((ready, packet))
                self.key.hid.packet(now_ms(), packet)
            elif now_ms() >= self.due:
                self.due = now_ms() + 100
                self.keepalive(int.from_bytes(packet[:4], "big"))
        self.key.hid.tick(now_ms())

    def wrong_once(self, packet: bytes) -> bytes:
        """Returns a packet after 80 ms; the first PING of all processes is wrong."""
        time.sleep(0.08)
        if packet[4] != 0x80 | hid.PING or os.path.exists(self.words[0]):
            return packet
        open(self.words[0], "w", encoding="utf-8").close()
        return packet[:7] + b"\xff" + packet[8:]

    def answer(self) -> None:
        """Writes the key's packets."""
        for packet in self.key.hid.out:
            if self.kind == "unstable":
                packet = self.wrong_once(packet)
            if self.kind == "evil_text" and packet[4] == 0x80 | hid.CBOR and packet[5:8] != b"\0\1\0":
                packet = packet[:8] + packet[8:].replace(b"FIDO_2_0", EVIL.encode()[:8].ljust(8, b"\1"))
            self.write_packet(packet)
            if self.kind == "continues" and packet[4] == 0x80 | hid.PING:
                self.write_packet(packet[:4] + bytes(60))
        self.key.hid.out.clear()


def write_out_of_order(kind: str) -> None:
    """Writes a flood of packets, or a line without a newline."""
    packet = hid.fragment_message(hid.BROADCAST, hid.KEEPALIVE, b"\1")[0].hex().encode() + b"\n"
    piece = {"flood": packet * 100, "no_line_feed": b"0" * 4096}[kind]
    while True:
        os.write(1, piece)


def main(words: List[str]) -> int:
    """Runs until the end of input."""
    if words[0] in ("flood", "no_line_feed"):
        write_out_of_order(words[0])
    if words[0] == "with_a_child":
        subprocess.Popen(["sleep", words[1]])
    odd, rest = OddKey(words[0], words[1:]), b""
    while True:
        ready, _, _ = select.select([sys.stdin], [], [], 0.02)
        piece = os.read(0, 4096) if ready else b""
        if ready and not piece:
            return 0
        *lines, rest = (rest + piece).split(b"\n")
        for line in lines:
            odd.take(line)
        odd.tick()
        odd.answer()


if __name__ == "__main__":
    sys.exit(main(sys.argv[1:]))
