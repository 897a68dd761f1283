"""CTAPHID for python_key.py, without code of this project's core."""

from __future__ import annotations

import struct
from typing import Callable, Generator, List, Optional

PING, INIT, CBOR, CANCEL, KEEPALIVE, ERROR = 1, 6, 16, 17, 59, 63
BROADCAST = 0xFFFFFFFF
INVALID_COMMAND, INVALID_LENGTH, INVALID_SEQUENCE, TIMEOUT, BUSY, INVALID_CHANNEL = 1, 3, 4, 5, 6, 11
CANCELLED, USER_TIMEOUT = 0x2D, 0x2F

# A request in progress: each yield requests a touch. Returns the response.
Work = Generator[None, None, bytes]


class Transaction:
    """An incoming message, and then the request in progress."""

    def __init__(self, channel: int, command: int, length: int, data: bytes, deadline: int) -> None:
        self.channel = channel
        self.command = command
        self.length = length
        self.data = data
        self.deadline = deadline
        self.sequence = 0
        self.work: Optional[Work] = None
        self.alive_at = 0


class Hid:
    """Processes packets and timestamps in milliseconds; `out` has the packets to send."""

    def __init__(self, serve: Callable[[int, int, bytes], Work]) -> None:
        self.serve = serve
        self.out: List[bytes] = []
        self.channels = 0
        self.now: Optional[Transaction] = None

    def send(self, channel: int, command: int, data: bytes) -> None:
        """Cuts a message."""
        self.out.append((struct.pack(">IBH", channel, 128 | command, len(data)) + data[:57]).ljust(64, b"\0"))
        for number, start in enumerate(range(57, len(data), 59)):
            self.out.append((struct.pack(">IB", channel, number) + data[start : start + 59]).ljust(64, b"\0"))

    def error(self, channel: int, code: int) -> None:
        """Sends an ERROR, and ends this channel's transaction."""
        if self.now is not None and self.now.channel == channel and code != BUSY:
            self.now = None
        self.send(channel, ERROR, bytes([code]))

    def packet(self, at: int, packet: bytes) -> None:
        """Processes a packet."""
        self.tick(at)
        channel, first = struct.unpack(">IB", packet[:5])
        if first & 128:
            (length,) = struct.unpack(">H", packet[5:7])
            self.begin(at, channel, first & 127, length, packet[7:])
        elif self.now is not None and self.now.channel == channel and self.now.work is None:
            self.go_on(at, self.now, first, packet[5:])

    def begin(self, at: int, channel: int, command: int, length: int, data: bytes) -> None:
        """Processes an initialization packet."""
        if command == INIT:
            self.init(at, channel, length, data[:8])
        elif not 0 < channel <= self.channels:
            self.error(channel, INVALID_CHANNEL)
        elif command == CANCEL:
            self.cancel(channel)
        elif self.now is not None and self.now.channel != channel:
            self.error(channel, BUSY)
        elif self.now is not None:
            self.error(channel, BUSY if self.now.work is not None else INVALID_SEQUENCE)
        elif command not in (PING, CBOR):
            self.error(channel, INVALID_COMMAND)
        elif length > 7609:
            self.error(channel, INVALID_LENGTH)
        else:
            self.now = Transaction(channel, command, length, data, at + 500)
            self.whole(at, self.now)

    def init(self, at: int, channel: int, length: int, nonce: bytes) -> None:
        """Responds to INIT with a new channel, or this one."""
        if channel != BROADCAST and not 0 < channel <= self.channels:
            self.error(channel, INVALID_CHANNEL)
        elif length != 8:
            self.error(channel, INVALID_LENGTH)
        else:
            allocated = channel
            if channel == BROADCAST:
                self.channels += 1
                allocated = self.channels
            elif self.now is not None and self.now.channel == channel:
                self.now = None
            self.send(channel, INIT, nonce + struct.pack(">IBBBBB", allocated, 2, 1, 0, 0, 0x0C))

    def cancel(self, channel: int) -> None:
        """Cancels the pending request on this channel."""
        if self.now is not None and self.now.channel == channel and self.now.work is not None:
            self.finish(bytes([CANCELLED]))

    def go_on(self, at: int, open_one: Transaction, sequence: int, data: bytes) -> None:
        """Processes a continuation packet."""
        if sequence != open_one.sequence:
            self.error(open_one.channel, INVALID_SEQUENCE)
            return
        open_one.sequence += 1
        open_one.data += data
        open_one.deadline = at + 500
        self.whole(at, open_one)

    def whole(self, at: int, message: Transaction) -> None:
        """Processes a complete message."""
        if len(message.data) < message.length:
            return
        data = message.data[: message.length]
        if message.command == PING:
            self.now = None
            self.send(message.channel, PING, data)
        elif not data:
            self.error(message.channel, INVALID_LENGTH)
        else:
            message.work = self.serve(at, message.channel, data)
            message.deadline = at + 30000
            message.alive_at = at + 100
            self.work_on(at)

    def work_on(self, at: int) -> None:
        """Runs the request until it requests a touch or is done."""
        assert self.now is not None and self.now.work is not None
        try:
            next(self.now.work)
            self.send(self.now.channel, KEEPALIVE, b"\2")
        except StopIteration as done:
            self.finish(done.value)

    def finish(self, answer: bytes) -> None:
        """Sends the response of the request in progress."""
        assert self.now is not None
        channel, self.now = self.now.channel, None
        self.send(channel, CBOR, answer)

    def touch(self, at: int) -> None:
        """Processes a touch."""
        self.tick(at)
        if self.now is not None and self.now.work is not None:
            self.work_on(at)

    def tick(self, at: int) -> None:
        """Handles timeouts, and sends a KEEPALIVE every 100 ms."""
        if self.now is None:
            return
        if at >= self.now.deadline:
            if self.now.work is None:
                self.error(self.now.channel, TIMEOUT)
            else:
                self.finish(bytes([USER_TIMEOUT]))
        elif self.now.work is not None and at >= self.now.alive_at:
            self.now.alive_at = at + 100
            self.send(self.now.channel, KEEPALIVE, b"\2")
