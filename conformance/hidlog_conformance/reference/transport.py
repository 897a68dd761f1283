"""CTAPHID of the reference authenticator: packets and timestamps in, packets out."""

from __future__ import annotations

import os
from typing import Callable, Dict, Generator, List, Optional, Tuple

from hidlog_conformance.reference.traits import DeviceTraits

PING, MSG, LOCK, INIT, WINK, CBOR, CANCEL, KEEPALIVE, ERROR = 1, 3, 4, 6, 8, 16, 17, 59, 63
BROADCAST = 0xFFFFFFFF
INVALID_COMMAND, INVALID_LENGTH, INVALID_SEQUENCE, TIMEOUT, BUSY, OTHER, INVALID_CHANNEL = 1, 3, 4, 5, 6, 0x7F, 11
CANCELLED = 0x2D
# The first vendor command. KEEPALIVE and ERROR are below it.
VENDOR = 0x40
INVALID_PARAMETER, LONGEST_LOCK = 2, 10
LONGEST = 7609

# A request in progress. Each yield requests a touch and evaluates to granted, denied or timeout; the result is the
# response.
Work = Generator[None, str, bytes]


class Transaction:
    """A message of the host, and the request in progress once it is complete."""

    def __init__(self, channel: int, command: int, length: int, at: int) -> None:
        self.channel = channel
        self.command = command
        self.length = length
        self.data = b""
        self.latest = at
        self.sequence = 0
        self.work: Optional[Work] = None
        self.began = at
        self.alive_at = at
        # The time at which a slow authenticator serves the request; None afterwards.
        self.ready_at: Optional[int] = None


class Transport:
    """Processes packets. Each behavior that a mutant changes is a method."""

    def __init__(self, traits: DeviceTraits, serve: Callable[[int, int, bytes], Work]) -> None:
        self.traits = traits
        self.serve = serve
        self.serve_message: Callable[[int, bytes], bytes] = lambda at, data: b"\x6d\0"
        self.out: List[bytes] = []
        self.channels: List[int] = []
        self.now: Optional[Transaction] = None
        # The channel that has the lock, and the time at which the lock ends.
        self.locked: Tuple[int, int] = (BROADCAST, 0)
        self.at = 0

    def packets(self, channel: int, command: int, data: bytes) -> List[bytes]:
        """Splits a message into packets."""
        front = channel.to_bytes(4, "big")
        pieces = [front + bytes([0x80 | command]) + len(data).to_bytes(2, "big") + data[:57]]
        for number, start in enumerate(range(57, len(data), 59)):
            pieces.append(front + bytes([number]) + data[start : start + 59])
        return [piece.ljust(64, bytes([self.traits.padding])) for piece in pieces]

    def send(self, channel: int, command: int, data: bytes) -> None:
        """Sends a message."""
        self.out += self.packets(channel, command, data)

    def error(self, channel: int, code: int) -> None:
        """Sends an error."""
        self.send(channel, ERROR, bytes([code]))

    def packet(self, at: int, packet: bytes) -> None:
        """Processes a packet."""
        self.tick(at)
        channel = int.from_bytes(packet[:4], "big")
        if packet[4] & 0x80:
            self.handle_initialization(channel, packet[4] & 0x7F, int.from_bytes(packet[5:7], "big"), packet[7:])
        else:
            self.handle_continuation(channel, packet[4], packet[5:])

    def handle_continuation(self, channel: int, sequence: int, data: bytes) -> None:
        """Processes a continuation packet; ignored outside any message."""
        now = self.now
        if now is None or now.work is not None or now.channel != channel:
            return
        if sequence != now.sequence:
            self.now = None
            self.error(channel, INVALID_SEQUENCE)
            return
        now.sequence += 1
        now.latest = self.at
        now.data += data
        self.handle_message(now)

    def handle_initialization(self, channel: int, command: int, length: int, data: bytes) -> None:
        """Processes an initialization packet."""
        if command == CANCEL:
            self.cancel(channel)
        elif channel != BROADCAST and channel not in self.channels:
            self.error(channel, INVALID_CHANNEL)
        elif command == INIT:
            self.init(channel, length, data[:8])
        elif channel == BROADCAST:
            self.error(channel, INVALID_CHANNEL)
        elif self.now is not None and self.now.channel != channel or self.is_locked_out(channel):
            self.error(channel, BUSY)
        elif self.now is not None and self.now.work is not None:
            self.error(channel, BUSY)
        elif self.now is not None and not self.traits.begins_anew:
            self.now = None
            self.error(channel, INVALID_SEQUENCE)
        else:
            self.begin_message(channel, command, length, data)

    def is_locked_out(self, channel: int) -> bool:
        """Returns whether another channel has the lock."""
        owner, until = self.locked
        return owner != channel and self.at < until

    def lock(self, channel: int, data: bytes) -> None:
        """Locks the device for a channel, for up to ten seconds; 0 ends the lock (11.2.9.2.2)."""
        if len(data) != 1:
            self.error(channel, INVALID_LENGTH)
        elif data[0] > LONGEST_LOCK:
            self.error(channel, INVALID_PARAMETER)
        else:
            self.locked = (channel, self.at + 1000 * data[0])
            self.send(channel, LOCK, b"")

    def is_supported(self, command: int) -> bool:
        """Returns whether a command is supported."""
        optional = {MSG: self.traits.u2f, WINK: self.traits.wink, LOCK: self.traits.lock}
        return command in (PING, CBOR) or optional.get(command, command >= VENDOR and self.traits.vendor)

    def begin_message(self, channel: int, command: int, length: int, data: bytes) -> None:
        """Processes the first packet of an acceptable message."""
        self.now = None
        if not self.is_supported(command):
            self.error(channel, INVALID_COMMAND)
        elif length > min(LONGEST, max(self.traits.longest_message, 1024)):
            self.error(channel, INVALID_LENGTH)
        else:
            self.now = Transaction(channel, command, length, self.at)
            self.now.data = data
            self.handle_message(self.now)

    def make_init_response(self, nonce: bytes, channel: int) -> bytes:
        """Returns the INIT response."""
        capabilities = 0x04 | (0x01 if self.traits.wink else 0) | (0 if self.traits.u2f else 0x08)
        return nonce + channel.to_bytes(4, "big") + b"\2" + self.traits.version_bytes + bytes([capabilities])

    def new_channel(self) -> int:
        """Returns a channel that was not allocated before."""
        while self.traits.random_channels:
            found = int.from_bytes(os.urandom(4), "big")
            if found not in (0, BROADCAST, *self.channels):
                return found
        return (self.traits.first_channel + len(self.channels) * self.traits.channel_step) & 0xFFFFFFFF

    def init(self, channel: int, length: int, nonce: bytes) -> None:
        """Allocates a channel, or resynchronizes one."""
        if length != 8:
            self.error(channel, INVALID_LENGTH)
        elif channel != BROADCAST:
            if self.now is not None and self.now.channel == channel:
                self.now = None
            self.send(channel, INIT, self.make_init_response(nonce, channel))
        elif len(self.channels) >= self.traits.channels:
            self.error(channel, OTHER)
        else:
            new = self.new_channel()
            self.channels.append(new)
            self.send(BROADCAST, INIT, self.make_init_response(nonce, new))

    def cancel(self, channel: int) -> None:
        """Cancels the pending request on a channel, if any."""
        if self.now is not None and self.now.channel == channel and self.now.work is not None:
            self.finish(bytes([CANCELLED]))

    def handle_message(self, now: Transaction) -> None:
        """Processes a complete message."""
        if len(now.data) < now.length:
            return
        data = now.data[: now.length]
        if now.command in (PING, WINK) or now.command >= VENDOR:
            self.now = None
            self.send(now.channel, now.command, b"" if now.command == WINK else data)
        elif now.command == LOCK:
            self.now = None
            self.lock(now.channel, data)
        elif now.command == MSG:
            self.now = None
            self.send(now.channel, MSG, self.serve_message(self.at, data))
        elif not data:
            self.now = None
            self.refuse_empty(now.channel)
        else:
            now.work = self.serve(self.at, now.channel, data)
            now.began = self.at
            if self.traits.works_first or self.traits.work_time:
                self.send(now.channel, KEEPALIVE, b"\1")
            if self.traits.work_time:
                now.ready_at, now.alive_at = self.at + self.traits.work_time, self.at
            else:
                self.run_request()

    def refuse_empty(self, channel: int) -> None:
        """Refuses a CBOR message without a command."""
        if self.traits.empty_cbor_status:
            self.send(channel, CBOR, bytes([self.traits.empty_cbor_status]))
        else:
            self.error(channel, INVALID_LENGTH)

    def run_request(self, reply: str = "") -> None:
        """Runs the request until it requests a touch or has a response."""
        assert self.now is not None and self.now.work is not None
        try:
            if reply:
                self.now.work.send(reply)
            else:
                next(self.now.work)
        except StopIteration as done:
            self.finish(done.value)
        else:
            self.now.began = self.now.alive_at = self.at
            self.send(self.now.channel, KEEPALIVE, b"\2")

    def finish(self, answer: bytes) -> None:
        """Sends the response of the request in progress."""
        assert self.now is not None
        channel, self.now = self.now.channel, None
        self.send(channel, CBOR, answer)

    def touch(self, at: int, reply: str = "granted") -> None:
        """Processes a touch, if one was requested."""
        self.tick(at)
        if self.now is not None and self.now.work is not None and self.now.ready_at is None:
            self.run_request(reply)

    def tick(self, at: int) -> None:
        """Handles timeouts, and sends KEEPALIVEs."""
        self.at = max(at, self.at)
        now = self.now
        if now is None:
            return
        if now.work is None:
            if self.at - now.latest >= self.traits.time_out:
                self.now = None
                if not self.traits.silent_time_out:
                    self.error(now.channel, TIMEOUT)
        elif now.ready_at is not None:
            self.work_slowly(now, now.ready_at)
        elif self.at - now.began >= self.traits.patience:
            self.run_request("timeout")
        elif self.at - now.alive_at >= self.traits.keepalive:
            now.alive_at = self.at
            self.send(now.channel, KEEPALIVE, b"\2")

    def work_slowly(self, now: Transaction, ready_at: int) -> None:
        """Sends KEEPALIVEs until a slow authenticator serves the request, and then serves it."""
        if self.at >= ready_at:
            now.ready_at = None
            self.run_request()
        elif self.at - now.alive_at >= self.traits.keepalive:
            now.alive_at = self.at
            self.send(now.channel, KEEPALIVE, b"\1")


COMMANDS: Dict[str, int] = {"cbor": CBOR, "msg": MSG}
