"""Simulates a security key of another maker, and records its log and the transaction of each packet.

A key serves one message at a time, as CTAP 2.1 (section 11.2) requires. `Behavior` contains the choices that the
section leaves open. A recorder may lose packets of the key.
"""

from __future__ import annotations

import collections
import random
from dataclasses import dataclass
from typing import Optional

from framing import BROADCAST, MAX_MESSAGE_BYTES, read_continuation_data, read_initialization_data, split_into_packets

PING, MSG, INIT, WINK, CBOR, CANCEL, KEEPALIVE, ERROR = 0x01, 0x03, 0x06, 0x08, 0x10, 0x11, 0x3B, 0x3F
INVALID_COMMAND, INVALID_LENGTH, INVALID_SEQUENCE, TIMED_OUT, CHANNEL_BUSY = 0x01, 0x03, 0x04, 0x05, 0x06
MAKE, ASSERT, INFO = b"\x01", b"\x02", b"\x04"
# The parameters of authenticatorGetAssertion with the option `up` false, and without this option; the first bytes of the
# responses to a registration and to a sign-in.
RP_AND_HASH = b"\x01\x63a.b\x02\x58\x20" + bytes(32)
SILENT, TOUCHED = b"\xa3" + RP_AND_HASH + b"\x05\xa1bup\xf4", b"\xa2" + RP_AND_HASH
MADE, ASSERTED = b"\x00\xa3\x01dnone\x02\x59", b"\x00\xa2\x02\x59"
# Ends that `show` may report for a message that the key dropped silently.
UNANSWERED_ENDS = ("open", "dropped", "replaced", "unknown", "forgotten")
# Ends of a message caused by a second message on its channel. The host sees no reply.
ENDS_BY_OTHER_MESSAGE = ("dropped", "replaced")


@dataclass(frozen=True)
class Behavior:
    """The choices that the standard leaves to a key, and known deviations of keys from the standard."""

    time_out: Optional[int]
    says_time_out: bool
    says_busy: bool
    """Whether a message from another host is rejected with CHANNEL_BUSY rather than ignored."""
    unfinished: str
    """What happens to a second message while one is incomplete: `refused`, which also ends the first one, or
    `taken`."""
    worked_on: str
    """What happens to a message while one is processed: `refused`, `ignored`, or `taken`; `queued` with all other
    packets until the reply; or `beside`: PING and WINK are answered meanwhile, others are rejected."""
    cancelled: str
    """The effect of CANCEL: `answered`, `ignored`, or `silent`."""
    says_sequence: bool
    interval: int
    """The KEEPALIVE interval in milliseconds."""
    is_slow: bool
    """Whether the key also sends KEEPALIVEs for requests that need no user presence."""
    is_slow_in_u2f: bool
    """Whether it sends KEEPALIVEs for U2F messages, too."""
    padding: int
    """The byte that pads its packets; CTAP 2.1 asks for zeros."""

    @staticmethod
    def make_random(chance: random.Random) -> Behavior:
        """Returns a random behavior. The behavior in the standard is the most frequent one."""
        return Behavior(
            time_out=chance.choice([500, 1000, 3000, None]),
            says_time_out=chance.random() < 0.6,
            says_busy=chance.random() < 0.7,
            unfinished=chance.choice(["refused", "refused", "taken"]),
            worked_on=chance.choice(["refused", "refused", "ignored", "taken", "queued", "beside"]),
            cancelled=chance.choice(["answered", "answered", "ignored", "silent"]),
            says_sequence=chance.random() < 0.7,
            interval=chance.choice([100, 100, 100, 50, 700, 2500]),
            is_slow=chance.random() < 0.3,
            is_slow_in_u2f=chance.random() < 0.2,
            padding=chance.choice([0, 0, 0, 0xFF, 0x5A]),
        )


@dataclass
class Message:
    """A message from a host, and how it ended: the kind of end, and its status or error code."""

    line: int
    channel: int
    command: int
    length: int
    data: bytes
    last: int
    next: int = 0
    end: tuple[object, ...] = ("open",)
    ready_at: int = 0
    alive: int = 0
    is_asking: bool = False
    """Whether its last KEEPALIVE has the status UPNEEDED."""
    took: Optional[int] = None
    """Milliseconds from its last packet to the user's reply."""

    @property
    def is_whole(self) -> bool:
        return self.length <= MAX_MESSAGE_BYTES and len(self.data) >= self.length


class Log:
    """The lines of a log, and the transaction of each packet. A transaction is named by the line of its first
    packet."""

    def __init__(self) -> None:
        self.lines: list[str] = []
        self.owners: dict[int, Optional[int]] = {}
        self.messages: dict[int, Message] = {}
        self.of_channel: collections.defaultdict[int, list[int]] = collections.defaultdict(list)
        """The messages of each channel."""
        self.allowed: dict[int, list[int]] = {}
        """Other transactions that `show` may name for a packet."""
        self.replies = 0
        """The number of user replies, each of which a message requested."""
        self.loss = 0.0
        """How likely the recorder loses a packet of the key."""
        self.has_lost = False
        self.lossy: set[int] = set()
        """The channels of which the recorder lost packets of responses."""

    def add(self, text: str, owner: Optional[int] = None) -> int:
        self.lines.append(text)
        self.owners[len(self.lines)] = owner
        return len(self.lines)


class Key:
    """A security key that serves one message at a time."""

    def __init__(self, chance: random.Random, log: Log) -> None:
        self.chance = chance
        self.log = log
        self.behavior = Behavior.make_random(chance)
        self.now = 0
        self.held: Optional[Message] = None
        self.channels = 0
        self.is_behind_start = False
        self.queue: collections.deque[tuple[int, int, bytes]] = collections.deque()
        """The packets that wait until the current message is answered, with their lines and times."""

    # ---- sending

    def send(self, owner: Message, command: int, data: bytes) -> None:
        for packet in self.pad(split_into_packets(owner.channel, command, data), len(data)):
            if self.chance.random() < self.log.loss:
                self.log.has_lost = True
                if command != KEEPALIVE:
                    self.log.lossy.add(owner.channel)
                continue
            line = self.log.add(f"< {packet.hex()}", owner.line)
            # After an initialization packet, the log doesn't show whether a KEEPALIVE came before the new message.
            if command == KEEPALIVE and self.is_behind_start:
                self.log.allowed[line] = self.log.of_channel[owner.channel][:-1]
            self.is_behind_start = False

    def pad(self, pieces: list[bytes], length: int) -> list[bytes]:
        """Returns the packets of a message of this length, with the padding that the key uses."""
        last, data = pieces[-1], length - 57 - 59 * (len(pieces) - 2) if len(pieces) > 1 else length
        end = (5 if len(pieces) > 1 else 7) + data
        return [*pieces[:-1], last[:end] + bytes([self.behavior.padding]) * (64 - end)]

    def refuse(self, message: Message, code: int) -> None:
        self.send(message, ERROR, bytes([code]))
        message.end = ("error", code)

    def answer(self, message: Message) -> None:
        if message.command == PING:
            self.send(message, PING, message.data[: message.length])
        elif message.command == MSG:
            self.send(message, MSG, b"\x90\x00")
        elif message.command == WINK:
            self.send(message, WINK, b"")
        else:
            status = self.chance.choice([0x00, 0x00, 0x27, 0x2E])
            self.send(message, CBOR, self.make_response(message, status))
            message.end = ("status", status)
            self.held = None
            return
        message.end = ("answer",)
        self.held = None

    def make_response(self, message: Message, status: int) -> bytes:
        """Returns a response with this status. Each response has another size."""
        size = self.chance.choice([37, 100, 300])
        value = size.to_bytes(2, "big") + bytes(size)
        if status:
            return bytes([status])
        if message.data[:1] == MAKE:
            return MADE + value + b"\x03\xa0"
        if message.data[:1] == ASSERT:
            return ASSERTED + value + b"\x03\x41\x00"
        return b"\x00\xa1\x01\x59" + value

    def is_slow(self, message: Message) -> bool:
        if message.command == MSG:
            return self.behavior.is_slow_in_u2f
        return message.command == CBOR and (message.data[:1] in (MAKE, ASSERT) or self.behavior.is_slow)

    def serve_complete_message(self, message: Message) -> None:
        """Serves a complete message."""
        if self.is_slow(message):
            message.ready_at = self.now + self.chance.choice([130, 250, 420])
            message.alive = self.now
            self.send(message, KEEPALIVE, b"\x01")
        else:
            self.answer(message)

    # ---- time

    def next_due_time(self) -> Optional[int]:
        """Returns the time of the next packet that is sent without an input."""
        if self.held is None:
            return None
        if self.held.is_whole:
            return min(self.held.ready_at, self.held.alive + self.behavior.interval)
        return None if self.behavior.time_out is None else self.held.last + self.behavior.time_out

    def advance_to(self, moment: int) -> None:
        """Advances the time, and sends packets when they become due, each after a line `t`."""
        while (then := self.next_due_time()) is not None and then <= moment:
            self.now = max(self.now, then)
            self.send_due()
            while self.queue and not self.is_working:
                self.serve_packet(*self.queue.popleft())
        self.now = max(self.now, moment)

    def send_due(self) -> None:
        message = self.held
        assert message
        if not message.is_whole and not self.behavior.says_time_out:
            message.end = ("silent",)
            self.held = None
            return
        self.log.add(f"t {self.now}")
        self.is_behind_start = False
        if not message.is_whole:
            self.refuse(message, TIMED_OUT)
            self.held = None
        elif message.ready_at <= self.now:
            self.answer(message)
        else:
            message.alive = self.now
            asks = message.command == CBOR and message.data[:1] in (MAKE, ASSERT)
            message.is_asking = asks and message.took is None
            self.send(message, KEEPALIVE, b"\x02" if message.is_asking else b"\x01")

    def reply(self) -> None:
        """Processes the user's reply, if a message requested it."""
        message = self.held
        if message and message.is_asking:
            self.log.add(f"p {self.now} granted", message.line)
            self.log.replies += 1
            message.is_asking = False
            message.took = self.now - message.last

    # ---- packets of hosts

    @property
    def is_working(self) -> bool:
        return self.held is not None and self.held.is_whole

    def handle_packet(self, packet: bytes) -> None:
        line = self.log.add(f"> {self.now} {packet.hex()}")
        channel = int.from_bytes(packet[:4], "big")
        self.is_behind_start = False
        if packet[4] < 0x80 or packet[4] == 0x80 | CANCEL:
            self.log.allowed[line] = list(self.log.of_channel[channel])
        else:
            length = int.from_bytes(packet[5:7], "big")
            data = read_initialization_data(packet, length)
            self.log.messages[line] = Message(line, channel, packet[4] & 0x7F, length, data, self.now)
            self.log.owners[line] = line
            if packet[4] != 0x80 | INIT:
                self.log.of_channel[channel].append(line)
        if self.behavior.worked_on == "queued" and self.is_working:
            self.queue.append((line, self.now, packet))
        else:
            self.serve_packet(line, self.now, packet)

    def serve_packet(self, line: int, at: int, packet: bytes) -> None:
        """Serves a packet received at the time `at`."""
        channel = int.from_bytes(packet[:4], "big")
        if packet[4] < 0x80:
            self.handle_continuation(line, at, channel, packet)
        elif packet[4] == 0x80 | CANCEL:
            self.handle_cancel(line, channel)
        else:
            self.serve_message(self.log.messages[line])

    def handle_cancel(self, line: int, channel: int) -> None:
        message = self.held
        if not (message and message.is_whole and message.channel == channel and message.command == CBOR):
            return
        self.log.owners[line] = message.line
        if self.behavior.cancelled == "answered":
            self.send(message, CBOR, b"\x2d")
            message.end = ("status", 0x2D)
            self.held = None
        elif self.behavior.cancelled == "silent":
            message.end = ("silent",)
            self.held = None

    def handle_continuation(self, line: int, at: int, channel: int, packet: bytes) -> None:
        message = self.held
        if message is None or message.is_whole or message.channel != channel:
            return
        self.log.owners[line] = message.line
        if packet[4] != message.next:
            self.held = None
            if self.behavior.says_sequence:
                self.refuse(message, INVALID_SEQUENCE)
            else:
                message.end = ("silent",)
            return
        message.next += 1
        message.last = at
        message.data += read_continuation_data(packet, message.length - len(message.data))
        if message.is_whole:
            self.serve_complete_message(message)

    def respond_to_init(self, message: Message) -> None:
        """Responds to INIT. On an allocated channel, INIT aborts the current message of the channel."""
        if message.length != 8:
            self.refuse(message, INVALID_LENGTH)
            return
        channel = message.channel
        if channel == BROADCAST:
            self.channels += 1
            channel = self.channels
        elif self.held and self.held.channel == channel:
            self.held.end = ("dropped", message.line)
            self.held = None
        self.send(message, INIT, message.data[:8] + channel.to_bytes(4, "big") + b"\x02\x05\x01\x02\x0d")
        message.end = ("answer",)

    def serve_message(self, message: Message) -> None:
        if message.command == INIT:
            self.respond_to_init(message)
            return
        self.is_behind_start = True
        if self.is_concurrent(message):
            held = self.held
            self.answer(message)
            self.held = held
        elif self.accept_or_refuse(message):
            if message.command not in (PING, MSG, WINK, CBOR):
                self.refuse(message, INVALID_COMMAND)
            elif message.length > MAX_MESSAGE_BYTES or message.command == CBOR and not message.length:
                self.refuse(message, INVALID_LENGTH)
            else:
                self.held = message
                if message.is_whole:
                    self.serve_complete_message(message)

    def is_concurrent(self, message: Message) -> bool:
        """Whether a message is answered while another one of its channel is processed."""
        held = self.held
        is_short = message.command in (PING, WINK) and message.is_whole
        return (
            self.behavior.worked_on == "beside"
            and is_short
            and held is not None
            and held.is_whole
            and held.channel == message.channel
        )

    def accept_or_refuse(self, message: Message) -> bool:
        """Accepts a new message, rejects it or ignores it, and returns whether it is accepted. Ends the held message if
        the new one replaces or interrupts it."""
        held = self.held
        if held is None:
            return True
        if held.channel != message.channel:
            refused = CHANNEL_BUSY if self.behavior.says_busy else None
        elif not held.is_whole and self.behavior.unfinished == "refused":
            held.end = ("replaced", message.line)
            self.held = None
            refused = INVALID_SEQUENCE
        elif not held.is_whole or self.behavior.worked_on == "taken":
            held.end = ("replaced", message.line)
            self.held = None
            return True
        else:
            refused = CHANNEL_BUSY if self.behavior.worked_on in ("refused", "beside") else None
        if refused is None:
            message.end = ("silent",)
        else:
            self.refuse(message, refused)
        return False
