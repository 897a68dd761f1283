"""Splits messages into CTAPHID packets and reassembles them (CTAP 2.1, 11.2.4)."""

from __future__ import annotations

from dataclasses import dataclass
from typing import Dict, List, Optional

from hidlog_conformance.text import quantity

BROADCAST = 0xFFFFFFFF
PING, MSG, LOCK, INIT, WINK, CBOR, CANCEL, KEEPALIVE, ERROR = 0x01, 0x03, 0x04, 0x06, 0x08, 0x10, 0x11, 0x3B, 0x3F
NAMES = {PING: "PING", MSG: "MSG", LOCK: "LOCK", INIT: "INIT", WINK: "WINK", CBOR: "CBOR", CANCEL: "CANCEL"}
NAMES.update({KEEPALIVE: "KEEPALIVE", ERROR: "ERROR"})
LONGEST = 7609


def fragment_message(channel: int, command: int, data: bytes, length: Optional[int] = None) -> List[bytes]:
    """Returns the packets of a message; `length` replaces the length in its header."""
    front = channel.to_bytes(4, "big")
    named = len(data) if length is None else length
    pieces = [front + bytes([0x80 | command]) + named.to_bytes(2, "big") + data[:57]]
    rest = data[57:]
    for number in range((len(rest) + 58) // 59):
        pieces.append(front + bytes([number & 0x7F]) + rest[59 * number : 59 * number + 59])
    return [piece.ljust(64, b"\0") for piece in pieces]


@dataclass
class Message:
    """A complete message, or a packet with a `problem`."""

    channel: int
    command: int
    data: bytes
    problem: str = ""
    padding: bytes = b""

    def describe(self) -> str:
        """Returns a description."""
        if self.problem:
            return self.problem
        name = NAMES.get(self.command, f"command {self.command:02x}")
        data = self.data.hex() if len(self.data) <= 40 else self.data[:40].hex() + ".."
        return f"{name} of {quantity(len(self.data), 'byte')} on {self.channel:08x}: {data}"


@dataclass
class Part:
    """An incomplete message."""

    command: int
    length: int
    data: bytes
    due: int = 0


class MessageReassembler:
    """Reassembles messages by channel. A host may begin a message within another one, a device may not."""

    def __init__(self, of_host: bool = False) -> None:
        self.open: Dict[int, Part] = {}
        self.of_host = of_host

    def feed(self, packet: bytes) -> Optional[Message]:
        """Processes a packet; returns the message that it completes, a message with a `problem`, or None."""
        if len(packet) != 64:
            return Message(0, 0, b"", f"a packet of {quantity(len(packet), 'byte')}")
        channel = int.from_bytes(packet[:4], "big")
        if packet[4] >= 0x80:
            return self.begin(channel, packet)
        part = self.open.get(channel)
        if part is None:
            return Message(channel, 0, b"", f"a continuation packet on {channel:08x} without a message")
        if packet[4] != part.due:
            del self.open[channel]
            return Message(
                channel, 0, b"", f"sequence number {packet[4]:02x} on {channel:08x} instead of {part.due:02x}"
            )
        part.due += 1
        part.data += packet[5:]
        if len(part.data) < part.length:
            return None
        del self.open[channel]
        return Message(channel, part.command, part.data[: part.length], padding=part.data[part.length :])

    def begin(self, channel: int, packet: bytes) -> Optional[Message]:
        """Processes an initialization packet; CANCEL does not affect an incomplete message."""
        command, end = packet[4] & 0x7F, 7 + (packet[5] << 8 | packet[6])
        if command == CANCEL:
            return Message(channel, CANCEL, packet[7:end])
        if self.open.pop(channel, None) is not None and not self.of_host:
            return Message(channel, command, b"", f"a message begins on {channel:08x} within another one")
        if end <= len(packet):
            return Message(channel, command, packet[7:end], padding=packet[end:])
        if end - 7 > LONGEST:
            return Message(channel, command, b"", f"a length of {end - 7} on {channel:08x}")
        self.open[channel] = Part(command, end - 7, packet[7:])
        return None
