"""CTAPHID packets and messages (CTAP 2.1, section 11.2)."""

from __future__ import annotations

from typing import NamedTuple

from .errors import ArgumentError
from .standard import (
    BROADCAST,
    CANCEL,
    CBOR,
    ERROR,
    GET_ASSERTION,
    GET_NEXT_ASSERTION,
    INIT,
    KEEPALIVE,
    LOCK,
    LONGEST_MESSAGE,
    MAKE_CREDENTIAL,
    MSG,
    PING,
    RESET,
    SELECTION,
    WINK,
)
from .standard import PACKET_SIZE as PACKET

__all__ = [
    "BROADCAST",
    "CANCEL",
    "CBOR",
    "ERROR",
    "GET_ASSERTION",
    "GET_NEXT_ASSERTION",
    "INIT",
    "KEEPALIVE",
    "LOCK",
    "LONGEST_MESSAGE",
    "MAKE_CREDENTIAL",
    "MSG",
    "Message",
    "PACKET",
    "PING",
    "RESET",
    "SELECTION",
    "WINK",
    "fragment_message",
]

# The state of a channel without an open message. No packet has the sequence number -1.
_NO_MESSAGE = (0, 0, -1, b"")


class Message(NamedTuple):
    """A message: channel ID, command without bit 7, and data."""

    channel: int
    command: int
    data: bytes


def fragment_message(message: Message) -> list[bytes]:
    """Splits a message into its packets."""
    if len(message.data) > LONGEST_MESSAGE:
        raise ArgumentError(f"a message has {len(message.data)} bytes; at most {LONGEST_MESSAGE} are allowed")
    channel = message.channel.to_bytes(4, "big")
    head = channel + bytes([0x80 | message.command]) + len(message.data).to_bytes(2, "big")
    packets, rest, number = [], message.data, 0
    while True:
        size = PACKET - len(head)
        packets.append((head + rest[:size]).ljust(PACKET, b"\0"))
        rest = rest[size:]
        if not rest:
            return packets
        head, number = channel + bytes([number]), number + 1


class MessageReassembler:
    """Reassembles the messages of one direction, on any number of channels."""

    __slots__ = ("_open",)

    def __init__(self) -> None:
        # By channel ID: the command, the length, the next sequence number, and the data so far.
        self._open: dict[int, tuple[int, int, int, bytes]] = {}

    @property
    def is_open(self) -> bool:
        """Whether a message is incomplete."""
        return bool(self._open)

    def add(self, packet: bytes) -> Message | None:
        """Adds a packet, and returns the message that it completes, if any."""
        channel, kind = int.from_bytes(packet[:4], "big"), packet[4]
        if kind >= 0x80:
            length = packet[5] << 8 | packet[6]
            if length <= PACKET - 7:
                self._open.pop(channel, None)
                return Message(channel, kind - 0x80, packet[7 : 7 + length])
            if length <= LONGEST_MESSAGE:
                self._open[channel] = (kind - 0x80, length, 0, packet[7:])
            return None
        command, length, number, data = self._open.get(channel, _NO_MESSAGE)
        if number != kind:
            return None
        data += packet[5:]
        if len(data) < length:
            self._open[channel] = (command, length, number + 1, data)
            return None
        del self._open[channel]
        return Message(channel, command, data[:length])

    def drop(self) -> None:
        """Discards incomplete messages."""
        self._open.clear()
