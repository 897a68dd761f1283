"""Splits messages into packets (CTAP 2.1, section 11.2.4), for tests.

Written by hand from the standard, for comparison with the program: imports nothing from the packages or standard/.
"""

from __future__ import annotations

from typing import List, Optional

PACKET_SIZE = 64
INITIALIZATION_DATA = 57
CONTINUATION_DATA = 59
MAX_MESSAGE_BYTES = INITIALIZATION_DATA + 128 * CONTINUATION_DATA
BROADCAST = 0xFFFFFFFF
KEEPALIVE_MS = 100


def read_initialization_data(packet: bytes, length: int) -> bytes:
    """Returns the message data in an initialization packet, for a message of this length."""
    return packet[7 : 7 + min(INITIALIZATION_DATA, length)]


def read_continuation_data(packet: bytes, left: int) -> bytes:
    """Returns the message data in a continuation packet, given how many bytes of the message remain."""
    return packet[5 : 5 + min(CONTINUATION_DATA, left)]


def split_into_packets(channel: int, command: int, data: bytes, length: Optional[int] = None) -> List[bytes]:
    """Returns the packets of a message; `length` replaces the length in its header."""
    front, told = channel.to_bytes(4, "big"), len(data) if length is None else length
    made = [front + bytes([0x80 | command]) + (told & 0xFFFF).to_bytes(2, "big") + data[:INITIALIZATION_DATA]]
    for number, start in enumerate(range(INITIALIZATION_DATA, len(data), CONTINUATION_DATA)):
        made.append(front + bytes([number & 0x7F]) + data[start : start + CONTINUATION_DATA])
    return [packet.ljust(PACKET_SIZE, b"\0") for packet in made]
