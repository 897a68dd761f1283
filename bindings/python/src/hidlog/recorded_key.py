"""Plays back a recorded session to a client. The session was recorded with a key of this package, or is from a capture
of another key."""

from __future__ import annotations

import re
import time
from collections import deque
from typing import Any, NamedTuple

from . import packets
from .captures import read
from .captures.pcap import is_capture
from .errors import KeyTimeoutError, LogError, ReplayMismatchError, check_bytes
from .standard import KEEPALIVE_MS

_PACKET = re.compile(r"(?:> [0-9]+|<) [0-9a-fA-F]{128}")
_INIT, _CANCEL = 0x80 | packets.INIT, 0x80 | packets.CANCEL
_BROADCAST = b"\xff" * 4
# The first channel ID for clients whose INIT was not recorded.
_FIRST_CHANNEL = 0x52000001
# Rest of an INIT response if none was recorded: protocol 2, device 0.0.0, CBOR.
_INIT_REST = bytes([2, 0, 0, 0, 4])
_KEEPALIVE_SECONDS = KEEPALIVE_MS / 1000


class _Line(NamedTuple):
    """A recorded packet."""

    number: int
    sent: bool
    packet: bytes


class RecordedKey:
    """A key that sends the recorded packets, and raises an error if the client's packets differ from the recorded
    packets.

    The client's packets may differ in: the nonce of INIT, the channel ID, the bytes after a message, the number of
    INITs, and the time of a CANCEL. Used in a `with` statement, it also raises an error if the client sent less.
    """

    def __init__(self, log: bytes):
        data = check_bytes("the log", log)
        self._lines = _parse_packets(_read_capture_log(data) if is_capture(data) else data)
        self._index = 0
        self._sent = 0
        self._packets: deque[bytes] = deque()
        # The recorded channel by the client's channel, and the client's channel by the recorded channel.
        self._recorded: dict[bytes, bytes] = {}
        self._client_channels: dict[bytes, bytes] = {}
        # Remaining bytes of each channel's message.
        self._left: dict[bytes, int] = {}
        self._last_packet: bytes | None = None
        self._skip_responses()

    def write_packet(self, packet: bytes) -> None:
        """Compares a packet of the client with the recorded one, and queues the recorded responses."""
        packet = check_bytes("the packet", packet, packets.PACKET)
        self._sent += 1
        is_init = packet[4] == _INIT and packet[:4] == _BROADCAST
        if is_init and not self._is_at(_INIT):
            self._respond_to_init(packet)
            return
        if not is_init:
            self._skip_inits(packet)
        if self._index == len(self._lines):
            raise ReplayMismatchError(
                f"end of recording: the client sends another packet (its packet {self._sent}), {packet.hex()}"
            )
        line = self._lines[self._index]
        self._compare(packet, line)
        self._index += 1
        self._queue_responses(packet)

    def _is_at(self, command: int) -> bool:
        """Returns whether the next recorded packet is an initialization packet of a command."""
        return self._index < len(self._lines) and self._lines[self._index].packet[4] == command

    def _respond_to_init(self, packet: bytes) -> None:
        """Responds to an INIT that was not recorded in the same way as to the last recorded one, with a new channel."""
        channel = (_FIRST_CHANNEL + self._sent).to_bytes(4, "big")
        last = next((line.packet for line in reversed(self._lines[: self._index]) if _is_init_response(line)), None)
        rest = last[19:24] if last else _INIT_REST
        known = [recorded for recorded in self._recorded.values() if recorded not in (_BROADCAST, channel)]
        if known:
            self._map_channel(channel, known[-1])
        response = _BROADCAST + bytes([_INIT, 0, 17]) + packet[7:15] + channel + rest
        self._packets.append(response.ljust(packets.PACKET, b"\0"))

    def _skip_inits(self, packet: bytes) -> None:
        """Skips recorded INITs that the client does not send because it keeps its channel."""
        channel = packet[:4]
        while self._is_at(_INIT) and self._lines[self._index].packet[:4] == _BROADCAST and packet[4] != _INIT:
            self._index += 1
            responses = [line for line in self._next_responses() if _is_init_response(line)]
            self._skip_responses()
            if responses:
                self._map_channel(channel, responses[0].packet[15:19])

    def _map_channel(self, channel: bytes, recorded: bytes) -> None:
        self._recorded[channel] = recorded
        self._client_channels[recorded] = channel

    def _next_responses(self) -> list[_Line]:
        """Returns the key's next packets."""
        found = []
        for line in self._lines[self._index :]:
            if line.sent:
                break
            found.append(line)
        return found

    def _skip_responses(self) -> None:
        self._index += len(self._next_responses())

    def _compare(self, packet: bytes, line: _Line) -> None:
        """Raises ReplayMismatchError unless the packet equals the recorded packet in all parts that must be the
        same."""
        recorded = line.packet
        channel = self._recorded.get(packet[:4], recorded[:4] if packet[:4] != recorded[:4] else packet[:4])
        if packet[:4] not in self._recorded and not self._may_map(packet[:4], recorded[:4]):
            channel = packet[:4]
        begin, length = self._read_header(recorded)
        end = min(packets.PACKET, begin + length)
        start = end if recorded[4] == _INIT and packet[4] == _INIT else 4
        head = packet[4:7] == recorded[4:7] if recorded[4] & 0x80 else packet[4] == recorded[4]
        if channel == recorded[:4] and head and packet[start:end] == recorded[start:end]:
            self._left[recorded[:4]] = max(0, length - (packets.PACKET - begin))
            if packet[:4] != _BROADCAST:
                self._map_channel(packet[:4], recorded[:4])
            return
        sent = f"line {line.number}: the client sends {packet.hex()} (its packet {self._sent})"
        raise ReplayMismatchError(
            f"{sent}, but {recorded.hex()} was recorded; {_describe_difference(packet, recorded, channel)}"
        )

    def _may_map(self, channel: bytes, recorded: bytes) -> bool:
        """Returns whether a client's channel may be mapped to a recorded channel, to which no other channel may be
        mapped."""
        return _BROADCAST not in (channel, recorded) and recorded not in self._client_channels

    def _read_header(self, recorded: bytes) -> tuple[int, int]:
        """Returns the offset of the data in a recorded packet, and the number of remaining bytes of the message."""
        if recorded[4] & 0x80:
            return 7, int.from_bytes(recorded[5:7], "big")
        return 5, self._left.get(recorded[:4], packets.PACKET)

    def _queue_responses(self, client_packet: bytes) -> None:
        """Queues the packets that were sent in response to a client's packet."""
        for line in self._next_responses():
            packet = line.packet
            if _is_init_response(line) and line.packet[4] == _INIT:
                packet = packet.replace(line.packet[7:15], client_packet[7:15], 1)
                self._map_channel(packet[15:19], packet[15:19])
            channel = self._client_channels.get(packet[:4], packet[:4])
            self._packets.append(channel + packet[4:])
            self._index += 1

    def read_packet(self, timeout: float | None = None) -> bytes:
        """Returns the next recorded packet of the key, or a KEEPALIVE until the client sends a recorded CANCEL."""
        if self._packets:
            self._last_packet = self._packets.popleft()
            return self._last_packet
        if self._index == len(self._lines):
            raise KeyTimeoutError("end of recording: no packet is left for the client")
        last = self._last_packet
        if self._is_at(_CANCEL) and last is not None and last[4] == 0x80 | packets.KEEPALIVE:
            time.sleep(min(_KEEPALIVE_SECONDS, _KEEPALIVE_SECONDS if timeout is None else max(0.0, timeout)))
            return last
        raise ReplayMismatchError(
            f"line {self._lines[self._index].number}: the client waits for a packet, but in the recording the client sends one"
        )

    def device(self) -> Any:
        """Returns a CtapDevice for python-fido2's clients."""
        from .device import KeyDevice

        return KeyDevice(self)

    def finish(self) -> None:
        """Raises ReplayMismatchError if the client sent less than was recorded."""
        if self._index < len(self._lines):
            raise ReplayMismatchError(f"line {self._lines[self._index].number}: the client ended before this packet")

    def close(self) -> None:
        """Does nothing. Exists because closing a device calls this method of the key."""

    def __enter__(self) -> RecordedKey:
        return self

    def __exit__(self, kind: object, *_: object) -> None:
        if kind is None:
            self.finish()


def _read_capture_log(capture: bytes) -> bytes:
    """Returns the log of a capture, which must have one key."""
    found = read(capture)
    if len(found) > 1:
        names = ", ".join(recorded.name for recorded in found)
        raise LogError(f"the capture has several keys ({names}); hidlog.captures.read returns the log of each")
    return found[0].log


def _parse_packets(log: bytes) -> list[_Line]:
    """Returns the packets of a log."""
    lines = []
    for number, line in enumerate(log.decode("ascii", errors="replace").split("\n"), 1):
        if not line.startswith((">", "<")):
            continue
        if not _PACKET.fullmatch(line):
            raise LogError(f"line {number}: not a log line")
        lines.append(_Line(number, line.startswith(">"), bytes.fromhex(line.split(" ")[-1])))
    return lines


def _is_init_response(line: _Line) -> bool:
    """Returns whether a packet is an INIT response on the broadcast channel."""
    return not line.sent and line.packet[:4] == _BROADCAST and line.packet[4] == _INIT


def _describe_difference(packet: bytes, recorded: bytes, channel: bytes) -> str:
    """Describes the first difference between a client's packet and the recorded one."""
    if channel != recorded[:4]:
        return f"its channel is {packet[:4].hex()}, for which the recording has {channel.hex()}"
    index = next(number for number in range(4, packets.PACKET) if packet[number] != recorded[number])
    return f"first difference at byte {index}"
