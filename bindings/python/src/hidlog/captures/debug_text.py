"""Reads clients' debug output of packets: libfido2's FIDO_DEBUG, and python-fido2's logging."""

from __future__ import annotations

import re
from collections.abc import Iterable

from .. import packets as hid
from .timestamps import Clock
from .source import Source
from .packet_store import Packet, PacketStore, Stream

_HEX_DUMP = re.compile(rb"^(\w+): buf=0x[0-9a-f]+, len=(\d{1,9})$")
_COMMAND = re.compile(rb"^fido_tx: (?:dev|d)=(0x[0-9a-f]+), cmd=0x([0-9a-f]{2})")
# The format before libfido2 1.5.
_OLD_SENT = re.compile(rb"^fido_tx: d=(0x[0-9a-f]+), cmd=0x([0-9a-f]{2}), buf=0x[0-9a-f]+, count=(\d{1,9})$")
_OLD_RECEIVED = re.compile(rb"^rx: (?:initiation|continuation) packet at 0x[0-9a-f]+$")
_RECEIVING = re.compile(rb"^fido_rx: (?:dev|d)=(0x[0-9a-f]+)")
_HEX = re.compile(rb"^(?:[0-9a-f]{4,8}: )?((?:[0-9a-f]{2} ?)+)$")
_TRAFFIC = re.compile(rb"\b(SEND|RECV): ([0-9a-fA-F]*)\s*$")
# A line that names a device starts the output for it: `# fido2-token -I /dev/hidraw1`.
_PATH = re.compile(rb"/dev/(hidraw\d+)")
_NO_TIMESTAMPS_NOTE = (
    "libfido2's debug output has no timestamps, no KEEPALIVEs, and no channel and padding of sent packets"
)
ONE_CLIENT_NOTE = "these are the packets of one client alone"  # hidlog judge recognizes this note
_PADDING_NOTE = "python-fido2 does not record the padding of sent packets"


def is_libfido2(line: bytes) -> bool:
    """Returns whether a line is libfido2's debug output."""
    return bool(_COMMAND.match(line) or _RECEIVING.match(line) or line.startswith(b"rx_preamble: buf="))


def is_python_fido2(line: bytes) -> bool:
    """Returns whether a line is python-fido2's logging."""
    return _TRAFFIC.search(line) is not None


class _HexDumpReader:
    """Reads hex dumps. Sent messages are split into packets, on the channel of the INIT response."""

    def __init__(self, source: Source):
        self.source = source
        self.streams: dict[str, PacketStore] = {}
        self._name = "key"
        self._command, self._length, self._data = 0, 0, b""
        self._kind = ""
        self._device = b""
        # Channel IDs by libfido2's device handle.
        self._channels: dict[bytes, int] = {}
        self._greeted = 0

    def read_line(self, line: bytes) -> None:
        """Reads a line."""
        if line.startswith(b"#"):
            path = _PATH.search(line)
            self._name = path[1].decode() if path else self._name
            return
        found = _HEX.match(line) if self._kind else None
        if found:
            self._data += bytes.fromhex(found[1].decode())
            if len(self._data) >= self._length:
                self._finish_dump()
            return
        if self._kind and self._length:
            self.source.note("skipped a truncated dump of libfido2")
        self._start_message(line)

    def _start_message(self, line: bytes) -> None:
        self._kind = ""
        if found := _OLD_SENT.match(line):
            self._device, self._command = found[1], int(found[2], 16) & 0x7F
            self._start_dump("fido_tx", int(found[3]))
        elif _OLD_RECEIVED.match(line):
            self._start_dump("rx", hid.PACKET)
        elif found := _COMMAND.match(line):
            self._device, self._command = found[1], int(found[2], 16) & 0x7F
        elif found := _RECEIVING.match(line):
            self._device = found[1]
        elif found := _HEX_DUMP.match(line):
            name, length = found[1].decode(), int(found[2])
            is_packet = name.startswith("rx") and length in (hid.PACKET, hid.PACKET + 1)
            if (name == "fido_tx" and length <= hid.LONGEST_MESSAGE) or is_packet:
                self._start_dump(name, length)

    def _start_dump(self, kind: str, length: int) -> None:
        """Starts collecting a hex dump."""
        self._kind, self._length, self._data = kind, min(length, hid.LONGEST_MESSAGE), b""
        if not length:
            self._finish_dump()

    def _finish_dump(self) -> None:
        kind, data, self._kind = self._kind, self._data[: self._length], ""
        kept = self.streams.setdefault(self._name, PacketStore())
        if kind != "fido_tx":
            kept.append(Packet(None, False, data[-hid.PACKET :]))
            if data[-hid.PACKET :][4] == 0x80 | hid.INIT:
                self._channels[self._device] = int.from_bytes(data[-hid.PACKET :][15:19], "big")
            return
        channel = hid.BROADCAST if self._command == hid.INIT else self._channels.get(self._device, 0)
        if not channel:
            self.source.note("channel 00000001 is assumed for messages before an INIT")
            channel = 1
        message = hid.Message(channel, self._command, data)
        kept.extend(Packet(None, True, packet) for packet in hid.fragment_message(message))


def read_libfido2(lines: Iterable[bytes], source: Source) -> list[Stream]:
    """Returns the streams of libfido2's debug output: one, or one per device named in comments."""
    reader = _HexDumpReader(source)
    source.note(_NO_TIMESTAMPS_NOTE)
    source.note(ONE_CLIENT_NOTE)
    for line in lines:
        reader.read_line(line)
    return [Stream(name, packets.select()) for name, packets in reader.streams.items() if packets.counts]


def read_python_fido2(lines: Iterable[bytes], source: Source) -> list[Stream]:
    """Returns the streams of python-fido2's logging: one, or one per device named in comments."""
    streams: dict[str, PacketStore] = {}
    name, clock = "key", Clock()
    source.note(_PADDING_NOTE)
    source.note(ONE_CLIENT_NOTE)
    for line in lines:
        path = _PATH.search(line)
        if line.startswith(b"#") and path:
            name = path[1].decode()
        found = _TRAFFIC.search(line)
        if not found:
            continue
        if len(found[2]) % 2 or not 5 <= len(found[2]) // 2 <= hid.PACKET + 1:
            source.note("skipped a line of python-fido2 that is truncated or has no packet")
            continue
        data = bytes.fromhex(found[2].decode())
        sent = found[1] == b"SEND"
        if len(data) == hid.PACKET + 1:
            data = data[1:]
        if not sent and len(data) < hid.PACKET:
            source.note("skipped a line of python-fido2 that is truncated or has no packet")
            continue
        packets = streams.setdefault(name, PacketStore())
        packets.append(Packet(clock.read(line), sent, data.ljust(hid.PACKET, b"\0")))
    return [Stream(name, packets.select()) for name, packets in streams.items()]
