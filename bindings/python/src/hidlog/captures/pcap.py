"""Reads pcap and pcapng files (draft-ietf-opsawg-pcap, draft-ietf-opsawg-pcapng) of both byte orders."""

from __future__ import annotations

import struct
from collections.abc import Iterator
from typing import NamedTuple

from .source import CaptureError, Source

_PCAP = {
    b"\xd4\xc3\xb2\xa1": ("<", 1000),
    b"\xa1\xb2\xc3\xd4": (">", 1000),
    b"\x4d\x3c\xb2\xa1": ("<", 1),
    b"\xa1\xb2\x3c\x4d": (">", 1),
}
_SECTION = b"\x0a\x0d\x0d\x0a"
_BYTE_ORDERS = {b"\x4d\x3c\x2b\x1a": "<", b"\x1a\x2b\x3c\x4d": ">"}
_INTERFACE, _OLD_PACKET, _SIMPLE, _STATISTICS, _PACKET = 1, 2, 3, 5, 6
_COMMENT, _NAME, _APPLICATION, _RESOLUTION, _DROPPED, _OFFSET = 1, 2, 4, 9, 4, 14
_STATISTICS_DROPPED = {5: "interface", 7: "system"}
_MAX_INTERFACES = 1024


class Frame(NamedTuple):
    """A recorded frame.

    at          timestamp in nanoseconds since 1970, or None if the file has none.
    interface   index of the capture interface, from 0.
    link        link type. `order` is the recorder's byte order.
    data        the recorded bytes, of `length` on the bus.
    comments    comments in the file.
    writer      program that wrote the section, if named.
    """

    at: int | None
    interface: int
    link: int
    order: str
    data: bytes
    length: int
    comments: tuple[bytes, ...] = ()
    writer: bytes = b""


class _Interface(NamedTuple):
    link: int
    per_second: int
    offset: int
    snap: int


def is_capture(front: bytes) -> bool:
    """Returns whether a file begins like a pcap or pcapng file."""
    return front[:4] in _PCAP or front[:4] == _SECTION


def read_frames(source: Source) -> Iterator[Frame]:
    """Yields the frames of a file."""
    if source.peek(4) == _SECTION:
        return _PcapngReader(source).read()
    return _read_pcap(source)


def _read_pcap(source: Source) -> Iterator[Frame]:
    order, unit = _PCAP[source.peek(4)]
    head = source.read(24)
    if len(head) < 24:
        raise CaptureError(f"the capture ends within pcap's file header, after {len(head)} bytes")
    link = struct.unpack_from(order + "I", head, 20)[0] & 0xFFFF
    while head := source.read(16):
        if len(head) < 16:
            source.note("the capture is truncated in its last record")
            return
        seconds, fraction, kept, length = struct.unpack(order + "IIII", head)
        data = source.read(kept)
        if len(data) < kept:
            source.note("the capture is truncated in its last record")
            return
        yield Frame(seconds * 10**9 + fraction * unit, 0, link, order, data, length)


class _PcapngReader:
    """Reads the blocks of a pcapng file."""

    def __init__(self, source: Source):
        self._source = source
        self._order = "<"
        self._writer = b""
        # Interfaces of all sections. The interfaces of the current section start at `first`.
        self._interfaces: list[_Interface] = []
        self._first = 0

    def read(self) -> Iterator[Frame]:
        """Yields the frames of all sections."""
        while head := self._source.read(8):
            offset = self._source.offset - len(head)
            if len(head) < 8:
                return self._report_truncated()
            if head[:4] == _SECTION:
                order = self._source.peek(4)
                if order not in _BYTE_ORDERS:
                    raise CaptureError(
                        f"the capture is invalid at byte {offset}: a section header without a byte-order magic number"
                    )
                self._order = _BYTE_ORDERS[order]
            kind, length = struct.unpack(self._order + "II", head)
            if length < 12 or length % 4:
                raise CaptureError(f"the capture is invalid at byte {offset}: a block length of {length}")
            body = self._source.read(length - 8)
            if len(body) < length - 8:
                return self._report_truncated()
            frame = self._read_block(kind, body[:-4], offset)
            if frame is not None:
                yield frame
        return None

    def _report_truncated(self) -> None:
        self._source.note("the capture is truncated in its last record")

    def _unpack(self, format_: str, body: bytes, offset: int) -> tuple[int, ...]:
        if len(body) < struct.calcsize("=" + format_):
            raise CaptureError(
                f"the capture is invalid at byte {offset}: a block of {len(body) + 12} bytes is too short"
            )
        return struct.unpack_from(self._order + format_, body)

    def _read_block(self, kind: int, body: bytes, offset: int) -> Frame | None:
        if kind == struct.unpack("<I", _SECTION)[0]:
            self._unpack("IHHq", body, offset)
            self._first = len(self._interfaces)
            self._writer = dict(self._read_options(body[16:])).get(_APPLICATION, b"")
        elif kind == _INTERFACE:
            self._add_interface(body, offset)
        elif kind == _STATISTICS:
            for code, value in self._read_options(body[12:]):
                if code in _STATISTICS_DROPPED and len(value) == 8:
                    self._count_lost(struct.unpack(self._order + "Q", value)[0])
        elif kind == _PACKET:
            number, high, low, kept, length = self._unpack("IIIII", body, offset)
            return self._make_frame(number, high << 32 | low, kept, length, body[20:], offset)
        elif kind == _OLD_PACKET:
            number, dropped, high, low, kept, length = self._unpack("HHIIII", body, offset)
            if dropped not in (0, 0xFFFF):
                self._count_lost(dropped)
            return self._make_frame(number, high << 32 | low, kept, length, body[20:], offset)
        elif kind == _SIMPLE:
            (length,) = self._unpack("I", body, offset)
            snap = self._get_interface(0, offset).snap
            return self._make_frame(0, None, min(length, snap or length, len(body) - 4), length, body[4:], offset)
        return None

    def _count_lost(self, count: int) -> None:
        if count:
            self._source.note(f"the recorder lost {count} packets")

    def _read_options(self, data: bytes) -> Iterator[tuple[int, bytes]]:
        offset = 0
        while offset + 4 <= len(data):
            code, length = struct.unpack_from(self._order + "HH", data, offset)
            if code == 0:
                return
            yield code, data[offset + 4 : offset + 4 + length]
            offset += 4 + length + -length % 4

    def _add_interface(self, body: bytes, offset: int) -> None:
        link, _, snap = self._unpack("HHI", body, offset)
        if len(self._interfaces) == _MAX_INTERFACES:
            raise CaptureError(f"the capture is invalid at byte {offset}: more than {_MAX_INTERFACES} interfaces")
        options = dict(self._read_options(body[8:]))
        resolution = options.get(_RESOLUTION, b"\6")[:1] or b"\6"
        exponent = resolution[0] & 0x7F
        per_second = 2 ** min(exponent, 63) if resolution[0] & 0x80 else 10 ** min(exponent, 18)
        start = options.get(_OFFSET, b"")
        seconds = struct.unpack(self._order + "q", start)[0] if len(start) == 8 else 0
        self._interfaces.append(_Interface(link, per_second, seconds, snap))

    def _get_interface(self, number: int, offset: int) -> _Interface:
        if self._first + number >= len(self._interfaces):
            raise CaptureError(
                f"the capture is invalid at byte {offset}: a packet of interface {number}, which is not defined"
            )
        return self._interfaces[self._first + number]

    def _make_frame(self, number: int, ticks: int | None, kept: int, length: int, rest: bytes, offset: int) -> Frame:
        interface = self._get_interface(number, offset)
        if kept > len(rest):
            raise CaptureError(
                f"the capture is invalid at byte {offset}: a packet of {kept} bytes, longer than its block"
            )
        options = list(self._read_options(rest[kept + -kept % 4 :])) if ticks is not None else []
        for code, value in options:
            if code == _DROPPED and len(value) == 8:
                self._count_lost(struct.unpack(self._order + "Q", value)[0])
        comments = tuple(value for code, value in options if code == _COMMENT)
        at = None if ticks is None else ticks * 10**9 // interface.per_second + interface.offset * 10**9
        data = rest[:kept]
        return Frame(at, self._first + number, interface.link, self._order, data, length, comments, self._writer)
