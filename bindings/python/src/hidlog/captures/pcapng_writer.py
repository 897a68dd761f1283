"""Converts a session log to a pcapng capture of Linux's usbmon, which Wireshark shows as USB HID."""

from __future__ import annotations

import re
import struct
from collections.abc import Iterable, Iterator
from itertools import chain

from .. import logs
from ..errors import check_bytes
from .usb import USBMON_LONG

_BUS, _DEVICE = 1, 7
_TO_KEY, _FROM_KEY = 0x01, 0x81
_INTERRUPT, _CONTROL = 1, 2
_IN_PROGRESS = -115
_INPUT_LINE = re.compile(rb"[>tpks] ([0-9]+)")
# The report descriptor of FIDO's HID interface (CTAP 2.1, 11.2.8.2): reports of 64 bytes each way.
_REPORT_DESCRIPTOR = bytes.fromhex("06d0f10901a1010920150026ff007508954081020921150026ff00750895409102c0")
_DEVICE_DESCRIPTOR = struct.pack("<BBHBBBBHHHBBBB", 18, 1, 0x200, 0, 0, 0, 64, 0x1209, 0x0001, 0x100, 0, 0, 0, 1)
_INTERFACE_DESCRIPTOR = (
    struct.pack("<BBBBBBBBB", 9, 4, 0, 0, 2, 3, 0, 0, 0)
    + struct.pack("<BBHBBBH", 9, 0x21, 0x110, 0, 1, 0x22, len(_REPORT_DESCRIPTOR))
    + struct.pack("<BBBBHB", 7, 5, _FROM_KEY, 3, 64, 5)
    + struct.pack("<BBBBHB", 7, 5, _TO_KEY, 3, 64, 5)
)
_CONFIGURATION_DESCRIPTOR = (
    struct.pack("<BBHBBBBB", 9, 2, 9 + len(_INTERFACE_DESCRIPTOR), 1, 1, 0, 0x80, 50) + _INTERFACE_DESCRIPTOR
)
_CONTROL_TRANSFERS = (
    (b"\x80\x06\x00\x01\x00\x00", _DEVICE_DESCRIPTOR),
    (b"\x80\x06\x00\x02\x00\x00", _CONFIGURATION_DESCRIPTOR),
    (b"\x81\x06\x00\x22\x00\x00", _REPORT_DESCRIPTOR),
)


def to_pcapng(log: bytes) -> bytes:
    """Returns a log as a pcapng file. Lines other than packets are comments of the next packet's frame, so that `hidlog
    import` restores the log. Timestamps are milliseconds since 1970."""
    return b"".join(iter_pcapng([check_bytes("the log", log)]))


def iter_pcapng(pieces: Iterable[bytes]) -> Iterator[bytes]:
    """Yields the pcapng file for a log, which is passed in pieces of any length. Raises LogError at an invalid line."""
    parts = logs.iter_valid_parts(pieces)
    first = next(parts, b"")
    yield from _iter_head()
    yield from _iter_packets(chain([first], parts))


def _iter_head() -> Iterator[bytes]:
    options = _encode_option(4, b"hidlog")
    yield _encode_block(0x0A0D0D0A, struct.pack("<IHHq", 0x1A2B3C4D, 1, 0, -1) + options + _END_OF_OPTIONS)
    # Timestamps in milliseconds.
    yield _encode_block(
        1,
        struct.pack("<HHI", USBMON_LONG, 0, 0)
        + _encode_option(2, b"hidlog")
        + _encode_option(9, b"\x03")
        + _END_OF_OPTIONS,
    )
    for number, (setup, response) in enumerate(_CONTROL_TRANSFERS, 1):
        asked = setup + len(response).to_bytes(2, "little")
        yield _encode_frame(0, _encode_usbmon(number, b"S", _CONTROL, 0x80, 0, b"", asked, len(response)), ())
        yield _encode_frame(0, _encode_usbmon(number, b"C", _CONTROL, 0x80, 0, response), ())


def _iter_lines(parts: Iterable[bytes]) -> Iterator[bytes]:
    """Yields lines, with their line ends."""
    for part in parts:
        *lines, last = part.split(b"\n")
        yield from (line + b"\n" for line in lines)
        if last:
            yield last


def _iter_packets(parts: Iterable[bytes]) -> Iterator[bytes]:
    now, comments, number, end = 0, [], 16, b"\n"
    for number, line in enumerate(_iter_lines(parts), number):
        end = line[-1:]
        line = line.removesuffix(b"\n")
        if found := _INPUT_LINE.match(line):
            now = max(now, int(found[1]))
        if line[:1] not in (b">", b"<"):
            comments.append(b"line " + line)
            continue
        sent, packet = line[:1] == b">", bytes.fromhex(line.split(b" ")[-1].decode())
        plain = (b"> %d " % now if sent else b"< ") + packet.hex().encode()
        if plain != line:
            comments.append(b"as " + line)
        event, address = (b"S", _TO_KEY) if sent else (b"C", _FROM_KEY)
        yield _encode_frame(now, _encode_usbmon(number, event, _INTERRUPT, address, now, packet), comments)
        if sent:
            done = _encode_usbmon(number, b"C", _INTERRUPT, address, now, b"", moved=len(packet))
            yield _encode_frame(now, done, ())
        comments = []
    if end != b"\n":
        comments.append(b"no line feed")
    if comments:
        yield _encode_frame(now, _encode_usbmon(number + 1, b"S", _INTERRUPT, _FROM_KEY, now, b"", moved=64), comments)


_END_OF_OPTIONS = bytes(4)


def _encode_block(kind: int, body: bytes) -> bytes:
    body += bytes(-len(body) % 4)
    length = len(body) + 12
    return struct.pack("<II", kind, length) + body + struct.pack("<I", length)


def _encode_option(code: int, data: bytes) -> bytes:
    return struct.pack("<HH", code, len(data)) + data + bytes(-len(data) % 4)


def _encode_frame(at: int, data: bytes, comments: tuple[bytes, ...] | list[bytes]) -> bytes:
    """Returns the block of a frame with a timestamp in ms."""
    head = struct.pack("<IIIII", 0, at >> 32, at & 0xFFFFFFFF, len(data), len(data))
    options = b"".join(_encode_option(1, comment) for comment in comments) + (_END_OF_OPTIONS if comments else b"")
    return _encode_block(6, head + data + bytes(-len(data) % 4) + options)


def _encode_usbmon(
    number: int,
    event: bytes,
    kind: int,
    endpoint: int,
    at: int,
    data: bytes,
    setup: bytes = b"",
    moved: int = 0,
) -> bytes:
    """Returns usbmon's 64-byte header and the data."""
    no_data = b"\0" if data else b"<" if endpoint & 0x80 else b">"
    status = _IN_PROGRESS if event == b"S" else 0
    head = struct.pack("<QcBBBHcc", number, event, kind, endpoint, _DEVICE, _BUS, b"\0" if setup else b"-", no_data)
    head += struct.pack("<qiiII", at // 1000, at % 1000 * 1000, status, moved or len(data), len(data))
    return head + (setup or bytes(8)) + struct.pack("<iiII", 4, 0, 0, 0) + data
