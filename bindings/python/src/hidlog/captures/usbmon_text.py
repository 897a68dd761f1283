"""Reads the text output of usbmon (the kernel's Documentation/usb/usbmon.rst), which has the first 32 bytes of each
packet."""

from __future__ import annotations

import re
from collections.abc import Iterator

from .source import Source
from .usb import Transfer

_TRANSFER_KINDS = {"C": 2, "B": 3, "I": 1, "Z": 0}
_LINE = re.compile(rb"([0-9a-f]{4,16}) (\d{1,20}) ([SCE]) ([CBIZ])([io]):(.*)")
# Timestamps are microseconds, modulo 2^32.
_TIME_WRAP = 1 << 32
_TRUNCATED_NOTE = "usbmon's text has only 32 bytes of each packet: longer messages cannot be reassembled"


def is_line(line: bytes) -> bool:
    """Returns whether a line is from usbmon's text output."""
    return _LINE.match(line) is not None


def read_lines(lines: Iterator[bytes], source: Source) -> Iterator[Transfer]:
    """Yields the transfers of a text."""
    before, turns = 0, 0
    for line in lines:
        found = _LINE.match(line)
        if not found:
            if line.strip() and not line.startswith(b"#"):
                source.note("skipped a line that is truncated or is not in usbmon's format")
            continue
        at = int(found[2])
        if before - at > _TIME_WRAP // 2:
            turns += 1
        before = at
        try:
            transfer = _parse_transfer(found, at + turns * _TIME_WRAP)
        except (ValueError, IndexError, OverflowError):
            source.note("skipped a truncated line of usbmon")
            continue
        if len(transfer.data) < transfer.length:
            source.note(_TRUNCATED_NOTE)
        yield transfer


def _parse_transfer(found: re.Match[bytes], at: int) -> Transfer:
    """Parses a line: TAG TIME EVENT ADDRESS, setup or status, length, data."""
    address, *words = found[6].decode("ascii", "replace").split()
    numbers = [int(part) for part in address.split(":")]
    bus, device, endpoint = numbers if len(numbers) == 3 else (0, numbers[0], numbers[1])
    setup, status = b"", 0
    if words[0] == "s":
        setup, words = _parse_setup(words[1:6]), words[6:]
    else:
        status, words = int(words[0].split(":")[0]), words[1:]
    if found[4] == b"Z":
        return Transfer(None, (0, bus, device), 0, endpoint, False, 0, b"", 0)
    length, rest = int(words[0]), words[1:]
    data = bytes.fromhex("".join(rest[1:])) if rest[:1] == ["="] else b""
    direction = 0x80 if found[5] == b"i" else 0
    return Transfer(
        at * 1000,
        (0, bus, device),
        _TRANSFER_KINDS[found[4].decode()],
        endpoint | direction,
        found[3] != b"S",
        status,
        data,
        length if data else 0,
        setup,
        int(found[1], 16),
        moved=length,
    )


def _parse_setup(words: list[str]) -> bytes:
    """Returns the 8 bytes of a setup packet: bmRequestType, bRequest, and little-endian wValue, wIndex, wLength."""
    kind, request, value, index, length = (int(word, 16) for word in words)
    parts = (item.to_bytes(2, "little") for item in (value, index, length))
    return bytes([kind, request]) + b"".join(parts)
