"""Reads a capture of any supported format, and finds the keys in it."""

from __future__ import annotations

import io
from collections.abc import Iterator
from itertools import chain
from pathlib import Path
from typing import NamedTuple

from ..files import open_input
from . import chromium, debug_text, decoders, strace, usbmon_text
from .pcap import is_capture
from .source import CaptureError, Readable, Source
from .packet_store import Stream
from .streams import StreamFinder
from .usb import read_transfers

# Number of lines read to detect the format of a text.
_FIRST_LINES = 2000
_FORMATS_TEXT = (
    "pcap and pcapng of Linux's usbmon and of USBPcap, usbmon's text, libfido2's FIDO_DEBUG, python-fido2's logging, "
    "Chromium's device log, strace"
)


class Capture(NamedTuple):
    """A capture: its format, its keys, and notes on what could not be read."""

    form: str
    streams: list[Stream]
    notes: list[str]


def read_capture(data: bytes | str | Path) -> Capture:
    """Reads a capture from its bytes or the path of a file."""
    if isinstance(data, (str, Path)):
        with open_input(Path(data)) as file:
            return read_file(file)
    return read_file(io.BytesIO(bytes(data)))


def read_file(file: Readable) -> Capture:
    """Reads a capture from a file."""
    source = Source(file)
    front = source.peek(4096)
    if front.startswith(decoders.GZIP_MAGIC):
        source = Source(decoders.unpack(file, front))
        front = source.peek(4096)
    if front.startswith(decoders.BYTE_ORDER_MARKS):
        source = Source(decoders.Utf16Text(source))
        front = source.peek(4096)
    if not front:
        raise CaptureError("the capture is empty")
    if is_capture(front):
        finder = StreamFinder(source)
        try:
            finder.add_transfers(read_transfers(source))
        except CaptureError as error:
            if not finder.list_streams():
                raise
            source.note(str(error))
        return _make_capture("a capture of USB", finder.list_streams(), source)
    if front.startswith(b"=") and b" > " in front[:200] or b"\0" in front:
        raise CaptureError(f"unrecognized capture file; supported: {_FORMATS_TEXT}")
    return _read_text(source)


def _make_capture(form: str, streams: list[Stream], source: Source) -> Capture:
    if not streams:
        raise CaptureError(
            f"no security key found in the capture (read as {form}" + "".join(f"; {note}" for note in source.notes)
        )
    return Capture(form, streams, source.notes)


def _read_text(source: Source) -> Capture:
    lines = source.lines()
    first = [line for _, line in zip(range(_FIRST_LINES), lines)]
    rest: Iterator[bytes] = chain(first, lines)
    if any(map(usbmon_text.is_line, first)):
        finder = StreamFinder(source)
        finder.add_transfers(usbmon_text.read_lines(rest, source))
        return _make_capture("usbmon's text", finder.list_streams(), source)
    readers = (
        ("libfido2's debug output", debug_text.is_libfido2, debug_text.read_libfido2),
        ("python-fido2's logging", debug_text.is_python_fido2, debug_text.read_python_fido2),
        ("Chromium's device log", chromium.is_chromium, chromium.read_chromium),
        ("lines of strace", strace.is_strace, strace.read_strace),
    )
    for form, is_line, read in readers:
        if any(map(is_line, first)):
            return _make_capture(form, read(rest, source), source)
    raise CaptureError(f"unrecognized text capture; supported: {_FORMATS_TEXT}")
