"""Writes a recorded stream as a session log."""

from __future__ import annotations

from collections.abc import Iterator
from datetime import datetime, timezone

from .. import logs
from .. import packets as hid
from ..errors import LogError
from ..log_lines import format_comments
from ..standard import KEEPALIVE_MS
from .inference import PacketWithReplies, TimedPacket, infer_replies
from .packet_store import Packet, Stream
from .source import CaptureError

# Minimum delay in ms before a packet of the key for which a tick records the packet's time. This is the KEEPALIVE
# interval, within which a key's behavior does not depend on time.
_TICK_MS = KEEPALIVE_MS
_UNKNOWN = "none is known"
# Nanoseconds from 1970 to the year 10000, the latest plausible timestamp.
_MAX_TIMESTAMP_NS = 253_402_300_800 * 10**9


def write_log(stream: Stream, form: str, notes: list[str], *, ticks: bool = False, derive: bool = True) -> bytes:
    """Returns the session log of a stream. `ticks` adds a tick before each packet that the key sent later than the
    previous line. `derive` adds the replies inferred from packets."""
    return b"".join(iter_log(stream, form, notes, ticks=ticks, derive=derive))


def iter_log(
    stream: Stream, form: str, notes: list[str], *, ticks: bool = False, derive: bool = True
) -> Iterator[bytes]:
    """Yields the session log of a stream in pieces. An invalid stream raises CaptureError before the first one."""
    if stream.writer.startswith(b"hidlog"):
        _check_embedded_log(stream)
        yield from _iter_embedded_log(stream)
        return
    _check_timestamps(stream)
    for line in _Writer(stream, ticks, derive).iter_lines(form, notes):
        yield line + b"\n"


def _check_timestamps(stream: Stream) -> None:
    """Raises CaptureError for an implausible timestamp."""
    for number, packet in enumerate(stream.packets, 1):
        if packet.at is not None and not 0 <= packet.at < _MAX_TIMESTAMP_NS:
            seconds = packet.at // 10**9
            raise CaptureError(
                f"the timestamp of packet {number} of {stream.name} is {seconds} s after 1970; "
                "it must be within the years 1970 to 9999"
            )


def _check_embedded_log(stream: Stream) -> None:
    """Raises CaptureError if the log in a capture is invalid."""
    try:
        for _ in logs.iter_valid_parts(_iter_embedded_log(stream)):
            pass
    except LogError:
        raise CaptureError("the log in the capture, written by hidlog export, has an invalid line") from None


def _iter_embedded_log(stream: Stream) -> Iterator[bytes]:
    """Yields the log in a capture written by `hidlog export`: lines other than packets are comments of frames."""
    separator, end = b"", b"\n"
    for packet in stream.packets:
        written = None
        for comment in packet.comments:
            word, _, rest = comment.partition(b" ")
            if word == b"as":
                written = rest
            elif comment == b"no line feed":
                end = b""
            elif word == b"line":
                yield separator + rest
                separator = b"\n"
        if packet.data:
            front = b"> %d " % ((packet.at or 0) // 10**6) if packet.sent else b"< "
            yield separator + (written if written is not None else front + packet.data.hex().encode())
            separator = b"\n"
    if separator:
        yield end


class _Writer:
    """Writes the lines of a stream."""

    def __init__(self, stream: Stream, ticks: bool, derive: bool):
        self._stream = stream
        self._least = 1 if ticks else _TICK_MS
        self._start = next((packet.at for packet in stream.packets if packet.at is not None), None)
        self._now = 0
        self._derives = derive
        self._has_timestamps = self._start is not None

    def _iter_placed(self) -> Iterator[TimedPacket]:
        """Yields the packets, each with the timestamp and the data, which is empty if a part of it is missing."""
        filled, now = _PacketCompleter(), 0
        for packet in self._stream.packets:
            now = max(now, self._time_ms(packet, now))
            yield TimedPacket(packet, now, filled.whole(packet) if packet.data and not packet.lost else b"")

    def _time_ms(self, packet: Packet, now: int) -> int:
        return now if packet.at is None or self._start is None else (packet.at - self._start) // 10**6

    def iter_lines(self, form: str, notes: list[str]) -> Iterator[bytes]:
        """Yields the lines."""
        yield from self._format_head(form, notes)
        placed = self._iter_placed()
        for packet in infer_replies(placed) if self._derives else map(PacketWithReplies, placed):
            if packet.placed.packet.data:
                yield from self._format_packet(packet)

    def _format_head(self, form: str, notes: list[str]) -> Iterator[bytes]:
        yield from format_comments(f"imported from {form}: {self._stream.name}")
        yield from format_comments(f"moment 0 is {_describe_start(self._start)}")
        cut = lost = 0
        for packet in self._stream.packets:
            cut += 0 < len(packet.data) < hid.PACKET
            lost += packet.lost != 0
        text = [*self._stream.notes, *notes]
        if cut:
            text.append(f"the capture lacks some bytes of {cut} packets")
        if lost:
            text.append(f"{lost} packets to the key were not delivered")
        for note in text:
            yield from format_comments(f"note: {note}")

    def _format_packet(self, inferred: PacketWithReplies) -> Iterator[bytes]:
        packet, data = inferred.placed.packet, inferred.placed.data
        at = max(self._now, self._time_ms(packet, self._now))
        if not data:
            text = f"not delivered (status {packet.lost})" if packet.lost else f"cut to {len(packet.data)} bytes"
            yield from format_comments(f"{text}: {'>' if packet.sent else '<'} {at} {packet.data.hex()}")
            return
        if packet.sent:
            self._now = at
            yield b"> %d %s" % (at, data.hex().encode())
            return
        if packet.late:
            yield from format_comments(
                f"the next packet came as its transfer was ended (status {packet.late}): nobody read it"
            )
        # No tick between the packets of one message.
        if data[4] & 0x80 or self._least < _TICK_MS:
            yield from self._lines_before(inferred, at)
        yield b"< " + data.hex().encode()

    def _lines_before(self, inferred: PacketWithReplies, at: int) -> Iterator[bytes]:
        """Yields the replies before a packet of the key, and a tick for its time."""
        for kind, words, reason in inferred.replies:
            self._now = at
            yield from format_comments(f"derived: {reason}")
            yield b"%s %d %s" % (kind, at, words)
        is_due = inferred.is_periodic or at - self._now >= self._least
        if not inferred.replies and self._has_timestamps and at > self._now and is_due:
            self._now = at
            yield b"t %d" % at


class _PacketCompleter:
    """Pads truncated packets in which only bytes after the end of a message are missing."""

    def __init__(self) -> None:
        # Remaining bytes of the open message, by direction and channel.
        self._left: dict[tuple[bool, bytes], int] = {}

    def whole(self, packet: Packet) -> bytes:
        """Returns the padded packet, or nothing if bytes of the message are missing."""
        data = packet.data
        if len(data) < 7:
            return b""
        key = (packet.sent, data[:4])
        if data[4] & 0x80:
            left, begin = data[5] << 8 | data[6], 7
        else:
            left, begin = self._left.get(key, hid.PACKET), 5
        self._left[key] = max(0, left - (hid.PACKET - begin))
        if len(data) >= hid.PACKET:
            return data[: hid.PACKET]
        return data.ljust(hid.PACKET, b"\0") if begin + left <= len(data) else b""


def _describe_start(start: int | None) -> str:
    """Describes timestamp 0."""
    if start is None:
        return f"made up: {_UNKNOWN}"
    milliseconds = start // 10**6
    if milliseconds >= 86400 * 1000 * 365:
        day = datetime.fromtimestamp(milliseconds / 1000, timezone.utc)
        return f"{milliseconds // 1000}.{milliseconds % 1000:03d} s after 1970 ({day:%Y-%m-%d %H:%M:%S} UTC)"
    return f"{milliseconds // 1000}.{milliseconds % 1000:03d} s of the recorder's clock"
