"""Reads the output of strace: reads and writes of /dev/hidraw devices."""

from __future__ import annotations

import re
from collections.abc import Iterable, Iterator

from .. import packets as hid
from .debug_text import ONE_CLIENT_NOTE
from .timestamps import Clock
from .source import Source
from .packet_store import Packet, PacketStore, Stream

# The prefix of a call: process, timestamps, instruction pointer.
_LINE_PREFIX = rb"^(?P<front>(?:[^a-z\"<\[]|\[[0-9a-f? pid]+\])*)"
_CALL = re.compile(
    _LINE_PREFIX + rb"(?P<call>openat|open|openat2|read|write|pread64|pwrite64|close|dup|dup2|dup3)\((?P<rest>.*)$"
)
_RESUMED = re.compile(_LINE_PREFIX + rb"<\.\.\. (?P<call>\w+) resumed>\s*,?\s*(?P<rest>.*)$")
_UNFINISHED = b"<unfinished ...>"
_PROCESS = re.compile(rb"^\s*(?:\[pid\s+(\d+)\]|(\d{2,8}) +(?=\d\d:|\d{9,}|[a-z<]|\d+\.\d))")
_TEXT = re.compile(rb'"((?:[^"\\]|\\.)*)"(\.\.\.)?')
_RESULT = re.compile(rb"= (-?\d{1,19})\b")
_DESCRIPTOR = re.compile(rb"^\s*(\d{1,10})\b(?:<([^>]*)>)?")
_RELATIVE = re.compile(rb"^\s*(?:\[pid\s+\d+\]|\d+\s+)?\s*(\d{1,10}\.\d{6})\s")
_ESCAPE = re.compile(rb"\\(x[0-9a-fA-F]{2}|[0-7]{1,3}|.)", re.DOTALL)
_ESCAPED_LETTERS = {
    b"n": b"\n",
    b"t": b"\t",
    b"r": b"\r",
    b"f": b"\f",
    b"v": b"\v",
    b"a": b"\a",
    b"b": b"\b",
    b"e": b"\x1b",
}
_TRUNCATED_NOTE = "strace truncated packets; record with -s 128"


def is_strace(line: bytes) -> bool:
    """Returns whether a line is strace's output."""
    return bool(_CALL.match(line)) and (_RESULT.search(line) is not None or line.rstrip().endswith(_UNFINISHED))


def unescape(text: bytes) -> bytes:
    """Decodes the escapes in a string of strace."""

    def decode_escape(found: re.Match[bytes]) -> bytes:
        word = found[1]
        if word[:1] == b"x" and len(word) == 3:
            return bytes([int(word[1:], 16)])
        if word[:1] in b"01234567":
            return bytes([int(word, 8) & 0xFF])
        return _ESCAPED_LETTERS.get(word, word)

    return _ESCAPE.sub(decode_escape, text)


class _Reader:
    """Tracks the file descriptors of each process."""

    def __init__(self, source: Source):
        self._source = source
        self._paths: dict[tuple[bytes, int], str] = {}
        self._begun: dict[bytes, tuple[bytes, bytes]] = {}
        self.streams: dict[str, PacketStore] = {}
        self._clock = Clock()
        self._elapsed = 0

    def read_line(self, line: bytes) -> None:
        """Reads a line."""
        process = b""
        if found := _PROCESS.match(line):
            process = found[1] or found[2]
        at = self._read_timestamp(line)
        if resumed := _RESUMED.match(line):
            call, rest = self._begun.pop(process, (b"", b""))
            if call == resumed["call"]:
                self._read_call(process, call, rest + resumed["rest"], at)
            return
        if called := _CALL.match(line):
            rest = called["rest"]
            if rest.rstrip().endswith(_UNFINISHED):
                self._begun[process] = (called["call"], rest.rstrip()[: -len(_UNFINISHED)])
            else:
                self._read_call(process, called["call"], rest, at)

    def _read_timestamp(self, line: bytes) -> int | None:
        """Returns the timestamp of a line. With strace -r, the time is relative to the previous line."""
        at = self._clock.read(line)
        if at is not None:
            return at
        if found := _RELATIVE.match(line):
            self._elapsed += int(found[1].replace(b".", b"")) * 1000
            return self._elapsed
        return None

    def _read_call(self, process: bytes, call: bytes, rest: bytes, at: int | None) -> None:
        results = _RESULT.findall(rest)
        result = int(results[-1]) if results else -1
        if call.startswith(b"open"):
            texts = _TEXT.search(rest)
            path = unescape(texts[1]).decode("utf-8", "replace") if texts else ""
            if result >= 0:
                self._paths[process, result] = path
            return
        number = _DESCRIPTOR.match(rest)
        if not number:
            return
        handle = (process, int(number[1]))
        if call == b"close":
            self._paths.pop(handle, None)
        elif call.startswith(b"dup"):
            if result >= 0 and handle in self._paths:
                self._paths[process, result] = self._paths[handle]
        elif result > 0:
            self._add_data(handle, (number[2] or b"").decode("utf-8", "replace"), call, rest, result, at)

    def _find_path(self, handle: tuple[bytes, int], named: str) -> str | None:
        """Returns the path of a descriptor, or None if its opening was not recorded. Threads share descriptors."""
        if named:
            return unescape(named.encode()).decode("utf-8", "replace")
        if handle in self._paths:
            return self._paths[handle]
        others = [path for (_, number), path in self._paths.items() if number == handle[1]]
        return others[-1] if others else None

    def _add_data(
        self, handle: tuple[bytes, int], named: str, call: bytes, rest: bytes, result: int, at: int | None
    ) -> None:
        path, sent = self._find_path(handle, named), "write" in call.decode()
        if result != hid.PACKET + sent or (path is not None and "hidraw" not in path):
            return
        texts = _TEXT.search(rest)
        if not texts:
            return
        data = unescape(texts[1])
        if path is None and not texts[2] and len(data) != result:
            return
        if texts[2] or len(data) < result:
            self._source.note(_TRUNCATED_NOTE)
        name = path.rpartition("/")[2] if path else f"descriptor {handle[1]}"
        packets = self.streams.setdefault(name, PacketStore())
        packets.append(Packet(at, sent, data[1:] if sent else data))


def read_strace(lines: Iterable[bytes], source: Source) -> list[Stream]:
    """Returns the streams in strace's output, one per device."""
    reader = _Reader(source)
    source.note(ONE_CLIENT_NOTE)
    for line in lines:
        reader.read_line(line)
    found = [Stream(name, packets.select()) for name, packets in reader.streams.items()]
    # A descriptor whose opening was not recorded may belong to any file from which 64 bytes are read and written.
    return [stream for stream in found if not stream.name.startswith("descriptor") or _uses_ctaphid(stream)]


def _uses_ctaphid(stream: Stream) -> bool:
    """Returns whether the packets of a descriptor are CTAPHID packets."""
    channels = {head.data[:4] for head in _iter_heads(stream) if head.sent}
    return any(not head.sent and head.data[:4] in channels for head in _iter_heads(stream))


def _iter_heads(stream: Stream) -> Iterator[Packet]:
    """Yields the initialization packets."""
    return (packet for packet in stream.packets if len(packet.data) >= 7 and packet.data[4] & 0x80)
