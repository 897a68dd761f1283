"""Reads a file sequentially, and collects notes about it."""

from __future__ import annotations

from collections.abc import Iterator
from typing import Protocol

from ..errors import HidlogError

# Maximum length of a record, and of a line of text.
MAX_RECORD = 16 << 20
MAX_LINE = 1 << 20
# Maximum number of notes: a damaged file could cause one per record.
MAX_NOTES = 100


class Readable(Protocol):
    """A file that is read sequentially."""

    def read(self, count: int, /) -> bytes:
        """Returns `count` bytes, or fewer at the end."""


class CaptureError(HidlogError):
    """An unreadable capture. The message has the reason and the position."""


class Source:
    """Reads a file sequentially, and counts the bytes read. `notes` lists the parts that could not be read or were
    truncated."""

    def __init__(self, file: Readable):
        self._file = file
        self._ahead = b""
        self.offset = 0
        self.notes: list[str] = []

    def note(self, text: str) -> None:
        """Adds a note about the capture, once."""
        if text not in self.notes and len(self.notes) < MAX_NOTES:
            self.notes.append(text)

    def peek(self, count: int) -> bytes:
        """Returns the next bytes without advancing; fewer bytes at the end."""
        while len(self._ahead) < count:
            more = self._file.read(count - len(self._ahead))
            if not more:
                break
            self._ahead += more
        return self._ahead[:count]

    def read(self, count: int) -> bytes:
        """Reads the next bytes; fewer bytes at the end."""
        if count > MAX_RECORD:
            raise CaptureError(
                f"the capture is invalid at byte {self.offset}: a record of {count} bytes, above {MAX_RECORD}"
            )
        data = self.peek(count)
        self._ahead = self._ahead[count:]
        self.offset += len(data)
        return data

    def skip(self, count: int) -> int:
        """Skips bytes, and returns the number of bytes skipped."""
        left = count
        while left:
            piece = self.read(min(left, 1 << 16))
            if not piece:
                break
            left -= len(piece)
        return count - left

    def lines(self) -> Iterator[bytes]:
        """Yields the lines of a text, without line ends."""
        rest, number = b"", 1
        while piece := self.read(1 << 16):
            *whole, rest = (rest + piece).split(b"\n")
            for line in whole:
                yield line.rstrip(b"\r")
            number += len(whole)
            if len(rest) > MAX_LINE:
                raise CaptureError(f"line {number} has more than {MAX_LINE} bytes")
        if rest:
            yield rest.rstrip(b"\r")
