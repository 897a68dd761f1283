"""Splits a log at lines after which no transaction is open, so that `hidlog judge` needs memory for only one part at a
time."""

from __future__ import annotations

import re
from collections.abc import Iterable, Iterator

from . import logs
from .captures import conformance
from .errors import LogError

# A row of `hidlog_transactions` that begins or ends transactions: the line's number, and the words after it.
_EVENT = re.compile(rb"^(\d+) (?:\1 \d+(.*)|\d+ \d+( .+))$", re.MULTILINE)
# Minimum length of a part. A part is longer if no line is found at which to split.
_PART_BYTES = 1 << 18


class InvalidLineError(LogError):
    """An invalid line in a log.

    line   the line.
    """

    def __init__(self, text: str, line: bytes):
        super().__init__(text)
        self.line = line

    def __reduce__(self) -> tuple[type[InvalidLineError], tuple[str, bytes]]:
        return type(self), (str(self), self.line)


class QuietParts:
    """Splits a log, which is read in pieces of any length, into parts of whole lines. No transaction is open between
    two parts.

    Iterating raises InvalidLineError at an invalid line."""

    def __init__(self, pieces: Iterable[bytes]):
        self._pieces = pieces
        # The last part, and to which transaction each of its lines belongs.
        self._part, self._owners = b"", b""

    def __iter__(self) -> Iterator[bytes]:
        held: list[bytes] = []
        size, limit, before = 0, _PART_BYTES, 0
        for piece in self._pieces:
            held.append(piece)
            size += len(piece)
            if size < limit:
                continue
            text = b"".join(held)
            end, owners = _find_quiet_end(text[: text.rfind(b"\n") + 1], before)
            if end:
                self._part, self._owners = text[:end], owners
                yield self._part
                before += text.count(b"\n", 0, end)
            size, held = size - end, [text[end:]]
            limit = size + max(_PART_BYTES, size)
        text = b"".join(held)
        self._part, self._owners = text, _list_owners(text, before)
        yield text

    def list_owners(self, text: bytes) -> bytes:
        """Returns the transaction of each line of `text`, which is the last part that was yielded or a piece of it."""
        return self._owners if text is self._part else _list_owners(text, 0)


def _list_owners(text: bytes, lines_before: int) -> bytes:
    """Returns to which transaction each line belongs (hidlog_transactions of hidlog.h)."""
    result = logs.transactions(conformance.load_module("judged_log").pad_truncated_packets(text))
    if result.status:
        line = text.split(b"\n", result.line)[result.line - 1] if result.line else b""
        try:
            result._replace(line=result.line + lines_before).raise_for_fault()
        except LogError as error:
            raise InvalidLineError(str(error), line) from None
    return result.text


def _find_quiet_end(text: bytes, lines_before: int) -> tuple[int, bytes]:
    """Returns the length of the lines up to the last line after which no transaction is open, or up to the last power
    cycle; and to which transaction each of these lines belongs."""
    owners = _list_owners(text, lines_before)
    power_cycle = text.rfind(b"\n%s\n" % conformance.load_module("judged_log").POWER_CYCLE)
    if power_cycle >= 0:
        return power_cycle + 1, _list_owners(text[: power_cycle + 1], lines_before)
    rows = owners[: _find_last_quiet(owners)]
    count, end = int(rows[rows.rfind(b"\n", 0, -1) + 1 :].partition(b" ")[0] or 0), len(text)
    for _ in range(text.count(b"\n") - count):
        end = text.rfind(b"\n", 0, end - 1) + 1
    return end, rows


def _find_last_quiet(owners: bytes) -> int:
    """Returns the length of the rows up to the last one after which no transaction is open."""
    open_lines: set[bytes] = set()
    end = 0
    for row in _EVENT.finditer(owners):
        number, words, other_words = row.groups()
        if not open_lines:
            end = row.start()
        if words is not None:
            open_lines.add(number)
        # The last packet of a response ends the transaction.
        for word in (words or other_words or b"").split():
            if word[:1] != b"l":
                open_lines.discard(word[1:].partition(b":")[0])
    return end if open_lines else len(owners)
