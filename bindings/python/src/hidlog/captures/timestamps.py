"""Parses timestamps at the start of text lines."""

from __future__ import annotations

import re
from datetime import datetime, timezone

_DAY_NS = 86400 * 10**9
_EPOCH_TIME = re.compile(rb"(?:^|[ \[])(\d{9,10})\.(\d{1,9})\b")
_TIME_OF_DAY = re.compile(rb"(?:(\d{4})-(\d\d)-(\d\d)[ T])?\b(\d\d):(\d\d):(\d\d)(?:[.,](\d{1,9}))?")
# Number of characters at the start of a line in which a timestamp is searched.
_SEARCHED_BYTES = 60


class Clock:
    """Parses timestamps to nanoseconds since 1970. Times of day are converted to nanoseconds since the start of the
    first day."""

    def __init__(self) -> None:
        self._before: int | None = None
        self._days = 0

    def read(self, line: bytes) -> int | None:
        """Returns the timestamp of a line, or None if it has none."""
        front = line[:_SEARCHED_BYTES]
        if found := _EPOCH_TIME.search(front):
            return int(found[1]) * 10**9 + _parse_fraction(found[2])
        if not (found := _TIME_OF_DAY.search(front)):
            return None
        hours, minutes, seconds = (int(item) for item in found.group(4, 5, 6))
        at = (hours * 3600 + minutes * 60 + seconds) * 10**9 + _parse_fraction(found[7])
        if found[1]:
            return at + _parse_date(found)
        if self._before is not None and self._before - at > _DAY_NS // 2:
            self._days += 1
        self._before = at
        return at + self._days * _DAY_NS


def _parse_fraction(digits: bytes | None) -> int:
    return int((digits or b"0").ljust(9, b"0"))


def _parse_date(found: re.Match[bytes]) -> int:
    try:
        day = datetime(int(found[1]), int(found[2]), int(found[3]), tzinfo=timezone.utc)
    except ValueError:
        return 0
    return int(day.timestamp()) * 10**9
