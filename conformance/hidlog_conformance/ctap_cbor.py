"""Encodes and decodes CTAP2 canonical CBOR (CTAP 2.1, 8), independently of the product's code."""

from __future__ import annotations

from functools import lru_cache
from typing import Any, Dict, List, Tuple

MAX_DEPTH = 4
# The smallest argument that needs the head with this additional information.
MIN_ARGUMENT = {24: 24, 25: 2**8, 26: 2**16, 27: 2**32}
# The types of keys of maps.
KEY_TYPES = (int, bytes, str)
# A head that `read_head` reads.
NO_HEAD = 0xFF
# Simple values by additional information.
SIMPLE = {20: False, 21: True, 22: None}


class CborError(Exception):
    """The encoding is invalid; the message says how, and at which byte."""


class Raw:
    """Bytes that `encode` inserts unchanged."""

    def __init__(self, data: bytes) -> None:
        self.data = data


def encode_head(major: int, argument: int) -> bytes:
    """Returns the shortest head."""
    if argument < 24:
        return bytes([major << 5 | argument])
    size = 1 if argument < 2**8 else 2 if argument < 2**16 else 4 if argument < 2**32 else 8
    return bytes([major << 5 | {1: 24, 2: 25, 4: 26, 8: 27}[size]]) + argument.to_bytes(size, "big")


def encode(item: Any) -> bytes:
    """Encodes an item, with map keys in canonical order."""
    if isinstance(item, Raw):
        return item.data
    if item is None or isinstance(item, bool):
        return {None: b"\xf6", False: b"\xf4", True: b"\xf5"}[item]
    if isinstance(item, int):
        return encode_head(0, item) if item >= 0 else encode_head(1, -1 - item)
    if isinstance(item, bytes):
        return encode_head(2, len(item)) + item
    if isinstance(item, str):
        return encode_head(3, len(item.encode())) + item.encode()
    if isinstance(item, list):
        return encode_head(4, len(item)) + b"".join(encode(part) for part in item)
    pairs = sorted((encode(key), encode(value)) for key, value in item.items())
    return encode_head(5, len(item)) + b"".join(key + value for key, value in pairs)


class Reader:
    """Decodes one canonical item; errors name their offset."""

    def __init__(self, data: bytes) -> None:
        self.data = data
        self.place = 0

    def take(self, count: int) -> bytes:
        """Returns the next bytes."""
        start, end = self.place, self.place + count
        if end > len(self.data):
            raise CborError(f"the item is truncated at {len(self.data)}")
        self.place = end
        return self.data[start:end]

    def read_any_head(self) -> Tuple[int, int, int]:
        """Returns an item's major type, additional information and argument; also accepts heads that are too long."""
        start = self.place
        first = self.take(1)[0]
        major, info = first >> 5, first & 31
        if info < 24:
            return major, info, info
        if info > 27:
            raise CborError(f"indefinite length or reserved additional information at {start}")
        return major, info, int.from_bytes(self.take(1 << (info - 24)), "big")

    def read_head(self) -> Tuple[int, int, int]:
        """Returns an item's major type, additional information and argument; the head must be the shortest."""
        start = self.place
        major, info, argument = self.read_any_head()
        if major != 7 and info in MIN_ARGUMENT and argument < MIN_ARGUMENT[info]:
            raise CborError(f"head not in its shortest form at {start}")
        return major, info, argument

    def read(self, level: int = 1) -> Any:
        """Returns the next item."""
        start, data = self.place, self.data
        head = data[start] if start < len(data) else NO_HEAD
        # The most frequent heads, of one and two bytes, are read here.
        if head < 24:
            self.place = start + 1
            return head
        major, info = head >> 5, head & 31
        if info < 24:
            self.place, argument = start + 1, info
        elif info == 24 and start + 1 < len(data) and data[start + 1] >= 24:
            self.place, argument = start + 2, data[start + 1]
        else:
            major, info, argument = self.read_head()
        if major == 3:
            return self.text(start, argument)
        if major == 2:
            return self.take(argument)
        if major == 0:
            return argument
        if major in (4, 5) and level > MAX_DEPTH:
            raise CborError(f"more than {MAX_DEPTH} levels at {start}")
        if major == 5:
            return self.map(argument, level)
        if major == 4:
            return [self.read(level + 1) for _ in range(argument)]
        if major == 1:
            return -1 - argument
        if major == 7 and info in SIMPLE:
            return SIMPLE[info]
        raise CborError(f"a tag, a float or an unsupported simple value at {start}")

    def text(self, start: int, length: int) -> str:
        """Returns a text string."""
        try:
            return self.take(length).decode()
        except UnicodeDecodeError:
            raise CborError(f"a text that isn't UTF-8 at {start}") from None

    def map(self, count: int, level: int) -> Dict[Any, Any]:
        """Returns a map; its keys must be in canonical order."""
        result: Dict[Any, Any] = {}
        before = b""
        for number in range(count):
            start = self.place
            key = self.read(level + 1)
            written = self.data[start : self.place]
            if not isinstance(key, KEY_TYPES) or isinstance(key, bool):
                raise CborError(f"a key that is not an integer, byte string or text at {start}")
            if number and written <= before:
                raise CborError(f"a key out of order or repeated at {start}")
            before = written
            result[key] = self.read(level + 1)
        return result


def decode(data: bytes) -> Any:
    """Decodes the bytes, which must be one item."""
    reader = Reader(data)
    item = reader.read()
    if reader.place != len(data):
        raise CborError(f"bytes after the end of the item, from {reader.place}")
    return item


@lru_cache(maxsize=256)
def decode_cached(data: bytes) -> Any:
    """Decodes with a cache; do not modify the result."""
    return decode(data)


def to_diagnostic(item: Any) -> str:
    """Returns an item in diagnostic notation."""
    if isinstance(item, bytes):
        return f"h'{item.hex()}'"
    if isinstance(item, list):
        return "[" + ", ".join(to_diagnostic(part) for part in item) + "]"
    if isinstance(item, dict):
        parts: List[str] = [f"{to_diagnostic(key)}: {to_diagnostic(value)}" for key, value in item.items()]
        return "{" + ", ".join(parts) + "}"
    return repr(item) if not isinstance(item, str) else f'"{item}"'
