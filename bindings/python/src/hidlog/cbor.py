"""The subset of CTAP2 canonical CBOR (CTAP 2.1, section 8) that keys send and store."""

from __future__ import annotations

from collections.abc import Callable
from typing import Any

from .errors import ArgumentError, ArgumentTypeError, check_bytes

_SIMPLE = {20: False, 21: True, 22: None}
_LENGTHS = {24: 1, 25: 2, 26: 4, 27: 8}
# CTAP 2.1, section 8, allows 4 levels; attestation objects of other authenticators have more.
_MAX_LEVELS = 16


class CborError(ArgumentError):
    """The bytes are not valid CBOR, or the value cannot be encoded."""


def encode_head(major: int, number: int) -> bytes:
    """Returns the shortest head for a major type and an argument."""
    if number < 24:
        return bytes([major << 5 | number])
    for code, length in _LENGTHS.items():
        if number < 1 << 8 * length:
            return bytes([major << 5 | code]) + number.to_bytes(length, "big")
    raise CborError(f"{number} does not fit into 64 bits")


def encode(value: Any) -> bytes:
    """Returns the canonical encoding of a value."""
    return _encode(value, 0)


def _encode(value: Any, level: int) -> bytes:
    """Returns the canonical encoding of a value at a nesting level."""
    if level > _MAX_LEVELS:
        raise CborError(f"the value is nested deeper than {_MAX_LEVELS} levels")
    encoder = _ENCODERS.get(type(value)) or _find_encoder(value)
    return encoder(value, level)


def _encode_number(value: int, _: int) -> bytes:
    return encode_head(0, value) if value >= 0 else encode_head(1, -1 - value)


def _encode_bytes(value: Any, _: int) -> bytes:
    data = bytes(value)
    return encode_head(2, len(data)) + data


def _encode_items(value: Any, level: int) -> bytes:
    return encode_head(4, len(value)) + b"".join([_encode(item, level + 1) for item in value])


def _encode_map(value: dict[Any, Any], level: int) -> bytes:
    pairs = [(_encode(key, level + 1), _encode(member, level + 1)) for key, member in value.items()]
    if len(pairs) > 1:
        pairs.sort(key=_sort_key)
    return encode_head(5, len(pairs)) + b"".join([part for pair in pairs for part in pair])


def _sort_key(pair: tuple[bytes, bytes]) -> tuple[int, int, bytes]:
    """Sort key of a map's keys: major type, length, bytes."""
    return pair[0][0] >> 5, len(pair[0]), pair[0]


def _encode_text(value: str, _: int) -> bytes:
    try:
        data = value.encode()
    except UnicodeEncodeError:
        raise CborError(f"{value[:20]!r} has an unpaired surrogate, which UTF-8 cannot encode") from None
    return encode_head(3, len(data)) + data


def _encode_simple(value: bool | None, _: int) -> bytes:
    return {False: b"\xf4", True: b"\xf5", None: b"\xf6"}[value]


_Encoder = Callable[[Any, int], bytes]
_ENCODERS: dict[type, _Encoder] = {
    bool: _encode_simple,
    type(None): _encode_simple,
    int: _encode_number,
    bytes: _encode_bytes,
    bytearray: _encode_bytes,
    memoryview: _encode_bytes,
    str: _encode_text,
    list: _encode_items,
    tuple: _encode_items,
    dict: _encode_map,
}


def _find_encoder(value: Any) -> _Encoder:
    """Returns the encoder of a subclass of an encodable type."""
    for kind, encoder in _ENCODERS.items():
        if isinstance(value, kind):
            return encoder
    raise ArgumentTypeError(f"cannot encode {type(value).__name__} as CBOR")


def decode(data: bytes) -> Any:
    """Decodes data that must be exactly one CBOR item."""
    item = check_bytes("CBOR", data)
    value, at = _read_item(item, 0, 0)
    if at != len(item):
        raise CborError(f"{len(item) - at} trailing bytes after the CBOR item")
    return value


def decode_first(data: bytes) -> tuple[Any, bytes]:
    """Decodes the first CBOR item. Returns the item's value, and the bytes after the item."""
    item = check_bytes("CBOR", data)
    value, at = _read_item(item, 0, 0)
    return value, item[at:]


def _read_item(data: bytes, at: int, level: int) -> tuple[Any, int]:
    """Returns the value at an offset and nesting level, and the offset after it."""
    if at >= len(data):
        raise CborError("the CBOR item is truncated")
    major, number = data[at] >> 5, data[at] & 31
    at += 1
    if number >= 24:
        number, at = _read_argument(data, at, major, number)
    if major == 0:
        return number, at
    if major in (2, 3):
        return _read_text(data, at, major, number)
    if major in (4, 5) and level == _MAX_LEVELS:
        raise CborError(f"the CBOR item is nested deeper than {_MAX_LEVELS} levels")
    if major == 4:
        return _read_items(data, at, number, level + 1)
    if major == 5:
        return _read_map(data, at, number, level + 1)
    if major == 7 and number in _SIMPLE:
        return _SIMPLE[number], at
    if major > 1:
        raise CborError(f"CBOR major type {major} with the argument {number} is not supported")
    return -1 - number, at


def _read_argument(data: bytes, at: int, major: int, code: int) -> tuple[int, int]:
    """Returns the argument after an item's first byte, and the offset after it."""
    length = _LENGTHS.get(code)
    if length is None or len(data) < at + length or major == 7:
        raise CborError("the CBOR item is truncated or of an unsupported kind")
    return int.from_bytes(data[at : at + length], "big"), at + length


def _read_text(data: bytes, at: int, major: int, length: int) -> tuple[Any, int]:
    end = at + length
    if len(data) < end:
        raise CborError("the CBOR item is truncated")
    try:
        return (data[at:end] if major == 2 else data[at:end].decode()), end
    except UnicodeDecodeError as error:
        raise CborError(f"a CBOR text string is not UTF-8: {error}") from None


def _read_items(data: bytes, at: int, count: int, level: int) -> tuple[list[Any], int]:
    listed = []
    for _ in range(count):
        value, at = _read_item(data, at, level)
        listed.append(value)
    return listed, at


def _read_map(data: bytes, at: int, count: int, level: int) -> tuple[dict[Any, Any], int]:
    listed, at = _read_items(data, at, 2 * count, level)
    try:
        return dict(zip(listed[::2], listed[1::2])), at
    except TypeError:
        raise CborError("a CBOR map has an array or a map as a key") from None
