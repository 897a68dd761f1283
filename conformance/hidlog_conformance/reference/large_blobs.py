"""Large blobs of the reference authenticator (CTAP 2.1, 6.10)."""

from __future__ import annotations

import hashlib
from typing import TYPE_CHECKING, Any, Dict

from hidlog_conformance.reference.pin import AUTH_INVALID, INVALID_PARAMETER, WRITE, RequestError

if TYPE_CHECKING:
    from hidlog_conformance.reference.authenticator import Authenticator

INVALID_LENGTH, INVALID_SEQUENCE, PIN_REQUIRED, INTEGRITY, FULL = 0x03, 0x04, 0x36, 0x3D, 0x42
READ, SET, OFFSET, LENGTH, PARAM, PROTOCOL = 1, 2, 3, 4, 5, 6
# The bytes before the offset in the data that pinUvAuthParam authenticates; and the bytes of a message besides a
# fragment.
FRONT, AROUND = b"\xff" * 32 + b"\x0c\0", 64
HASH = 16


def append_hash(data: bytes) -> bytes:
    """Returns an array followed by its hash."""
    return data + hashlib.sha256(data).digest()[:HASH]


EMPTY_ARRAY = append_hash(b"\x80")


class LargeBlobs:
    """The array, and authenticatorLargeBlobs."""

    def __init__(self, authenticator: Authenticator) -> None:
        self.authenticator = authenticator
        self.stored = EMPTY_ARRAY
        self.coming = b""
        self.expected = 0

    def max_fragment_length(self) -> int:
        """Returns the maximum length of a fragment."""
        return max(self.authenticator.traits.longest_message, 1024) - AROUND

    def serve(self, asked: Dict[int, Any]) -> Dict[int, Any]:
        """Runs the command."""
        if OFFSET not in asked or (READ in asked) == (SET in asked):
            raise RequestError(INVALID_PARAMETER)
        return self.read(asked) if READ in asked else self.write(asked)

    def read(self, asked: Dict[int, Any]) -> Dict[int, Any]:
        """Returns a fragment of the array."""
        if LENGTH in asked or PARAM in asked or PROTOCOL in asked:
            raise RequestError(INVALID_PARAMETER)
        if asked[READ] > self.max_fragment_length():
            raise RequestError(INVALID_LENGTH)
        return {1: self.piece(asked[OFFSET], asked[READ])}

    def piece(self, offset: int, count: int) -> bytes:
        """Returns bytes of the array."""
        if offset > len(self.stored):
            raise RequestError(INVALID_PARAMETER)
        return self.stored[offset : offset + count]

    def write(self, asked: Dict[int, Any]) -> Dict[int, Any]:
        """Writes a fragment of a new array; the last one replaces the old array."""
        if len(asked[SET]) > self.max_fragment_length():
            raise RequestError(INVALID_LENGTH)
        self.begin(asked)
        if asked[OFFSET] != len(self.coming):
            raise RequestError(INVALID_SEQUENCE)
        self.authorize(asked)
        if asked[OFFSET] + len(asked[SET]) > self.expected:
            raise RequestError(INVALID_PARAMETER)
        self.coming += asked[SET]
        if len(self.coming) == self.expected:
            self.commit()
        return {}

    def begin(self, asked: Dict[int, Any]) -> None:
        """Processes the length of a new array, which only the first fragment has."""
        if asked[OFFSET]:
            if LENGTH in asked:
                raise RequestError(INVALID_PARAMETER)
            return
        if LENGTH not in asked:
            raise RequestError(INVALID_PARAMETER)
        if asked[LENGTH] > max(1024, self.authenticator.traits.largest_array):
            raise RequestError(FULL)
        if asked[LENGTH] < len(EMPTY_ARRAY):
            raise RequestError(INVALID_PARAMETER)
        self.coming, self.expected = b"", asked[LENGTH]

    def authorize(self, asked: Dict[int, Any]) -> None:
        """Refuses a fragment without a token with the permission lbw, if user verification is configured."""
        authenticator = self.authenticator
        if not authenticator.is_protected and not authenticator.traits.always_uv:
            return
        if PARAM not in asked:
            raise RequestError(PIN_REQUIRED)
        protocol = authenticator.pin.protocol(asked, PROTOCOL)
        data = FRONT + asked[OFFSET].to_bytes(4, "little") + hashlib.sha256(asked[SET]).digest()
        verified = authenticator.pin.is_authentic(protocol, data, asked[PARAM])
        if not verified or not authenticator.pin.permissions & WRITE:
            raise RequestError(AUTH_INVALID)

    def commit(self) -> None:
        """Replaces the old array by the new one, if its hash is right."""
        whole, self.coming, self.expected = self.coming, b"", 0
        if not self.is_whole(whole):
            raise RequestError(INTEGRITY)
        self.stored = whole

    def is_whole(self, array: bytes) -> bool:
        """Returns whether an array ends with its hash."""
        return append_hash(array[:-HASH]) == array

    def forget(self) -> None:
        """Resets to an empty array."""
        self.stored, self.coming, self.expected = EMPTY_ARRAY, b"", 0
