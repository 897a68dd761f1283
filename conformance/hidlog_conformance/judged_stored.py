"""Checks recorded responses to authenticatorCredentialManagement and authenticatorLargeBlobs, and large blob keys."""

from __future__ import annotations

import hashlib
from typing import Any, Dict, List, Optional, Set

from hidlog_conformance import answers
from hidlog_conformance.answers import Credential, Mismatch, check
from hidlog_conformance.judged_parts import ExtensionMismatch, KnownCredentials, Pins
from hidlog_conformance.check_credential_management import (
    CREDENTIALS,
    PROTECTION,
    RPS,
    Listing,
    hash_of,
    check_fragment,
)
from hidlog_conformance.text import quantity
from hidlog_conformance.requests import decode_parameters

MANAGE, BLOBS = 0x0A, 0x0C
# authenticatorCredentialManagementPreview, of keys before CTAP 2.1.
PREVIEW = 0x41
COUNT, LIST_RPS, NEXT_RP, LIST, NEXT, DELETE, UPDATE = range(1, 8)
READ, SET, OFFSET, LENGTH, PARAM = 1, 2, 3, 4, 5
# Permissions of tokens, and the length of the shortest array.
MAY_MANAGE, MAY_WRITE, SHORTEST = 4, 16, 17
BLOB_KEY = "largeBlobKey"


def append_hash(data: bytes) -> bytes:
    """Returns an array followed by its hash."""
    return data + hashlib.sha256(data).digest()[:16]


def named_credential_id(asked: Dict[Any, Any]) -> bytes:
    """Returns the ID of the credential that a credential management request deletes or updates."""
    parameters = asked.get(2, {})
    descriptor = parameters.get(2, {}) if isinstance(parameters, dict) else {}
    identity = descriptor.get("id") if isinstance(descriptor, dict) else None
    return identity if isinstance(identity, bytes) else b""


EMPTY_ARRAY = append_hash(b"\x80")


class StoredJudge:
    """The large-blob array and the deleted credentials, as the log shows them."""

    def __init__(self) -> None:
        self.listing = Listing(False)
        self.rp = b""
        # The array, or None if unknown; the fragments of a new array so far, and its length.
        self.array: Optional[bytes] = None
        self.coming: Optional[bytes] = None
        self.expected = 0
        # Whether nothing was written since a reset; and the deleted credentials.
        self.is_reset = False
        self.deleted: Set[bytes] = set()

    def power_cycle(self) -> None:
        """Resets the state that a power cycle clears."""
        self.coming, self.expected = b"", 0
        self.listing.left = {RPS: 0, CREDENTIALS: 0}

    def reset(self) -> None:
        """Processes a reset."""
        self.listing = Listing()
        self.array, self.coming, self.expected, self.is_reset = EMPTY_ARRAY, b"", 0, True

    def judge(self, request: bytes, data: bytes, kept: KnownCredentials, pins: Pins, info: Dict[Any, Any]) -> None:
        """Checks a response; `kept` has the log's credentials."""
        asked = decode_parameters(request)
        if asked is None:
            return
        if data[0] != 0:
            # The state of a new array after an error is unknown.
            self.coming = self.coming if request[0] != BLOBS or SET not in asked else None
        elif request[0] == MANAGE:
            self.check_managed(asked, data, kept, pins)
        elif READ in asked:
            self.check_read(asked, data, info)
        else:
            self.check_written(asked, pins, info)

    def check_managed(self, asked: Dict[Any, Any], data: bytes, kept: KnownCredentials, pins: Pins) -> None:
        """Checks a successful response to credential management."""
        command, parameters = asked.get(1), asked.get(2, {})
        if command not in (NEXT_RP, NEXT):
            self.check_token(asked, 4, MAY_MANAGE, pins)
            self.check_rp(command, parameters, kept, pins)
        stored = kept.list_discoverable()
        if command == COUNT:
            self.listing.check_count(answers.decode_map(data), len(stored))
        elif command in (LIST_RPS, NEXT_RP):
            self.check_next(command == NEXT_RP, RPS)
            total = len({one.rp for one in stored}) if command == LIST_RPS else None
            self.listing.check_rp(answers.decode_map(data), stored, total)
        elif command in (LIST, NEXT):
            self.check_listed(command, parameters, data, stored, kept)
        elif command in (DELETE, UPDATE):
            self.check_change(command, parameters, kept)

    def check_next(self, follows: bool, key: int) -> None:
        """Checks that an enumeration does not continue past its end."""
        if follows:
            check(self.listing.left[key] != 0, "status 30, since the enumeration is complete", "status 00")

    def check_token(self, asked: Dict[Any, Any], param: int, permission: int, pins: Pins) -> None:
        """Checks that the last token has a permission, if the request succeeded."""
        check(param in asked, "status 36, since pinUvAuthParam is missing", "status 00")
        permitted = pins.permissions is None or bool(pins.permissions & permission)
        check(permitted, "status 33, since the token lacks the permission", "status 00")

    def check_rp(self, command: Any, parameters: Dict[Any, Any], kept: KnownCredentials, pins: Pins) -> None:
        """Checks that a token with an RP ID is only used for that RP."""
        if pins.rp is None or pins.permissions is None:
            return
        named = kept.get(parameters.get(2, {}).get("id")) if command in (DELETE, UPDATE) else None
        right = command not in (COUNT, LIST_RPS) and (command != LIST or parameters.get(1) == hash_of(pins.rp))
        right = right and (named is None or named.credential.rp == pins.rp)
        check(right, f"status 33, since the token is for {pins.rp}", "status 00")

    def check_listed(
        self, command: int, parameters: Dict[Any, Any], data: bytes, stored: List[Credential], kept: KnownCredentials
    ) -> None:
        """Checks an enumerated credential."""
        self.check_next(command == NEXT, CREDENTIALS)
        self.rp = parameters.get(1, b"") if command == LIST else self.rp
        item = answers.decode_map(data)
        check(item[7].get("id") not in self.deleted, "no deleted credential", item)
        mine = [one for one in stored if hash_of(one.rp) == self.rp]
        one = kept.get(item[7].get("id"))
        named = [one.credential] if one is not None else []
        self.listing.check_credential(item, named, self.rp, len(mine) if command == LIST else None)
        if one is None:
            return
        level = one.extensions.get("credProtect")
        check(level is None or item.get(PROTECTION) == level, f"a credProtect of {level}", item)
        if one.name is not None:
            check(item[6].get("name") == one.name, f"the user's name {one.name}", item)
        if one.extensions.get(BLOB_KEY) is True:
            self.listing.check_blob_key(item, 11, ["blob-key", one.credential.id.hex()])

    def check_change(self, command: int, parameters: Dict[Any, Any], kept: KnownCredentials) -> None:
        """Checks a deletion, or an update of user information."""
        identity = parameters.get(2, {}).get("id")
        one = kept.get(identity)
        check(
            one is not None or not self.listing.is_complete,
            "status 2e, since the credential does not exist",
            "status 00",
        )
        if command == DELETE:
            self.deleted.add(identity)
            kept.remove(identity)
        elif one is not None:
            user = parameters.get(3, {})
            check(user.get("id") == one.credential.user, "status 02, since the user ID differs", "status 00")
            one.name = user.get("name")

    def check_read(self, asked: Dict[Any, Any], data: bytes, info: Dict[Any, Any]) -> None:
        """Checks a read of the array."""
        wrong = OFFSET not in asked or bool({SET, LENGTH, PARAM, 6} & set(asked))
        check(not wrong, "status 02, since a read has only `get` and `offset`", "status 00")
        longest = max(info.get(5, 1024), 1024) - 64
        check(asked[READ] <= longest, f"status 03, since a fragment has at most {longest} bytes", "status 00")
        item = answers.decode_map(data)
        offset, piece = asked[OFFSET], answers.get_member(item, 1, bytes, "a fragment of the array")
        if self.array is None and offset == 0 and len(piece) < asked[READ]:
            check(
                append_hash(piece[:-16]) == piece and len(piece) >= SHORTEST, "an array that ends with its hash", piece
            )
            self.array = piece
        check(len(piece) <= asked[READ], f"at most {quantity(asked[READ], 'byte')}", piece)
        if self.array is not None:
            check(offset <= len(self.array), "status 02, since the offset is past the end", "status 00")
            expected = self.array[offset : offset + asked[READ]]
            if self.is_reset and piece != expected:
                raise ExtensionMismatch("6.6", f"the fragment {expected.hex()}, after the reset", piece.hex())
            check_fragment(item, expected)

    def check_written(self, asked: Dict[Any, Any], pins: Pins, info: Dict[Any, Any]) -> None:
        """Checks a write to the array, and records it."""
        piece, offset = asked.get(SET, b""), asked.get(OFFSET)
        right = SET in asked and offset is not None and (LENGTH in asked) == (offset == 0)
        check(right, "status 02, since only the first fragment has `length`", "status 00")
        options = info.get(4, {})
        if options.get("clientPin") or options.get("uv") or options.get("alwaysUv") or pins.is_set:
            self.check_token(asked, PARAM, MAY_WRITE, pins)
        if offset == 0:
            check(asked[LENGTH] >= SHORTEST, f"status 02, since an array has at least {SHORTEST} bytes", "status 00")
            self.coming, self.expected = b"", asked[LENGTH]
        if self.coming is None:
            return
        check(offset == len(self.coming), f"status 04, since the next offset is {len(self.coming)}", "status 00")
        self.coming = whole = self.coming + piece
        length = len(whole)
        check(length <= self.expected, f"status 02, since the array has {quantity(self.expected, 'byte')}", "status 00")
        if length == self.expected:
            self.coming, self.expected = b"", 0
            check(append_hash(whole[:-16]) == whole, "status 3d, since the hash is wrong", "status 00")
            self.array, self.is_reset = whole, False

    def is_refused(self, asked: Dict[Any, Any], status: int, makes: bool, info: Dict[Any, Any]) -> bool:
        """Checks the input of largeBlobKey; returns whether it was refused."""
        extensions = asked.get(6 if makes else 4, {})
        if BLOB_KEY not in extensions or BLOB_KEY not in info.get(2, []):
            return False
        right = extensions[BLOB_KEY] is True and (not makes or asked.get(7, {}).get("rk") is True)
        if not right and status == 0:
            expected = "status 2c, since largeBlobKey must be true, and needs a discoverable credential to be made"
            raise ExtensionMismatch("12.3", expected, "status 00")
        return not right

    def check_key(self, data: bytes, extensions: Dict[Any, Any], identity: bytes, key: int, made: bool) -> None:
        """Checks the large blob key in a response; with `made`, the credential has one."""
        has_it = extensions.get(BLOB_KEY) is True and made
        words = ["blob-key", identity.hex()] if has_it else ["no-blob-key"]
        try:
            self.listing.check_blob_key(answers.decode_map(data), key, words)
        except Mismatch as differs:
            raise ExtensionMismatch("12.3", differs.expected, differs.actual) from None
