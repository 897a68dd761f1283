#!/usr/bin/env python3
"""A small authenticator in Python, with python-fido2's CBOR and no code of this project's core.

It was written from CTAP 2.1 before any test was run against it. Its errors are kept, and listed in python_key.failed.
Reads and writes packets as lines of 128 hexadecimal digits; the line `touch` means that the user touches the key.
"""

from __future__ import annotations

import hashlib
import os
import select
import struct
import sys
import time
from typing import Any, Dict, List, Optional

from cryptography.hazmat.primitives import hashes
from cryptography.hazmat.primitives.asymmetric import ec
from fido2 import cbor
from python_hid import Hid, Work

AAGUID = bytes.fromhex("70797468 6f6e2d6b 65792d66 6f722d63".replace(" ", ""))
INVALID_COMMAND, INVALID_PARAMETER, UNEXPECTED_TYPE, INVALID_CBOR, MISSING = 0x01, 0x02, 0x11, 0x12, 0x14
EXCLUDED, ALGORITHM, FULL, UNSUPPORTED, INVALID_OPTION = 0x19, 0x26, 0x28, 0x2B, 0x2C
NO_CREDENTIALS, NOT_ALLOWED, PIN_NOT_SET = 0x2E, 0x30, 0x35
CAPACITY = 100


class RequestError(Exception):
    """Ends a request with a status."""

    def __init__(self, status: int) -> None:
        super().__init__(status)
        self.status = status


class Credential:
    """A credential of the authenticator."""

    def __init__(self, rp: str, user: Dict[str, Any], discoverable: bool) -> None:
        self.id = os.urandom(32)
        self.rp = rp
        self.user = user
        self.discoverable = discoverable
        self.private = ec.generate_private_key(ec.SECP256R1())
        self.counter = 0

    def cose(self) -> bytes:
        """Returns the public key."""
        public = self.private.public_key().public_numbers()
        x, y = public.x.to_bytes(32, "big"), public.y.to_bytes(32, "big")
        written: bytes = cbor.encode({1: 2, 3: -7, -1: 1, -2: x, -3: y})
        return written

    def sign(self, data: bytes) -> bytes:
        """Returns a signature."""
        return self.private.sign(data, ec.ECDSA(hashes.SHA256()))


def member(item: Dict[Any, Any], key: Any, kind: type, required: bool = True) -> Any:
    """Returns a member of a type; None if it is missing and not required."""
    if key not in item:
        if required:
            raise RequestError(MISSING)
        return None
    if not isinstance(item[key], kind) or (kind is int and isinstance(item[key], bool)):
        raise RequestError(UNEXPECTED_TYPE)
    return item[key]


def list_ids(item: Dict[Any, Any], key: int) -> Optional[List[bytes]]:
    """Returns the IDs of the descriptors with the type public-key."""
    found = member(item, key, list, False)
    if found is None:
        return None
    ids = []
    for entry in found:
        if not isinstance(entry, dict):
            raise RequestError(UNEXPECTED_TYPE)
        identity, kind = member(entry, "id", bytes), member(entry, "type", str)
        if kind == "public-key":
            ids.append(identity)
    return ids


def read_options(item: Dict[Any, Any], key: int) -> Dict[str, bool]:
    """Returns the options; refuses user verification, which is not supported."""
    found = member(item, key, dict, False) or {}
    options = {name: member(found, name, bool) for name in ("rk", "up", "uv") if name in found}
    if options.get("uv"):
        raise RequestError(INVALID_OPTION)
    return options


class Key:
    """Runs requests; the transport asks for touches."""

    def __init__(self, credentials: Optional[List[Credential]] = None) -> None:
        self.credentials: List[Credential] = credentials or []
        self.hid = Hid(self.serve)
        self.pending: List[Credential] = []
        self.pending_hash = b""
        self.pending_channel = 0
        self.pending_until = 0

    def serve(self, at: int, channel: int, data: bytes) -> Work:
        """Serves a request."""
        try:
            if data[0] == 8:
                return (yield from self.next(at, channel))
            self.pending = []
            if data[0] == 4:
                return self.info()
            if data[0] == 7:
                return (yield from self.reset(at))
            if data[0] == 11:
                yield
                return b"\0"
            if data[0] not in (1, 2):
                raise RequestError(INVALID_COMMAND)
            item = self.parameters(data[1:])
            return (yield from self.make(item) if data[0] == 1 else self.get(at, channel, item))
        except RequestError as refused:
            return bytes([refused.status])

    def parameters(self, data: bytes) -> Dict[Any, Any]:
        """Decodes the parameters, a map."""
        try:
            item = cbor.decode(data)
        except Exception:
            # python-fido2's decoder may raise any exception.
            raise RequestError(INVALID_CBOR) from None
        if not isinstance(item, dict):
            raise RequestError(UNEXPECTED_TYPE)
        return item

    def refuse_pin(self, item: Dict[Any, Any], param: int) -> Work:
        """Refuses pinUvAuthParam: PINs are not supported."""
        auth_param = member(item, param, bytes, False)
        if auth_param == b"":
            yield
            raise RequestError(PIN_NOT_SET)
        if auth_param is not None:
            member(item, param + 1, int)
            raise RequestError(INVALID_PARAMETER)
        return b""

    def make(self, item: Dict[Any, Any]) -> Work:
        """Serves authenticatorMakeCredential."""
        client_hash, rp = member(item, 1, bytes), member(item, 2, dict)
        user, kinds = member(item, 3, dict), member(item, 4, list)
        rp_id = member(rp, "id", str)
        member(user, "id", bytes)
        excluded = list_ids(item, 5) or []
        options = read_options(item, 7)
        yield from self.refuse_pin(item, 8)
        if not [1 for kind in kinds if member(kind, "type", str) == "public-key" and member(kind, "alg", int) == -7]:
            raise RequestError(ALGORITHM)
        if options.get("up") is False:
            raise RequestError(INVALID_OPTION)
        if 10 in item:
            raise RequestError(INVALID_PARAMETER)
        if [one for one in self.credentials if one.rp == rp_id and one.id in excluded]:
            yield
            raise RequestError(EXCLUDED)
        yield
        return self.make_credential_response(rp_id, user, options.get("rk", False), client_hash)

    def make_credential_response(
        self, rp_id: str, user: Dict[str, Any], discoverable: bool, client_hash: bytes
    ) -> bytes:
        """Returns the response with a new credential."""
        new = Credential(rp_id, user, discoverable)
        if discoverable:
            same = [one for one in self.credentials if one.rp == rp_id and one.user["id"] == user["id"]]
            self.credentials = [one for one in self.credentials if one not in same or not one.discoverable]
        if len(self.credentials) >= CAPACITY:
            raise RequestError(FULL)
        self.credentials.append(new)
        attested = AAGUID + struct.pack(">H", len(new.id)) + new.id + new.cose()
        auth = hashlib.sha256(rp_id.encode()).digest() + b"\x41" + struct.pack(">I", new.counter) + attested
        statement = {"alg": -7, "sig": new.sign(auth + client_hash)}
        return b"\0" + bytes(cbor.encode({1: "packed", 2: auth, 3: statement}))

    def get(self, at: int, channel: int, item: Dict[Any, Any]) -> Work:
        """Serves authenticatorGetAssertion."""
        rp_id, client_hash = member(item, 1, str), member(item, 2, bytes)
        allowed, options = list_ids(item, 3), read_options(item, 5)
        yield from self.refuse_pin(item, 6)
        if "rk" in options:
            raise RequestError(UNSUPPORTED)
        found = [one for one in reversed(self.credentials) if one.rp == rp_id]
        if allowed:
            found = [one for one in found if one.id in allowed][:1]
        else:
            found = [one for one in found if one.discoverable]
        if not found:
            raise RequestError(NO_CREDENTIALS)
        present = options.get("up", True)
        if present:
            yield
        self.pending, self.pending_hash = found[1:], client_hash
        self.pending_channel, self.pending_until = channel, at + 60000
        more = {5: len(found)} if len(found) > 1 else {}
        return self.make_assertion_response(found[0], client_hash, present, not allowed, more)

    def make_assertion_response(
        self, one: Credential, client_hash: bytes, present: bool, name: bool, more: Dict[int, int]
    ) -> bytes:
        """Returns an assertion."""
        one.counter += 1
        auth = hashlib.sha256(one.rp.encode()).digest() + bytes([present]) + struct.pack(">I", one.counter)
        answer: Dict[int, Any] = {1: {"id": one.id, "type": "public-key"}, 2: auth, 3: one.sign(auth + client_hash)}
        if name:
            answer[4] = {"id": one.user["id"]}
        answer.update(more)
        return b"\0" + bytes(cbor.encode(answer))

    def next(self, at: int, channel: int) -> Work:
        """Serves authenticatorGetNextAssertion."""
        if not self.pending or channel != self.pending_channel or at > self.pending_until:
            raise RequestError(NOT_ALLOWED)
        self.pending_until = at + 30000
        yield from ()
        return self.make_assertion_response(self.pending.pop(0), self.pending_hash, True, True, {})

    def info(self) -> bytes:
        """Serves authenticatorGetInfo."""
        answer = {1: ["FIDO_2_0", "FIDO_2_1"], 3: AAGUID, 4: {"rk": True, "up": True}, 5: 2048}
        answer[10] = [{"alg": -7, "type": "public-key"}]
        return b"\0" + bytes(cbor.encode(answer))

    def reset(self, at: int) -> Work:
        """Runs authenticatorReset, only in the first ten seconds."""
        if at > 10000:
            raise RequestError(NOT_ALLOWED)
        yield
        self.credentials = []
        return b"\0"


def take(key: Key, line: bytes, at: int) -> None:
    """Processes a line of the input."""
    if line == b"touch":
        key.hid.touch(at)
    else:
        key.hid.packet(at, bytes.fromhex(line.decode()))


def serve(key: Key) -> None:
    """Runs until the end of input."""
    start, rest = time.monotonic(), b""
    while True:
        ready, _, _ = select.select([sys.stdin], [], [], 0.05)
        at = int((time.monotonic() - start) * 1000)
        piece = os.read(sys.stdin.fileno(), 4096) if ready else b""
        if ready and not piece:
            return
        *lines, rest = (rest + piece).split(b"\n")
        for line in lines:
            take(key, line, at)
        key.hid.tick(at)
        for packet in key.hid.out:
            print(packet.hex(), flush=True)
        key.hid.out.clear()


if __name__ == "__main__":
    serve(Key())
