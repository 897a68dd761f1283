"""Credential management of the reference authenticator (CTAP 2.1, 6.8)."""

from __future__ import annotations

import hashlib
from typing import TYPE_CHECKING, Any, Dict, List

from hidlog_conformance.ctap_cbor import encode
from hidlog_conformance.reference.credential import Credential
from hidlog_conformance.reference.pin import (
    AUTH_INVALID,
    INVALID_PARAMETER,
    INVALID_SUBCOMMAND,
    MANAGE,
    MISSING,
    NOT_ALLOWED,
    RequestError,
)

if TYPE_CHECKING:
    from hidlog_conformance.reference.authenticator import Authenticator

NO_CREDENTIALS, PIN_REQUIRED = 0x2E, 0x36
METADATA, RPS, NEXT_RP, OF_RP, NEXT_OF_RP, DELETE, UPDATE = 1, 2, 3, 4, 5, 6, 7


class Management:
    """Serves authenticatorCredentialManagement."""

    def __init__(self, authenticator: Authenticator) -> None:
        self.authenticator = authenticator
        self.rps: List[str] = []
        self.left: List[Credential] = []

    def list_stored(self) -> List[Credential]:
        """Returns the discoverable credentials."""
        return [one for one in self.authenticator.credentials if one.discoverable]

    def serve(self, asked: Dict[int, Any]) -> Dict[int, Any]:
        """Serves a subcommand."""
        if 1 not in asked:
            raise RequestError(MISSING)
        if asked[1] == NEXT_RP:
            return self.next_rp()
        if asked[1] == NEXT_OF_RP:
            return self.next_of_rp()
        served = {METADATA: self.metadata, RPS: self.first_rp, OF_RP: self.first_of_rp, DELETE: self.delete}
        served[UPDATE] = self.update
        if asked[1] not in served:
            raise RequestError(INVALID_SUBCOMMAND)
        self.authorize(asked)
        return served[asked[1]](asked.get(2, {}))

    def authorize(self, asked: Dict[int, Any]) -> None:
        """Refuses a request without a token with the permission cm."""
        if 4 not in asked:
            raise RequestError(PIN_REQUIRED)
        pin = self.authenticator.pin
        protocol = pin.protocol(asked, 3)
        data = bytes([asked[1]]) + (encode(asked[2]) if 2 in asked else b"")
        if not self.authenticator.is_protected or not pin.is_authentic(protocol, data, asked[4]):
            raise RequestError(AUTH_INVALID)
        if not pin.permissions & MANAGE or not self.is_permitted(asked[1], asked.get(2, {}), pin.rp):
            raise RequestError(AUTH_INVALID)

    def is_permitted(self, command: int, asked: Dict[int, Any], rp: str) -> bool:
        """Returns whether the token's RP ID permits the subcommand: a token for an RP may only manage that RP."""
        if not rp or command in (METADATA, RPS):
            return not rp
        if command == OF_RP:
            return asked.get(1) in (None, hashlib.sha256(rp.encode()).digest())
        named = asked[2].get("id") if isinstance(asked.get(2), dict) else None
        return all(one.rp == rp for one in self.list_stored() if one.id == named)

    def metadata(self, asked: Dict[int, Any]) -> Dict[int, Any]:
        """Returns the number of stored credentials, and the remaining capacity."""
        return {1: len(self.list_stored()), 2: self.authenticator.traits.capacity - len(self.authenticator.credentials)}

    def first_rp(self, asked: Dict[int, Any]) -> Dict[int, Any]:
        """Returns the first RP, and the total."""
        self.rps = list(dict.fromkeys(one.rp for one in self.list_stored()))
        if not self.rps:
            raise RequestError(NO_CREDENTIALS)
        return {**self.next_rp(), 5: len(self.rps) + 1}

    def next_rp(self) -> Dict[int, Any]:
        """Returns the next RP."""
        if not self.rps:
            raise RequestError(NOT_ALLOWED)
        rp = self.rps.pop(0)
        return {3: {"id": rp}, 4: hashlib.sha256(rp.encode()).digest()}

    def first_of_rp(self, asked: Dict[int, Any]) -> Dict[int, Any]:
        """Returns the first credential of an RP, and the total."""
        if 1 not in asked:
            raise RequestError(MISSING)
        self.left = [one for one in self.list_stored() if hashlib.sha256(one.rp.encode()).digest() == asked[1]]
        if not self.left:
            raise RequestError(NO_CREDENTIALS)
        return {**self.next_of_rp(), 9: len(self.left) + 1}

    def next_of_rp(self) -> Dict[int, Any]:
        """Returns the next credential."""
        if not self.left:
            raise RequestError(NOT_ALLOWED)
        one = self.left.pop(0)
        descriptor = {"id": one.id, "type": "public-key"}
        found = {6: one.user, 7: descriptor, 8: one.cose(), 10: one.protection}
        if one.blob_key is not None:
            found[11] = one.blob_key
        return found

    def get_credential(self, asked: Dict[int, Any]) -> Credential:
        """Returns the credential of a request."""
        if not isinstance(asked.get(2), dict) or "id" not in asked[2]:
            raise RequestError(MISSING)
        for one in self.list_stored():
            if one.id == asked[2]["id"]:
                return one
        raise RequestError(NO_CREDENTIALS)

    def delete(self, asked: Dict[int, Any]) -> Dict[int, Any]:
        """Removes a credential."""
        self.authenticator.credentials.remove(self.get_credential(asked))
        return {}

    def update(self, asked: Dict[int, Any]) -> Dict[int, Any]:
        """Updates the user information of a credential."""
        one = self.get_credential(asked)
        if not isinstance(asked.get(3), dict) or asked[3].get("id") != one.user["id"]:
            raise RequestError(INVALID_PARAMETER)
        one.user = dict(asked[3])
        return {}
