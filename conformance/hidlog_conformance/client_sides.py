"""The PIN and U2F functions of the device that sessions for clients play."""

from __future__ import annotations

from typing import Any, Dict, Tuple

from hidlog_conformance.reference.authenticator import Authenticator
from hidlog_conformance.reference.pin import Pin, RequestError
from hidlog_conformance.reference.traits import DeviceTraits
from hidlog_conformance.reference.u2f import U2f

PIN = "1234"
# The subcommands of authenticatorClientPIN, and their kinds in rules.
SUBCOMMANDS = {1: "retries", 2: "agree", 5: "token", 9: "token"}
# The key of pinUvAuthParam; the protocol has the next key.
PARAMETERS = {"make": 8, "get": 6}
APDUS = {1: "u2f-register", 2: "u2f-sign", 3: "u2f-version"}
AUTH_INVALID, NEEDS_TOKEN = 0x33, 0x36


class PinSide:
    """A PIN that is set, with both protocols."""

    def __init__(self) -> None:
        self.pin = Pin((1, 2), PIN)

    def serve(self, asked: Dict[Any, Any]) -> Tuple[str, int, Dict[int, Any]]:
        """Returns the kind of a subcommand, and the status and the map of its response."""
        kind = SUBCOMMANDS.get(asked.get(2, 0), "pin")
        try:
            return kind, 0, self.pin.serve(asked)
        except RequestError as refused:
            return kind, refused.status, {}

    def judge(self, kind: str, asked: Dict[Any, Any]) -> int:
        """Returns the status of a request that needs a token."""
        place = PARAMETERS[kind]
        param, protocol = asked.get(place), self.pin.protocols.get(asked.get(place + 1, 0))
        if not param or protocol is None:
            return NEEDS_TOKEN
        client_hash = asked[1] if kind == "make" else asked[2]
        return 0 if self.pin.is_authentic(protocol, client_hash, param) else AUTH_INVALID


class U2fSide:
    """A U2F-only device that was touched."""

    def __init__(self) -> None:
        self.u2f = U2f(Authenticator(DeviceTraits()))

    def serve(self, apdu: bytes) -> Tuple[str, bytes]:
        """Returns the kind of an APDU, and its response."""
        self.u2f.touched = 0
        return APDUS.get(apdu[1] if len(apdu) > 1 else 0, "u2f"), self.u2f.serve(0, apdu)
