"""Configuration of the reference authenticator: alwaysUv, minPINLength, enterprise attestation (CTAP 2.1, 6.11)."""

from __future__ import annotations

from typing import TYPE_CHECKING, Any, Dict, List

from hidlog_conformance.ctap_cbor import encode
from hidlog_conformance.reference.pin import (
    AUTH_INVALID,
    CONFIGURE,
    INVALID_PARAMETER,
    MISSING,
    NOT_SET,
    POLICY,
    RequestError,
)

if TYPE_CHECKING:
    from hidlog_conformance.reference.authenticator import Authenticator

PIN_REQUIRED, FULL = 0x36, 0x28
EXTENSION = "minPinLength"
COMMAND, ENABLE_ENTERPRISE, TOGGLE_ALWAYS_UV, SET_MIN_PIN_LENGTH = 0x0D, 1, 2, 3
NEW_LENGTH, RP_IDS, FORCE_CHANGE = 1, 2, 3
LONGEST_PIN = 63


class Config:
    """Serves authenticatorConfig, and keeps its settings until a reset."""

    def __init__(self, authenticator: Authenticator) -> None:
        self.authenticator = authenticator
        self.is_enterprise = False
        self.always_uv = authenticator.traits.always_uv
        # The RPs that are authorized to get minPINLength (minPinLengthRPIDs).
        self.rps: List[str] = []

    def forget(self) -> None:
        """Processes a reset."""
        self.is_enterprise = False
        self.always_uv = self.authenticator.traits.always_uv
        self.rps = []

    def serve(self, asked: Dict[int, Any]) -> Dict[int, Any]:
        """Serves a subcommand."""
        if 1 not in asked:
            raise RequestError(MISSING)
        served = {ENABLE_ENTERPRISE: self.enable_enterprise, TOGGLE_ALWAYS_UV: self.toggle_always_uv}
        served[SET_MIN_PIN_LENGTH] = self.set_min_pin_length
        if asked[1] not in served:
            raise RequestError(INVALID_PARAMETER)
        self.authorize(asked)
        served[asked[1]](asked.get(2, {}))
        return {}

    def authorize(self, asked: Dict[int, Any]) -> None:
        """Refuses a request without a token with the permission acfg."""
        pin = self.authenticator.pin
        if not self.authenticator.is_protected:
            return
        if 4 not in asked:
            raise RequestError(PIN_REQUIRED)
        protocol = pin.protocol(asked, 3)
        data = b"\xff" * 32 + bytes([COMMAND, asked[1]]) + (encode(asked[2]) if 2 in asked else b"")
        if not pin.is_authentic(protocol, data, asked[4]) or not pin.permissions & CONFIGURE:
            raise RequestError(AUTH_INVALID)

    def enable_enterprise(self, asked: Dict[int, Any]) -> None:
        """Enables enterprise attestation (6.11.1)."""
        self.is_enterprise = True

    def toggle_always_uv(self, asked: Dict[int, Any]) -> None:
        """Turns alwaysUv on or off (6.11.2)."""
        self.always_uv = not self.always_uv

    def set_min_pin_length(self, asked: Dict[int, Any]) -> None:
        """Sets minPINLength, minPinLengthRPIDs and forceChangePin (6.11.4)."""
        pin = self.authenticator.pin
        new = asked.get(NEW_LENGTH, pin.shortest)
        if RP_IDS in asked and EXTENSION not in self.authenticator.traits.extensions:
            raise RequestError(INVALID_PARAMETER)
        if not pin.shortest <= new <= LONGEST_PIN:
            raise RequestError(POLICY)
        if asked.get(FORCE_CHANGE) and not pin.hash:
            raise RequestError(NOT_SET)
        self.authorize_rps(asked)
        pin.shortest = new
        if asked.get(FORCE_CHANGE) or (pin.hash and pin.length < new):
            pin.must_change = True
            self.end_tokens()

    def authorize_rps(self, asked: Dict[int, Any]) -> None:
        """Replaces the RPs that are authorized to get minPINLength."""
        if len(asked.get(RP_IDS, [])) > self.authenticator.traits.max_rp_ids:
            raise RequestError(FULL)
        self.rps = list(asked.get(RP_IDS, self.rps))

    def is_authorized(self, rp: str) -> bool:
        """Returns whether an RP is authorized to get minPINLength (12.4)."""
        return rp in self.rps

    def end_tokens(self) -> None:
        """Invalidates the token, since the PIN must be changed first."""
        self.authenticator.pin.permissions = 0
