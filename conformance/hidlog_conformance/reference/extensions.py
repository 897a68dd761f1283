"""Extensions of the reference authenticator: credProtect, credBlob, minPinLength and hmac-secret (CTAP 2.1, 12)."""

from __future__ import annotations

import hashlib
import hmac
import os
from typing import TYPE_CHECKING, Any, Dict, Optional

from hidlog_conformance.reference.credential import Credential
from hidlog_conformance.reference.pin import AUTH_INVALID, INVALID_PARAMETER, MISSING, RequestError

if TYPE_CHECKING:
    from hidlog_conformance.reference.requests import ActiveRequest
    from hidlog_conformance.reference.authenticator import Authenticator

LONGEST_BLOB, INVALID_OPTION = 32, 0x2C


class Extensions:
    """Serves extensions."""

    def __init__(self, authenticator: Authenticator) -> None:
        self.authenticator = authenticator

    def list_requested(self, asked: ActiveRequest, place: int) -> Dict[str, Any]:
        """Returns the supported extensions of a request."""
        inputs = asked.item.get(place, {})
        return {name: value for name, value in inputs.items() if name in self.authenticator.traits.extensions}

    def run_make(self, asked: ActiveRequest, new: Credential) -> Dict[str, Any]:
        """Runs the extensions of a registration; returns their outputs."""
        inputs, outputs = self.list_requested(asked, 6), {}
        level = self.authenticator.traits.default_protection
        if "credProtect" in inputs:
            outputs["credProtect"] = self.protect(new, inputs["credProtect"])
        elif level:
            outputs["credProtect"] = self.protect(new, level)
        if "credBlob" in inputs:
            outputs["credBlob"] = self.keep_blob(new, inputs["credBlob"])
        if inputs.get("hmac-secret") is True:
            outputs["hmac-secret"] = True
        if inputs.get("minPinLength") is True and self.authenticator.config.is_authorized(new.rp):
            outputs["minPinLength"] = self.authenticator.pin.shortest
        if "largeBlobKey" in inputs:
            self.check_blob_key_input(inputs["largeBlobKey"], new.discoverable)
            new.blob_key = self.new_blob_key()
        return outputs

    def check_before_touch(self, asked: ActiveRequest) -> None:
        """Checks largeBlobKey before the touch, if the device has this trait."""
        inputs = self.list_requested(asked, 6)
        if self.authenticator.traits.blob_key_first and "largeBlobKey" in inputs:
            self.check_blob_key_input(inputs["largeBlobKey"], bool(asked.options.get("rk")))

    def check_blob_key_input(self, value: Any, discoverable: bool = True) -> None:
        """Refuses largeBlobKey unless it is true and the credential is discoverable."""
        if value is not True or not discoverable:
            raise RequestError(INVALID_OPTION)

    def new_blob_key(self) -> bytes:
        """Returns a new large blob key."""
        return os.urandom(32)

    def blob_key_of(self, asked: ActiveRequest, one: Credential) -> Optional[bytes]:
        """Returns a credential's large blob key, if a sign-in requests it."""
        inputs = self.list_requested(asked, 4)
        if "largeBlobKey" not in inputs:
            return None
        self.check_blob_key_input(inputs["largeBlobKey"])
        return one.blob_key

    def protect(self, new: Credential, policy: Any) -> int:
        """Sets the credProtect level of a credential."""
        if policy not in (1, 2, 3) or isinstance(policy, bool):
            raise RequestError(INVALID_PARAMETER)
        new.protection = policy
        return int(policy)

    def keep_blob(self, new: Credential, blob: Any) -> bool:
        """Stores a blob of a discoverable credential, unless it is too long."""
        fits = isinstance(blob, bytes) and len(blob) <= LONGEST_BLOB and new.discoverable
        new.blob = blob if fits else None
        return fits

    def run_get(self, asked: ActiveRequest, one: Credential) -> Dict[str, Any]:
        """Runs the extensions of a sign-in; returns their outputs."""
        inputs, outputs = self.list_requested(asked, 4), {}
        if inputs.get("credBlob") is True:
            outputs["credBlob"] = one.blob or b""
        if isinstance(inputs.get("hmac-secret"), dict):
            outputs["hmac-secret"] = self.secret(asked, one, inputs["hmac-secret"])
        return outputs

    def secret(self, asked: ActiveRequest, one: Credential, inputs: Dict[int, Any]) -> bytes:
        """Returns the secrets of one or two salts, encrypted."""
        if not asked.present:
            raise RequestError(0x2B)
        if not all(key in inputs for key in (1, 2, 3)):
            raise RequestError(MISSING)
        protocol = self.authenticator.pin.protocol({1: inputs.get(4, 1)}, 1)
        key = protocol.compute_secret(inputs[1])
        if not self.is_salt_authentic(protocol, key, inputs):
            raise RequestError(AUTH_INVALID)
        salts = protocol.decrypt(key, inputs[2])
        if len(salts) not in (32, 64):
            raise RequestError(INVALID_PARAMETER)
        random = self.random(asked, one)
        parts = [
            hmac.new(random, salts[start : start + 32], hashlib.sha256).digest() for start in range(0, len(salts), 32)
        ]
        return protocol.encrypt(key, b"".join(parts))

    def is_salt_authentic(self, protocol: Any, key: bytes, inputs: Dict[int, Any]) -> bool:
        """Returns whether saltAuth is right."""
        return bool(protocol.verify(key, inputs[2], inputs[3]))

    def random(self, asked: ActiveRequest, one: Credential) -> bytes:
        """Returns CredRandom, which differs with user verification."""
        return one.random_verified if asked.verified else one.random
