"""Fingerprint enrolment of the reference authenticator (CTAP 2.1, 6.7). Each touch counts as a sample of a finger."""

from __future__ import annotations

import os
from typing import TYPE_CHECKING, Any, Dict

from hidlog_conformance.ctap_cbor import encode
from hidlog_conformance.reference.pin import (
    AUTH_INVALID,
    ENROLL,
    INVALID_PARAMETER,
    INVALID_SUBCOMMAND,
    MISSING,
    NOT_ALLOWED,
    RequestError,
)

if TYPE_CHECKING:
    from hidlog_conformance.reference.authenticator import Authenticator

PIN_REQUIRED, INVALID_OPTION, TIMEOUT, FULL = 0x36, 0x2C, 0x2F, 0x17
FINGERPRINT, TOUCH_SENSOR = 1, 1
BEGIN, NEXT_SAMPLE, CANCEL, ENUMERATE, RENAME, REMOVE, SENSOR = 1, 2, 3, 4, 5, 6, 7
SAMPLES, GOOD, LONGEST_NAME, CAPACITY = 3, 0, 64, 5


class BioEnrollment:
    """Serves authenticatorBioEnrollment."""

    def __init__(self, authenticator: Authenticator) -> None:
        self.authenticator = authenticator
        self.templates: Dict[bytes, str] = {}
        # The template that is being enrolled, and remainingSamples.
        self.coming, self.remaining = b"", 0

    def forget(self) -> None:
        """Processes a reset."""
        self.templates, self.coming = {}, b""

    def serve(self, asked: Dict[int, Any]) -> Any:
        """Serves a subcommand, or getModality."""
        if asked.get(6):
            return {1: FINGERPRINT}
        if 1 not in asked or 2 not in asked:
            raise RequestError(MISSING)
        if asked[1] != FINGERPRINT:
            raise RequestError(INVALID_PARAMETER)
        if asked[2] == SENSOR:
            return {2: TOUCH_SENSOR, 3: SAMPLES, 8: LONGEST_NAME}
        if asked[2] == CANCEL:
            self.coming = b""
            return {}
        served = {BEGIN: self.begin, NEXT_SAMPLE: self.take_next_sample, ENUMERATE: self.enumerate}
        served.update({RENAME: self.rename, REMOVE: self.remove})
        if asked[2] not in served:
            raise RequestError(INVALID_SUBCOMMAND)
        self.authorize(asked)
        return (yield from served[asked[2]](asked.get(3, {})))

    def authorize(self, asked: Dict[int, Any]) -> None:
        """Refuses a request without a token with the permission be."""
        if 5 not in asked:
            raise RequestError(PIN_REQUIRED)
        pin = self.authenticator.pin
        protocol = pin.protocol(asked, 4)
        data = bytes([FINGERPRINT, asked[2]]) + (encode(asked[3]) if 3 in asked else b"")
        if not pin.hash or not pin.is_authentic(protocol, data, asked[5]) or not pin.permissions & ENROLL:
            raise RequestError(AUTH_INVALID)

    def sample(self) -> Any:
        """Takes a sample; the last one stores the template."""
        reply = yield
        if reply != "granted":
            raise RequestError(TIMEOUT)
        self.remaining -= 1
        answer = {4: self.coming, 5: GOOD, 6: self.remaining}
        if not self.remaining:
            self.templates[self.coming] = ""
            self.coming = b""
        return answer

    def begin(self, asked: Dict[int, Any]) -> Any:
        """Begins an enrolment with its first sample."""
        if len(self.templates) >= CAPACITY:
            raise RequestError(FULL)
        self.coming, self.remaining = os.urandom(8), SAMPLES
        return (yield from self.sample())

    def take_next_sample(self, asked: Dict[int, Any]) -> Any:
        """Takes a further sample."""
        if asked.get(1) is None:
            raise RequestError(MISSING)
        if not self.coming or asked[1] != self.coming:
            raise RequestError(NOT_ALLOWED)
        return (yield from self.sample())

    def enumerate(self, asked: Dict[int, Any]) -> Any:
        """Lists the templates."""
        yield from ()
        if not self.templates:
            raise RequestError(INVALID_OPTION)
        return {7: [{1: one, 2: name} if name else {1: one} for one, name in self.templates.items()]}

    def get_template(self, asked: Dict[int, Any]) -> bytes:
        """Returns the template of a request."""
        if 1 not in asked:
            raise RequestError(MISSING)
        if asked[1] not in self.templates:
            raise RequestError(INVALID_OPTION)
        return bytes(asked[1])

    def rename(self, asked: Dict[int, Any]) -> Any:
        """Sets a template's name."""
        yield from ()
        self.templates[self.get_template(asked)] = asked.get(2, "")
        return {}

    def remove(self, asked: Dict[int, Any]) -> Any:
        """Removes a template."""
        yield from ()
        del self.templates[self.get_template(asked)]
        return {}
