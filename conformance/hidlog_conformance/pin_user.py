"""Verifies the user by the PIN of --pin, before each request that requires user verification."""

from __future__ import annotations

import os
from dataclasses import replace
from typing import Any, Callable, Dict, Iterable, Optional, Tuple

from hidlog_conformance import answers, ctap_cbor
from hidlog_conformance.answers import CaseSkipped, Credential
from hidlog_conformance.credential_reuse import may_have_own_rps
from hidlog_conformance.device_info import DeviceInfo, list_requests
from hidlog_conformance.judged_stored import DELETE, MANAGE
from hidlog_conformance.outline import decode_parameters, get_cbor_request
from hidlog_conformance.platform_side import Platform
from hidlog_conformance.requests import PIN, find_fault
from hidlog_conformance.session_file import Session, Step, sends_reset

GET_AGREEMENT, SET_PIN, GET_TOKEN, NEW_TOKEN = 2, 3, 5, 9
# The placeholders for a new PIN and for the hash of a PIN, and entries of `uses` in sessions with tokens.
ENCRYPT, HASH, TOKENS_USED = b"=encrypt:", b"=hash:", "pin token"
# The permission cm of a token.
MANAGES = 4
# By command, the keys of pinUvAuthParam and of the member that it authenticates; and the permissions mc and ga.
KEYS = {answers.MAKE: (8, 1), answers.GET: (6, 2)}
PERMISSIONS = {answers.MAKE: 1, answers.GET: 2}
# Sends a request and returns the response.
Exchange = Callable[[bytes], bytes]


class WrongPinError(ValueError):
    """The device refused the PIN of --pin."""


class PinUser:
    """The user of a device with a PIN."""

    def __init__(self, pin: str, device_info: DeviceInfo) -> None:
        self.pin = pin.encode()
        self.device_info = device_info

    def required_rp(self, request: bytes) -> Optional[str]:
        """Returns the RP ID of a request that lacks required user verification. Returns None for other requests, and
        for invalid ones, which the device refuses first."""
        if request[:1] not in (bytes([answers.MAKE]), bytes([answers.GET])) or find_fault(request) is not None:
            return None
        command, asked = request[0], decode_parameters(request)
        rp = asked[2]["id"] if command == answers.MAKE else asked[1]
        if KEYS[command][0] in asked or not self.device_info.requires_verification(command, asked):
            return None
        return str(rp)

    def can_replace(self, session: Session) -> bool:
        """Returns whether the device's PIN can replace the one that a session sets: the session uses no other PIN."""
        requests = [request for request in map(get_cbor_request, session.steps) if request]
        asked = [decode_parameters(request) for request in requests if request[0] == PIN]
        pins = [item[5][len(ENCRYPT) :].rstrip(b"\0") for item in asked if item.get(2) == SET_PIN]
        hashes = [item[6][len(HASH) :] for item in asked if 6 in item]
        others = {request[0] for request in requests} - {PIN, answers.MAKE, answers.GET}
        kinds = {item.get(2) for item in asked} - {SET_PIN, GET_AGREEMENT, GET_TOKEN, NEW_TOKEN}
        is_successful = all(step.expects == ["status 00"] for step in session.steps if self.sets_pin(step))
        is_same = len(pins) <= 1 and all(pins[:1] == [pin] for pin in hashes)
        return TOKENS_USED in session.uses and not others and not kinds and is_same and is_successful

    def without_own_pin(self, session: Session) -> Session:
        """Returns the session without the requirement of a device without a PIN, if the device's PIN can replace its
        own."""
        if not self.can_replace(session):
            return session
        return replace(session, uses=[use for use in session.uses if use != TOKENS_USED])

    def sets_pin(self, step: Step) -> bool:
        """Returns whether a step sets a PIN. Such steps are left out, since the device has a PIN."""
        request = get_cbor_request(step)
        return request[:1] == bytes([PIN]) and decode_parameters(request).get(2) == SET_PIN

    def find_obstacle(self, session: Session) -> str:
        """Returns why a session cannot be played with tokens of --pin, or an empty string."""
        if any(map(sends_reset, session.steps)):
            return "a reset removes the PIN of --pin"
        if any(map(self.sets_pin, session.steps)):
            # The session gets its own tokens, and has sign-ins before it sets the PIN.
            signs_in = any(
                request[0] == answers.GET and self.required_rp(request) for request in list_requests(session)
            )
            return "a sign-in without a token" if signs_in else ""
        whole = [get_cbor_request(step) for step in session.steps]
        needed = [request for request in list_requests(session) if self.required_rp(request) is not None]
        if any(request not in whole for request in needed):
            return "a request in pieces, to which no token can be added"
        if needed and "extension credProtect" in session.uses and self.device_info.options.get("alwaysUv"):
            return "user verification shows what credProtect hides"
        return ""

    def find_rp_prefix(self, session: Session) -> str:
        """Returns a prefix for the RP IDs of a session that needs an authenticator without credentials, or an empty
        string if a prefix does not suffice. The session's credentials are deleted afterwards."""
        may_stay = may_have_own_rps(session) or self.can_replace(session)
        if self.device_info.options.get("credMgmt") is not True or not may_stay:
            return ""
        return os.urandom(4).hex() + "."

    def delete(self, credentials: Iterable[Credential], exchange: Exchange) -> None:
        """Deletes the discoverable credentials that a session made."""
        for credential in credentials:
            platform = self.get_token(exchange, MANAGES, credential.rp)
            named = {2: {"id": credential.id, "type": "public-key"}}
            signed = bytes([DELETE]) + ctap_cbor.encode(named)
            asked = {1: DELETE, 2: named, 3: platform.protocol, 4: platform.authenticate(platform.token, signed)}
            exchange(bytes([MANAGE]) + ctap_cbor.encode(asked))

    def get_token(self, exchange: Exchange, permission: int, rp: str) -> Platform:
        """Gets a token for one request; returns the platform that has it."""
        platform = Platform()
        protocol = self.device_info.info.get(6, [1])[0]
        asked: Dict[int, Any] = {1: protocol, 2: GET_AGREEMENT}
        platform.agree(answers.decode_map(exchange(bytes([PIN]) + ctap_cbor.encode(asked))), asked)
        asked = {1: protocol, 2: GET_TOKEN, 3: b"=agreement", 6: b"=hash:" + self.pin}
        if self.device_info.options.get("pinUvAuthToken") is True and (rp or permission not in PERMISSIONS.values()):
            asked.update({2: NEW_TOKEN, 9: permission})
            if rp:
                asked[10] = rp
        data = exchange(platform.fill(bytes([PIN]) + ctap_cbor.encode(asked)))
        if data[:1] != b"\0":
            raise WrongPinError(f"the device refused the PIN with status {data.hex()}; nothing else was tried")
        platform.take_token(answers.decode_map(data))
        return platform

    def add_token(self, request: bytes, exchange: Exchange) -> Tuple[bytes, bool]:
        """Returns the request, with pinUvAuthParam if it requires user verification; and whether pinUvAuthParam was
        added."""
        rp = self.required_rp(request)
        if rp is None:
            return request, False
        platform = self.get_token(exchange, PERMISSIONS[request[0]], rp)
        key, covered = KEYS[request[0]]
        asked = decode_parameters(request)
        asked.update({key: platform.authenticate(platform.token, asked[covered]), key + 1: platform.protocol})
        found = request[:1] + ctap_cbor.encode(asked)
        longest = max(1024, self.device_info.info.get(5, 1024))
        if len(found) > longest >= len(request):
            raise CaseSkipped(f"with pinUvAuthParam the request is longer than {longest} bytes")
        return found, True
