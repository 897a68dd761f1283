"""Lets cases that need any credential reuse one of another case, so that a person touches the device less often."""

from __future__ import annotations

from typing import Any, Dict, List, Optional

from hidlog_conformance import ctap_cbor
from hidlog_conformance.answers import GET, MAKE, RESET, Credential
from hidlog_conformance.outline import CHANGE_PIN, MAX_REGISTRATIONS, PIN, REGISTRATION, SET_PIN
from hidlog_conformance.outline import decode_parameters, get_cbor_request
from hidlog_conformance.session_file import Session

# The expectation of registrations whose credential other cases can reuse.
PLAIN = ["made", "up"]
# Features whose commands see all credentials, so that those of other cases would interfere.
GLOBAL_FEATURES = ("credMgmt", "largeBlobs", "no protection")


def prefix_rp_id(request: bytes, front: str) -> bytes:
    """Returns a request with a prefix added to its RP ID."""
    asked = decode_parameters(request)
    if request[:1] == bytes([MAKE]) and isinstance(asked.get(2), dict) and isinstance(asked[2].get("id"), str):
        asked[2] = {**asked[2], "id": front + asked[2]["id"]}
    elif request[:1] == bytes([GET]) and isinstance(asked.get(1), str):
        asked[1] = front + asked[1]
    elif request[:1] == bytes([PIN]) and isinstance(asked.get(10), str):
        asked[10] = front + asked[10]
    else:
        return request
    return request[:1] + ctap_cbor.encode(asked)


def without_values(asked: Dict[Any, Any]) -> Dict[Any, Any]:
    """Returns the parameters of a registration without clientDataHash, and without the user ID if the credential is not
    discoverable, since they do not matter to other cases."""
    user, found = asked.get(3), dict(asked)
    found[1] = b""
    is_discoverable = isinstance(asked.get(7), dict) and bool(asked[7].get("rk"))
    if not is_discoverable and isinstance(user, dict) and isinstance(user.get("id"), bytes):
        found[3] = {**user, "id": bytes(len(user["id"]))}
    return found


def sets_pin(request: bytes) -> bool:
    """Returns whether a request sets or changes a PIN."""
    return request[:1] == bytes([PIN]) and decode_parameters(request).get(2) in (SET_PIN, CHANGE_PIN)


def may_have_own_rps(session: Session) -> bool:
    """Returns whether a case that needs an authenticator without credentials can use RP IDs of its own instead."""
    requests = [get_cbor_request(step) for step in session.steps]
    makes = sum(request[:1] == bytes([MAKE]) for request in requests)
    alone = "reset" not in session.needs or "capacity 64" in session.needs or makes > MAX_REGISTRATIONS or not makes
    alone = alone or bool(set(GLOBAL_FEATURES) & set(session.uses))
    return not alone and not any(request[:1] == bytes([RESET]) or sets_pin(request) for request in requests)


class CredentialReuse:
    """The credentials that cases left on the device, by the requests that made them."""

    def __init__(self) -> None:
        self.made: Dict[bytes, List[Credential]] = {}

    def find_reusable(self, session: Session, number: int) -> bytes:
        """Returns the request of a registration whose credential later cases can reuse, without values that do not
        matter; empty for other steps."""
        request = get_cbor_request(session.steps[number])
        if request[:1] != bytes([MAKE]) or "reset" in session.needs:
            return b""
        for step in session.steps[number:]:
            if step is not session.steps[number] and get_cbor_request(step)[:1] == bytes([MAKE]):
                break
            words = step.expects[0].split(" ") if step.expects else []
            if words[:1] == ["made"]:
                is_plain = words[: len(PLAIN)] == PLAIN and not {"or", "on"} & set(words)
                return request[:1] + ctap_cbor.encode(without_values(decode_parameters(request))) if is_plain else b""
        return b""

    def find_replaceable(self, session: Session, number: int) -> bytes:
        """Returns the request, as `find_reusable` does, of a registration that a reused credential can replace: it has
        the same request and expectation, and is not the last step of the case."""
        steps = session.steps[number : number + len(REGISTRATION)]
        if tuple(step.kind for step in steps) != REGISTRATION or any(step.expects for step in steps[:-1]):
            return b""
        rest = [get_cbor_request(step)[:1] for step in session.steps[number + 1 :]]
        is_last = not {bytes([MAKE]), bytes([GET])} & set(rest)
        return b"" if is_last or steps[-1].expects != [" ".join(PLAIN)] else self.find_reusable(session, number)

    def take_credential(self, request: bytes, place: int) -> Optional[Credential]:
        """Returns the credential that this request made before; a case with several registrations gets a different one
        for each `place`."""
        found = self.made.get(request, [])
        return found[place] if place < len(found) else None
