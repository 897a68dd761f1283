"""Prepares a device that keeps its state for the next case with as few touches as possible (touch_plan.py)."""

from __future__ import annotations

import sys
from dataclasses import dataclass, field
from typing import Any, Dict, List, Optional

from hidlog_conformance import ctap_cbor
from hidlog_conformance import hid_packets as hid
from hidlog_conformance.answers import BLOBS, MAKE, Credential, Mismatch
from hidlog_conformance.credential_reuse import CredentialReuse
from hidlog_conformance.device_info import DeviceInfo, ask, empty_array, prepare, send_init
from hidlog_conformance.devices import Device
from hidlog_conformance.outline import MANAGE, UNKNOWN, UPDATE, Outline, decode_parameters, read_outline
from hidlog_conformance.pin_user import MANAGES, PERMISSIONS, PinUser
from hidlog_conformance.platform_side import adapt_pin
from hidlog_conformance.session_file import Session, sends_reset
from hidlog_conformance.touch_plan import DeviceState, Preparation

# The permission lbw of a token.
WRITES = 0x10
# Exceptions after a device's refusal or an invalid response.
REFUSED = (Mismatch, OSError, ValueError, KeyError, TypeError, IndexError)


@dataclass
class Sharing:
    """The state that a case reuses: credentials for its first registrations, and its PIN."""

    outline: Outline
    front: str = ""
    credentials: List[Credential] = field(default_factory=list)
    has_pin: bool = False
    # Gets tokens for the registrations at the beginning if a PIN is set.
    user: Optional[PinUser] = None

    def find_credential(self, number: int) -> Optional[Credential]:
        """Returns the credential that replaces the registration at this step."""
        places = {one.number: place for place, one in enumerate(self.outline.registrations)}
        place = places.get(number, len(self.credentials))
        return self.credentials[place] if place < len(self.credentials) else None

    def name_of(self, number: int) -> bytes:
        """Returns the session's ID of the registration at this step."""
        return next(one.name for one in self.outline.registrations if one.number == number)

    def is_left_out(self, number: int) -> bool:
        """Returns whether a step is left out, since it sets the PIN that the device has."""
        return self.has_pin and number == self.outline.pin_step

    def with_token(self, number: int, data: bytes, exchange: Any) -> bytes:
        """Returns the request of a registration at the beginning, with a token if a PIN is set."""
        asked = decode_parameters(data)
        is_own = any(one.number == number for one in self.outline.registrations)
        if self.user is None or not is_own or data[:1] != bytes([MAKE]) or 8 in asked:
            return data
        platform = self.user.get_token(exchange, PERMISSIONS[MAKE], asked[2]["id"])
        asked.update({8: platform.authenticate(platform.token, asked[1]), 9: platform.protocol})
        return data[:1] + ctap_cbor.encode(asked)


class TouchSaver:
    """Tracks the state of a device during a run."""

    def __init__(self, device: Device, device_info: DeviceInfo) -> None:
        self.device, self.device_info = device, device_info
        self.state = DeviceState()
        # Credentials for cases that need any, and the outlines of sessions.
        self.pool = CredentialReuse()
        self.outlines: Dict[str, Outline] = {}
        self.visit = Preparation(None)

    def get_outline(self, session: Session) -> Outline:
        """Returns the outline of a session."""
        if session.name not in self.outlines:
            self.outlines[session.name] = read_outline(session)
        return self.outlines[session.name]

    def begin(self, session: Session) -> "tuple[str, Optional[Sharing]]":
        """Prepares the device for a case. Returns why the case cannot be played, or an empty string, and the state that
        it reuses."""
        outline = self.get_outline(session)
        if not outline.needs_empty:
            return (self.reset(session) if self.state.pin else ""), None
        self.visit = visit = self.state.plan(outline)
        reason = self.reset(session) if visit.resets else ""
        if reason or visit.group is None:
            return reason, None
        if not visit.resets and any(map(sends_reset, session.steps)) and "power cycle" in self.device.features:
            self.device.power_cycle(0)
        if not self.undo_changes(visit):
            return self.forget().begin(session)
        user = self.pin_user() if self.state.pin else None
        self.state.enter(outline, visit)
        found = [item.credential for item in visit.group.items]
        credentials = [one for one in found if one is not None]
        return "", Sharing(outline, visit.group.front, credentials, visit.has_pin, user)

    def undo_changes(self, visit: Preparation) -> bool:
        """Undoes changes of earlier cases; returns whether that succeeded."""
        try:
            if visit.restores_retries:
                self.restore_retries()
            if visit.cleans_blobs:
                self.empty_blobs()
        except REFUSED:
            self.device.close()
            return False
        return True

    def reset(self, session: Session) -> str:
        """Resets the device. Returns the reason for a failure, or an empty string."""
        print(f"resetting the device for {session.name}", file=sys.stderr)
        self.pool.made = {}
        reason = prepare(self.device, any(map(sends_reset, session.steps)))
        if not reason:
            self.state.clear()
        return reason

    def end(self, session: Session, passed: bool, known: Dict[bytes, Credential]) -> None:
        """Records the state that a case left on the device."""
        outline = self.get_outline(session)
        if any(map(sends_reset, session.steps)):
            self.pool.made = {}
        if not outline.needs_empty:
            return
        if not passed:
            self.state.leave_unknown(outline, self.visit)
            return
        self.state.leave(outline, self.visit, known)
        for name in outline.updated:
            try:
                is_restored = name in known and self.restore_user(outline, name, known[name])
            except REFUSED:
                is_restored = False
            if not is_restored:
                self.state.leave_unknown(outline, self.visit)

    def forget(self) -> TouchSaver:
        """Records that the device is full, so that it is reset before the next case that registers."""
        self.state.pin, self.state.has_others = UNKNOWN, True
        return self

    def pin_user(self) -> PinUser:
        """Returns the user with the PIN that is set, or None."""
        pin = adapt_pin(self.state.pin, self.device_info.min_pin_length)
        return PinUser(pin.decode(), self.device_info)

    def open_channel(self) -> Any:
        """Starts the device; returns a function that sends a request and returns the response."""
        channel = int.from_bytes(send_init(self.device)[8:12], "big")

        def exchange(request: bytes) -> bytes:
            """Returns the response to a request, or empty bytes if there is none."""
            message = ask(self.device, channel, hid.CBOR, request)
            return message.data if message is not None else b""

        return exchange

    def restore_retries(self) -> None:
        """Restores the PIN retries: after a power cycle, which allows further PINs, the right PIN restores them."""
        if "power cycle" in self.device.features:
            self.device.power_cycle(0)
        if self.state.pin:
            self.pin_user().get_token(self.open_channel(), PERMISSIONS[MAKE], "a.b")
            self.device.close()

    def empty_blobs(self) -> None:
        """Writes an empty large-blob array, by a token if a PIN is set."""
        exchange, asked = self.open_channel(), empty_array()
        if self.state.pin:
            platform = self.pin_user().get_token(exchange, WRITES, "")
            asked = decode_parameters(platform.fill(b"\0" + ctap_cbor.encode({**asked, 5: b"=blob"})))
            asked[6] = platform.protocol
        exchange(bytes([BLOBS]) + ctap_cbor.encode(asked))
        self.device.close()

    def restore_user(self, outline: Outline, name: bytes, credential: Credential) -> bool:
        """Restores the user of a credential's registration by an update; returns whether that succeeded."""
        requests = [one.key[0] for one in outline.registrations if one.name == name]
        if not requests:
            return False
        exchange = self.open_channel()
        platform = self.pin_user().get_token(exchange, MANAGES, credential.rp)
        named = {2: {"id": credential.id, "type": "public-key"}, 3: decode_parameters(requests[0])[3]}
        signed = bytes([UPDATE]) + ctap_cbor.encode(named)
        asked = {1: UPDATE, 2: named, 3: platform.protocol, 4: platform.authenticate(platform.token, signed)}
        answer = exchange(bytes([MANAGE]) + ctap_cbor.encode(asked))
        self.device.close()
        return bool(answer == b"\0")
