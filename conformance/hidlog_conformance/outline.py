"""The outline of a case: the state that it needs at its beginning, and the state that it leaves on the device. Cases
with the same beginning can share registrations and PINs."""

from __future__ import annotations

from dataclasses import dataclass, field
from typing import Any, Dict, List, Tuple

from hidlog_conformance import ctap_cbor
from hidlog_conformance import hid_packets as hid
from hidlog_conformance.answers import GET, MAKE, NEXT, RESET
from hidlog_conformance.session_file import Session, Step

PIN, ENROLL, MANAGE, BLOBS, CONFIG = 0x06, 0x09, 0x0A, 0x0C, 0x0D
# A PIN that the runner does not know, or that was set together with other settings.
UNKNOWN = b"?"
GET_RETRIES, GET_AGREEMENT, SET_PIN, CHANGE_PIN, GET_TOKEN, NEW_TOKEN = 1, 2, 3, 4, 5, 9
DELETE, UPDATE = 6, 7
# The steps of a registration: request, touch, key pair, signature.
REGISTRATION = (">", "p", "k", "s")
# The placeholders for a new PIN and for the hash of a PIN.
ENCRYPT, HASH = b"=encrypt:", b"=hash:"
# A case with more registrations needs an authenticator without other credentials.
MAX_REGISTRATIONS = 6


def get_cbor_request(step: Step) -> bytes:
    """Returns the CBOR request that a step sends, or empty bytes."""
    collector = hid.MessageReassembler(of_host=True)
    messages = [collector.feed(packet) for _, packet in step.packets]
    last = messages[-1] if messages else None
    return last.data if last is not None and not last.problem and last.command == hid.CBOR else b""


def decode_parameters(request: bytes) -> Dict[Any, Any]:
    """Returns a request's parameters; empty if they are invalid."""
    try:
        found = ctap_cbor.decode_cached(request[1:])
    except ctap_cbor.CborError:
        return {}
    return dict(found) if isinstance(found, dict) else {}


def count_touches(session: Session) -> int:
    """Returns how many touches a session needs at most."""
    return sum(map(count_step_touches, session.steps))


def count_step_touches(step: Step) -> int:
    """Returns the number of touches of a step: 1 if the device asks for a touch, or may ask for one."""
    is_touch = step.kind == "p" and step.words[:1] == ["granted"]
    return int(is_touch or any(expected.endswith(" or touch") for expected in step.expects))


@dataclass(frozen=True)
class Registration:
    """A registration at the beginning of a case: its first step, its request with the expectation, and its ID."""

    number: int
    key: Tuple[bytes, str]
    name: bytes
    is_discoverable: bool


@dataclass
class Outline:
    """The state that a case needs at its beginning, and the effects of the rest of the case."""

    session: Session
    registrations: List[Registration] = field(default_factory=list)
    # The PIN that is set at the beginning, and the number of the step that sets it.
    pin: bytes = b""
    pin_step: int = -1
    # The number of touches of the rest; whether it depends on all credentials, and whether it uses large blobs.
    touches: int = 0
    is_global: bool = False
    uses_blobs: bool = False
    # Whether the rest resets the device, and whether a PIN has no effect until then.
    resets: bool = False
    ignores_pin: bool = False
    # The effects of the rest: another PIN, and which one; wrong PINs; further discoverable credentials; large blobs.
    changes_pin: bool = False
    left_pin: bytes = b""
    guesses: bool = False
    stores: bool = False
    writes: bool = False
    # The IDs of credentials that the rest deletes, and those whose user it updates.
    deleted: List[bytes] = field(default_factory=list)
    updated: List[bytes] = field(default_factory=list)

    @property
    def is_combined(self) -> bool:
        """Whether this is a combination of several cases."""
        return self.session.cases > 1

    @property
    def needs_empty(self) -> bool:
        """Whether the case needs an authenticator without credentials and without a PIN at its beginning."""
        return "reset" in self.session.needs

    @property
    def prevents_reuse(self) -> bool:
        """Whether other cases cannot reuse the registrations after this case."""
        lost = self.resets or self.changes_pin or self.stores or bool(self.deleted)
        return lost or self.guesses or self.writes


class OutlineReader:
    """Reads the outline of a session."""

    def __init__(self, session: Session) -> None:
        self.steps = session.steps
        self.requests = [get_cbor_request(step) for step in session.steps]
        self.outline = Outline(session)

    def read(self) -> Outline:
        """Returns the outline."""
        end = self.read_setup()
        found, session = self.outline, self.outline.session
        if not self.has_subject(end):
            # A case without further requests tests its last registration, or that the PIN is set.
            end = 0 if found.pin or not found.registrations else found.registrations.pop().number
        if end == 0:
            found.registrations, found.pin, found.pin_step = [], b"", -1
        commands = [request[0] for request in self.requests[: self.find_reset()] if request]
        is_many = commands.count(MAKE) > MAX_REGISTRATIONS and not found.is_combined
        found.is_global = MANAGE in commands or is_many
        found.is_global = found.is_global or "capacity 64" in session.needs
        found.uses_blobs = BLOBS in commands
        found.ignores_pin = not found.pin and self.tolerates_pin(end)
        for number in range(end, len(self.steps)):
            self.read_rest(number)
        return found

    def find_reset(self) -> int:
        """Returns the number of the first step that resets the device, or the number of steps."""
        steps = range(len(self.steps))
        resets = (number for number in steps if self.requests[number][:1] == bytes([RESET]))
        return next((number for number in resets if self.get_first_expectation(number) == "status 00"), len(self.steps))

    def tolerates_pin(self, end: int) -> bool:
        """Returns whether a PIN that is set has no effect up to the reset of the case."""
        commands = [request[0] for request in self.requests[end:] if request]
        before = commands[: commands.index(RESET)] if RESET in commands else [MAKE]
        return set(before) <= {GET, NEXT}

    def read_setup(self) -> int:
        """Reads the registrations and the PIN at the beginning; returns the number of the first step after them."""
        number = 0
        while number < len(self.steps):
            step, request = self.steps[number], self.requests[number]
            asked = decode_parameters(request)
            if step.kind == ">" and request[:1] == bytes([MAKE]):
                if not self.read_registration(number, request, asked):
                    return number
                number += len(REGISTRATION)
            elif step.kind == ">" and request[:1] == bytes([PIN]):
                if not self.read_pin(number) and not self.gets_token(number):
                    return number
                number += 2
            elif step.kind == ">" and step.expects[:1] and step.expects[0].startswith("init "):
                number += 1
            else:
                return number
        return number

    def read_registration(self, number: int, request: bytes, asked: Dict[Any, Any]) -> bool:
        """Reads a registration; returns whether it succeeds and depends on no other registration."""
        steps = self.steps[number : number + len(REGISTRATION)]
        is_whole = tuple(step.kind for step in steps) == REGISTRATION and not any(step.expects for step in steps[:-1])
        has_token = asked.get(8) == b"=token:1"
        if not is_whole or len(steps[-1].expects) != 1 or 5 in asked or has_token != bool(self.outline.pin):
            return False
        expected = steps[-1].expects[0]
        if not expected.startswith("made ") or " or " in expected or " on " in expected:
            return False
        options = asked.get(7)
        is_discoverable = isinstance(options, dict) and options.get("rk") is True
        name = bytes.fromhex(steps[2].words[0])
        self.outline.registrations.append(Registration(number, (request, expected), name, is_discoverable))
        return True

    def read_pin(self, number: int) -> bool:
        """Reads two steps; returns whether they set a PIN."""
        if number + 1 >= len(self.steps) or self.outline.pin:
            return False
        asked, sets = decode_parameters(self.requests[number]), decode_parameters(self.requests[number + 1])
        is_set = asked.get(2) == GET_AGREEMENT and self.requests[number + 1][:1] == bytes([PIN])
        if not is_set or sets.get(2) != SET_PIN or self.steps[number + 1].expects != ["status 00"]:
            return False
        self.outline.pin, self.outline.pin_step = sets[5][len(ENCRYPT) :].rstrip(b"\0"), number + 1
        return True

    def gets_token(self, number: int) -> bool:
        """Returns whether two steps get a token with the PIN that was set."""
        if number + 1 >= len(self.steps) or not self.outline.pin:
            return False
        asked, gets = decode_parameters(self.requests[number]), decode_parameters(self.requests[number + 1])
        is_right = asked.get(2) == GET_AGREEMENT and gets.get(6) == HASH + self.outline.pin
        return is_right and self.steps[number + 1].expects == ["token"]

    def has_subject(self, end: int) -> bool:
        """Returns whether the steps from `end` on have a request that the case can test."""
        for request in filter(None, self.requests[end:]):
            if request[0] in (MAKE, GET, MANAGE, BLOBS, RESET, CONFIG, ENROLL):
                return True
            if request[0] == PIN and decode_parameters(request).get(2) not in (GET_AGREEMENT, GET_RETRIES):
                return True
        return False

    def get_first_expectation(self, number: int) -> str:
        """Returns the first expectation after a request and before the next one."""
        for step in self.steps[number : number + len(REGISTRATION)]:
            if step.kind == ">" and step is not self.steps[number]:
                return ""
            for expected in step.expects:
                if not expected.startswith(("keepalive", "nothing")):
                    return expected
        return ""

    def read_rest(self, number: int) -> None:
        """Reads the effects of a step of the rest."""
        step, request, found = self.steps[number], self.requests[number], self.outline
        found.touches += count_step_touches(step)
        if not request:
            return
        asked, expected = decode_parameters(request), self.get_first_expectation(number)
        is_done = expected == "status 00"
        if request[0] == RESET and is_done:
            found.resets, found.changes_pin, found.stores, found.writes = True, False, False, False
        elif request[0] == MAKE and expected.startswith("made"):
            found.stores = found.stores or (asked.get(7) or {}).get("rk") is True
        elif request[0] == PIN:
            self.read_pin_rest(asked, is_done)
            if expected == "status 32":
                # The PIN is blocked until a reset.
                found.changes_pin, found.left_pin = True, UNKNOWN
        elif (request[0] == CONFIG and is_done) or (request[0] == ENROLL and expected.startswith("sample")):
            found.changes_pin, found.left_pin = True, UNKNOWN
        elif request[0] == BLOBS and 2 in asked:
            found.writes = True
        elif request[0] == MANAGE and is_done and asked.get(1) in (DELETE, UPDATE):
            (found.deleted if asked[1] == DELETE else found.updated).append(asked[2][2]["id"])

    def read_pin_rest(self, asked: Dict[Any, Any], is_done: bool) -> None:
        """Reads the effects of a request of authenticatorClientPIN in the rest."""
        found = self.outline
        if asked.get(2) in (SET_PIN, CHANGE_PIN) and is_done:
            found.changes_pin, found.left_pin = True, asked[5][len(ENCRYPT) :].rstrip(b"\0")
        if isinstance(asked.get(6), bytes) and asked[6] != HASH + found.pin:
            found.guesses = True


def read_outline(session: Session) -> Outline:
    """Returns the outline of a session."""
    return OutlineReader(session).read()
