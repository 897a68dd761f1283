"""The reference authenticator: registrations, sign-ins, reset and selection (CTAP 2.1, 6).

Each step of the standard is a method, so that a mutant or a trait can change it alone.
"""

from __future__ import annotations

import hashlib
import os
from typing import Any, Dict, List, Optional

from hidlog_conformance.answers import is_before_ctap_2_1
from hidlog_conformance.ctap_cbor import encode
from hidlog_conformance.reference import requests
from hidlog_conformance.reference.requests import ActiveRequest, Pending, Requests
from hidlog_conformance.reference.bio import BioEnrollment
from hidlog_conformance.reference.config import Config
from hidlog_conformance.reference.credential import Attestor, Credential, new_key
from hidlog_conformance.reference.extensions import Extensions
from hidlog_conformance.reference.large_blobs import LargeBlobs
from hidlog_conformance.reference.management import Management
from hidlog_conformance.reference.pin import AUTH_INVALID, CONFIGURE, ENROLL, GET, GET_USER_RETRIES, MAKE, MANAGE
from hidlog_conformance.reference.pin import NOT_SET, SHORTEST_PIN, USER_TOKEN, WRITE, Pin, RequestError
from hidlog_conformance.reference.traits import DeviceTraits
from hidlog_conformance.reference.transport import Transport, Work
from hidlog_conformance.reference.u2f import U2f

INVALID_COMMAND, INVALID_PARAMETER, LIMIT, EXCLUDED = 0x01, 0x02, 0x15, 0x19
ALGORITHM, DENIED, FULL, UNSUPPORTED, INVALID_OPTION = 0x26, 0x27, 0x28, 0x2B, 0x2C
NO_CREDENTIALS, TIMEOUT, NOT_ALLOWED, PIN_REQUIRED = 0x2E, 0x2F, 0x30, 0x36
UP, UV, AT, ED = 0x01, 0x04, 0x40, 0x80
RESET_TIME = 10000
# The first and the last vendor command (6); and authenticatorCredentialManagementPreview, which precedes CTAP 2.1.
VENDOR, LAST_VENDOR, PREVIEW = 0x40, 0xBF, 0x41


class Authenticator:
    """Serves requests."""

    def __init__(self, traits: DeviceTraits) -> None:
        self.traits = traits
        self.transport = Transport(traits, self.serve)
        self.requests = Requests(traits)
        self.pin = self.new_pin(traits.pin)
        self.extensions = Extensions(self)
        self.management = Management(self)
        self.large_blobs = LargeBlobs(self)
        self.u2f = U2f(self)
        self.config = Config(self)
        self.bio = BioEnrollment(self)
        self.transport.serve_message = self.u2f.serve
        self.attestor = Attestor(traits.aaguid if "aaguid" in traits.format else b"")
        self.credentials: List[Credential] = []
        self.pending: Optional[Pending] = None
        self.counter = traits.first_counter
        # Whether the registration in progress has enterprise attestation.
        self.is_enterprise = False

    def new_pin(self, pin: str) -> Pin:
        """Returns the PIN state; its tokens may have all supported permissions."""
        traits = self.traits
        more = (MANAGE if traits.management else 0) | (WRITE if traits.large_blobs else 0)
        more |= (CONFIGURE if traits.config else 0) | (ENROLL if traits.bio else 0)
        return Pin(traits.protocols, pin, MAKE | GET | more, traits.shortest_pin)

    def power_cycle(self) -> None:
        """Resets the state that a power cycle clears."""
        self.transport = Transport(self.traits, self.serve)
        self.transport.serve_message = self.u2f.serve
        self.pending = None
        self.large_blobs.coming = b""
        self.pin.power_cycle()

    def serve(self, at: int, channel: int, data: bytes) -> Work:
        """Serves a request."""
        try:
            if data[0] != 8 and (data[0] == 2 or not self.traits.pending_outlasts_commands):
                self.pending = None
            answer = yield from self.command(at, channel, data[0], data[1:])
        except RequestError as refused:
            return self.refusal(data[0], refused.status)
        return b"\0" + (encode(answer) if answer else b"")

    def refusal(self, command: int, status: int) -> bytes:
        """Returns the response for an error."""
        return bytes([status])

    def command(self, at: int, channel: int, command: int, data: bytes) -> Any:
        """Runs a command; returns the response's map."""
        if command in (4, 7, 8, 11) and data and command != 11:
            raise RequestError(self.traits.wrong_length)
        if command == 1:
            return (yield from self.make(self.asked(at, channel, self.requests.read(data, requests.MAKE), 7)))
        if command == 2:
            return (yield from self.get(self.asked(at, channel, self.requests.read(data, requests.GET), 5)))
        if command == 4:
            return self.info()
        if command == 6 and self.traits.has_pin:
            return (yield from self.serve_pin(self.requests.read(data, requests.PIN)))
        if command == 7:
            return (yield from self.reset(at))
        if command == 8:
            return self.next(at, channel)
        manages = command == 10 or command == PREVIEW and self.traits.management_preview
        if manages and self.traits.management and self.traits.has_pin:
            return self.management.serve(self.requests.read(data, requests.MANAGE))
        if command == 12 and self.traits.large_blobs:
            return self.large_blobs.serve(self.requests.read(data, requests.BLOBS))
        if command == 9 and self.traits.bio:
            return (yield from self.bio.serve(self.requests.read(data, requests.ENROLLMENT)))
        if command == 13 and self.traits.config:
            return self.config.serve(self.requests.read(data, requests.MANAGE))
        if command == 11 and self.traits.selection:
            yield from self.request_touch(TIMEOUT)
            return {}
        if VENDOR <= command <= LAST_VENDOR and command != PREVIEW and self.traits.vendor:
            return {}
        raise RequestError(INVALID_COMMAND)

    def serve_pin(self, asked: Dict[int, Any]) -> Any:
        """Runs authenticatorClientPIN, with built-in user verification."""
        if asked.get(2) == USER_TOKEN and self.traits.built_in_uv:
            return (yield from self.pin.user_token(asked))
        if asked.get(2) == GET_USER_RETRIES and self.traits.built_in_uv:
            return self.pin.get_user_retries(asked)
        return self.pin.serve(asked)

    def asked(self, at: int, channel: int, item: Dict[Any, Any], place: int) -> ActiveRequest:
        """Returns a request with its options."""
        return ActiveRequest(at, channel, item, item.get(place, {}))

    def request_touch(self, late: int = DENIED) -> Work:
        """Requests a touch, and raises `RequestError` without it."""
        reply = yield
        if reply != "granted":
            raise RequestError(late if reply == "timeout" else DENIED)
        return b""

    # getInfo (6.4).

    @property
    def is_protected(self) -> bool:
        """Returns whether user verification is configured."""
        return bool(self.pin.hash) or self.traits.built_in_uv

    def options(self) -> Dict[str, bool]:
        """Returns getInfo's options."""
        traits = self.traits
        found = {"rk": traits.rk, "up": True, "plat": False, **traits.more_options}
        if traits.has_pin:
            found.update({"clientPin": bool(self.pin.hash), "pinUvAuthToken": True})
            if traits.management:
                found["credMgmt"] = True
        if traits.large_blobs:
            found["largeBlobs"] = True
        if traits.built_in_uv:
            found["uv"] = True
        if self.config.always_uv or traits.config:
            found["alwaysUv"] = self.config.always_uv
        if traits.config:
            found.update({"authnrCfg": True, "setMinPINLength": True, "ep": self.config.is_enterprise})
        if traits.bio:
            found["bioEnroll"] = bool(self.bio.templates)
        if traits.make_without_uv:
            found["makeCredUvNotRqd"] = True
        return found

    def info(self) -> Dict[int, Any]:
        """Serves authenticatorGetInfo."""
        traits = self.traits
        answer: Dict[int, Any] = {1: list(traits.versions), 3: traits.aaguid, 4: self.options()}
        if traits.extensions:
            answer[2] = list(traits.extensions)
        if traits.longest_message != 1024:
            answer[5] = traits.longest_message
        if traits.has_pin:
            answer[6] = list(traits.protocols)
        if traits.longest_list is not None:
            answer[7] = traits.longest_list
        if traits.longest_id is not None:
            answer[8] = traits.longest_id
        answer[9] = ["usb"]
        if traits.says_algorithms:
            answer[10] = [{"alg": alg, "type": "public-key"} for alg in traits.algorithms]
        if traits.large_blobs:
            answer[11] = max(1024, traits.largest_array)
        if self.pin.shortest != SHORTEST_PIN or traits.config:
            answer[13] = self.pin.shortest
        if traits.config:
            answer[12] = self.pin.must_change
        if "credBlob" in traits.extensions:
            answer[15] = 32
        if "minPinLength" in traits.extensions:
            answer[16] = traits.max_rp_ids
        if traits.says_remaining:
            answer[20] = traits.capacity - len(self.credentials)
        answer.update(traits.more_info)
        return answer

    # Registrations (6.1.2).

    def make(self, asked: ActiveRequest) -> Any:
        """Serves authenticatorMakeCredential."""
        item = asked.item
        if len(item[1]) != 32 or len(item[3]["id"]) > 64:
            raise RequestError(self.traits.wrong_length)
        yield from self.respond_to_empty_param(asked, 8)
        self.check_pin_protocol(asked, 8, 9)
        algorithm = self.algorithm(item[4])
        self.make_options(asked)
        self.require_make_verification(asked)
        self.check_enterprise(item)
        self.verify(asked, 8, 9, MAKE, item[2]["id"])
        self.extensions.check_before_touch(asked)
        yield from self.refuse_excluded(asked)
        if not asked.present:
            yield from self.request_touch()
        asked.present = True
        self.use_token(asked)
        return self.create_credential(asked, algorithm)

    def check_enterprise(self, item: Dict[int, Any]) -> None:
        """Refuses enterprise attestation that is not enabled, and unknown kinds of it (6.1.2, step 9)."""
        if 10 in item and not self.config.is_enterprise:
            raise RequestError(INVALID_PARAMETER)
        if 10 in item and item[10] not in (1, 2):
            raise RequestError(INVALID_OPTION)

    def use_token(self, asked: ActiveRequest) -> None:
        """Clears the token's permissions after a user presence test (6.1.2, step 14; 6.2.2, step 9), except in CTAP
        2.0."""
        if asked.verified and not is_before_ctap_2_1(list(self.traits.versions)):
            self.pin.clear_permissions()

    def respond_to_empty_param(self, asked: ActiveRequest, key: int) -> Work:
        """Responds to an empty pinUvAuthParam after a touch: the status says whether a PIN is set."""
        if asked.item.get(key) == b"" and self.traits.has_pin:
            yield from self.request_touch()
            raise RequestError(0x31 if self.pin.hash else NOT_SET)
        return b""

    def check_pin_protocol(self, asked: ActiveRequest, key: int, protocol: int) -> None:
        """Refuses a pinUvAuthParam with an unsupported protocol."""
        if key in asked.item:
            if not self.traits.has_pin:
                raise RequestError(INVALID_PARAMETER)
            self.pin.protocol(asked.item, protocol)

    def algorithm(self, listed: List[Dict[str, Any]]) -> int:
        """Returns the first supported algorithm of the list."""
        for entry in listed:
            if entry["type"] == "public-key" and entry["alg"] in self.traits.algorithms:
                return int(entry["alg"])
        raise RequestError(ALGORITHM)

    def make_options(self, asked: ActiveRequest) -> None:
        """Refuses unsupported and invalid options."""
        if asked.options.get("uv") and not self.traits.built_in_uv:
            raise RequestError(INVALID_OPTION)
        if asked.options.get("rk") and not self.traits.rk:
            raise RequestError(UNSUPPORTED)
        if asked.options.get("up") is False:
            raise RequestError(INVALID_OPTION)

    def require_make_verification(self, asked: ActiveRequest) -> None:
        """Refuses a registration without user verification if it is required."""
        without = 8 not in asked.item and not asked.options.get("uv")
        if without and self.config.always_uv:
            raise RequestError(PIN_REQUIRED)
        needed = bool(asked.options.get("rk")) or not self.traits.make_without_uv
        if without and self.is_protected and needed:
            raise RequestError(PIN_REQUIRED)

    def verify(self, asked: ActiveRequest, key: int, protocol: int, permission: int, rp: str) -> None:
        """Verifies the user by a token, or by built-in user verification."""
        if key in asked.item and self.traits.has_pin:
            if not self.is_protected:
                raise RequestError(AUTH_INVALID)
            found = self.pin.protocol(asked.item, protocol)
            param = asked.item[1] if permission == MAKE else asked.item[2]
            self.pin.check(found, param, asked.item[key], permission, rp)
            asked.verified = True
            asked.present = self.traits.present_by_token and self.pin.present
            self.pin.present = False
        elif asked.options.get("uv"):
            asked.verified = True

    def refuse_excluded(self, asked: ActiveRequest) -> Work:
        """Refuses an excluded registration, after a touch."""
        if self.is_excluded(asked):
            yield
            raise RequestError(EXCLUDED)
        return b""

    def is_excluded(self, asked: ActiveRequest) -> bool:
        """Returns whether the exclude list has a visible credential of the RP."""
        named = [entry["id"] for entry in asked.item.get(5, []) if entry["type"] == "public-key"]
        found = [one for one in self.credentials if one.rp == asked.item[2]["id"] and one.id in named]
        return any(one.protection < 3 or asked.verified for one in found)

    def new_id(self, rp: str, user: Dict[str, Any]) -> bytes:
        """Returns a new credential ID."""
        return os.urandom(self.traits.id_length)

    def new_private(self, algorithm: int) -> Any:
        """Returns a new private key."""
        return new_key(algorithm)

    def create_credential(self, asked: ActiveRequest, algorithm: int) -> Dict[int, Any]:
        """Makes a credential, stores it and attests it."""
        item = asked.item
        rp, user, discoverable = item[2]["id"], dict(item[3]), bool(asked.options.get("rk"))
        new = Credential(self.new_id(rp, user), rp, user, discoverable, algorithm, self.new_private(algorithm))
        outputs = self.extensions.run_make(asked, new)
        self.is_enterprise = item.get(10) == 2
        self.store(new)
        auth = self.data(asked, new, self.start_counter(new), self.attested_data(new), outputs)
        return self.attestation(new, auth, item[1])

    def store(self, new: Credential) -> None:
        """Stores a credential; a discoverable one replaces that of the same RP and user."""
        kept = [one for one in self.credentials if not self.replaces(new, one)]
        if len(kept) >= self.traits.capacity:
            raise RequestError(FULL)
        self.credentials = kept + [new]

    def replaces(self, new: Credential, old: Credential) -> bool:
        """Returns whether a new credential replaces an old one."""
        return new.discoverable and old.discoverable and new.rp == old.rp and new.user["id"] == old.user["id"]

    def attested_data(self, new: Credential) -> bytes:
        """Returns the attested credential data."""
        return self.traits.aaguid + len(new.id).to_bytes(2, "big") + new.id + encode(new.cose())

    def flags(self, asked: ActiveRequest) -> int:
        """Returns the flags of a response."""
        return self.traits.flags | (UP if asked.present else 0) | (UV if asked.verified else 0)

    def data(
        self, asked: ActiveRequest, one: Credential, counter: int, attested: bytes, outputs: Dict[str, Any]
    ) -> bytes:
        """Returns authenticator data."""
        flags = self.flags(asked) | (AT if attested else 0) | (ED if outputs else 0)
        start = hashlib.sha256(one.rp.encode()).digest() + bytes([flags]) + counter.to_bytes(4, "big")
        return start + attested + (encode(outputs) if outputs else b"")

    def attestation(self, new: Credential, auth: bytes, client_hash: bytes) -> Dict[int, Any]:
        """Returns the response with the attestation statement."""
        kind, statement = "none" if self.traits.format == "none" else "packed", {}
        if self.traits.format.startswith("x5c"):
            signature = self.attestor.sign(auth + client_hash)
            statement = {"alg": -7, "sig": signature, "x5c": [self.attestor.certificate]}
        elif kind == "packed":
            statement = {"alg": new.algorithm, "sig": new.sign(auth + client_hash)}
        answer: Dict[int, Any] = {1: kind, 2: auth, 3: statement}
        if self.is_enterprise:
            answer[4] = True
        if new.blob_key is not None:
            answer[5] = new.blob_key
        return answer

    # Sign-ins (6.2.2, 6.3).

    def start_counter(self, new: Credential) -> int:
        """Returns the counter of a new credential."""
        new.counter = self.traits.first_counter
        return self.increment_counter(new) if self.traits.counter in ("all", "steps") else new.counter

    def increment_counter(self, one: Credential) -> int:
        """Increments the counter of a credential, or the common one, and returns it."""
        if self.traits.counter == "none":
            return 0
        if self.traits.counter in ("all", "steps"):
            self.counter += 1 if self.traits.counter == "all" else 1 + os.urandom(1)[0]
            return self.counter
        one.counter += 1
        return one.counter

    def get(self, asked: ActiveRequest) -> Any:
        """Serves authenticatorGetAssertion."""
        item = asked.item
        if len(item[2]) != 32:
            raise RequestError(self.traits.wrong_length)
        yield from self.respond_to_empty_param(asked, 6)
        self.check_pin_protocol(asked, 6, 7)
        self.get_options(asked)
        self.require_get_verification(asked)
        self.verify(asked, 6, 7, GET, item[1])
        found = self.list_applicable(asked)
        if not found:
            if self.traits.touch_before_none and asked.options.get("up", True):
                yield from self.request_touch()
            raise RequestError(NO_CREDENTIALS)
        if asked.options.get("up", True):
            if not asked.present:
                yield from self.request_touch()
            asked.present = True
            self.use_token(asked)
        return self.sign_first(asked, found)

    def get_options(self, asked: ActiveRequest) -> None:
        """Refuses unsupported and invalid options."""
        if asked.options.get("uv") and not self.traits.built_in_uv:
            raise RequestError(INVALID_OPTION)
        if "rk" in asked.options:
            raise RequestError(UNSUPPORTED)

    def require_get_verification(self, asked: ActiveRequest) -> None:
        """Refuses a sign-in without user verification if it is required."""
        without = 6 not in asked.item and not asked.options.get("uv")
        if self.config.always_uv and without and asked.options.get("up", True):
            raise RequestError(PIN_REQUIRED)

    def is_listed(self, listed: List[Dict[str, Any]], one: Credential) -> bool:
        """Returns whether a list has a credential."""
        return any(entry["type"] == "public-key" and entry["id"] == one.id for entry in listed)

    def list_of_rp(self, rp: str) -> List[Credential]:
        """Returns the credentials of an RP, newest first."""
        found = [one for one in self.credentials if one.rp == rp]
        return found if self.traits.oldest_first else found[::-1]

    def list_applicable(self, asked: ActiveRequest) -> List[Credential]:
        """Returns the credentials that may sign: those of the list, or the discoverable ones."""
        listed = asked.item.get(3)
        found = self.list_of_rp(asked.item[1])
        if listed:
            found = [one for one in found if self.is_listed(listed, one)]
        else:
            found = [one for one in found if one.discoverable]
        return [one for one in found if self.is_visible(asked, one, bool(listed))]

    def is_visible(self, asked: ActiveRequest, one: Credential, listed: bool) -> bool:
        """Returns whether credProtect permits the use of a credential."""
        return asked.verified or one.protection < (3 if listed else 2)

    def sign_first(self, asked: ActiveRequest, found: List[Credential]) -> Dict[int, Any]:
        """Signs with the first credential; without an allow list the others become pending."""
        listed = bool(asked.item.get(3))
        if listed and not self.traits.number_with_list:
            found = found[-1:] if self.traits.last_of_list else found[:1]
        chosen = not listed and self.traits.display and len(found) > 1
        if chosen:
            found = found[:1]
        answer = self.assertion(asked, found[0], listed)
        if chosen:
            answer[6] = True
        if len(found) > 1:
            answer[5] = len(found)
            self.pending = Pending(asked, found[1:], self.transport.at)
        return answer

    def user(self, asked: ActiveRequest, one: Credential) -> Dict[str, Any]:
        """Returns the user entity of an assertion: names only with user verification."""
        return dict(one.user) if asked.verified and self.traits.user_names else {"id": one.user["id"]}

    def assertion(self, asked: ActiveRequest, one: Credential, listed: bool) -> Dict[int, Any]:
        """Returns an assertion."""
        outputs = self.extensions.run_get(asked, one)
        auth = self.data(asked, one, self.increment_counter(one), b"", outputs)
        answer: Dict[int, Any] = {1: {"id": one.id, "type": "public-key"}, 2: auth}
        answer[3] = self.sign(one, auth + asked.item[2])
        if one.discoverable or self.traits.user_with_any:
            answer[4] = self.user(asked, one)
        blob_key = self.extensions.blob_key_of(asked, one)
        if blob_key is not None:
            answer[7] = blob_key
        return answer

    def sign(self, one: Credential, data: bytes) -> bytes:
        """Signs with a credential."""
        return one.sign(data)

    def next(self, at: int, channel: int) -> Dict[int, Any]:
        """Serves authenticatorGetNextAssertion."""
        pending = self.pending
        if pending is None or not pending.left or self.transport.at - pending.at > self.traits.pending_time:
            self.pending = None
            raise RequestError(NOT_ALLOWED)
        if channel != pending.asked.channel and not self.traits.one_state:
            raise RequestError(NOT_ALLOWED)
        pending.at = self.transport.at
        return self.assertion(pending.asked, pending.left.pop(0), False)

    # Reset (6.6).

    def reset(self, at: int) -> Any:
        """Serves authenticatorReset."""
        if at > RESET_TIME and not self.traits.display:
            raise RequestError(NOT_ALLOWED)
        yield from self.request_touch(TIMEOUT)
        self.forget()
        return {}

    def forget(self) -> None:
        """Deletes credentials and the PIN."""
        self.credentials = []
        self.pending = None
        self.pin = self.new_pin("")
        self.large_blobs.forget()
        self.config.forget()
        self.bio.forget()
