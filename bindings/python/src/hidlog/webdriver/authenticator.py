"""The virtual authenticator of a session. It stores the credentials and private keys for all relying parties. A page
gets only the credentials that its origin may use."""

from __future__ import annotations

import os
import threading
from hashlib import sha256
from typing import Any

from cryptography.hazmat.primitives.asymmetric.utils import decode_dss_signature

from .. import private_keys
from ..algorithms import ALGORITHMS, ES256, AnyKey, make_other_key, sign_with_other_key, to_public_der
from ..relying_party import get_host, is_valid_rp_id
from ..webauthn_json import b64url_decode, b64url_encode
from .credential_json import (
    check_boolean,
    check_choice,
    read_credential,
    read_private_key,
    read_public_keys,
    read_reported,
)
from .errors import make_invalid_argument

Json = dict[str, Any]
STATE_FORMAT = "hidlog web key 1"
PRESENCE_WORDS = ("granted", "denied", "timeout", "none")
FAULT_NAMES = ("status", "delay", "truncateBy", "badSignature", "staleSignCount", "wrongRpId")
_MAX_CREDENTIALS = 64
_MAX_PRESENCE = 1000
# Maximum number of key pairs of pages whose registration is not complete.
_MAX_PENDING = 64
# Length of authenticator data and the hash of client data.
_MIN_SIGNED, _MAX_SIGNED = 37 + 32, 65_536
# Options of the key in a page that have the same names in the authenticator's options.
_SHARED_OPTIONS = (
    *("protocol", "transport", "hasResidentKey", "defaultBackupEligibility", "defaultBackupState"),
    *("attestation", "aaguid", "algorithms", "autofill", "extensions"),
)
# Members of a credential that a page may change in addition to the signature counter: with the Signal API, or with the
# extension largeBlob.
_CHANGEABLE = ("userName", "userDisplayName", "largeBlob", "extensions")
# PKCS #8 of a P-256 key pair with the private key 0, which pages get instead of the real private key.
_PKCS8_HEAD = bytes.fromhex("308187020100301306072a8648ce3d020106082a8648ce3d030107046d306b0201010420")
_PKCS8_MIDDLE = bytes.fromhex("a14403420004")


def _make_placeholder_key(point: bytes) -> str:
    """Returns a placeholder for a private key, with the public key."""
    return b64url_encode(_PKCS8_HEAD + bytes(32) + _PKCS8_MIDDLE + point)


def _to_public_key(private: AnyKey) -> bytes:
    """Returns a public key in the form that pages use: x and y on P-256, otherwise SubjectPublicKeyInfo."""
    if isinstance(private, private_keys.PrivateKey):
        return b"".join(private_keys.public_point(private))
    return to_public_der(private)


def _encode_private_keys(own: AnyKey, core: AnyKey | None) -> Json:
    """Returns the members of a credential with its private key, and with the core's private key if it differs."""
    members = {"privateKey": b64url_encode(private_keys.to_pkcs8(own))}
    return members if core is None else {**members, "coreKey": b64url_encode(private_keys.to_pkcs8(core))}


class Authenticator:
    """A virtual authenticator, used concurrently by commands of the test suite and by pages."""

    def __init__(self, options: Json):
        self.options = options
        self.credentials: list[Json] = []
        self.faults: Json = {}
        # What the user does. As in Chromium, the user does nothing without isUserConsenting.
        self.presence: str | list[str] = "granted" if options["isUserConsenting"] else "none"
        # How often the presence has been set, and how many entries of the list have been used.
        self.serial, self.used = 0, 0
        self.lock = threading.RLock()
        # The account that signs in if there are several: an index, a user name or a credential ID.
        self.account: int | str = 0
        # How often a test has selected an account.
        self.selections = 0
        # Private keys by public key: those of credentials, and those of new key pairs with the origin of the page.
        self._keys: dict[bytes, AnyKey] = {}
        self._pending: dict[bytes, tuple[str, AnyKey]] = {}
        # The public keys of each credential, by its ID.
        self._public_keys: dict[str, list[bytes]] = {}

    # What pages get.

    @property
    def authenticator_options(self) -> Json:
        """The options of the key in a page."""
        has_verification = self.options["hasUserVerification"]
        made = {name: self.options[name] for name in _SHARED_OPTIONS}
        is_verified = has_verification and self.options["isUserVerified"]
        return {**made, "hasUserVerification": has_verification, "isUserVerified": is_verified}

    @property
    def settings(self) -> Json:
        """The settings of the key in a page, without credentials."""
        done: Json = {"presence": self.presence, "serial": self.serial, "used": self.used}
        done["account"] = {"selector": self.account, "selections": self.selections}
        return {"authenticatorOptions": self.authenticator_options, "faults": self.faults, **done}

    def of_origin(self, origin: str, has_keys: bool) -> list[Json]:
        """Returns the credentials that a page of an origin may use, with their private keys or without."""
        with self.lock:
            own = [credential for credential in self.credentials if is_valid_rp_id(credential["rpId"], origin)]
        if has_keys:
            return own
        return [{**credential, **self._make_placeholders(credential)} for credential in own]

    def _make_placeholders(self, credential: Json) -> Json:
        """Returns the private keys of a credential without their private parts."""
        own, *core = self._public_keys[credential["credentialId"]]
        if not core:
            return {"privateKey": _make_placeholder_key(own)}
        return {"privateKey": b64url_encode(own), "coreKey": _make_placeholder_key(core[0])}

    def next_presence(self) -> str:
        """Returns what the user does now. The last entry of a list is repeated."""
        with self.lock:
            if isinstance(self.presence, str):
                return self.presence
            word = self.presence[min(self.used, len(self.presence) - 1)]
            self.used += 1
            return word

    def used_presence(self, serial: Any, used: Any) -> None:
        """Records how many entries of the presence list a page has used."""
        with self.lock:
            if serial == self.serial and isinstance(used, int) and not isinstance(used, bool):
                self.used = max(self.used, min(used, _MAX_PRESENCE))

    # Requests of pages.

    def make_key(self, origin: str, algorithm: Any = ES256) -> bytes:
        """Creates a key pair for a page of an origin, and returns its public key."""
        if isinstance(algorithm, bool) or algorithm not in ALGORITHMS:
            raise make_invalid_argument(f"algorithm must be one of {', '.join(map(str, ALGORITHMS))}")
        make = private_keys.make_private_key
        private: AnyKey = make(os.urandom) if algorithm == ES256 else make_other_key(algorithm, os.urandom)
        public = _to_public_key(private)
        with self.lock:
            self._pending[public] = (origin, private)
            while len(self._pending) > _MAX_PENDING:
                del self._pending[next(iter(self._pending))]
        return public

    def sign(self, origin: str, public: bytes, data: bytes) -> bytes:
        """Signs authenticator data and a hash for a page of an origin. On P-256, returns r and s, 32 bytes each.

        The private key must belong to a credential that the origin may use, or have been created for the origin. The
        data must be for a relying party that the origin may use.
        """
        private, hashes = self._find_usable(origin, public)
        if not _MIN_SIGNED <= len(data) <= _MAX_SIGNED or data[:32] not in hashes:
            raise make_invalid_argument("only authenticator data for a relying party of this origin can be signed")
        if not isinstance(private, private_keys.PrivateKey):
            return sign_with_other_key(private, data)
        r, s = decode_dss_signature(private_keys.sign(private, data))
        return r.to_bytes(32, "big") + s.to_bytes(32, "big")

    def _find_usable(self, origin: str, public: bytes) -> tuple[AnyKey, set[bytes]]:
        """Returns a private key that an origin may use, and the RP ID hashes for which it may sign."""
        with self.lock:
            other = self.faults.get("wrongRpId")
            hashes = set() if other is None else {sha256(other.encode()).digest()}
            for_origin, pending = self._pending.get(public, ("", None))
            if pending and for_origin == origin:
                names = [name for name in _list_parent_domains(get_host(origin)) if is_valid_rp_id(name, origin)]
                return pending, hashes | {sha256(name.encode()).digest() for name in names}
            for credential in self.of_origin(origin, True):
                if public in self._public_keys[credential["credentialId"]]:
                    return self._keys[public], hashes | {b64url_decode(credential["rpIdHash"], "rpIdHash")}
        raise make_invalid_argument("this origin has no private key for this public key")

    def take(self, origin: str, reported: Any, gone: Any, has_keys: bool) -> None:
        """Stores the credentials that a page of an origin reports, and removes credentials that are reported as
        removed.

        In known credentials, the signature counter may increase, and names and the large blob may change.
        """
        if not isinstance(reported, list) or len(reported) > _MAX_CREDENTIALS or not isinstance(gone, list):
            raise make_invalid_argument(
                f"credentials must be a list of at most {_MAX_CREDENTIALS}, and gone must be a list"
            )
        listed = {made["credentialId"]: (made, raw) for made, raw in ((read_reported(raw), raw) for raw in reported)}
        if len(listed) != len(reported) or not all(is_valid_rp_id(made["rpId"], origin) for made, _ in listed.values()):
            raise make_invalid_argument("credentials has a duplicate or a credential of another origin")
        with self.lock:
            own = {credential["credentialId"] for credential in self.of_origin(origin, True)}
            if any(other["credentialId"] in listed and other["credentialId"] not in own for other in self.credentials):
                raise make_invalid_argument("a credential belongs to another origin")
            dropped = {name for name in gone if isinstance(name, str) and name in own and name not in listed}
            fresh = [self._adopt(origin, *listed[name], has_keys) for name in listed if name not in own]
            kept = [
                self._update(credential, *listed.get(credential["credentialId"], ({},)))
                for credential in self.credentials
                if credential["credentialId"] not in dropped
            ]
            if len(kept) + len(fresh) > _MAX_CREDENTIALS:
                raise make_invalid_argument(f"the authenticator can store at most {_MAX_CREDENTIALS} credentials")
            for credential, privates in fresh:
                self._store(credential, privates)
            self.credentials = kept + [credential for credential, _ in fresh]

    @staticmethod
    def _update(credential: Json, reported: Json, _: Json | None = None) -> Json:
        """Returns a known credential with the changes that a page reports."""
        changed = {name: reported[name] for name in _CHANGEABLE if name in reported}
        return {**credential, **changed, "signCount": max(credential["signCount"], reported.get("signCount", 0))}

    def _adopt(self, origin: str, made: Json, raw: Json, has_keys: bool) -> tuple[Json, list[AnyKey]]:
        """Returns a page's new credential with its private keys, which must have been created for the same origin."""
        if has_keys:
            own, core = read_private_key(raw)
        else:
            own, *more = [self._find_pending(origin, public) for public in read_public_keys(raw)]
            core = more[0] if more else None
        return {**made, **_encode_private_keys(own, core)}, [own] if core is None else [own, core]

    def _find_pending(self, origin: str, public: bytes) -> AnyKey:
        """Returns the private key of a new key pair of an origin."""
        for_origin, pending = self._pending.get(public, ("", None))
        if pending is None or for_origin != origin:
            raise make_invalid_argument("this origin has no private key for this public key")
        return pending

    def _store(self, credential: Json, privates: list[AnyKey]) -> None:
        """Stores the private keys of a credential, and from time to time drops the private keys of removed
        credentials."""
        if len(self._keys) > 4 * _MAX_CREDENTIALS:
            held = {credential["credentialId"] for credential in self.credentials}
            self._public_keys = {name: public for name, public in self._public_keys.items() if name in held}
            used = {public for listed in self._public_keys.values() for public in listed}
            self._keys = {public: private for public, private in self._keys.items() if public in used}
        public_keys = [_to_public_key(private) for private in privates]
        self._public_keys[credential["credentialId"]] = public_keys
        for public, private in zip(public_keys, privates):
            self._keys[public] = private
            self._pending.pop(public, None)

    # Commands of the test suite.

    def set_presence(self, presence: Any) -> None:
        """Sets what the user does: a reply, or a list of replies, of which the last is repeated."""
        words = presence if isinstance(presence, list) and presence else [presence]
        if len(words) > _MAX_PRESENCE:
            raise make_invalid_argument(f"presence has {len(words)} entries; at most {_MAX_PRESENCE} are allowed")
        for word in words:
            check_choice("presence", word, PRESENCE_WORDS)
        with self.lock:
            self.presence, self.used = presence, 0
            self.serial += 1

    def set_faults(self, faults: Json) -> None:
        """Sets the faults by their names in the key of a page, and switches all other faults off."""
        for name in faults:
            check_choice("a fault", name, FAULT_NAMES)
        other = faults.get("wrongRpId")
        if other is not None and (not isinstance(other, str) or not other.isascii()):
            raise make_invalid_argument("wrongRpId must be an ASCII string")
        with self.lock:
            self.faults = faults

    def set_account(self, account: Any) -> None:
        """Sets the account that signs in if there are several, and selects the account in a page that waits for a
        selection."""
        if isinstance(account, bool) or not isinstance(account, (int, str)):
            raise make_invalid_argument("account must be an index, a user name or a credential ID")
        with self.lock:
            self.account = account
            self.selections += 1

    def set_user_verified(self, is_verified: Any) -> None:
        """Sets whether user verification succeeds."""
        self.options["isUserVerified"] = check_boolean("isUserVerified", is_verified)

    def add(self, credential: Json) -> None:
        """Adds a credential."""
        made, private = read_credential(credential, self.options)
        privates: list[AnyKey] = [private]
        if not isinstance(private, private_keys.PrivateKey):
            privates.append(private_keys.make_private_key(os.urandom))
            made.update(_encode_private_keys(*privates))
        with self.lock:
            if any(held["credentialId"] == made["credentialId"] for held in self.credentials):
                raise make_invalid_argument("the authenticator already has a credential with this ID")
            account = (made["rpIdHash"], made["userHandle"], True)
            kept = [
                held
                for held in self.credentials
                if not made["isResidentCredential"]
                or (held["rpIdHash"], held["userHandle"], held["isResidentCredential"]) != account
            ]
            if len(kept) >= _MAX_CREDENTIALS:
                raise make_invalid_argument(f"the authenticator can store at most {_MAX_CREDENTIALS} credentials")
            self._store(made, privates)
            self.credentials = [*kept, made]

    def remove(self, credential_id: str) -> None:
        """Removes a credential, or all if no ID is given."""
        name = credential_id.rstrip("=")
        with self.lock:
            kept = [held for held in self.credentials if name and held["credentialId"] != name]
            if name and len(kept) == len(self.credentials):
                raise make_invalid_argument(f"the authenticator has no credential {name}")
            self.credentials = kept

    def update(self, credential_id: str, flags: Json) -> None:
        """Sets the backup flags of a credential."""
        name = credential_id.rstrip("=")
        changed = {
            flag: check_boolean(flag, flags[flag]) for flag in ("backupEligibility", "backupState") if flag in flags
        }
        with self.lock:
            if all(held["credentialId"] != name for held in self.credentials):
                raise make_invalid_argument(f"the authenticator has no credential {name}")
            self.credentials = [
                {**held, **changed} if held["credentialId"] == name else held for held in self.credentials
            ]


def _list_parent_domains(host: str) -> list[str]:
    """Returns a host and its parent domains."""
    labels = host.split(".")
    return [".".join(labels[start:]) for start in range(len(labels))]
