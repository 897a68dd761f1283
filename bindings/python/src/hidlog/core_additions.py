"""The features of a key that are added outside the core to a registration or sign-in: flags, AAGUID, attestation, keys
of other algorithms, and extensions. The core's recording is not changed, except for a comment on each feature.

bindings/web/key/core_additions.js does the same for pages.
"""

from __future__ import annotations

from collections.abc import Callable, Mapping
from typing import TYPE_CHECKING, Any, NamedTuple, Optional

from . import key_extensions, private_keys, attestation_certificates
from .algorithms import (
    ES256,
    OtherKey,
    get_algorithm,
    format_algorithm,
    make_other_key,
    sign_with_other_key,
    to_cose,
    to_public_der,
)
from .credential_metadata import UV, CredentialMetadata, flag_names
from .webauthn_json import b64url_encode

if TYPE_CHECKING:
    from .authenticator_settings import AuthenticatorSettings

Json = dict[str, Any]
_FLAGS, _AAGUID, _LENGTH, _ID = 32, 37, 53, 55
_ED = 0x80
_REQUESTING = ("indirect", "direct", "enterprise")
_PUBLIC_KEY = "public-key"


class Completed(NamedTuple):
    """The replacement for the core's attestation statement or signature, if any."""

    statement: Optional[tuple[str, dict[str, Any]]] = None
    signature: Optional[bytes] = None


_NOTHING = Completed()


def select_algorithm(parameters: Any, algorithms: tuple[int, ...]) -> int:
    """Returns the algorithm of a new credential: the first one of a page's list that the key supports."""
    for item in parameters if isinstance(parameters, (list, tuple)) else ():
        if isinstance(item, Mapping) and item.get("type") == _PUBLIC_KEY and item.get("alg") in algorithms:
            return int(item["alg"])
    return ES256


def adapt_options(ceremony: str, options: Json, settings: AuthenticatorSettings) -> Json:
    """Returns options for the C library's WebAuthn client and the core, which support no algorithm except ES256."""
    parameters = options.get("pubKeyCredParams")
    if ceremony == "create" and select_algorithm(parameters, settings.algorithms) != ES256:
        return {**options, "pubKeyCredParams": [{"type": _PUBLIC_KEY, "alg": ES256}, *(parameters or ())]}
    return options


class CoreAdditions:
    """The features of one request that are outside the core. Without a ceremony, the request is not from the
    browser."""

    def __init__(
        self,
        settings: AuthenticatorSettings,
        metadata: CredentialMetadata,
        ceremony: str = "",
        options: Optional[Json] = None,
        is_discoverable: bool = False,
    ):
        self._settings, self._metadata, self._ceremony = settings, metadata, ceremony
        self.is_verified, self._is_discoverable = False, is_discoverable
        self._options = given = options or {}
        self.inputs = key_extensions.read_inputs(given)
        self.algorithm = ES256
        self._format, self._aaguid = "self", bytes(16)
        if ceremony == "create":
            self.algorithm = select_algorithm(given.get("pubKeyCredParams"), settings.algorithms)
            self._format, self._aaguid = self._select_attestation(given.get("attestation"))

    def _select_attestation(self, requested: Any) -> tuple[str, bytes]:
        """Returns the attestation that a page gets, and the AAGUID.

        As in Chromium, an attestation that the page does not request is replaced by "none", and the AAGUID is cleared
        unless the key is a platform authenticator (WebAuthn Level 3, section 5.1.3, step 22).
        """
        chosen, aaguid = self._settings.attestation, self._settings.aaguid.bytes
        if chosen != "basic" or requested in _REQUESTING:
            return chosen, aaguid
        return "none", aaguid if self._settings.attachment == "platform" else bytes(16)

    def add(self, core_id: bytes, random: Callable[[int], bytes]) -> None:
        """Stores the data of a new credential that is outside the core."""
        if self.algorithm != ES256:
            self._metadata.others[core_id] = make_other_key(self.algorithm, random)
        if self._ceremony == "create":
            kept = key_extensions.keep_extensions(self._options, self._settings, self._is_discoverable)
            if kept:
                self._metadata.extensions[core_id] = kept

    def alter(self, core_id: bytes, original: bytes) -> tuple[bytes, list[str]]:
        """Changes authenticator data of the core. Returns the changed data with a description of each change."""
        flags = UV * self.is_verified | self._metadata.backup(core_id).flags
        comments = [f"flags {flag_names(flags)}, and the signature over them"] if flags else []
        if not self._ceremony and core_id not in self._metadata.others:
            return _with_flags(original, flags), comments
        data, outputs = original, b""
        kept = self._metadata.extensions.get(core_id, {})
        if self._ceremony == "create":
            data = self._with_attested_data(core_id, original, comments)
            outputs = key_extensions.encode_registration_outputs(kept, self.inputs, self._settings)
        elif self._ceremony:
            outputs = key_extensions.encode_sign_in_outputs(kept, self.inputs, self._settings)
        other = self._metadata.others.get(core_id)
        if other is not None:
            algorithm = format_algorithm(get_algorithm(other))
            comments.append(f"a key of {algorithm}, whose signature the page gets in place of this one")
        if outputs:
            comments.append("extension outputs in the authenticator data, and the signature over them")
        return _with_flags(data, flags | _ED * bool(outputs)) + outputs, comments

    def _with_attested_data(self, core_id: bytes, data: bytes, comments: list[str]) -> bytes:
        """Returns authenticator data with another AAGUID and public key."""
        if self._format != "self":
            what = "none" if self._format == "none" else "by the certificate of the test root"
            comments.append(f"attestation {what}")
        if any(self._aaguid):
            comments.append(f"AAGUID {self._settings.aaguid}")
        end = _ID + int.from_bytes(data[_LENGTH:_ID], "big")
        other = self._metadata.others.get(core_id)
        cose = data[end:] if other is None else to_cose(other)
        return data[:_AAGUID] + self._aaguid + data[_LENGTH:end] + cose

    def complete(self, core_id: bytes, signed: bytes, is_bad: bool, random: Callable[[int], bytes]) -> Completed:
        """Returns the attestation statement of a registration, or the signature of a sign-in, if it replaces the
        core's.

        is_bad   sign with another private key.
        """
        other = self._metadata.others.get(core_id)
        if self._ceremony != "create":
            return (
                _NOTHING
                if other is None
                else Completed(signature=self._sign_with_other_key(other, signed, is_bad, random))
            )
        if self._format == "none":
            return Completed(("none", {}))
        if self._format == "basic":
            key = private_keys.load_private_key(attestation_certificates.PRIVATE_KEY)
            signature = private_keys.sign(private_keys.make_private_key(random) if is_bad else key, signed)
            return Completed(
                ("packed", {"alg": ES256, "sig": signature, "x5c": [attestation_certificates.CERTIFICATE]})
            )
        if other is None:
            return _NOTHING
        signature = self._sign_with_other_key(other, signed, is_bad, random)
        return Completed(("packed", {"alg": get_algorithm(other), "sig": signature}))

    @staticmethod
    def _sign_with_other_key(other: OtherKey, signed: bytes, is_bad: bool, random: Callable[[int], bytes]) -> bytes:
        return sign_with_other_key(make_other_key(get_algorithm(other), random) if is_bad else other, signed)

    def adapt(self, made: Json, core_id: bytes, public: bytes) -> None:
        """Completes a credential's JSON from the C library's client: the public key and the extension results."""
        other = self._metadata.others.get(core_id)
        kept = self._metadata.extensions.get(core_id, {})
        if self._ceremony == "create":
            if other is not None:
                encoded = b64url_encode(to_public_der(other))
                made["response"].update(publicKey=encoded, publicKeyAlgorithm=get_algorithm(other))
            results = key_extensions.make_registration_results(kept, self.inputs, public)
        else:
            results = key_extensions.make_sign_in_results(kept, self.inputs, public, made["id"])
        made["clientExtensionResults"].update(results)


def _with_flags(data: bytes, flags: int) -> bytes:
    return data if not flags else data[:_FLAGS] + bytes([data[_FLAGS] | flags]) + data[_FLAGS + 1 :]
