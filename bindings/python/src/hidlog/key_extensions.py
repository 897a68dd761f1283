"""Extensions that a key supports outside the core (WebAuthn Level 3, section 10; CTAP 2.1, section 12): prf, largeBlob,
credProtect, credBlob and minPinLength. The results are those of Chromium's virtual authenticator.

bindings/web/key/key_extensions.js is the same for pages. The C library's WebAuthn client (webauthn_client.py) has
checked the inputs before.
"""

from __future__ import annotations

import hmac
from collections.abc import Mapping
from hashlib import sha256
from typing import TYPE_CHECKING, Any

from . import cbor
from .webauthn_json import b64url_decode, b64url_encode

if TYPE_CHECKING:
    from .authenticator_settings import AuthenticatorSettings

Json = dict[str, Any]
_POLICIES = (
    "userVerificationOptional",
    "userVerificationOptionalWithCredentialIDList",
    "userVerificationRequired",
)
_WITH_LIST, _VERIFIED = 2, 3
_MAX_CRED_BLOB = 32
_MIN_PIN_LENGTH = 4
_PRF_CONTEXT = b"WebAuthn PRF\0"


def read_inputs(options: Any) -> Json:
    """Returns the extension inputs of options whose types may be wrong."""
    extensions = options.get("extensions") if isinstance(options, Mapping) else None
    return dict(extensions) if isinstance(extensions, Mapping) else {}


def drop_list_inputs(inputs: Json) -> Json:
    """Returns the inputs without those that are checked against allowCredentials."""
    made = dict(inputs)
    for name, member in (("prf", "evalByCredential"), ("largeBlob", "write")):
        if isinstance(made.get(name), Mapping):
            made[name] = {key: value for key, value in made[name].items() if key != member}
    return made


def _select_protection(selection: Json) -> int:
    """Returns the protection policy of a discoverable credential if the page requests none.

    As in Chromium, the policy requires user verification if the page requires a discoverable credential and neither
    requires nor discourages user verification.
    """
    resident, verification = selection.get("residentKey"), selection.get("userVerification")
    is_required = resident == "required" or (
        resident not in ("preferred", "discouraged") and bool(selection.get("requireResidentKey"))
    )
    return _VERIFIED if is_required and verification not in ("required", "discouraged") else _WITH_LIST


def keep_extensions(options: Json, settings: AuthenticatorSettings, is_discoverable: bool) -> Json:
    """Returns the extension data of a new credential: prf, largeBlob (b"" until a page writes one), credBlob,
    credProtect."""
    kept: Json = {}
    inputs = read_inputs(options)
    if settings.supports("prf") and (inputs.get("prf") is not None or inputs.get("hmacCreateSecret")):
        kept["prf"] = True
    if settings.supports("largeBlob") and (inputs.get("largeBlob") or {}).get("support") and is_discoverable:
        kept["largeBlob"] = b""
    blob = b64url_decode(inputs["credBlob"]) if "credBlob" in inputs else bytes(_MAX_CRED_BLOB + 1)
    if settings.supports("credBlob") and len(blob) <= _MAX_CRED_BLOB:
        kept["credBlob"] = blob
    policy = inputs.get("credentialProtectionPolicy")
    by_default = _select_protection(options.get("authenticatorSelection") or {}) if is_discoverable else 0
    level = _POLICIES.index(policy) + 1 if policy in _POLICIES else by_default
    if settings.supports("credProtect") and level:
        kept["credProtect"] = level
    return kept


def _encode_outputs(outputs: Json) -> bytes:
    return cbor.encode(outputs) if outputs else b""


def encode_registration_outputs(kept: Json, inputs: Json, settings: AuthenticatorSettings) -> bytes:
    """Returns the extension outputs in the authenticator data of a registration, as CBOR; empty if there are none."""
    outputs: Json = {"credBlob": True} if "credBlob" in kept else {}
    if "credProtect" in kept:
        outputs["credProtect"] = kept["credProtect"]
    if inputs.get("minPinLength") and settings.supports("minPinLength"):
        outputs["minPinLength"] = _MIN_PIN_LENGTH
    return _encode_outputs(outputs)


def encode_sign_in_outputs(kept: Json, inputs: Json, settings: AuthenticatorSettings) -> bytes:
    """Returns the extension outputs in the authenticator data of a sign-in."""
    is_asked = inputs.get("getCredBlob") and settings.supports("credBlob")
    return _encode_outputs({"credBlob": kept.get("credBlob", b"")} if is_asked else {})


def _evaluate_prf(public: bytes, inputs: Json) -> Json:
    """Evaluates a credential's PRF, and returns the results.

    Its secret is derived from the core's public key, so that the results are the same wherever the credential is added
    again.
    """
    secret = sha256(b"hidlog prf" + public).digest()
    salts = {name: sha256(_PRF_CONTEXT + b64url_decode(inputs[name])).digest() for name in inputs if inputs[name]}
    return {"results": {name: b64url_encode(hmac.digest(secret, salt, "sha256")) for name, salt in salts.items()}}


def make_registration_results(kept: Json, inputs: Json, public: bytes) -> Json:
    """Returns the client extension results of a registration, besides those of the C library's WebAuthn client."""
    prf = inputs.get("prf")
    results: Json = {}
    if "prf" in kept and prf is not None:
        results["prf"] = {"enabled": True, **(_evaluate_prf(public, prf["eval"]) if prf.get("eval") else {})}
    if "prf" in kept and inputs.get("hmacCreateSecret"):
        results["hmacCreateSecret"] = True
    if "largeBlob" in kept and inputs.get("largeBlob"):
        results["largeBlob"] = {"supported": True}
    if "credBlob" in kept and "credBlob" in inputs:
        results["credBlob"] = True
    return results


def make_sign_in_results(kept: Json, inputs: Json, public: bytes, page_id: str) -> Json:
    """Returns the client extension results of a sign-in. Writes the large blob, if requested."""
    prf, blob = inputs.get("prf") or {}, inputs.get("largeBlob") or {}
    results: Json = {}
    values = (prf.get("evalByCredential") or {}).get(page_id) or prf.get("eval")
    if "prf" in kept and values:
        results["prf"] = _evaluate_prf(public, values)
    if "largeBlob" in kept and blob.get("write"):
        kept["largeBlob"] = b64url_decode(blob["write"])
        results["largeBlob"] = {"written": True}
    elif kept.get("largeBlob") and blob.get("read"):
        results["largeBlob"] = {"blob": b64url_encode(kept["largeBlob"])}
    if "credBlob" in kept and inputs.get("getCredBlob"):
        results["getCredBlob"] = b64url_encode(kept["credBlob"])
    return results


def is_usable(kept: Json, is_verified: bool, is_listed: bool) -> bool:
    """Returns whether the protection policy of a credential allows the sign-in (CTAP 2.1, section 12.1). `is_listed` is
    whether the page's allow list has the credential."""
    return is_verified or kept.get("credProtect", 0) < (_VERIFIED if is_listed else _WITH_LIST)
