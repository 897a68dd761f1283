"""The JSON of WebAuthn Level 3 (section 5.1, "PublicKeyCredential"), in both directions.

A service's options: `creation_options` and `request_options` convert JSON to dicts with bytes, `creation_options_json`
and `request_options_json` convert them back. A browser's credentials: `registration_json` and `authentication_json`
write JSON, `registration` and `authentication` convert it to dicts with bytes.
"""

from __future__ import annotations

import re
from base64 import urlsafe_b64decode, urlsafe_b64encode
from collections.abc import Callable, Mapping
from typing import Any, Optional
from urllib.parse import urlsplit

from . import cbor
from .errors import ArgumentError, ArgumentTypeError, check_bytes

Json = dict[str, Any]
Conversion = Callable[[str, Any], Any]
_ES256 = -7
_NON_BASE64URL = re.compile(r"[^A-Za-z0-9_-]")


def b64url_encode(data: bytes) -> str:
    """Encodes bytes as base64url without padding."""
    return urlsafe_b64encode(check_bytes("the data", data)).decode("ascii").rstrip("=")


def b64url_decode(text: str, name: str = "the text") -> bytes:
    """Decodes base64url without padding."""
    if not isinstance(text, str):
        raise ArgumentTypeError(f"{name} must be a base64url str, not {type(text).__name__}")
    wrong = _NON_BASE64URL.search(text)
    if wrong or len(text) % 4 == 1:
        why = f"unexpected {wrong[0]!r}" if wrong else f"invalid length {len(text)}"
        raise ArgumentError(f"{name} is not base64url without padding: {why}")
    return urlsafe_b64decode(text.encode("ascii") + b"=" * (-len(text) % 4))


def _check_bytes(name: str, value: Any) -> bytes:
    """Returns a value as bytes. The value may be of a subclass of bytes, as in python-fido2, or have the method
    __bytes__."""
    convert = getattr(value, "__bytes__", None)
    return check_bytes(name, convert() if convert else value)


def _to_bytes(name: str, value: Any) -> bytes:
    return b64url_decode(value, name)


def _to_text(name: str, value: Any) -> str:
    """Encodes bytes as base64url. A str, as in options of python-fido2 2.x, must be base64url already."""
    if isinstance(value, str):
        b64url_decode(value, name)
        return value
    return b64url_encode(check_bytes(name, value))


def host_of(origin: str) -> str:
    """Returns the host of an origin."""
    if not isinstance(origin, str):
        raise ArgumentTypeError(f"origin must be str, not {type(origin).__name__}")
    try:
        host = urlsplit(origin).hostname
    except ValueError:
        host = None
    if not host:
        raise ArgumentError(f"{origin!r} is not an origin; expected one like https://example.com")
    return host


def _get_member(options: Mapping[str, Any], *path: str) -> Any:
    """Returns a required member."""
    value: Any = options
    for name in path:
        value = value.get(name) if isinstance(value, Mapping) else None
    if value is None:
        raise ArgumentError(f"{'.'.join(path)} is missing")
    return value


def _check_mapping(value: Any, name: str) -> Mapping[str, Any]:
    """Returns a value that must be a mapping."""
    if not isinstance(value, Mapping):
        raise ArgumentTypeError(f"{name} must be a dict, not {type(value).__name__}")
    return value


def _to_plain_mapping(value: Any, name: str) -> Json:
    """Converts a mapping to dicts and lists recursively, without members that are None."""
    try:
        made: Json = _to_plain(_check_mapping(value, name))
        return made
    except RecursionError:
        raise ArgumentError(f"{name} contains a cycle, or is nested too deeply") from None


def _to_plain(value: Any) -> Any:
    """Converts mappings and lists to dict and list, without members that are None, and enum members to their values."""
    if isinstance(value, Mapping):
        return {key: _to_plain(member) for key, member in value.items() if member is not None}
    if isinstance(value, (list, tuple)):
        return [_to_plain(item) for item in value]
    return getattr(value, "value", value)


def _convert_descriptors(options: Json, name: str, convert: Conversion) -> None:
    if name in options:
        if not isinstance(options[name], list):
            raise ArgumentTypeError(f"{name} must be a list, not {type(options[name]).__name__}")
        listed = [_check_mapping(descriptor, f"a credential of {name}") for descriptor in options[name]]
        options[name] = [
            {**descriptor, "id": convert(f"{name}.id", _get_member(descriptor, "id"))} for descriptor in listed
        ]


def _convert_prf(values: Json, convert: Conversion) -> Json:
    return {
        key: convert(f"extensions.prf.{key}", member)
        for key, member in _check_mapping(values, "extensions.prf").items()
    }


def _convert_extensions(value: Json, convert: Conversion) -> Json:
    """Converts the binary members of the extensions prf and largeBlob."""
    made = dict(_check_mapping(value, "extensions"))
    if isinstance(value.get("largeBlob"), dict):
        parts = value["largeBlob"].items()
        made["largeBlob"] = {
            key: convert(f"extensions.largeBlob.{key}", part) if key in ("write", "blob") else part
            for key, part in parts
        }
    if isinstance(value.get("prf"), dict):
        prf = dict(value["prf"])
        for name in ("eval", "results"):
            if name in prf:
                prf[name] = _convert_prf(prf[name], convert)
        if "evalByCredential" in prf:
            prf["evalByCredential"] = {
                key: _convert_prf(inputs, convert)
                for key, inputs in _check_mapping(prf["evalByCredential"], "evalByCredential").items()
            }
        made["prf"] = prf
    return made


def _convert_creation(options: Mapping[str, Any], convert: Conversion) -> Json:
    made = _to_plain_mapping(options, "options")
    made["challenge"] = convert("challenge", _get_member(made, "challenge"))
    made["user"] = {
        **_check_mapping(_get_member(made, "user"), "user"),
        "id": convert("user.id", _get_member(made, "user", "id")),
    }
    _get_member(made, "rp")
    _get_member(made, "pubKeyCredParams")
    _convert_descriptors(made, "excludeCredentials", convert)
    if "extensions" in made:
        made["extensions"] = _convert_extensions(made["extensions"], convert)
    return made


def _convert_request(options: Mapping[str, Any], convert: Conversion) -> Json:
    made = _to_plain_mapping(options, "options")
    made["challenge"] = convert("challenge", _get_member(made, "challenge"))
    _convert_descriptors(made, "allowCredentials", convert)
    if "extensions" in made:
        made["extensions"] = _convert_extensions(made["extensions"], convert)
    return made


def _unwrap(options: Mapping[str, Any]) -> Mapping[str, Any]:
    """Returns the options, or their member publicKey if it exists."""
    if not isinstance(options, Mapping):
        raise ArgumentTypeError(f"options must be a dict, not {type(options).__name__}")
    inner = options.get("publicKey")
    return inner if isinstance(inner, Mapping) else options


def creation_options(options: Mapping[str, Any], origin: str | None = None) -> Json:
    """Decodes PublicKeyCredentialCreationOptionsJSON. A missing rp.id is set to the origin's host."""
    made = _convert_creation(_unwrap(options), _to_bytes)
    if origin is not None:
        made["rp"] = {"id": host_of(origin), **_check_mapping(made["rp"], "rp")}
    return made


def request_options(options: Mapping[str, Any], origin: str | None = None) -> Json:
    """Decodes PublicKeyCredentialRequestOptionsJSON. A missing rpId is set to the origin's host."""
    made = _convert_request(_unwrap(options), _to_bytes)
    return made if origin is None else {"rpId": host_of(origin), **made}


def creation_options_json(options: Mapping[str, Any]) -> Json:
    """Encodes creation options, such as those of python-fido2's server, as JSON."""
    return _convert_creation(_unwrap(options), _to_text)


def request_options_json(options: Mapping[str, Any]) -> Json:
    """Encodes request options, such as those of python-fido2's server, as JSON."""
    return _convert_request(_unwrap(options), _to_text)


def normalize_attestation_object(data: bytes) -> bytes:
    """Returns an attestation object with WebAuthn's keys (fmt, authData, attStmt) instead of CTAP2's numbers."""
    names, value = {1: "fmt", 2: "authData", 3: "attStmt"}, cbor.decode(data)
    if not isinstance(value, dict):
        raise ArgumentError("the attestation object is not a CBOR map")
    return cbor.encode({names.get(key, key): member for key, member in value.items()})


def _read_attestation(attestation: bytes) -> tuple[bytes, bytes, Optional[bytes], int]:
    """Returns the authenticator data, credential ID, public key as SubjectPublicKeyInfo, and algorithm."""
    try:
        auth_data = check_bytes("authData", cbor.decode(attestation)["authData"])
        length = int.from_bytes(auth_data[53:55], "big")
        return auth_data, auth_data[55 : 55 + length], *_read_public_key(auth_data)
    except (LookupError, TypeError, ValueError) as error:
        raise ArgumentError(f"invalid attestation object: {error}") from None


def _read_public_key(auth_data: bytes) -> tuple[Optional[bytes], int]:
    """Returns the public key in authenticator data as SubjectPublicKeyInfo, and the key's algorithm."""
    from .private_keys import to_spki

    length = int.from_bytes(auth_data[53:55], "big")
    cose, _ = cbor.decode_first(auth_data[55 + length :])
    return (to_spki(cose[-2], cose[-3]) if cose[3] == _ES256 else None), cose[3]


def _make_credential_json(credential_id: bytes, response: Json, extensions: Any, attachment: str | None) -> Json:
    made = {
        "id": b64url_encode(credential_id),
        "rawId": b64url_encode(credential_id),
        "response": response,
        "authenticatorAttachment": attachment,
        "clientExtensionResults": _convert_extensions(_to_plain_mapping(extensions or {}, "extensions"), _to_text),
        "type": "public-key",
    }
    return {name: member for name, member in made.items() if member is not None}


def registration_json(
    client_data: bytes,
    attestation_object: bytes,
    extensions: Mapping[str, Any] | None = None,
    transports: tuple[str, ...] = ("usb",),
    attachment: str | None = "cross-platform",
) -> Json:
    """Encodes the result of a registration as RegistrationResponseJSON."""
    attestation = normalize_attestation_object(_check_bytes("attestation_object", attestation_object))
    auth_data, name, public, algorithm = _read_attestation(attestation)
    response = {
        "clientDataJSON": b64url_encode(_check_bytes("client_data", client_data)),
        "authenticatorData": b64url_encode(auth_data),
        "transports": list(transports),
        "publicKey": None if public is None else b64url_encode(public),
        "publicKeyAlgorithm": algorithm,
        "attestationObject": b64url_encode(attestation),
    }
    kept = {name: member for name, member in response.items() if member is not None}
    return _make_credential_json(name, kept, extensions, attachment)


def authentication_json(
    credential_id: bytes,
    client_data: bytes,
    authenticator_data: bytes,
    signature: bytes,
    user_handle: bytes | None = None,
    extensions: Mapping[str, Any] | None = None,
    attachment: str | None = "cross-platform",
) -> Json:
    """Encodes the result of a sign-in as AuthenticationResponseJSON."""
    response = {
        "clientDataJSON": b64url_encode(_check_bytes("client_data", client_data)),
        "authenticatorData": b64url_encode(_check_bytes("authenticator_data", authenticator_data)),
        "signature": b64url_encode(_check_bytes("signature", signature)),
    }
    if user_handle:
        response["userHandle"] = b64url_encode(user_handle)
    return _make_credential_json(credential_id, response, extensions, attachment)


def _decode_credential(credential: Mapping[str, Any], required: tuple[str, ...], others: tuple[str, ...]) -> Json:
    """Decodes a credential's response."""
    made = _to_plain_mapping(credential, "credential")
    for name in required:
        _get_member(made, "response", name)
    made["rawId"] = b64url_decode(_get_member(made, "rawId"), "rawId")
    response = made["response"]
    found = {name: b64url_decode(response[name], name) for name in (*required, *others) if name in response}
    made["response"] = {**response, **found}
    if "clientExtensionResults" in made:
        made["clientExtensionResults"] = _convert_extensions(made["clientExtensionResults"], _to_bytes)
    return made


def registration(credential: Mapping[str, Any]) -> Json:
    """Decodes RegistrationResponseJSON."""
    return _decode_credential(credential, ("clientDataJSON", "attestationObject"), ("authenticatorData", "publicKey"))


def authentication(credential: Mapping[str, Any]) -> Json:
    """Decodes AuthenticationResponseJSON."""
    return _decode_credential(credential, ("clientDataJSON", "authenticatorData", "signature"), ("userHandle",))
