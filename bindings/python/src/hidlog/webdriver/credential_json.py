"""Parses WebDriver's JSON of credentials and authenticator options (WebAuthn section 11), and rejects invalid JSON."""

from __future__ import annotations

import re
from hashlib import sha256
from typing import Any

from ..algorithms import ALGORITHMS, ES256, AnyKey, get_algorithm, load_any_key
from ..errors import ArgumentError
from ..credential_metadata import CORE_ID, MAX_ID
from ..private_keys import to_pkcs8
from ..webauthn_json import b64url_decode, b64url_encode
from .errors import DriverError, make_invalid_argument

Json = dict[str, Any]
_PROTOCOLS = ("ctap1/u2f", "ctap2", "ctap2_1")
_TRANSPORTS = ("usb", "nfc", "ble", "smart-card", "hybrid", "internal")
_BOOLEAN_DEFAULTS = {
    "hasResidentKey": False,
    "hasUserVerification": False,
    "isUserConsenting": True,
    "isUserVerified": False,
    "defaultBackupEligibility": False,
    "defaultBackupState": False,
}
# Extensions of CTAP 2.1, and extensions that need discoverable credentials.
_EXTENSIONS = ("prf", "largeBlob", "credProtect", "credBlob", "minPinLength")
_OF_CTAP_2_1 = ("largeBlob", "credProtect", "credBlob", "minPinLength")
_ATTESTATIONS = ("basic", "self", "none")
_AUTOFILLS = ("automatic", "selected")
# Defaults of options that WebDriver does not have: those of Chromium's virtual authenticator.
_AAGUID = "01020304-0506-0708-0102-030405060708"
_NO_AAGUID = "00000000-0000-0000-0000-000000000000"
_UUID = re.compile(r"[0-9a-f]{8}(-[0-9a-f]{4}){3}-[0-9a-f]{12}\Z")
_MAX_USER_BYTES = 64
_MAX_TEXT = 1024
_MAX_PRIVATE_KEY = 4096
_MAX_CRED_BLOB = 32
_MAX_LARGE_BLOB = 65_536
_LISTED_MEMBERS = (
    *("credentialId", "isResidentCredential", "rpId", "privateKey", "signCount"),
    *("backupEligibility", "backupState"),
)
# Members that are omitted in a credential without a value.
_OPTIONAL_MEMBERS = ("userHandle", "userName", "userDisplayName", "largeBlob")


def list_members(credential: Json) -> Json:
    """Returns a credential in the form in which WebDriver lists it."""
    optional = {name: credential[name] for name in _OPTIONAL_MEMBERS if credential.get(name)}
    return {**{name: credential[name] for name in _LISTED_MEMBERS}, **optional}


def check_choice(name: str, value: Any, words: tuple[str, ...]) -> str:
    """Returns a value that must be one of these strings."""
    if not isinstance(value, str) or value not in words:
        raise make_invalid_argument(f"{name} is {value!r}; it must be one of {', '.join(words)}")
    return value


def check_boolean(name: str, value: Any) -> bool:
    """Returns a value that must be a boolean."""
    if not isinstance(value, bool):
        raise make_invalid_argument(f"{name} is {value!r}; it must be true or false")
    return value


def read_options(requested: Json) -> Json:
    """Returns the options of an authenticator, with defaults. Raises an error that names an unsupported option."""
    options: Json = {
        name: check_boolean(name, requested.get(name, default)) for name, default in _BOOLEAN_DEFAULTS.items()
    }
    options["protocol"] = check_choice("protocol", requested.get("protocol"), _PROTOCOLS)
    transport = requested.get("transport")
    options["transport"] = check_choice("transport", "hybrid" if transport == "cable" else transport, _TRANSPORTS)
    options["extensions"] = _read_extensions(requested, options)
    options.update(_read_core_additions(requested, options["protocol"] == "ctap1/u2f"))
    for name in ("hasResidentKey", "hasUserVerification"):
        if options["protocol"] == "ctap1/u2f" and options[name]:
            raise make_invalid_argument(f"{name} is true; a ctap1/u2f authenticator does not support it")
    return options


def _read_extensions(requested: Json, options: Json) -> list[str]:
    """Returns the extensions of an authenticator."""
    extensions = requested.get("extensions") or []
    if not isinstance(extensions, list) or not all(isinstance(name, str) for name in extensions):
        raise make_invalid_argument("extensions must be a list of strings")
    unknown = [name for name in extensions if name not in _EXTENSIONS]
    if unknown:
        text = f"unsupported extensions: {', '.join(unknown)}; supported: {', '.join(_EXTENSIONS)}"
        raise DriverError("unsupported operation", text)
    for name in extensions:
        if name in _OF_CTAP_2_1 and options["protocol"] != "ctap2_1":
            raise make_invalid_argument(f"the extension {name} needs the protocol ctap2_1")
    if "largeBlob" in extensions and not options["hasResidentKey"]:
        raise make_invalid_argument("the extension largeBlob needs hasResidentKey")
    return extensions


def _read_core_additions(requested: Json, is_u2f: bool) -> Json:
    """Returns the options that WebDriver does not have. The defaults are those of Chromium's virtual authenticator."""
    algorithms = requested.get("algorithms", [ES256] if is_u2f else list(ALGORITHMS))
    if not isinstance(algorithms, list) or ES256 not in algorithms or set(algorithms) - set(ALGORITHMS):
        raise make_invalid_argument(
            f"algorithms must be a list of {', '.join(map(str, ALGORITHMS))} that includes {ES256}"
        )
    aaguid = requested.get("aaguid", _NO_AAGUID if is_u2f else _AAGUID)
    if not isinstance(aaguid, str) or not _UUID.match(aaguid):
        raise make_invalid_argument(f"aaguid is {aaguid!r}; it must be a UUID in lowercase")
    return {
        "algorithms": algorithms,
        "aaguid": aaguid,
        "attestation": check_choice("attestation", requested.get("attestation", "basic"), _ATTESTATIONS),
        "autofill": check_choice("autofill", requested.get("autofill", "automatic"), _AUTOFILLS),
    }


def _read_bytes(credential: Json, name: str, least: int, most: int) -> bytes:
    value = credential.get(name)
    try:
        data = b64url_decode(value.rstrip("="), name) if isinstance(value, str) and len(value) < 20_000 else None
    except ArgumentError:
        data = None
    if data is None or not least <= len(data) <= most:
        raise make_invalid_argument(f"{name} must be base64url of {least} to {most} bytes")
    return data


def _read_text(credential: Json, name: str, default: str = "") -> str:
    value = credential.get(name)
    if value is None:
        return default
    if not isinstance(value, str) or len(value) > _MAX_TEXT:
        raise make_invalid_argument(f"{name} must be a string of at most {_MAX_TEXT} characters")
    return value


def _read_pkcs8(credential: Json, name: str = "privateKey") -> AnyKey:
    data = _read_bytes(credential, name, 1, _MAX_PRIVATE_KEY)
    try:
        return load_any_key(data)
    except ArgumentError as error:
        raise make_invalid_argument(f"{name} must be PKCS #8 of a P-256, Ed25519 or RSA key: {error}") from None


def _to_state(credential: Json, defaults: tuple[bool, bool]) -> Json:
    """Returns a credential in the form of the key's state, without a private key."""
    rp_id = credential.get("rpId")
    if not isinstance(rp_id, str) or not rp_id or len(rp_id) > _MAX_TEXT:
        raise make_invalid_argument("rpId must be the id of a relying party")
    count = credential.get("signCount")
    if isinstance(count, bool) or not isinstance(count, int) or not 0 <= count < 2**32:
        raise make_invalid_argument("signCount must be an integer from 0 to 2^32-1")
    credential_id = _read_bytes(credential, "credentialId", 1, MAX_ID)
    user = b"" if credential.get("userHandle") is None else _read_bytes(credential, "userHandle", 0, _MAX_USER_BYTES)
    name = _read_text(credential, "userName")
    try:
        rp_id_hash = sha256(rp_id.encode()).digest()
    except UnicodeEncodeError:
        raise make_invalid_argument("rpId must be the id of a relying party") from None
    made = {
        "credentialId": b64url_encode(credential_id),
        "isResidentCredential": check_boolean("isResidentCredential", credential.get("isResidentCredential")),
        "rpId": rp_id,
        "userName": name,
        "userDisplayName": _read_text(credential, "userDisplayName") or name,
        "privateKey": "",
        "userHandle": b64url_encode(user),
        "signCount": count,
        "backupEligibility": check_boolean("backupEligibility", credential.get("backupEligibility", defaults[0])),
        "backupState": check_boolean("backupState", credential.get("backupState", defaults[1])),
        "rpIdHash": b64url_encode(rp_id_hash),
    }
    if credential.get("largeBlob") is not None:
        made["largeBlob"] = b64url_encode(_read_bytes(credential, "largeBlob", 0, _MAX_LARGE_BLOB))
    if len(credential_id) != CORE_ID:
        made["coreId"] = b64url_encode(sha256(b"hidlog webdriver" + credential_id).digest())
    return made


def read_credential(credential: Json, options: Json) -> tuple[Json, AnyKey]:
    """Returns a credential that a test suite adds, and its private key."""
    made = _to_state(credential, (options["defaultBackupEligibility"], options["defaultBackupState"]))
    is_resident = made["isResidentCredential"]
    if is_resident and not options["hasResidentKey"]:
        raise make_invalid_argument("the authenticator does not support resident credentials (hasResidentKey is false)")
    if "largeBlob" in made and not ("largeBlob" in options["extensions"] and is_resident):
        raise make_invalid_argument("largeBlob needs the extension largeBlob, and a resident credential")
    if is_resident and credential.get("userHandle") is None:
        raise make_invalid_argument("a resident credential needs a userHandle")
    private = _read_pkcs8(credential)
    if get_algorithm(private) not in options["algorithms"]:
        raise make_invalid_argument(
            f"privateKey has the algorithm {get_algorithm(private)}, which is not in algorithms"
        )
    kept = {"prf": True} if "prf" in options["extensions"] else {}
    if "largeBlob" in made:
        kept["largeBlob"] = made["largeBlob"]
    extensions = {"extensions": kept} if kept else {}
    return {**made, **extensions, "privateKey": b64url_encode(to_pkcs8(private))}, private


def _read_kept_extensions(reported: Any) -> Json:
    """Returns the extension data of a reported credential."""
    if not isinstance(reported, dict) or set(reported) - {"prf", "largeBlob", "credBlob", "credProtect"}:
        raise make_invalid_argument("extensions must be an object of prf, largeBlob, credBlob and credProtect")
    kept: Json = {"prf": True} if reported.get("prf") is True else {}
    for name, most in (("largeBlob", _MAX_LARGE_BLOB), ("credBlob", _MAX_CRED_BLOB)):
        if name in reported:
            kept[name] = b64url_encode(_read_bytes(reported, name, 0, most))
    if "credProtect" in reported:
        level = reported["credProtect"]
        if isinstance(level, bool) or level not in (1, 2, 3):
            raise make_invalid_argument("credProtect must be 1, 2 or 3")
        kept["credProtect"] = level
    return kept


def read_reported(credential: Any) -> Json:
    """Returns a credential that a page reports, without a private key. The input is untrusted."""
    if not isinstance(credential, dict):
        raise make_invalid_argument("a credential must be an object")
    made = _to_state(credential, (False, False))
    kept = _read_kept_extensions(credential.get("extensions", {}))
    return {**made, "extensions": kept} if kept else made


def read_private_key(credential: Json) -> tuple[AnyKey, AnyKey | None]:
    """Returns the private key of a credential that a page created itself, and the core's private key if it differs."""
    core = _read_pkcs8(credential, "coreKey") if "coreKey" in credential else None
    return _read_pkcs8(credential), core


def read_public_keys(credential: Json) -> list[bytes]:
    """Returns the public keys of a credential whose private keys the proxy stores: the credential's, and the core's if
    it differs.

    A key on P-256 is returned as x and y, which are the last 64 bytes of its placeholder; other keys are returned as
    SubjectPublicKeyInfo.
    """
    if "coreKey" not in credential:
        return [_read_bytes(credential, "privateKey", 64, _MAX_PRIVATE_KEY)[-64:]]
    own = _read_bytes(credential, "privateKey", 1, _MAX_PRIVATE_KEY)
    return [own, _read_bytes(credential, "coreKey", 64, _MAX_PRIVATE_KEY)[-64:]]
