"""The Signal API (WebAuthn Level 3, section 5.1.10), by which a service signals which credentials and user details are
current. A browser removes or changes the key's credentials accordingly.
"""

from __future__ import annotations

from collections.abc import Mapping
from typing import TYPE_CHECKING, Any

from .errors import ArgumentError, describe
from .webauthn_client import ClientCall
from .webauthn_errors import WebAuthnTypeError
from .webauthn_json import b64url_decode

if TYPE_CHECKING:
    from .credentials import Credential
    from .key import SecurityKey

# The members of each method's options, in the order of conversion, which is alphabetical. A list has several IDs.
_ACCEPTED = "allAcceptedCredentialIds"
_MEMBERS = {
    "signalUnknownCredential": ("credentialId", "rpId"),
    "signalAllAcceptedCredentials": (_ACCEPTED, "rpId", "userId"),
    "signalCurrentUserDetails": ("displayName", "name", "rpId", "userId"),
}
_BASE64URL_MEMBERS = ("credentialId", "userId", _ACCEPTED)
# Longer names are truncated, as keys do (CTAP 2.1, section 6.1.2).
_MAX_NAME_BYTES = 64


def signal_unknown_credential(key: SecurityKey, origin: str, options: Mapping[str, Any]) -> None:
    """Removes a credential that the service does not know."""
    given = _read_options("signalUnknownCredential", key, origin, options)
    for credential in key.credentials.for_rp(given["rpId"]):
        if credential.id == given["credentialId"]:
            key.credentials.remove(credential.id)


def signal_all_accepted_credentials(key: SecurityKey, origin: str, options: Mapping[str, Any]) -> None:
    """Removes the user's discoverable credentials that are not in the list."""
    given = _read_options("signalAllAcceptedCredentials", key, origin, options)
    for credential in _list_of_user(key, given):
        if credential.id not in given[_ACCEPTED]:
            key.credentials.remove(credential.id)


def signal_current_user_details(key: SecurityKey, origin: str, options: Mapping[str, Any]) -> None:
    """Changes the user name of the user's discoverable credentials. Display names are not stored."""
    given = _read_options("signalCurrentUserDetails", key, origin, options)
    name = given["name"].encode("utf-8", "replace")[:_MAX_NAME_BYTES].decode("utf-8", "ignore")
    for credential in _list_of_user(key, given):
        key.credentials.update(credential.id, user_name=name)


def _list_of_user(key: SecurityKey, given: Mapping[str, Any]) -> list[Credential]:
    """Returns a user's discoverable credentials."""
    return [
        credential
        for credential in key.credentials.for_rp(given["rpId"])
        if credential.discoverable and credential.user_id == given["userId"]
    ]


def _read_options(method: str, key: SecurityKey, origin: str, options: Any) -> dict[str, Any]:
    """Returns the members of a method's options, with base64url decoded. Raises WebAuthnTypeError for an invalid member,
    and SecurityError for an RP ID that is not allowed for the origin."""
    if not isinstance(options, Mapping):
        raise WebAuthnTypeError(f"options must be a dict, not {describe(options)}")
    given = {name: _read_member(name, options.get(name)) for name in _MEMBERS[method]}
    for name in _BASE64URL_MEMBERS:
        if name in given:
            ids = given[name] if name == _ACCEPTED else [given[name]]
            decoded = [_decode(name, text) for text in ids]
            given[name] = decoded if name == _ACCEPTED else decoded[0]
    request = {"challenge": "", "rpId": given["rpId"]}
    ClientCall("get", request, "optional", origin, key.authenticator_options).request()
    return given


def _read_member(name: str, value: Any) -> Any:
    """Returns a required text, or a list of texts."""
    if value is None:
        raise WebAuthnTypeError(f"{name}: Required member is undefined.")
    texts = value if name == _ACCEPTED else [value]
    if not isinstance(texts, (list, tuple)):
        raise WebAuthnTypeError(f"{name}: The provided value cannot be converted to a sequence.")
    for text in texts:
        if not isinstance(text, str):
            raise WebAuthnTypeError(
                f"{name} must be {'a list of str' if texts is value else 'a str'}, not {describe(value)}"
            )
    return value


def _decode(name: str, text: str) -> bytes:
    try:
        return b64url_decode(text)
    except ArgumentError:
        raise WebAuthnTypeError(f"{name}: Invalid base64url string") from None
