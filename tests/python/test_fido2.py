"""Compares the client of the installed python-fido2 with the package's browser on browser_cases.json."""

from __future__ import annotations

import importlib
import json
import warnings
from typing import Any

import pytest
from fido2 import client
from fido2.client import ClientError, Fido2Client
from implementations import CASES, Case, Json, ServiceError, run_calls, run_with_package

import hidlog
from hidlog import webauthn_json

ORIGIN = "https://localhost"
# Version 0.9 accepts mappings with bytes, and returns members without names.
IS_VERSION_0_9 = not hasattr(client, "UserInteraction")
try:
    FEATURES: Any = importlib.import_module("fido2.features")
except ImportError:
    FEATURES = None
if hasattr(FEATURES, "webauthn_json_mapping"):
    FEATURES.webauthn_json_mapping.enabled = True
_MEMBERS = {
    "create": ("rp", "user", "challenge", "pubKeyCredParams", "timeout", "excludeCredentials", "extensions"),
    "get": ("challenge", "timeout", "rpId", "allowCredentials", "userVerification", "extensions"),
}
# Version 0.9 writes client data of WebAuthn Level 1.
OLD_CLIENT_DATA: Json = {"clientExtensions": {}}


def make_client(key: hidlog.SecurityKey) -> Any:
    """Returns python-fido2's client for a key, at the origin https://localhost."""
    collector = getattr(client, "DefaultClientDataCollector", None)
    if collector:
        return Fido2Client(key.device(), collector(ORIGIN, verify=lambda *_: True))
    return Fido2Client(key.device(), ORIGIN, verify=lambda *_: True)


def _select_supported_options(name: str, options: Json) -> Json:
    """Returns the options that version 0.9 supports. Version 0.9 rejects options with other members."""
    convert = webauthn_json.creation_options if name == "create" else webauthn_json.request_options
    members = convert(options, ORIGIN)
    made = {member: members[member] for member in _MEMBERS[name] if member in members}
    chosen = members.get("authenticatorSelection")
    if name == "create" and chosen:
        resident = chosen.get("residentKey", "discouraged") != "discouraged" or chosen.get("requireResidentKey", False)
        made["authenticatorSelection"] = {"requireResidentKey": resident}
        made["authenticatorSelection"].update(
            {item: chosen[item] for item in ("userVerification", "authenticatorAttachment") if item in chosen}
        )
    return made


def _to_json(name: str, result: Any) -> Json:
    """Returns the JSON of a result, whose structure depends on the version."""
    if name == "create":
        made = getattr(result, "response", result)
        return webauthn_json.registration_json(made.client_data, made.attestation_object)
    result = result.get_response(0)
    found = getattr(result, "response", result)
    parts = (found.client_data, found.authenticator_data, found.signature, found.user_handle)
    return webauthn_json.authentication_json(getattr(result, "raw_id", None) or found.credential_id, *parts)


def _call(made: Any, name: str, options: Json) -> Json:
    call = made.make_credential if name == "create" else made.get_assertion
    if IS_VERSION_0_9:
        return _to_json(name, call(_select_supported_options(name, options)))
    from fido2 import webauthn

    members: Json
    if name == "create":
        members = {**options, "rp": {"id": "localhost", **options["rp"]}}
        return _to_json(name, call(webauthn.PublicKeyCredentialCreationOptions.from_dict(members)))
    members = {"rpId": "localhost", **options}
    return _to_json(name, call(webauthn.PublicKeyCredentialRequestOptions.from_dict(members)))


def make_call(key: hidlog.SecurityKey) -> Any:
    """Returns a function that registers and signs in with options as JSON."""
    made = make_client(key)

    def call(name: str, options: Any, more: Json) -> Json:
        try:
            with warnings.catch_warnings():
                warnings.simplefilter("ignore", DeprecationWarning)  # its own
                return json.loads(json.dumps(_call(made, name, options)))  # type: ignore[no-any-return]
        except ClientError as error:
            raise ServiceError("NotAllowedError", str(error)) from error

    return call


def is_supported(case: Case) -> bool:
    """Returns whether python-fido2's client supports a case: one without raw options, options of the key, and
    mediation."""
    return not set(case) & {"raw", "key", "mediation"}


def run_with_fido2(case: Case) -> Json | None:
    """Returns the result of the client, or None if the client does not support the options."""
    with hidlog.SecurityKey() as key:
        call = make_call(key)

        def call_with_presence(name: str, options: Any, more: Json) -> Json:
            key.presence = case.get("presence", "granted") if name == case["call"] else "granted"
            made: Json = call(name, options, more)
            return made

        try:
            return run_calls(call_with_presence, case)
        except (ValueError, TypeError, LookupError, AttributeError):
            return None  # a page's own parser would have rejected these options


def select_members(one: Json) -> Json:
    """Returns the members that are compared: all except extension results, which the client doesn't return."""
    kept = {name: member for name, member in one["seen"].items() if name != "clientExtensionResults"}
    if IS_VERSION_0_9:
        kept["clientData"] = {**kept["clientData"], **OLD_CLIENT_DATA}
        kept["clientData"].pop("crossOrigin", None)
    return kept


def test_both_return_the_same_where_both_return_a_credential() -> None:
    both = []
    for name, case in ((name, case) for name, case in CASES.items() if is_supported(case)):
        one, other = run_with_fido2(case), run_with_package(case)
        if one and "seen" in one and "seen" in other:
            both.append(name)
            assert select_members(one) == select_members(other), name
    assert len(both) >= 60, both


@pytest.mark.parametrize("name", ["create, denied", "get, denied", "get, an unknown id", "get, nothing is registered"])
def test_both_refuse(name: str) -> None:
    assert run_with_fido2(CASES[name]) == run_with_package(CASES[name]) == {"error": "NotAllowedError"}
