"""The C library's WebAuthn client, as called by the package: requests compared with python-fido2's CBOR, errors of the
DOM, and Python values that are not JSON. browser_cases.json compares its results with Chromium's."""

from __future__ import annotations

import ctypes
import enum
from collections import UserDict
from hashlib import sha256
from typing import Any

import pytest
from fido2 import cbor

import hidlog
from hidlog import webauthn_client
from hidlog.webauthn_client import AuthenticatorOptions, ClientCall

ORIGIN = "https://login.example.com:8443"
ID = bytes(range(32))
ID_TEXT = "AAECAwQFBgcICQoLDA0ODxAREhMUFRYXGBkaGxwdHh8"
CREATION: dict[str, Any] = {
    "challenge": "AAECAw",
    "rp": {"name": "Example", "id": "example.com"},
    "user": {"id": "_-8", "name": "ann", "displayName": "Ann"},
    "pubKeyCredParams": [{"type": "public-key", "alg": -7}],
}
REQUEST: dict[str, Any] = {"challenge": "AAECAw"}
# The client data of WebAuthn Level 3, section 5.8.1.1, written by hand.
CLIENT_DATA = (
    '{"type":"webauthn.%s","challenge":"AAECAw","origin":"https://login.example.com:8443","crossOrigin":false}'
)


def build_request(
    ceremony: str, options: Any, authenticator: AuthenticatorOptions = AuthenticatorOptions(), origin: str = ORIGIN
) -> bytes:
    """Returns the request that the client encodes for options."""
    return ClientCall(ceremony, options, "optional", origin, authenticator).request().message


def compute_client_data_hash(ceremony: str) -> bytes:
    return sha256((CLIENT_DATA % ceremony).encode()).digest()


def test_a_registration_is_what_ctap_says() -> None:
    """The parameters of authenticatorMakeCredential are those of CTAP 2.1, section 6.1, in canonical CBOR."""
    listed = [{"type": "public-key", "id": ID_TEXT}, {"type": "another", "id": "AA"}]
    options = {**CREATION, "excludeCredentials": listed, "authenticatorSelection": {"residentKey": "preferred"}}
    expected = {
        1: compute_client_data_hash("create"),
        2: {"id": "example.com", "name": "Example"},
        3: {"id": b"\xff\xef", "name": "ann", "displayName": "Ann"},
        4: [{"alg": -7, "type": "public-key"}],
        5: [{"id": ID, "type": "public-key"}],
        7: {"rk": True},
    }
    assert build_request("create", options) == b"\x01" + cbor.encode(expected)
    del expected[7]
    assert build_request("create", options, AuthenticatorOptions(has_resident_key=False)) == b"\x01" + cbor.encode(
        expected
    )


def test_a_sign_in_is_what_ctap_says() -> None:
    """The parameters of authenticatorGetAssertion are those of CTAP 2.1, section 6.2."""
    expected: dict[int, Any] = {1: "login.example.com", 2: compute_client_data_hash("get")}
    assert build_request("get", REQUEST) == b"\x02" + cbor.encode(expected)
    expected |= {1: "example.com", 3: [{"id": ID, "type": "public-key"}, {"id": b"", "type": "public-key"}]}
    listed = [{"type": "public-key", "id": ID_TEXT}, {"type": "public-key", "id": ""}]
    options = {**REQUEST, "rpId": "example.com", "allowCredentials": listed}
    assert build_request("get", options) == b"\x02" + cbor.encode(expected)


def test_texts_are_utf8() -> None:
    """In Web IDL, an unpaired surrogate in a USVString becomes U+FFFD."""
    user = {**CREATION["user"], "name": "d\u00f6rte \U0001f511", "displayName": 'a\ud800b"\\\n'}
    sent = cbor.decode(build_request("create", {**CREATION, "user": user})[1:])
    assert (sent[3]["name"], sent[3]["displayName"]) == ("d\u00f6rte \U0001f511", 'a\ufffdb"\\\n')


def test_timeout_and_verification_are_reported() -> None:
    called = ClientCall(
        "get", {**REQUEST, "timeout": 250}, "optional", ORIGIN, AuthenticatorOptions("verified")
    ).request()
    assert (called.timeout_ms, called.is_verified) == (250, True)
    options = {**REQUEST, "userVerification": "discouraged"}
    called = ClientCall("get", options, "optional", ORIGIN, AuthenticatorOptions("verified")).request()
    assert (called.timeout_ms, called.is_verified) == (600_000, False)


TOO_MANY_DESCRIPTORS = [{"type": "public-key", "id": "AA"}] * 65


@pytest.mark.parametrize(
    "ceremony, options, error, text",
    [
        ("get", {"rpId": "example.com"}, hidlog.WebAuthnTypeError, "challenge: Required member is undefined."),
        ("get", {"challenge": "A"}, hidlog.EncodingError, "challenge: it isn't base64url without padding"),
        (
            "get",
            {**REQUEST, "allowCredentials": TOO_MANY_DESCRIPTORS},
            hidlog.WebAuthnRangeError,
            "allowCredentials: .* at most 64",
        ),
        ("get", {}, hidlog.NotSupportedError, "the options are empty"),
        ("get", {**REQUEST, "rpId": "com"}, hidlog.SecurityError, "not a registrable domain suffix"),
        (
            "get",
            {**REQUEST, "userVerification": "required"},
            hidlog.NotAllowedError,
            "the key has no user verification",
        ),
        ("get", {**REQUEST, "extensions": {"appid": "x"}}, hidlog.WebAuthnSyntaxError, "appid: .*nor a valid URL"),
        ("create", REQUEST, hidlog.WebAuthnTypeError, "pubKeyCredParams: Required member is undefined."),
        ("create", {**CREATION, "timeout": 0}, hidlog.NotAllowedError, "the request's timeout is 0"),
        ("create", {"publicKey": None}, hidlog.WebAuthnTypeError, "is not of type .dictionary."),
    ],
)
def test_what_is_refused(ceremony: str, options: Any, error: type[hidlog.WebAuthnError], text: str) -> None:
    with pytest.raises(error, match=text):
        build_request(ceremony, options)


def test_a_mediation_is_one_of_four() -> None:
    for mediation in ("odd", "", None, 1):
        with pytest.raises(hidlog.WebAuthnTypeError, match="^mediation"):
            ClientCall("get", REQUEST, mediation, ORIGIN, AuthenticatorOptions()).request()
    for mediation in ("silent", "optional", "required"):
        assert ClientCall("get", REQUEST, mediation, ORIGIN, AuthenticatorOptions()).request().message == build_request(
            "get", REQUEST
        )


def test_a_status_is_an_error_of_the_dom() -> None:
    """The error for an excluded credential is InvalidStateError, otherwise NotAllowedError (WebAuthn Level 3, section
    5.1.3, step 22)."""
    call = ClientCall("create", CREATION, "optional", ORIGIN, AuthenticatorOptions())
    for status in range(1, 256):
        refused = call.make_error(status)
        assert refused.name == ("InvalidStateError" if status == 0x19 else "NotAllowedError")
        assert refused.status == status and f"0x{status:02X}" in str(refused)


class StringEnum(str, enum.Enum):
    KIND = "public-key"


class IntEnumValue(enum.IntEnum):
    ES256 = -7


def test_values_that_stand_for_json() -> None:
    """Tuples, mappings, and enums of str and int are accepted as JSON values, as python-fido2 uses them."""
    listed = ({"type": StringEnum.KIND, "id": ID_TEXT},)
    parameters = ({"type": StringEnum.KIND, "alg": IntEnumValue.ES256},)
    given = UserDict({**CREATION, "rp": UserDict(CREATION["rp"]), "pubKeyCredParams": parameters})
    given["excludeCredentials"] = listed
    plain = {**CREATION, "excludeCredentials": [{"type": "public-key", "id": ID_TEXT}]}
    assert build_request("create", given) == build_request("create", plain)


CYCLIC_OPTIONS: dict[str, Any] = {**CREATION}
CYCLIC_OPTIONS["extensions"] = CYCLIC_OPTIONS
NESTED_OPTIONS: Any = {}
for _ in range(100_000):
    NESTED_OPTIONS = {"a": NESTED_OPTIONS}


@pytest.mark.parametrize(
    "options, text",
    [
        ({**CREATION, "challenge": bytes(4)}, "bytes is not JSON; .*creation_options_json"),
        ({**CREATION, "challenge": {1, 2}}, "set is not JSON"),
        ({**CREATION, "timeout": float("nan")}, "are not JSON"),
        (CYCLIC_OPTIONS, "contain a cycle"),
        ({**CREATION, "extensions": NESTED_OPTIONS}, "nested too deeply"),
        ([CREATION], "options must be a dict, not list"),
        (None, "options must be a dict, not NoneType"),
    ],
)
def test_values_without_json(options: Any, text: str) -> None:
    with pytest.raises(hidlog.WebAuthnTypeError, match=text):
        build_request("create", options)


def test_a_small_buffer_is_an_error() -> None:
    """hidlog.h: HIDLOG_CLIENT_TOO_SMALL is -100."""
    inputs = ClientCall("create", CREATION, "optional", ORIGIN, AuthenticatorOptions())._inputs
    report, out = (ctypes.c_uint32 * 4)(), ctypes.create_string_buffer(10)
    write_request, _ = webauthn_client._load_functions()
    assert write_request(*inputs, ctypes.byref(report), out, 10) == -100
