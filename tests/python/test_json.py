"""The JSON of WebAuthn Level 3, compared with that of python-fido2, that of Chromium, which is controlled by
chromedriver, and values that were written from the standard."""

from __future__ import annotations

import json
from base64 import urlsafe_b64encode
from collections.abc import Callable, Iterator
from hashlib import sha256
from typing import Any

import pytest
from chromium import Driver, is_installed, open_page
from cryptography.hazmat.primitives.asymmetric import ec
from cryptography.hazmat.primitives.hashes import SHA256
from cryptography.hazmat.primitives.serialization import load_der_public_key
from fido2.client import ClientData
from fido2.ctap2 import AttestationObject, AuthenticatorData
from fido2.server import Fido2Server
from fido2.utils import websafe_decode, websafe_encode
from service import ORIGIN, Service

import hidlog
from hidlog import cbor, webauthn_json

Make = Callable[..., hidlog.SecurityKey]
# All members of PublicKeyCredentialCreationOptionsJSON (WebAuthn Level 3, section 5.1.9).
CREATION: dict[str, Any] = {
    "rp": {"name": "Example", "id": "example.com"},
    "user": {"id": "YWxpY2U", "name": "alice", "displayName": "Alice"},
    "challenge": "AAECAwQFBgcICQoLDA0ODw",
    "pubKeyCredParams": [{"type": "public-key", "alg": -7}, {"type": "public-key", "alg": -257}],
    "timeout": 60000,
    "excludeCredentials": [{"id": "_-8", "type": "public-key", "transports": ["usb", "nfc"]}],
    "authenticatorSelection": {
        "authenticatorAttachment": "cross-platform",
        "residentKey": "required",
        "requireResidentKey": True,
        "userVerification": "preferred",
    },
    "hints": ["security-key"],
    "attestation": "direct",
    "attestationFormats": ["packed"],
    "extensions": {"credProps": True, "prf": {"eval": {"first": "AQ", "second": "Ag"}}},
}
# All members of PublicKeyCredentialRequestOptionsJSON (section 5.1.10).
REQUEST: dict[str, Any] = {
    "challenge": "AAECAwQFBgcICQoLDA0ODw",
    "timeout": 60000,
    "rpId": "example.com",
    "allowCredentials": [{"id": "_-8", "type": "public-key", "transports": ["usb"]}],
    "userVerification": "discouraged",
    "hints": ["security-key"],
    "extensions": {
        "appid": "https://example.com",
        "largeBlob": {"write": "AQI"},
        "prf": {"evalByCredential": {"_-8": {"first": "AQ"}}},
    },
}


def test_every_member_of_creation_options_both_ways() -> None:
    made = webauthn_json.creation_options(CREATION)
    assert made["challenge"] == bytes(range(16)) and made["user"]["id"] == b"alice"
    assert made["excludeCredentials"] == [{"id": b"\xff\xef", "type": "public-key", "transports": ["usb", "nfc"]}]
    assert made["extensions"] == {"credProps": True, "prf": {"eval": {"first": b"\1", "second": b"\2"}}}
    same = ("rp", "pubKeyCredParams", "timeout", "authenticatorSelection", "hints", "attestation", "attestationFormats")
    assert {item: made[item] for item in same} == {element: CREATION[element] for element in same}
    assert webauthn_json.creation_options_json(made) == CREATION


def test_every_member_of_request_options_both_ways() -> None:
    made = webauthn_json.request_options(REQUEST)
    assert made["allowCredentials"][0]["id"] == b"\xff\xef"
    assert made["extensions"]["largeBlob"] == {"write": b"\1\2"}
    assert made["extensions"]["prf"] == {"evalByCredential": {"_-8": {"first": b"\1"}}}
    assert webauthn_json.request_options_json(made) == REQUEST


def test_a_missing_rp_id_is_the_host_of_the_origin() -> None:
    asked = {**CREATION, "rp": {"name": "Example"}}
    assert webauthn_json.creation_options(asked, "https://login.example.com:8443")["rp"]["id"] == "login.example.com"
    assert "id" not in webauthn_json.creation_options(asked)["rp"]
    assert webauthn_json.creation_options(CREATION, "https://www.example.com")["rp"]["id"] == "example.com"
    given = {"challenge": "AAAA"}
    assert webauthn_json.request_options(given, ORIGIN) == {"challenge": b"\0\0\0", "rpId": "example.com"}
    assert webauthn_json.request_options(REQUEST, "https://www.example.com")["rpId"] == "example.com"


def test_options_of_python_fido2s_server() -> None:
    server = Fido2Server({"id": "example.com", "name": "Example"}, "direct")
    user = {"id": b"alice", "name": "alice", "displayName": "Alice"}
    known = [{"type": "public-key", "id": b"\xff\xef"}]
    asked, _ = server.register_begin(user, known, resident_key=True, user_verification="preferred")
    written = json.loads(json.dumps(webauthn_json.creation_options_json(asked)))
    assert written["challenge"] == websafe_encode(asked["publicKey"]["challenge"])
    assert written["excludeCredentials"][0]["id"] == websafe_encode(b"\xff\xef")
    assert webauthn_json.creation_options(written)["challenge"] == asked["publicKey"]["challenge"]
    asked, _ = server.authenticate_begin(known, "discouraged")
    written = json.loads(json.dumps(webauthn_json.request_options_json(asked)))
    assert (written["rpId"], written["userVerification"]) == ("example.com", "discouraged")


@pytest.mark.parametrize(
    "path, value, error, text",
    [
        ("challenge", None, hidlog.ArgumentError, "challenge is missing"),
        ("challenge", "A+/=", hidlog.ArgumentError, "challenge is not base64url without padding"),
        ("challenge", 7, TypeError, "challenge must be a base64url str, not int"),
        ("user", None, hidlog.ArgumentError, "user is missing"),
        ("user", {"name": "a"}, hidlog.ArgumentError, "user.id is missing"),
        ("rp", None, hidlog.ArgumentError, "rp is missing"),
        ("excludeCredentials", [{"type": "public-key"}], hidlog.ArgumentError, "id is missing"),
    ],
)
def test_wrong_options_are_refused(path: str, value: Any, error: type[Exception], text: str) -> None:
    with pytest.raises(error, match=text):
        webauthn_json.creation_options({**CREATION, path: value})


@pytest.mark.parametrize("origin", ["example.com", "", "https://"])
def test_a_wrong_origin_is_refused(make_key: Make, origin: str) -> None:
    with pytest.raises(hidlog.ArgumentError, match="is not an origin"):
        make_key().browser(origin)


def test_a_page_and_a_service_in_json(make_key: Make) -> None:
    """A minimal service parses the browser's responses with the functions of python-fido2."""
    browser = make_key().browser(ORIGIN)
    made = json.loads(json.dumps(browser.create({**CREATION, "rp": {"name": "Example"}, "excludeCredentials": []})))
    assert set(made) == {"id", "rawId", "response", "authenticatorAttachment", "clientExtensionResults", "type"}
    response = made["response"]
    attested = AttestationObject(websafe_decode(response["attestationObject"]))
    data = attested.auth_data.credential_data
    assert (made["id"], made["rawId"]) == (websafe_encode(data.credential_id),) * 2
    assert cbor.decode(websafe_decode(response["attestationObject"]))["fmt"] == "packed"
    assert websafe_decode(response["authenticatorData"]) == bytes(attested.auth_data)
    assert (response["publicKeyAlgorithm"], response["transports"]) == (-7, ["usb"])
    public = load_der_public_key(websafe_decode(response["publicKey"]))
    assert isinstance(public, ec.EllipticCurvePublicKey)
    assert public.public_numbers().x.to_bytes(32, "big") == data.public_key[-2]
    client_data = ClientData(websafe_decode(response["clientDataJSON"]))
    assert (client_data.get("type"), client_data.challenge) == ("webauthn.create", bytes(range(16)))

    allowed = [{"type": "public-key", "id": made["id"], "transports": ["usb"], "unknown": 1}]
    both: list[dict[str, Any]] = [
        {"challenge": "AAAA"},
        {"challenge": "AAAA", "allowCredentials": allowed, "hints": []},
    ]
    for asked in both:
        found = json.loads(json.dumps(browser.get(asked)))
        assert found["id"] == made["id"]
        parts = webauthn_json.authentication(found)["response"]
        signed = parts["authenticatorData"] + sha256(parts["clientDataJSON"]).digest()
        public.verify(parts["signature"], signed, ec.ECDSA(SHA256()))
        assert AuthenticatorData(parts["authenticatorData"]).rp_id_hash == sha256(b"example.com").digest()
    # For a discoverable credential, the response contains the user handle, even if the credential is in the allow list.
    assert parts["userHandle"] == b"alice"


def test_what_was_made_both_ways(make_key: Make) -> None:
    service = Service(make_key())
    asked, state = service.server.register_begin({"id": b"alice", "name": "alice"}, resident_key=True)
    made = service.client.make_credential(asked["publicKey"])
    attestation = made.attestation_object.with_string_keys()
    written = webauthn_json.registration_json(made.client_data, made.attestation_object)
    assert written["response"]["attestationObject"] == websafe_encode(bytes(attestation))
    read = webauthn_json.registration(written)
    parts = read["response"]
    assert (parts["clientDataJSON"], parts["attestationObject"]) == (made.client_data, attestation)
    account = service.server.register_complete(
        state, ClientData(parts["clientDataJSON"]), AttestationObject(parts["attestationObject"])
    )
    assert account.credential_data.credential_id == read["rawId"]
    with pytest.raises(hidlog.ArgumentError, match="response.signature is missing"):
        webauthn_json.authentication(written)


@pytest.mark.parametrize("data", [b"", b"\0", b"\xff\xef", bytes(range(256))])
def test_base64url(data: bytes) -> None:
    assert webauthn_json.b64url_encode(data) == urlsafe_b64encode(data).decode().rstrip("=")
    assert webauthn_json.b64url_decode(webauthn_json.b64url_encode(data)) == data


# Converts an object of the browser. Buffers become {"bytes": base64url}.
SHOW_SCRIPT = """
const show = (value) => {
    if (value instanceof ArrayBuffer || ArrayBuffer.isView(value)) {
        const bytes = new Uint8Array(value.buffer ?? value, value.byteOffset ?? 0, value.byteLength);
        const text = btoa(String.fromCharCode(...bytes));
        return { bytes: text.replaceAll("+", "-").replaceAll("/", "_").replaceAll("=", "") };
    }
    if (Array.isArray(value)) {
        return value.map(show);
    }
    return value && typeof value === "object"
        ? Object.fromEntries(Object.entries(value).map(([name, member]) => [name, show(member)])) : value;
};
"""
PARSE_SCRIPT = SHOW_SCRIPT + "return show(PublicKeyCredential[arguments[0]](arguments[1]));"
SIGN_IN_SCRIPT = """
const done = arguments[arguments.length - 1];
(async () => {
    const parts = async (credential, names) => ({
        json: credential.toJSON(),
        attachment: credential.authenticatorAttachment,
        extensions: credential.getClientExtensionResults(),
        transports: credential.response.getTransports?.(),
        rawId: show(credential.rawId),
        ...Object.fromEntries(names.map((name) => [name, show(credential.response[name])])),
    });
    const made = await navigator.credentials.create({ publicKey: {
        challenge: new Uint8Array(32),
        rp: { id: "localhost", name: "A service" },
        user: { id: Uint8Array.of(7), name: "ann", displayName: "Ann" },
        pubKeyCredParams: [{ type: "public-key", alg: -7 }],
        authenticatorSelection: { residentKey: "required" },
        extensions: { credProps: true },
    } });
    const found = await navigator.credentials.get({ publicKey: { challenge: new Uint8Array(32), rpId: "localhost" } });
    return {
        made: await parts(made, ["clientDataJSON", "attestationObject"]),
        found: await parts(found, ["clientDataJSON", "authenticatorData", "signature", "userHandle"]),
    };
})().then(done, (error) => done({ error: String(error) }));
"""


@pytest.fixture(scope="module")
def browser() -> Iterator[Driver]:
    """Provides a page with a secure origin and Chromium's own virtual authenticator."""
    if not is_installed():
        pytest.skip("chromedriver is missing (apt-get install chromium-driver)")
    with open_page() as driver:
        yield driver


def convert_bytes(value: Any) -> Any:
    """Returns a value in which bytes are converted as the script converts buffers."""
    if isinstance(value, bytes):
        return {"bytes": urlsafe_b64encode(value).rstrip(b"=").decode()}
    if isinstance(value, dict):
        return {name: convert_bytes(member) for name, member in value.items()}
    return [convert_bytes(item) for item in value] if isinstance(value, list) else value


def to_chromium_value(ours: Any, theirs: Any) -> Any:
    """Returns our value in the form in which Chromium stores it: without members that Chromium doesn't know, and with
    its default values of false."""
    if isinstance(theirs, dict) and isinstance(ours, dict):
        defaults = {name: value for name, value in theirs.items() if value is False}
        return {
            **defaults,
            **{name: to_chromium_value(member, theirs[name]) for name, member in ours.items() if name in theirs},
        }
    if isinstance(theirs, list) and isinstance(ours, list) and len(ours) == len(theirs):
        return [to_chromium_value(a, b) for a, b in zip(ours, theirs)]
    return ours


def test_creation_options_are_what_chromium_makes_of_them(browser: Driver) -> None:
    theirs = browser.run(PARSE_SCRIPT, "parseCreationOptionsFromJSON", CREATION)
    ours = convert_bytes(webauthn_json.creation_options(CREATION))
    assert to_chromium_value(ours, theirs) == theirs
    assert {"rp", "user", "challenge", "pubKeyCredParams", "excludeCredentials", "extensions"} <= set(theirs)


def test_request_options_are_what_chromium_makes_of_them(browser: Driver) -> None:
    theirs = browser.run(PARSE_SCRIPT, "parseRequestOptionsFromJSON", REQUEST)
    ours = convert_bytes(webauthn_json.request_options(REQUEST))
    assert to_chromium_value(ours, theirs) == theirs
    assert {"challenge", "rpId", "allowCredentials", "extensions"} <= set(theirs)


def test_answers_are_what_chromium_writes(browser: Driver) -> None:
    key = {"protocol": "ctap2", "transport": "usb", "hasResidentKey": True, "isUserConsenting": True}
    key |= {"hasUserVerification": True, "isUserVerified": True}
    browser.call("/webauthn/authenticator", key)
    answer = browser.run(SHOW_SCRIPT + SIGN_IN_SCRIPT, waits=True)
    assert "error" not in answer, answer
    made, found = answer["made"], answer["found"]
    data = {
        name: webauthn_json.b64url_decode(member["bytes"])
        for name, member in found.items()
        if isinstance(member, dict) and "bytes" in member
    }
    client_data = webauthn_json.b64url_decode(made["clientDataJSON"]["bytes"])
    attestation = webauthn_json.b64url_decode(made["attestationObject"]["bytes"])
    assert made["json"] == webauthn_json.registration_json(
        client_data, attestation, made["extensions"], tuple(made["transports"]), made["attachment"]
    )
    assert found["json"] == webauthn_json.authentication_json(
        data["rawId"],
        data["clientDataJSON"],
        data["authenticatorData"],
        data["signature"],
        data["userHandle"],
        found["extensions"],
        found["attachment"],
    )
