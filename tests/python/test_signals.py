"""The Signal API of the package's browser. tests/web/interfaces.test.mjs has the same tests of the key for pages."""

from __future__ import annotations

from collections.abc import Callable
from typing import Any

import pytest

import hidlog
from hidlog.webauthn_errors import NotAllowedError, SecurityError, WebAuthnTypeError
from hidlog.webauthn_json import b64url_encode

Make = Callable[..., hidlog.SecurityKey]
RP_ID, ORIGIN = "example.com", "https://login.example.com"


def register(browser: hidlog.Browser, name: str, resident_key: str = "required") -> str:
    """Registers a user, and returns the credential ID."""
    made = browser.create(
        {
            "challenge": "AAAA",
            "rp": {"id": RP_ID, "name": "Example"},
            "user": {"id": b64url_encode(name.encode()), "name": name, "displayName": name.title()},
            "pubKeyCredParams": [{"type": "public-key", "alg": -7}],
            "authenticatorSelection": {"residentKey": resident_key},
        }
    )
    return str(made["id"])


def list_names(key: hidlog.SecurityKey) -> list[str]:
    return [credential.user_name for credential in key.credentials]


def test_signals_remove_and_rename_credentials(make_key: Make) -> None:
    with make_key() as key:
        browser = key.browser(ORIGIN)
        ann, bob = register(browser, "ann"), register(browser, "bob")
        anna = {"rpId": RP_ID, "userId": b64url_encode(b"ann"), "name": "anna", "displayName": "Anna"}
        browser.signal_current_user_details(anna)
        assert list_names(key) == ["anna", "bob"]
        browser.signal_unknown_credential({"rpId": RP_ID, "credentialId": b64url_encode(b"another")})
        for user, accepted in ((b"bob", [bob]), (b"eve", [])):
            browser.signal_all_accepted_credentials(
                {"rpId": RP_ID, "userId": b64url_encode(user), "allAcceptedCredentialIds": accepted}
            )
        assert list_names(key) == ["anna", "bob"]
        browser.signal_unknown_credential({"rpId": RP_ID, "credentialId": ann})
        assert list_names(key) == ["bob"]
        with pytest.raises(NotAllowedError):
            browser.get({"challenge": "AAAA", "rpId": RP_ID, "allowCredentials": [{"type": "public-key", "id": ann}]})
        browser.signal_all_accepted_credentials(
            {"rpId": RP_ID, "userId": b64url_encode(b"bob"), "allAcceptedCredentialIds": [ann]}
        )
        assert list_names(key) == []


def test_signals_keep_the_credentials_of_others(make_key: Make) -> None:
    """Signals do not affect credentials of other relying parties. Only signal_unknown_credential affects a credential
    that is not discoverable."""
    with make_key() as key:
        browser = key.browser(ORIGIN)
        hidden = register(browser, "ann", "discouraged")
        other = key.credentials.add("other.example", b"ann", "ann").id
        browser.signal_unknown_credential({"rpId": RP_ID, "credentialId": b64url_encode(other)})
        named = {"rpId": RP_ID, "userId": b64url_encode(b"ann")}
        browser.signal_all_accepted_credentials({**named, "allAcceptedCredentialIds": []})
        browser.signal_current_user_details({**named, "name": "anna", "displayName": ""})
        assert sorted(list_names(key)) == ["ann", "ann"]
        browser.signal_unknown_credential({"rpId": RP_ID, "credentialId": hidden})
        assert [credential.id for credential in key.credentials] == [other]


def test_a_page_id_that_is_not_the_cores(make_key: Make) -> None:
    with make_key() as key:
        key.credentials.add(RP_ID, b"ann", "ann", credential_id=b"short")
        browser = key.browser(ORIGIN)
        details = {"rpId": RP_ID, "userId": b64url_encode(b"ann"), "name": "é" * 40, "displayName": ""}
        browser.signal_current_user_details(details)
        assert list_names(key) == ["é" * 32]  # 64 bytes
        browser.signal_unknown_credential({"rpId": RP_ID, "credentialId": b64url_encode(b"short")})
        assert not len(key.credentials)


@pytest.mark.parametrize("rp_id", ["other.com", "com", ""])
def test_signals_of_other_sites_are_refused(rp_id: str) -> None:
    with hidlog.SecurityKey() as key:
        browser = key.browser(ORIGIN)
        made = register(browser, "ann")
        with pytest.raises(SecurityError):
            browser.signal_unknown_credential({"rpId": rp_id, "credentialId": made})
        assert list_names(key) == ["ann"]


@pytest.mark.parametrize(
    "method, options, text",
    [
        ("signal_unknown_credential", {"credentialId": "a+b"}, "credentialId: Invalid base64url string"),
        ("signal_unknown_credential", {}, "credentialId: Required member is undefined."),
        ("signal_unknown_credential", {"credentialId": 5}, "credentialId must be a str, not 5"),
        (
            "signal_all_accepted_credentials",
            {"userId": "YW5u", "allAcceptedCredentialIds": ["!"]},
            "allAcceptedCredentialIds: Invalid base64url string",
        ),
        (
            "signal_all_accepted_credentials",
            {"userId": "YW5u", "allAcceptedCredentialIds": "YW5u"},
            "allAcceptedCredentialIds: The provided value cannot be converted to a sequence.",
        ),
        (
            "signal_all_accepted_credentials",
            {"userId": "YW5u", "allAcceptedCredentialIds": [5]},
            "allAcceptedCredentialIds must be a list of str, not [5]",
        ),
        ("signal_current_user_details", {"userId": "YW5u", "name": "a"}, "displayName: Required member is undefined."),
    ],
)
def test_invalid_options_of_signals(method: str, options: dict[str, Any], text: str) -> None:
    with hidlog.SecurityKey() as key:
        browser = key.browser(ORIGIN)
        register(browser, "ann")
        with pytest.raises(WebAuthnTypeError) as raised:
            getattr(browser, method)({"rpId": RP_ID, **options})
        assert str(raised.value) == text
        with pytest.raises(WebAuthnTypeError, match="options must be a dict"):
            getattr(browser, method)(None)
        assert list_names(key) == ["ann"]
