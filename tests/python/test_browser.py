"""The package's browser: origins, errors, accounts, timeouts, and features outside the core."""

from __future__ import annotations

import asyncio
import json
import threading
import time
from collections.abc import Callable
from typing import Any

import pytest

import hidlog
from hidlog import cbor
from hidlog.webauthn_json import b64url_decode, b64url_encode

Make = Callable[..., hidlog.SecurityKey]
Json = dict[str, Any]
# A timeout in seconds. Only a call that hangs takes this long.
TIMEOUT_SECONDS = 60
DISCOVERABLE = {"residentKey": "required"}


def make_creation_options(name: str = "ann", **members: Any) -> Json:
    return {
        "challenge": "AAECAwQFBgcICQoLDA0ODw",
        "rp": {"name": "Example"},
        "user": {"id": b64url_encode(name.encode()), "name": name, "displayName": name.title()},
        "pubKeyCredParams": [{"type": "public-key", "alg": -7}],
        "authenticatorSelection": DISCOVERABLE,
        **members,
    }


REQUEST_OPTIONS: Json = {"challenge": "AAECAwQFBgcICQoLDA0ODw"}


def read_flags(answer: Json) -> int:
    return b64url_decode(answer["response"]["authenticatorData"])[32]


@pytest.mark.parametrize(
    "given, origin",
    [
        ("https://example.com", "https://example.com"),
        ("https://Example.com:443/", "https://example.com"),
        ("http://localhost:80", "http://localhost"),
        ("http://localhost:5000", "http://localhost:5000"),
        ("https://bücher.example", "https://xn--bcher-kva.example"),
        ("https://[::1]:8443", "https://[::1]:8443"),
    ],
)
def test_origins_are_written_as_browsers_do(given: str, origin: str) -> None:
    """WHATWG URL: lower case, no default port, IDNA."""
    with hidlog.SecurityKey() as key:
        assert key.browser(given).origin == origin


@pytest.mark.parametrize(
    "given, text",
    [
        ("https://example.com/login", "its origin is https://example.com"),
        ("https://ann@example.com", "its origin is https://example.com"),
        ("example.com", "is not an origin; expected one like https://example.com"),
        ("ftp://example.com", "is not an origin"),
        ("https://example.com:port", "is not an origin"),
        ("https://exa mple.com", "is not an origin"),
        ("", "is not an origin"),
        (None, "origin must be str"),
        (b"https://example.com", "origin must be str"),
    ],
)
def test_what_is_no_origin(given: Any, text: str) -> None:
    with hidlog.SecurityKey() as key, pytest.raises(hidlog.ArgumentError, match=text):
        key.browser(given)


@pytest.mark.parametrize(
    "origin, rp_id, is_taken",
    [
        ("https://example.com", None, True),
        ("https://login.example.com:8443", "example.com", True),
        ("https://login.example.com", "login.example.com", True),
        ("https://login.example.com", "com", False),
        ("https://login.example.com", "ogin.example.com", False),
        ("https://example.com", "login.example.com", False),
        ("https://example.com", "example.org", False),
        ("http://localhost:5000", None, True),
        ("http://localhost", "localhost", True),
        ("http://login.localhost:5000", None, True),
        ("http://example.com", None, False),
        ("http://127.0.0.1:5000", None, False),
        ("https://127.0.0.1", None, False),
        ("https://127.0.0.1", "127.0.0.1", False),
        ("https://[::1]", None, False),
    ],
)
def test_rp_ids_are_judged_as_browsers_do(origin: str, rp_id: str | None, is_taken: bool) -> None:
    """WebAuthn Level 3, sections 5.1.3 and 5.1.4, and W3C Secure Contexts."""
    with hidlog.SecurityKey() as key:
        browser, member = key.browser(origin), {} if rp_id is None else {"id": rp_id}
        if is_taken:
            made = browser.create(make_creation_options(rp={"name": "A", **member}))
            found = browser.get({**REQUEST_OPTIONS, **({} if rp_id is None else {"rpId": rp_id})})
            assert found["id"] == made["id"]
            assert json.loads(b64url_decode(found["response"]["clientDataJSON"]))["origin"] == origin
        else:
            with pytest.raises(hidlog.SecurityError):
                browser.create(make_creation_options(rp={"name": "A", **member}))


def test_errors_are_the_doms_and_this_packages(make_key: Make) -> None:
    key = make_key()
    browser = key.browser("https://example.com")
    made = browser.create(make_creation_options())
    key.presence = "denied"
    with pytest.raises(hidlog.NotAllowedError, match="0x27 OPERATION_DENIED: the user denied it") as denied:
        browser.get(REQUEST_OPTIONS)
    assert (denied.value.name, denied.value.status) == ("NotAllowedError", 0x27)
    key.presence = "granted"
    with pytest.raises(hidlog.InvalidStateError, match="0x19 CREDENTIAL_EXCLUDED") as excluded:
        browser.create(make_creation_options(excludeCredentials=[{"type": "public-key", "id": made["id"]}]))
    assert excluded.value.status == 0x19
    with pytest.raises(hidlog.WebAuthnTypeError, match="^challenge: Required member") as missing:
        browser.get({"rpId": "example.com"})
    assert missing.value.name == "TypeError" and isinstance(missing.value, TypeError)
    key.faults.truncate_by = 3
    with pytest.raises(hidlog.NotAllowedError, match="the authenticator's response is not CBOR"):
        browser.get(REQUEST_OPTIONS)
    key.faults.clear()
    key.faults.status = "KEY_STORE_FULL"
    with pytest.raises(hidlog.NotAllowedError, match="0x28 KEY_STORE_FULL: the key is full"):
        browser.create(make_creation_options("bob"))
    kinds = ("NotAllowed", "InvalidState", "Security", "NotSupported", "Abort", "Encoding", "WebAuthnType")
    for kind in kinds:
        assert issubclass(getattr(hidlog, f"{kind}Error"), hidlog.WebAuthnError)
        assert issubclass(getattr(hidlog, f"{kind}Error"), hidlog.HidlogError)


def test_options_with_bytes_are_refused_with_what_is_right() -> None:
    with hidlog.SecurityKey() as key, pytest.raises(hidlog.WebAuthnTypeError, match="creation_options_json"):
        key.browser("https://example.com").create(make_creation_options(challenge=bytes(16)))


def test_accounts(make_key: Make) -> None:
    key = make_key()
    browser = key.browser("https://example.com")
    made = {name: browser.create(make_creation_options(name)) for name in ("ann", "bob", "cy")}
    by_function = lambda found: next(result for result in found if result.user_id == b"ann")  # noqa: E731
    for account, name in [
        (0, "cy"),
        (2, "ann"),
        ("bob", "bob"),
        (b64url_decode(made["ann"]["id"]), "ann"),
        (by_function, "ann"),
    ]:
        found = browser.get(REQUEST_OPTIONS, account)  # type: ignore[arg-type]
        assert (found["id"], b64url_decode(found["response"]["userHandle"])) == (made[name]["id"], name.encode())
    for wrong in ("dora", 3, -1, bytes(32)):
        with pytest.raises(hidlog.WebAuthnRangeError, match="available: cy, bob, ann"):
            browser.get(REQUEST_OPTIONS, wrong)  # type: ignore[arg-type]
    for wrong in (None, True, 1.5, ["ann"]):
        with pytest.raises(hidlog.WebAuthnTypeError, match="account must be "):
            browser.get(REQUEST_OPTIONS, wrong)  # type: ignore[arg-type]


def test_reasons_name_what_is_wrong(make_key: Make) -> None:
    key = make_key()
    browser = key.browser("https://example.com")
    with pytest.raises(hidlog.NotAllowedError, match="conditional mediation"):
        browser.create(make_creation_options(), mediation="conditional")
    with pytest.raises(hidlog.WebAuthnRangeError, match="an array inside an array"):
        browser.create(make_creation_options(rp={"name": [["A"]]}))
    appid = {"appid": "https://localhost/app"}
    with pytest.raises(hidlog.SecurityError, match="the page isn't served over https"):
        key.browser("http://localhost").get({**REQUEST_OPTIONS, "rpId": "localhost", "extensions": appid})


def test_conditional_mediation_waits_for_a_choice(make_key: Make) -> None:
    key = make_key()
    browser = key.browser("https://example.com")
    made = [browser.create(make_creation_options(name)) for name in ("ann", "bob")]
    before = len(key.log)
    timer = threading.Timer(0.1, browser.select_account, ("ann",))
    timer.start()
    assert browser.get(REQUEST_OPTIONS, mediation="conditional")["id"] == made[0]["id"]
    browser.select_account()
    assert browser.get(REQUEST_OPTIONS, mediation="conditional")["id"] == made[1]["id"]
    browser.select_account()  # the timeout is ignored (WebAuthn Level 3, section 5.1.4.2)
    assert browser.get({**REQUEST_OPTIONS, "timeout": 0}, mediation="conditional")["id"] == made[1]["id"]
    allowed = [{"type": "public-key", "id": made[0]["id"]}]
    browser.select_account("bob")
    with pytest.raises(hidlog.WebAuthnRangeError, match="available: ann"):
        browser.get({**REQUEST_OPTIONS, "allowCredentials": allowed}, mediation="conditional")
    assert len(key.log) > before
    key.timeout = 0.3
    with pytest.raises(hidlog.NotAllowedError, match="no account was selected"):
        browser.get(REQUEST_OPTIONS, mediation="conditional")
    key.timeout, ended = TIMEOUT_SECONDS, threading.Event()
    threading.Timer(0.1, ended.set).start()
    with pytest.raises(hidlog.AbortError):
        browser.get(REQUEST_OPTIONS, mediation="conditional", signal=ended)


def test_a_signal_ends_the_wait_for_the_user(make_key: Make) -> None:
    key, ended = make_key(presence=None), threading.Event()
    browser = key.browser("https://example.com")
    threading.Timer(0.15, ended.set).start()
    with pytest.raises(hidlog.AbortError):
        browser.create(make_creation_options(), signal=ended)
    with pytest.raises(hidlog.AbortError, match="before the request"):
        browser.create(make_creation_options(), signal=ended)
    with pytest.raises(hidlog.WebAuthnTypeError, match="signal must be a threading.Event .*, not 1"):
        browser.create(make_creation_options(), signal=1)  # type: ignore[arg-type]
    key.presence = "granted"
    assert browser.create(make_creation_options())["type"] == "public-key"


def test_the_time_out_of_the_options(make_key: Make) -> None:
    key = make_key(presence=None)
    browser = key.browser("https://example.com")
    began = time.monotonic()
    with pytest.raises(hidlog.NotAllowedError, match="the user did nothing for 250 ms"):
        browser.create(make_creation_options(timeout=250))
    assert 0.2 < time.monotonic() - began < TIMEOUT_SECONDS
    # If the user's reply comes after the timeout by the key's clock, the call fails. The test doesn't wait in real
    # time.
    key.presence, key.presence_delay_ms = "granted", 5000
    with pytest.raises(hidlog.NotAllowedError, match="the user did nothing for 1000 ms"):
        browser.create(make_creation_options(timeout=1000))
    assert browser.create(make_creation_options(timeout=60_000))["id"]


def test_a_user_who_does_nothing(make_key: Make) -> None:
    key = make_key(presence=None, timeout=0.3)
    with pytest.raises(hidlog.NotAllowedError, match="the user did nothing for 0.3 s"):
        key.browser("https://example.com").create(make_creation_options())


def test_flags_are_set_outside_of_the_core(make_key: Make) -> None:
    """WebAuthn Level 3, section 6.1: UP 0x01, UV 0x04, BE 0x08, BS 0x10, AT 0x40."""
    key = make_key(verification="verified")
    browser = key.browser("https://example.com")
    made = browser.create(make_creation_options())
    assert read_flags(made) == 0x45 and read_flags(browser.get(REQUEST_OPTIONS)) == 0x05
    assert read_flags(browser.get({**REQUEST_OPTIONS, "userVerification": "discouraged"})) == 0x01
    key.default_backup_eligibility = key.default_backup_state = True
    assert read_flags(browser.create(make_creation_options("bob"))) == 0x5D
    assert read_flags(browser.get(REQUEST_OPTIONS)) == 0x1D
    bob = key.credentials[-1]
    assert (bob.backup_eligibility, bob.backup_state) == (True, True)
    key.credentials.update(bob.id, backup_state=False)
    assert (
        read_flags(browser.get(REQUEST_OPTIONS, "bob")) == 0x0D
        and read_flags(browser.get(REQUEST_OPTIONS, "ann")) == 0x05
    )
    key.verification = "failed"
    assert not key.is_user_verified and key.has_user_verification
    with pytest.raises(hidlog.NotAllowedError, match="user verification failed"):
        browser.get({**REQUEST_OPTIONS, "userVerification": "required"})
    key.verification = "none"
    assert read_flags(browser.get(REQUEST_OPTIONS, "ann")) == 0x01
    # The core has no user verification, so a client that works with packets sees the flags that the core sends.
    assert hidlog.Client(key).request(2, {1: "example.com", 2: bytes(32)})[2][32] == 0x09
    log = b"".join(recording.log for recording in key.recordings)
    assert log.count(b"# outside of the core: flags UV, and the signature over them\n") >= 3
    assert b"# outside of the core: flags UV, BE, BS, and the signature" in log and b"# fault" not in log


def test_a_platform_authenticator(make_key: Make) -> None:
    key = make_key(attachment="platform", verification="verified")
    browser = key.browser("http://localhost:5000")
    wanted = {**DISCOVERABLE, "authenticatorAttachment": "platform", "userVerification": "required"}
    made = browser.create(make_creation_options(authenticatorSelection=wanted))
    assert (made["authenticatorAttachment"], made["response"]["transports"]) == ("platform", ["internal"])
    found = browser.get({**REQUEST_OPTIONS, "userVerification": "required"})
    assert (found["authenticatorAttachment"], read_flags(found)) == ("platform", 0x05)
    with pytest.raises(hidlog.NotAllowedError, match="authenticatorAttachment doesn't match this key"):
        browser.create(make_creation_options(authenticatorSelection={"authenticatorAttachment": "cross-platform"}))


@pytest.mark.parametrize("length", [1, 4, 16, 31, 32, 33, 64, 65, 1023])
@pytest.mark.parametrize("discoverable", [True, False])
def test_credentials_of_any_id(make_key: Make, length: int, discoverable: bool, tmp_path: Any) -> None:
    key = make_key()
    browser, name = key.browser("https://example.com"), bytes(range(1, 200))[:length].ljust(length, b"\7")
    browser.create(make_creation_options("bob"))
    added = key.credentials.add(
        "example.com", b"ann", "ann", credential_id=name, discoverable=discoverable, backup_eligibility=True
    )
    assert added.id == name and key.credentials.get(name) == added and key.credentials[-1].id == name
    allowed = {**REQUEST_OPTIONS, "allowCredentials": [{"type": "public-key", "id": b64url_encode(name)}]}
    found = browser.get(allowed)
    assert (found["id"], found["rawId"]) == (b64url_encode(name),) * 2
    with pytest.raises(hidlog.InvalidStateError):
        browser.create(make_creation_options("ann", excludeCredentials=allowed["allowCredentials"]))
    if discoverable:
        assert browser.get(REQUEST_OPTIONS, "ann")["id"] == b64url_encode(name)
    key.credentials.update(name, sign_count=9)
    key.save(tmp_path / "key.json")
    with hidlog.SecurityKey.load(tmp_path / "key.json") as again:
        found = again.browser("https://example.com").get(allowed)
        assert found["id"] == b64url_encode(name) and read_flags(found) == 0x09
        assert b64url_decode(found["response"]["authenticatorData"])[33:37] == bytes([0, 0, 0, 10])
    key.credentials.remove(name)
    with pytest.raises(hidlog.NotAllowedError, match="0x2E NO_CREDENTIALS"):
        browser.get(allowed)


def test_sixty_four_unknown_ids_of_any_length(make_key: Make) -> None:
    browser = make_key().browser("https://example.com")
    made = browser.create(make_creation_options())
    for length in (1, 64, 1023):
        others = [{"type": "public-key", "id": b64url_encode(bytes([index]) * length)} for index in range(63)]
        found = browser.get(
            {**REQUEST_OPTIONS, "allowCredentials": [*others, {"type": "public-key", "id": made["id"]}]}
        )
        assert found["id"] == made["id"]


def test_a_browser_goes_on_after_a_loss_of_power(make_key: Make) -> None:
    key = make_key()
    browser = key.browser("https://example.com")
    made = browser.create(make_creation_options())
    key.restart()
    assert browser.get(REQUEST_OPTIONS)["id"] == made["id"]
    key.credentials.add("example.com", b"bob", "bob")
    assert browser.get(REQUEST_OPTIONS, "ann")["id"] == made["id"]


def test_asyncio(make_key: Make) -> None:
    key = make_key()
    browser = key.browser("https://example.com")

    async def create_and_get() -> None:
        made = await asyncio.gather(*(browser.acreate(make_creation_options(f"user {index}")) for index in range(8)))
        assert len({element["id"] for element in made}) == 8
        assert (await browser.aget(REQUEST_OPTIONS, "user 3"))["id"] in {item["id"] for item in made}
        key.presence = None
        waiting = asyncio.ensure_future(browser.aget(REQUEST_OPTIONS))
        await asyncio.sleep(0.15)
        waiting.cancel()
        with pytest.raises(asyncio.CancelledError):
            await waiting
        key.presence = "granted"
        assert (await browser.aget(REQUEST_OPTIONS))["type"] == "public-key"

    asyncio.run(create_and_get())
    assert len(key.credentials) == 8


def test_the_attestation_is_the_keys(make_key: Make) -> None:
    made = make_key().browser("https://example.com").create(make_creation_options(attestation="direct"))
    attestation = cbor.decode(b64url_decode(made["response"]["attestationObject"]))
    assert attestation["fmt"] == "packed" and set(attestation["attStmt"]) == {"alg", "sig"}


def test_inputs_for_an_excluded_credential_are_allowed() -> None:
    """The page's list is checked as a whole (WebAuthn Level 3, section 10.1.4). A credential in it that requires user
    verification (CTAP 2.1, section 12.1) is then left out of the request of an unverified sign-in."""
    required = {"credentialProtectionPolicy": "userVerificationRequired", "prf": {}}
    selection = {**DISCOVERABLE, "userVerification": "required"}
    with hidlog.SecurityKey(verification="verified", extensions=("prf", "credProtect")) as key:
        browser = key.browser("https://example.com")
        protected = browser.create(make_creation_options(authenticatorSelection=selection, extensions=required))["id"]
        other = browser.create(
            make_creation_options(
                "bob", extensions={"credentialProtectionPolicy": "userVerificationOptional", "prf": {}}
            )
        )["id"]
        listed = [{"type": "public-key", "id": credential_id} for credential_id in (protected, other)]
        values = {credential_id: {"first": "AQ"} for credential_id in (protected, other)}
        options = {**REQUEST_OPTIONS, "userVerification": "discouraged", "allowCredentials": listed}
        signed = browser.get({**options, "extensions": {"prf": {"evalByCredential": values}}})
        assert signed["id"] == other
        assert "first" in signed["clientExtensionResults"]["prf"]["results"]
        with pytest.raises(hidlog.WebAuthnSyntaxError):
            browser.get({**options, "extensions": {"prf": {"evalByCredential": {**values, "AQ": {"first": "AQ"}}}}})
