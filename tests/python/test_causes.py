"""The causes of refusals in error messages. The expected texts for the codes in hidlog.h are written by hand."""

from __future__ import annotations

import pickle
from typing import Any

import pytest

import hidlog
from hidlog import Browser, Client, SecurityKey

CREATION: dict[str, Any] = {
    "rp": {"id": "example.com", "name": "x"},
    "user": {"id": "AQ", "name": "ann", "displayName": "Ann"},
    "challenge": "AAAA",
    "pubKeyCredParams": [{"type": "public-key", "alg": -7}],
}
CBOR = 0x10


def make_key_and_browser(**options: Any) -> tuple[SecurityKey, Browser]:
    """Returns a key, and a browser at https://example.com that uses the key."""
    key = SecurityKey(**options)
    return key, Browser(key, "https://example.com")


def _get_cause(caught: pytest.ExceptionInfo[hidlog.NotAllowedError]) -> str:
    """Returns the cause of the CTAP status that led to a DOM error."""
    refused = caught.value.__cause__
    assert isinstance(refused, hidlog.CtapError)
    return refused.cause


def test_what_the_user_does() -> None:
    key, page = make_key_and_browser(presence="denied")
    with pytest.raises(hidlog.NotAllowedError, match="OPERATION_DENIED.*: the user refused$") as caught:
        page.create(CREATION)
    assert _get_cause(caught) == "the user refused" == key.cause() == key.cause(0x27)
    assert key.cause(0x2E) == ""
    key.presence = "timeout"
    with pytest.raises(hidlog.NotAllowedError, match=": the user did not respond in time$"):
        page.create(CREATION)
    key.presence = "granted"
    page.create(CREATION)
    assert key.cause() == ""


def test_credentials_that_there_are_not() -> None:
    _, page = make_key_and_browser()
    with pytest.raises(hidlog.NotAllowedError, match=": no discoverable credential of this RP on this key$"):
        page.get({"challenge": "AAAA", "rpId": "example.com"})
    allowed = [{"type": "public-key", "id": "AAAA"}]
    with pytest.raises(hidlog.NotAllowedError, match=": allowList names no credential of this RP on this key$"):
        page.get({"challenge": "AAAA", "rpId": "example.com", "allowCredentials": allowed})


@pytest.mark.parametrize(
    "request_bytes, status, cause",
    [
        (b"\x05", 0x01, "the authenticator command 0x05 is not supported"),
        (b"\x04\x00", 0x03, "this command takes no parameters; bytes after the command byte: 1"),
        (b"\x01\xa0", 0x14, "the required parameter clientDataHash is missing"),
        (
            b"\x02\xff",
            0x12,
            "the parameters are not canonical CBOR at byte 0: Reserved: a length that is reserved or indefinite",
        ),
        (b"\x08", 0x30, "no assertion is pending: none was left by an authenticatorGetAssertion before"),
    ],
)
def test_requests_that_fail_a_check(request_bytes: bytes, status: int, cause: str) -> None:
    key = SecurityKey()
    assert Client(key).transact(CBOR, request_bytes) == bytes([status])
    assert key.cause() == key.cause(status) == cause


def test_errors_of_the_transport() -> None:
    key = SecurityKey()
    client = Client(key)
    with pytest.raises(hidlog.CtapError, match="^CtapError 0x01 .*: CTAPHID command 0x30 is not supported$") as caught:
        client.transact(0x30)
    copied = pickle.loads(pickle.dumps(caught.value))
    assert (copied.status, copied.cause, str(copied)) == (1, caught.value.cause, str(caught.value))


def test_a_fault_has_no_cause() -> None:
    key, page = make_key_and_browser()
    key.faults.status = "KEY_STORE_FULL"
    with pytest.raises(hidlog.NotAllowedError) as caught:
        page.create(CREATION)
    assert _get_cause(caught) == "" and not str(caught.value).endswith(":")


def test_a_key_in_a_process_has_none() -> None:
    key, page = make_key_and_browser(process=True, presence="denied")
    with pytest.raises(hidlog.NotAllowedError, match="OPERATION_DENIED"):
        page.create(CREATION)
    assert key.cause() == ""
    key.close()
