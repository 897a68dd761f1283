#!/usr/bin/python3
"""Hostile messages from pages to the proxy, listed in tables or generated at random.

Whatever a page of one origin sends, credentials of other origins must not change, their keys must not sign for it, and
no file may be written outside the recordings' directory.

    tests/webdriver/messages.py [--count 3000] [--seed 1]
"""

from __future__ import annotations

import argparse
import base64
import json
import random
import sys
from concurrent.futures import Future
from hashlib import sha256
from pathlib import Path
from tempfile import TemporaryDirectory
from typing import Any

sys.path.insert(0, str(Path(__file__).resolve().parents[2] / "bindings" / "python" / "src"))

from cryptography.hazmat.primitives import hashes, serialization
from cryptography.hazmat.primitives.asymmetric import ec
from cryptography.hazmat.primitives.asymmetric.utils import encode_dss_signature
from hidlog.webdriver.authenticator import Authenticator
from hidlog.webdriver.channel import Channel
from hidlog.webdriver.credential_json import read_options
from hidlog.webdriver.devtools import Document
from hidlog.webdriver.recorder import Recorder, folder_name

OPTIONS = {"protocol": "ctap2", "transport": "usb", "hasResidentKey": True}
BANK, EVIL = "https://bank.example", "https://evil.example"
LOG = "> 0 " + "00" * 64 + "\n"


def to_base64url(data: bytes) -> str:
    return base64.urlsafe_b64encode(data).decode().rstrip("=")


def to_base64(data: bytes) -> str:
    return base64.b64encode(data).decode()


class FakeDevTools:
    """A replacement for DevTools, which stores the replies that are sent to documents."""

    def __init__(self) -> None:
        self.replies: list[list[Any]] = []

    def evaluate(self, document: Document, expression: str) -> Future[Any]:
        arguments = expression.partition("hidlogReply?.(")[2][:-1]
        self.replies.append(json.loads(f"[{arguments}]"))
        return Future()

    def documents(self) -> list[Document]:
        return []


class AuthenticatorFixture:
    """An authenticator with a credential of the bank, and documents of both origins."""

    def __init__(self, folder: Path):
        self.key = Authenticator(read_options(OPTIONS))
        self.folder = folder
        self.recorder = Recorder(folder / "session", "name")
        self.browser = FakeDevTools()
        self.channel = Channel.__new__(Channel)
        self.channel._devtools = self.browser
        self.channel._authenticator, self.channel._recorder = self.key, self.recorder
        Channel._set_calls(self.channel)
        self.private = ec.generate_private_key(ec.SECP256R1())
        self.pkcs8 = self.private.private_bytes(
            serialization.Encoding.DER, serialization.PrivateFormat.PKCS8, serialization.NoEncryption()
        )
        self.key.add(make_credential("bank.example", self.pkcs8))
        self.bank, self.evil = Document("t", 1, "1", BANK), Document("t", 2, "2", EVIL)
        self.held = json.dumps(self.key.credentials)

    def send(self, document: Document, message: Any) -> list[Any]:
        """Sends a message, and returns its reply: the number of the call, the value and the error."""
        self.browser.replies.clear()
        payload = message if isinstance(message, str) else json.dumps(message)
        self.channel._receive(document, payload)
        assert len(self.browser.replies) <= 1
        return self.browser.replies[0] if self.browser.replies else []

    def expect_error(self, document: Document, message: Any) -> None:
        """Checks that a message causes an error and changes no credentials."""
        reply = self.send(document, message)
        assert not reply or (reply[1] is None and reply[2]), (message, reply)
        assert json.dumps(self.key.credentials) == self.held, message


def make_credential(rp_id: str, pkcs8: bytes, **more: Any) -> dict[str, Any]:
    made = {"credentialId": to_base64url(b"the bank's credential"), "isResidentCredential": True, "rpId": rp_id}
    return {**made, "userHandle": to_base64url(b"ann"), "signCount": 7, "privateKey": to_base64url(pkcs8), **more}


def make_data_to_sign(rp_id: str) -> bytes:
    """Returns the data that an assertion for this RP ID signs: authenticator data, and a client data hash of zeros."""
    return sha256(rp_id.encode()).digest() + b"\x01" + bytes(4) + bytes(32)


def test_no_foreign_keys(rig: AuthenticatorFixture) -> None:
    """A page gets neither credentials nor signatures of another origin, and no private keys of its own origin."""
    point = rig.pkcs8[-64:]
    begun = rig.send(rig.evil, {"id": 1, "name": "begin"})
    assert begun[0] == 1 and begun[1]["credentials"] == [], begun
    own = rig.send(rig.bank, {"id": 2, "name": "begin"})
    assert [credential["rpId"] for credential in own[1]["credentials"]] == ["bank.example"]
    number = rig.private.private_numbers().private_value.to_bytes(32, "big")
    held = base64.urlsafe_b64decode(own[1]["credentials"][0]["privateKey"] + "==")
    assert number not in held and held.endswith(point) and len(held) == len(rig.pkcs8)
    sign = {
        "id": 3,
        "name": "sign",
        "point": to_base64(point),
        "data": to_base64(make_data_to_sign("bank.example")),
    }
    rig.expect_error(rig.evil, sign)
    rig.expect_error(rig.evil, {**sign, "data": to_base64(make_data_to_sign("evil.example"))})
    rig.expect_error(rig.bank, {**sign, "data": to_base64(make_data_to_sign("evil.example"))})
    rig.expect_error(
        rig.bank, {**sign, "data": to_base64(b"anything else that must be signed, such as another protocol's text")}
    )
    rig.expect_error(rig.bank, {**sign, "data": to_base64(make_data_to_sign("bank.example")[:40])})
    reply = rig.send(rig.bank, sign)
    raw = base64.b64decode(reply[1]["signature"])
    signature = encode_dss_signature(int.from_bytes(raw[:32], "big"), int.from_bytes(raw[32:], "big"))
    rig.private.public_key().verify(signature, make_data_to_sign("bank.example"), ec.ECDSA(hashes.SHA256()))
    sub = Document("t", 3, "3", "https://login.bank.example:8443")
    assert (
        len(rig.send(sub, {"id": 4, "name": "begin"})[1]["credentials"]) == 1
    ), "a subdomain of the RP ID does not get its credentials"
    for origin in (
        "https://notbank.example",
        "https://bank.example.evil.example",
        "https://example",
        "https://1.2.3.4",
    ):
        assert rig.send(Document("t", 4, "4", origin), {"id": 4, "name": "begin"})[1]["credentials"] == [], origin


def test_no_foreign_changes(rig: AuthenticatorFixture) -> None:
    """A page can't take over, replace or remove credentials of another origin."""
    made = base64.b64decode(rig.send(rig.evil, {"id": 1, "name": "make"})[1]["point"])
    head = rig.pkcs8[:-64]
    end: dict[str, Any] = {"id": 2, "name": "end", "gone": [], "document": "d", "recordings": []}
    mine: dict[str, Any] = make_credential("evil.example", head + made, credentialId=to_base64url(b"evil"))
    bank_id = make_credential("", b"")["credentialId"]
    for credentials in (
        [{**mine, "rpId": "bank.example"}],
        [{**mine, "credentialId": bank_id}],
        [{**mine, "privateKey": to_base64url(rig.pkcs8)}],
        [make_credential("bank.example", rig.pkcs8)],
        [mine, mine],
        [{**mine, "rpId": "example"}],
        [{**mine, "rpId": "\ud800.evil.example"}],
        [mine] * 65,
        "x",
        [1],
        [None],
        [[]],
        {},
    ):
        rig.expect_error(rig.evil, {**end, "credentials": credentials})
    rig.expect_error(rig.evil, {**end, "credentials": [], "gone": [bank_id], "id": 2**60})
    assert not rig.send(rig.evil, {**end, "credentials": [], "gone": [bank_id, 1, None, "x"]})[2]
    assert json.dumps(rig.key.credentials) == rig.held
    # A key pair that was created for one origin can't be used by another origin.
    rig.expect_error(rig.bank, {**end, "credentials": [{**mine, "rpId": "bank.example"}]})
    sign = {
        "id": 3,
        "name": "sign",
        "point": to_base64(made),
        "data": to_base64(make_data_to_sign("evil.example")),
    }
    rig.expect_error(rig.bank, sign)
    rig.expect_error(rig.evil, {**sign, "data": to_base64(make_data_to_sign("bank.example"))})
    assert rig.send(rig.evil, sign)[1]["signature"]
    assert not rig.send(rig.evil, {**end, "credentials": [mine]})[2]
    assert [credential["rpId"] for credential in rig.key.credentials] == ["bank.example", "evil.example"]
    # Signature counters can only be increased.
    assert not rig.send(rig.evil, {**end, "credentials": [{**mine, "signCount": 3}]})[2]
    assert [credential["signCount"] for credential in rig.key.credentials] == [7, 7]


def test_bounded_recordings(rig: AuthenticatorFixture) -> None:
    """A page can't choose file names, and the size of its recordings is bounded."""
    outside = rig.folder / "outside.log"
    good: dict[str, Any] = {"index": 1, "from": 0, "text": LOG, "snapshot": ""}
    end: dict[str, Any] = {"id": 2, "name": "end", "gone": [], "credentials": [], "document": "d"}
    for recordings in (
        [{**good, "index": "../../outside"}],
        [{**good, "index": -1}],
        [{**good, "index": 1.5}],
        [{**good, "index": True}],
        [{**good, "index": 2**64}],
        [{**good, "from": 1}],
        [{**good, "from": -1}],
        [{**good, "text": "\x00"}],
        [{**good, "text": "\u00e4"}],
        [{**good, "text": 5}],
        [{**good, "snapshot": "zz"}],
        [{**good, "snapshot": 1}],
        [{**good, "snapshot": "00" * 70_000}],
        [1],
        {},
        None,
    ):
        rig.expect_error(rig.evil, {**end, "recordings": recordings})
    rig.expect_error(rig.evil, {**end, "recordings": [good], "document": "x" * 10_000})
    rig.expect_error(rig.evil, {**end, "recordings": [good], "document": ["x"]})
    assert not rig.send(rig.evil, {**end, "recordings": [{**good, "index": 77, "snapshot": "a0"}]})[2]
    rig.recorder.flush()
    files = sorted(str(path.relative_to(rig.folder)) for path in rig.folder.rglob("*") if path.is_file())
    own = "session/name/https_evil.example"
    assert files == [f"{own}/1.log", f"{own}/1.log.snapshot"] and not outside.exists(), files
    for origin in ("https://..", "https://../../x", "https://" + "a" * 300, "https://[::1]:8443", "https://%2e%2e"):
        name = folder_name(origin)
        assert "/" not in name and not name.startswith(".") and len(name) < 120, name


def test_invalid_messages(rig: AuthenticatorFixture) -> None:
    """Invalid messages have no effect but an error."""
    deep = "[" * 100_000
    for payload in ("", "{", deep, "{}", "[]", "1", '{"id":1}', '{"id":1,"name":"x"}', '{"id":"1","name":"begin"}'):
        rig.expect_error(rig.evil, payload)
    rig.expect_error(rig.evil, '{"id":1,"name":' + '{"a":' * 900 + "1" + "}" * 900 + "}")
    rig.expect_error(rig.evil, {"id": -1, "name": "begin"})
    rig.expect_error(rig.evil, {"id": 1, "name": "sign"})
    rig.expect_error(rig.evil, {"id": 1, "name": ["begin"]})
    rig.channel._authenticator = None
    rig.expect_error(rig.evil, {"id": 1, "name": "begin"})


MEMBER_VALUES: list[Any] = [
    None,
    True,
    0,
    -1,
    1,
    7,
    2**31,
    2**64,
    1.5,
    "",
    "x",
    "../x",
    "\u00e4",
    "\x00",
    [],
    {},
    [[]],
    LOG,
]
MEMBER_VALUES += [
    to_base64(bytes(64)),
    to_base64(make_data_to_sign("bank.example")),
    to_base64(make_data_to_sign("evil.example")),
    "bank.example",
]
MEMBER_VALUES += [to_base64url(b"the bank's credential"), "https://bank.example", "evil.example", "d"]
CALL_NAMES = ["begin", "presence", "make", "sign", "end", "x"]
MESSAGE_MEMBERS = ["point", "data", "credentials", "gone", "recordings", "document"]
CREDENTIAL_MEMBERS = [
    "credentialId",
    "isResidentCredential",
    "rpId",
    "privateKey",
    "userHandle",
    "signCount",
    "index",
    "from",
    "text",
]
CREDENTIAL_MEMBERS += ["snapshot", "userName", "backupState"]


def make_random_message(rng: random.Random, rig: AuthenticatorFixture) -> dict[str, Any]:
    """Returns a message with random members, some of them valid."""
    values = [*MEMBER_VALUES, to_base64(rig.pkcs8[-64:]), to_base64url(rig.pkcs8)]

    def make_value(depth: int = 0) -> Any:
        if depth < 2 and rng.random() < 0.4:
            return [
                {
                    name: make_value(depth + 1)
                    for name in rng.sample(CREDENTIAL_MEMBERS, rng.randint(0, len(CREDENTIAL_MEMBERS)))
                }
            ]
        return rng.choice(values)

    message = {
        "id": 1,
        "name": rng.choice(CALL_NAMES),
        "gone": [],
        "recordings": [],
        "document": "d",
        "credentials": [],
    }
    return {
        **message,
        **{name: make_value() for name in rng.sample(MESSAGE_MEMBERS, rng.randint(0, len(MESSAGE_MEMBERS)))},
    }


def fuzz_messages(rig: AuthenticatorFixture, count: int, seed: int) -> int:
    """Sends random messages from the evil page, and returns the number of messages that succeeded."""
    rng = random.Random(seed)
    taken = 0
    for _ in range(count):
        message = make_random_message(rng, rig)
        reply = rig.send(rig.evil, message)
        own = [credential for credential in rig.key.credentials if credential["rpId"] == "bank.example"]
        assert json.dumps(own) == rig.held, message
        if reply and not reply[2]:
            taken += 1
            shown = json.dumps(reply)
            assert "signature" not in shown or "bank" not in message["data"], message
            assert own[0]["privateKey"] not in shown and own[0]["credentialId"] not in shown, (message, reply)
    rig.recorder.flush()
    outside = [path for path in rig.folder.rglob("*") if path.is_file() and "https_evil.example" not in path.parts]
    assert not outside, outside
    return taken


def main() -> int:
    parser = argparse.ArgumentParser()
    parser.add_argument("--count", type=int, default=3000)
    parser.add_argument("--seed", type=int, default=1)
    given = parser.parse_args()
    failed = False
    for test in (test_no_foreign_keys, test_no_foreign_changes, test_bounded_recordings, test_invalid_messages):
        with TemporaryDirectory() as work_dir:
            try:
                test(AuthenticatorFixture(Path(work_dir)))
                print(f"ok  {test.__doc__}")
            except AssertionError as error:
                print(f"FAILED  {test.__doc__} {error}"[:2000])
                failed = True
    with TemporaryDirectory() as work_dir:
        taken = fuzz_messages(AuthenticatorFixture(Path(work_dir)), given.count, given.seed)
        print(f"ok  {given.count} random messages, of which {taken} have a value")
    return 1 if failed else 0


if __name__ == "__main__":
    sys.exit(main())
