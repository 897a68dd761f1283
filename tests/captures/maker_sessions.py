"""Simulated sessions of clients with security keys of known makers.

makers.json has each key's getInfo response and special behavior, written from CTAP 2.1 (or 2.0) and public source code.
The functions in `CLIENTS` send the requests that Chromium, Firefox, libfido2, python-fido2, OpenSSH and Windows send. No
packet was recorded.
"""

from __future__ import annotations

import hashlib
import json
import sys
import textwrap
from pathlib import Path
from typing import Any, Callable

HERE = Path(__file__).resolve().parent
sys.path.append(str(HERE.parents[1] / "conformance"))

from hidlog_conformance import ctap_cbor, keys  # noqa: E402
from hidlog_conformance.hid_packets import fragment_message  # noqa: E402
from hidlog_conformance.reference.credential import Attestor  # noqa: E402

BROADCAST = 0xFFFFFFFF
PING, MSG, INIT, WINK, CBOR, CANCEL, KEEPALIVE, ERROR = 0x01, 0x03, 0x06, 0x08, 0x10, 0x11, 0x3B, 0x3F
MAKE, GET, INFO, PIN, NEXT, SELECTION, BLOBS = b"\1", b"\2", b"\4", b"\6", b"\x08", b"\x0b", b"\x0c"
UP, UV, AT, ED = 1, 4, 0x40, 0x80
OK, EXCLUDED, NO_CREDENTIALS, PIN_INVALID, CANCELLED = b"\0", b"\x19", b"\x2e", b"\x31", b"\x2d"
NOT_SATISFIED, WRONG_DATA, SUCCESS = b"\x69\x85", b"\x6a\x80", b"\x90\0"
HAS_CBOR, HAS_WINK = 4, 1
KIND = "public-key"
MAKERS = json.loads((HERE / "makers.json").read_text(encoding="utf-8"))


class Key:
    """A key of a maker, and the log of its session with one client."""

    def __init__(self, maker: str, is_wrong: bool = False) -> None:
        self.is_wrong = is_wrong
        self.traits = MAKERS[maker]
        self.lines = [f"# {line}" for line in textwrap.wrap(self.traits["comment"], 100)]
        self.at = self.channel = self.nonces = self.counter = 0
        self.maker = keys.KeyMaker()
        self.credentials: list[dict[str, Any]] = []
        members = self.traits.get("info", {})
        self.aaguid = bytes.fromhex(members.get("aaguid", "00" * 16))
        self.info = {int(key): value for key, value in members.items() if key != "aaguid"}
        self.options = self.info.get(4, {})
        self.attestor = Attestor(self.aaguid)

    @property
    def has_cbor(self) -> bool:
        """Whether the key supports CTAP 2."""
        return bool(self.traits["capabilities"] & HAS_CBOR)

    @property
    def log(self) -> bytes:
        """The log of the session."""
        return "".join(f"{line}\n" for line in self.lines).encode()

    def add_request(self, channel: int, command: int, data: bytes = b"") -> None:
        """Adds a message of the client."""
        self.at += 3
        self.lines += [f"> {self.at} {packet.hex()}" for packet in fragment_message(channel, command, data)]

    def add_response(self, channel: int, command: int, data: bytes = b"") -> None:
        """Adds a message of the key."""
        self.at += 2
        self.lines.append(f"t {self.at}")
        self.lines += [f"< {packet.hex()}" for packet in fragment_message(channel, command, data)]

    def open(self) -> None:
        """Allocates a channel, as a client does when it opens the key."""
        self.nonces, self.channel = self.nonces + 1, self.channel + 1
        nonce = hashlib.sha256(b"%d" % self.nonces).digest()[:8]
        self.add_request(BROADCAST, INIT, nonce)
        device = bytes([2, *self.traits["device"], self.traits["capabilities"]])
        self.add_response(BROADCAST, INIT, nonce + self.channel.to_bytes(4, "big") + device)

    def add_keepalives(self, milliseconds: int, status: int) -> None:
        """Adds KEEPALIVE packets for a time, the first one at once."""
        end = self.at + milliseconds
        while self.at < end:
            self.add_response(self.channel, KEEPALIVE, bytes([status]))
            self.at = min(end, self.at + self.traits["keepalive"])

    def serve(self, request: bytes, item: Any, status: bytes, response: Any = None, touched: int = 0) -> None:
        """Adds a CBOR request and its response. Before the response, the key processes the request for a while, and
        waits for user presence."""
        self.add_request(self.channel, CBOR, request + (ctap_cbor.encode(item) if item is not None else b""))
        if request in (MAKE, GET, SELECTION) and touched:
            self.add_keepalives(self.traits["works_for"], 1)
        self.add_keepalives(touched, 2)
        self.add_response(self.channel, CBOR, status + (ctap_cbor.encode(response) if response is not None else b""))

    def get_info(self) -> None:
        """Serves authenticatorGetInfo."""
        self.serve(INFO, None, OK, {**self.info, 3: self.aaguid})

    def increment_counter(self, credential: dict[str, Any]) -> int:
        """Increments the signature counter, and returns it. It belongs to the key or to the credential."""
        self.counter += 1
        credential["counter"] = credential.get("counter", 0) + 1
        return self.counter if self.traits.get("counts_all") else int(credential["counter"])

    def create_credential(self, rp: str, user: dict[str, Any], is_discoverable: bool) -> dict[str, Any]:
        """Returns a new credential."""
        identity, x, y = self.maker.make()
        longer = (identity * 8)[: self.traits["id_length"]]
        made = {"id": longer, "key": identity, "x": x, "y": y, "rp": rp, "user": user, "rk": is_discoverable}
        self.credentials.append(made)
        return made

    def register(self, asked: dict[int, Any], touched: int = 600, is_verified: bool = False) -> dict[str, Any]:
        """Serves authenticatorMakeCredential with a new credential."""
        rp, extensions = asked[2]["id"], asked.get(6, {})
        credential = self.create_credential(rp, asked[3], asked.get(7, {}).get("rk") is True)
        outputs = {name: True for name in ("hmac-secret", "credBlob") if extensions.get(name)}
        if "credProtect" in extensions:
            outputs["credProtect"] = extensions["credProtect"]
        flags = UP | AT | UV * is_verified | ED * bool(outputs)
        cose = ctap_cbor.encode({1: 2, 3: -7, -1: 1, -2: credential["x"], -3: credential["y"]})
        identity = credential["id"]
        auth = (
            hashlib.sha256(rp.encode()).digest()
            + bytes([flags])
            + self.increment_counter(credential).to_bytes(4, "big")
        )
        auth += self.aaguid + len(identity).to_bytes(2, "big") + identity + cose
        auth += ctap_cbor.encode(outputs) if outputs else b""
        if self.traits["attestation"] == "certificate":
            signature = self.attestor.sign(auth + asked[1])
            statement = {"alg": -7, "sig": signature, "x5c": [self.attestor.certificate]}
        else:
            statement = {"alg": -7, "sig": self.maker.sign(credential["key"], auth + asked[1])}
        self.serve(MAKE, asked, OK, {1: "packed", 2: auth, 3: statement}, touched)
        return credential

    def refuse_registration(self, asked: dict[int, Any], status: bytes, touched: int = 500) -> None:
        """Serves authenticatorMakeCredential with an error after user presence."""
        self.serve(MAKE, asked, status, None, touched)

    def serve_assertion(
        self, credential: dict[str, Any], asked: dict[int, Any], count: int = 1, is_verified: bool = False
    ) -> None:
        """Serves authenticatorGetAssertion. With the option `up` false, user presence is not needed."""
        is_silent = asked.get(5, {}).get("up") is False
        response = self.make_assertion(credential, asked, (0 if is_silent else UP) | UV * is_verified)
        if count > 1:
            response[5] = count
        self.serve(GET, asked, OK, response, 0 if is_silent else 450)

    def make_assertion(self, credential: dict[str, Any], asked: dict[int, Any], flags: int) -> dict[int, Any]:
        """Returns an assertion."""
        start = hashlib.sha256(credential["rp"].encode()).digest() + bytes([flags])
        auth = start + self.increment_counter(credential).to_bytes(4, "big")
        found: dict[int, Any] = {1: {"id": credential["id"], "type": KIND}, 2: auth}
        found[3] = self.maker.sign(credential["key"], auth + asked[2] + b"wrong" * self.is_wrong)
        if credential["rk"]:
            found[4] = credential["user"] if flags & UV else {"id": credential["user"]["id"]}
        return found

    def serve_no_credentials(self, asked: dict[int, Any]) -> None:
        """Serves authenticatorGetAssertion with the status NO_CREDENTIALS."""
        self.serve(GET, asked, NO_CREDENTIALS)

    def serve_pin_token(self, rp: str = "", permissions: int = 0) -> tuple[bytes, int]:
        """Serves the requests with which a client gets a token by PIN. Returns a pinUvAuthParam and the protocol
        number."""
        protocol = self.info[6][0]
        self.serve(PIN, {1: protocol, 2: 1}, OK, {3: 8})
        _, x, y = self.maker.make()
        self.serve(PIN, {1: protocol, 2: 2}, OK, {1: {1: 2, 3: -25, -1: 1, -2: x, -3: y}})
        _, x, y = self.maker.make()
        agreed = {1: 2, 3: -25, -1: 1, -2: x, -3: y}
        extra = 16 * (protocol - 1)
        asked: dict[int, Any] = {1: protocol, 2: 5, 3: agreed, 6: self.random(16 + extra)}
        if permissions and self.options.get("pinUvAuthToken"):
            asked.update({2: 9, 9: permissions})
            asked.update({10: rp} if rp else {})
        self.serve(PIN, asked, OK, {2: self.random(32 + extra)})
        return self.random(16 * protocol), protocol

    def random(self, count: int) -> bytes:
        """Returns bytes that never repeat."""
        self.nonces += 1
        return hashlib.sha512(b"r%d" % self.nonces).digest()[:count]

    def add_apdu(self, apdu: bytes, response: bytes) -> None:
        """Adds a U2F request and its response."""
        self.add_request(self.channel, MSG, apdu)
        self.add_response(self.channel, MSG, response)

    def add_vendor_commands(self) -> None:
        """Adds the vendor commands of the maker, as the maker's tools send them."""
        for command, request, response in self.traits["vendor"]:
            self.add_request(self.channel, int(command, 16), bytes.fromhex(request))
            self.add_response(self.channel, int(command, 16), bytes.fromhex(response))

    def register_u2f(self, challenge: bytes, application: bytes, polls: int = 3) -> bytes:
        """Serves a U2F registration, which the client repeats until user presence is granted. Returns the key
        handle."""
        identity, x, y = self.maker.make()
        handle: bytes = (identity * 8)[: self.traits["id_length"]]
        self.credentials.append({"id": handle, "key": identity, "rp": application.hex(), "rk": False})
        apdu = bytes([0, 1, 3, 0, 0, 0, 64]) + challenge + application + b"\0\0"
        self.add_polls(apdu, polls)
        point = b"\4" + x + y
        signature = self.attestor.sign(b"\0" + application + challenge + handle + point)
        response = b"\5" + point + bytes([len(handle)]) + handle + self.attestor.certificate + signature
        self.add_apdu(apdu, response + SUCCESS)
        return handle

    def sign_u2f(self, handle: bytes, challenge: bytes, application: bytes, polls: int = 3) -> None:
        """Serves a U2F sign-in, which the client repeats until user presence is granted. Before that, the client checks
        the key handle."""
        data = challenge + application + bytes([len(handle)]) + handle
        head = bytes([0, 2, 7, 0, 0]) + len(data).to_bytes(2, "big")
        self.add_apdu(head + data + b"\0\0", NOT_SATISFIED)
        apdu = bytes([0, 2, 3]) + head[3:] + data + b"\0\0"
        self.add_polls(apdu, polls)
        credential = next(one for one in self.credentials if one["id"] == handle)
        start = b"\1" + self.increment_counter(credential).to_bytes(4, "big")
        self.add_apdu(apdu, start + self.maker.sign(credential["key"], application + start + challenge) + SUCCESS)

    def add_polls(self, apdu: bytes, count: int) -> None:
        """Adds U2F requests that are rejected because user presence is not yet granted."""
        for _ in range(count):
            self.add_apdu(apdu, NOT_SATISFIED)
            self.at += 200


def make_registration_parameters(rp: Any, user: Any, *algorithms: int, **more: Any) -> dict[int, Any]:
    """Returns the parameters of a registration."""
    listed = [{"alg": number, "type": KIND} for number in algorithms]
    whole = {1: hashlib.sha256(repr(rp).encode()).digest(), 2: rp, 3: user, 4: listed}
    return {**whole, **{int(key[1:]): value for key, value in more.items() if value is not None}}


def make_assertion_parameters(rp: str, *credentials: Any, **more: Any) -> dict[int, Any]:
    """Returns the parameters of a sign-in."""
    listed = {3: [{"id": one["id"], "type": KIND} for one in credentials]} if credentials else {}
    whole = {1: rp, 2: hashlib.sha256(b"get " + rp.encode()).digest(), **listed}
    return {**whole, **{int(key[1:]): value for key, value in more.items() if value is not None}}


def make_descriptors(*credentials: dict[str, Any]) -> list[dict[str, Any]]:
    """Returns the descriptors of credentials."""
    return [{"id": one["id"], "type": KIND} for one in credentials]


ALICE: dict[str, Any] = {"id": b"alice", "name": "alice", "displayName": "Alice"}


def run_u2f_client(key: Key, name: str) -> None:
    """Sends the requests of a client to a key that supports only U2F: the version, a registration, and a sign-in."""
    challenge, application = hashlib.sha256(name.encode()).digest(), hashlib.sha256(b"u2f.example").digest()
    key.add_apdu(bytes([0, 3, 0, 0, 0, 0, 0]), (b"U2F_V1" if key.is_wrong else b"U2F_V2") + SUCCESS)
    handle = key.register_u2f(challenge, application)
    key.open()
    other = bytes([0, 2, 7, 0, 0, 0, 129]) + challenge + application + b"\x40" + b"\x77" * 64 + b"\0\0"
    key.add_apdu(other, WRONG_DATA)
    for _ in range(2):
        key.sign_u2f(handle, challenge, application)


def chromium(key: Key) -> None:
    """Chromium: getInfo, the registration of a discoverable credential with a PIN, silent sign-ins before a
    registration with an excludeList, and a sign-in with all accounts."""
    key.get_info()
    rp, param = {"id": "localhost", "name": "Relying"}, key.serve_pin_token("localhost", 3)
    more = {"_6": {"credProtect": 2} if "credProtect" in key.info.get(2, []) else None, "_7": {"rk": True}}
    first = key.register(make_registration_parameters(rp, ALICE, -7, -257, _8=param[0], _9=param[1], **more), 700, True)
    key.open()
    key.get_info()
    param = key.serve_pin_token("localhost", 2)
    key.serve_assertion(first, make_assertion_parameters("localhost", first, _6=param[0], _7=param[1]), 1, True)
    key.open()
    key.get_info()
    silent = make_assertion_parameters("localhost", first, _5={"up": False})
    key.serve_assertion(first, silent)
    param = key.serve_pin_token("localhost", 1)
    again = make_registration_parameters(
        rp, ALICE, -7, -257, _5=make_descriptors(first), _7={"rk": True}, _8=param[0], _9=param[1]
    )
    key.refuse_registration(again, EXCLUDED)
    key.add_request(key.channel, CANCEL)


def firefox(key: Key) -> None:
    """Firefox: requests without the name of the RP, a sign-in with an empty hash for each listed credential, and
    hmac-secret."""
    key.get_info()
    user, hmac = {"id": b"bob", "name": "bob"}, {"hmac-secret": True}
    made = key.register(make_registration_parameters({"id": "a.example"}, user, -7, -257, _6=hmac, _7={"rk": False}))
    key.open()
    key.get_info()
    for options in ({"up": False}, {"up": True}):
        key.serve_assertion(made, make_assertion_parameters("a.example", made, _5=options))
    key.open()
    key.get_info()
    stranger = {"id": b"\x55" * 64}
    key.serve_no_credentials(make_assertion_parameters("a.example", stranger, _5={"up": False}))


def libfido2(key: Key) -> None:
    """libfido2 and its tools: getInfo at each start, a registration without names, and listing accounts with -G -r."""
    key.get_info()
    key.add_vendor_commands()
    users = [{"id": bytes([number]) * 32, "name": name} for number, name in ((1, "alice"), (2, "bob"))]
    for user in users:
        key.open()
        key.get_info()
        param = key.serve_pin_token("relying.example", 1)
        asked = make_registration_parameters(
            {"id": "relying.example"}, user, -7, _7={"rk": True}, _8=param[0], _9=param[1]
        )
        key.register(asked, 400, True)
    key.open()
    key.get_info()
    key.serve_assertion(key.credentials[1], make_assertion_parameters("relying.example", _5={"up": True}), 2)
    key.serve(NEXT, None, OK, key.make_assertion(key.credentials[0], make_assertion_parameters("relying.example"), UP))
    if "management" in key.traits:
        param = key.serve_pin_token("", 4)
        asked = {1: 1, 3: param[1], 4: param[0]}
        key.serve(bytes([key.traits["management"]]), asked, OK, {1: len(users), 2: 23})
    if key.traits.get("large_blobs"):
        key.serve(BLOBS, {1: 960, 3: 0}, OK, {1: b"\x80" + hashlib.sha256(b"\x80").digest()[:16]})


def python_fido2(key: Key) -> None:
    """python-fido2: getInfo several times, four algorithms, a PING, and a user who cancels a request."""
    key.add_request(key.channel, PING, b"Hello")
    key.add_response(key.channel, PING, b"Hello")
    for _ in range(2):
        key.get_info()
    rp = {"id": "relying.example", "name": "Relying"}
    made = key.register(make_registration_parameters(rp, ALICE, -7, -8, -37, -257))
    key.get_info()
    again = make_registration_parameters(rp, ALICE, -7, -8, -37, -257, _5=make_descriptors(made))
    key.refuse_registration(again, EXCLUDED)
    key.serve_assertion(made, make_assertion_parameters("relying.example", made))
    key.add_request(key.channel, CBOR, GET + ctap_cbor.encode(make_assertion_parameters("relying.example", made)))
    key.add_keepalives(300, 2)
    key.add_request(key.channel, CANCEL)
    key.add_response(key.channel, CBOR, CANCELLED)
    if key.traits["capabilities"] & HAS_WINK:
        key.add_request(key.channel, WINK)
        key.add_response(key.channel, WINK)


def openssh(key: Key) -> None:
    """OpenSSH: the RP `ssh:`, a user handle of 32 zero bytes, a silent sign-in first, and CANCEL at the end."""
    key.get_info()
    user = {"id": bytes(32), "name": "openssh", "displayName": "openssh"}
    made = key.register(make_registration_parameters({"id": "ssh:"}, user, -7))
    key.add_request(key.channel, CANCEL)
    key.open()
    for _ in range(2):
        key.get_info()
    for options in ({"up": False}, {"up": True}):
        key.serve_assertion(made, make_assertion_parameters("ssh:", made, _5=options))
    key.add_request(key.channel, CANCEL)
    if not key.traits["capabilities"] & 8:
        application = hashlib.sha256(b"ssh:").digest()
        handle = key.register_u2f(bytes(32), application, 1)
        key.sign_u2f(handle, b"\x01" * 32, application, 1)


def windows(key: Key) -> None:
    """Windows: selecting a key with an empty pinUvAuthParam, user verification wherever possible, and lists that are
    sent in parts."""
    key.get_info()
    rp: dict[str, Any] = {"id": "login.example", "name": "Login"}
    user = {**ALICE, "icon": "https://login.example/a.png"}
    if key.traits.get("selection"):
        key.serve(SELECTION, None, OK, None, 300)
    else:
        choosing = make_registration_parameters({"id": "SelectDevice", "name": "SelectDevice"}, user, -7, _8=b"", _9=1)
        key.refuse_registration(choosing, PIN_INVALID, 800)
    if key.options.get("uv"):
        asked = make_registration_parameters(rp, user, -7, -257, _6={"hmac-secret": True}, _7={"rk": True, "uv": True})
        made = key.register(asked, 900, True)
        key.serve_assertion(
            made, make_assertion_parameters("login.example", made, _5={"up": True, "uv": True}), 1, True
        )
        if "enrolment" in key.traits:
            key.serve(bytes([key.traits["enrolment"]]), {6: True}, OK, {1: 1})
    else:
        param = key.serve_pin_token("login.example", 3)
        asked = make_registration_parameters(
            rp, user, -7, -257, _6={"hmac-secret": True}, _7={"rk": True}, _8=param[0], _9=param[1]
        )
        made = key.register(asked, 900, True)
        param = key.serve_pin_token("login.example", 2)
        asked = make_assertion_parameters("login.example", made, _5={"up": True}, _6=param[0], _7=param[1])
        key.serve_assertion(made, asked, 1, True)
    strangers = [{"id": bytes([0x60 + number]) * 32} for number in range(5)]
    for start in (0, 3):
        key.serve_no_credentials(
            make_assertion_parameters("login.example", *strangers[start : start + 3], _5={"up": False})
        )


CLIENTS: dict[str, Callable[[Key], None]] = {
    client.__name__: client for client in (chromium, firefox, libfido2, python_fido2, openssh, windows)
}


def make_session(maker: str, client: str, is_wrong: bool = False) -> Key:
    """Returns a key after its session with a client. If the key supports only U2F, the client sends U2F requests. If
    `is_wrong`, the key signs wrong bytes."""
    key = Key(maker, is_wrong)
    key.open()
    if key.has_cbor:
        CLIENTS[client](key)
    else:
        run_u2f_client(key, client)
    return key
