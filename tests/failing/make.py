#!/usr/bin/env python3
"""Records the failing sessions of docs/use/TROUBLESHOOTING.md with `hidlog live`.

    tests/failing/make.py            write the files
    tests/failing/make.py --check    exit with 1 if a file differs from what would be written

The script plays the client and the user; the key is the program in HIDLOG_PROGRAM, or ./hidlog. Private keys,
credential IDs and hashes are derived from fixed texts, so each run writes the same files. Signatures are deterministic,
in a way simpler than RFC 6979.
"""

from __future__ import annotations

import sys
from collections.abc import Callable
from hashlib import sha256
from pathlib import Path
from typing import Any

TOP = Path(__file__).resolve().parents[2]
FOLDER = TOP / "examples" / "failing"
sys.path.insert(0, str(TOP / "bindings" / "python" / "src"))

from hidlog.cbor import encode  # noqa: E402
from hidlog.packets import BROADCAST, CBOR, INIT, Message, fragment_message  # noqa: E402
from hidlog.subprocess_key import SubprocessKey  # noqa: E402

MAKE_CREDENTIAL, GET_ASSERTION, GET_INFO = 1, 2, 4
ES256 = [{"alg": -7, "type": "public-key"}]
Files = dict[str, bytes]
Point = tuple[int, int]
# The curve P-256.
FIELD = 2**256 - 2**224 + 2**192 + 2**96 - 1
ORDER = 0xFFFFFFFF00000000FFFFFFFFFFFFFFFFBCE6FAADA7179E84F3B9CAC2FC632551
BASE = (
    0x6B17D1F2E12C4247F8BCE6E563A440F277037D812DEB33A0F4A13945D898C296,
    0x4FE342E2FE1A7F9B8EE7EB4A7C0F9E162BCE33576B315ECECBB6406837BF51F5,
)


def add_points(one: Point | None, other: Point) -> Point | None:
    if one is None:
        return other
    if one[0] == other[0] and (one[1] + other[1]) % FIELD == 0:
        return None
    if one == other:
        slope = 3 * (one[0] ** 2 - 1) * pow(2 * one[1], -1, FIELD)
    else:
        slope = (other[1] - one[1]) * pow(other[0] - one[0], -1, FIELD)
    x = (slope**2 - one[0] - other[0]) % FIELD
    return x, (slope * (one[0] - x) - one[1]) % FIELD


def multiply(factor: int) -> Point:
    """Returns a multiple of the base point."""
    multiple, power = None, BASE
    while factor:
        if factor & 1:
            multiple = add_points(multiple, power)
        doubled = add_points(power, power)
        assert doubled
        factor, power = factor >> 1, doubled
    assert multiple
    return multiple


def to_scalar(data: bytes) -> int:
    """Returns a number from 1 to the order minus 1, derived from data."""
    return int.from_bytes(sha256(data).digest(), "big") % (ORDER - 1) + 1


def encode_der(numbers: tuple[int, int]) -> bytes:
    """Returns a signature in DER."""
    parts = [number.to_bytes(number.bit_length() // 8 + 1, "big") for number in numbers]
    body = b"".join(bytes([2, len(part)]) + part for part in parts)
    return bytes([0x30, len(body)]) + body


def sign(secret: int, signed: bytes) -> bytes:
    """Returns an ECDSA signature with SHA-256, in DER."""
    nonce = to_scalar(secret.to_bytes(32, "big") + signed)
    first = multiply(nonce)[0] % ORDER
    digest = int.from_bytes(sha256(signed).digest(), "big")
    return encode_der((first, pow(nonce, -1, ORDER) * (digest + first * secret) % ORDER))


class Session:
    """A client and a user of a key. The log is the output of `hidlog live`."""

    def __init__(self, snapshot: bytes = b"", name: str = "alice") -> None:
        self.key = SubprocessKey(snapshot)
        self.name = name
        self.lines: list[str] = []
        self.time_ms = 0
        self.needs: list[str] = []
        self.presence = "granted"
        self.secrets: dict[str, int] = {}

    def send_line(self, kind: str, rest: str = "", passed: int = 1) -> None:
        """Sends a log line to the key, and records its output."""
        self.time_ms += passed
        line = f"{kind} {self.time_ms} {rest}".rstrip().encode()
        written = self.key.exchange(line).text.decode().splitlines()
        self.lines += written
        self.needs = [line for line in written if line.startswith(("# need ", "# signed "))]

    def send(self, channel: int, command: int, data: bytes, lost: int = -1) -> None:
        """Sends a message, without the packet at index `lost`."""
        for index, packet in enumerate(fragment_message(Message(channel, command, data))):
            if index != lost:
                self.send_line(">", packet.hex())

    def allocate_channel(self, name: str) -> None:
        """Requests a channel, with a nonce derived from the client's name."""
        self.send(BROADCAST, INIT, sha256(name.encode()).digest()[:8])

    def answer_needs(self) -> None:
        """Supplies what the key needs until it needs nothing. The user takes 250 ms."""
        while (need := self.needs[-1].removeprefix("# need ")) != "nothing":
            if need == "presence":
                self.send_line("t", passed=100)
                self.send_line("t", passed=100)
                self.send_line("p", self.presence, passed=50)
            elif need == "key":
                self.send_line("k", self.make_key_pair())
            else:
                signed = bytes.fromhex("".join(line.removeprefix("# signed ") for line in self.needs[:-1]))
                self.send_line("s", sign(self.secrets[need.split()[1]], signed).hex())

    def make_key_pair(self) -> str:
        """Creates a key pair, and returns the credential ID and the public key."""
        label = f"{self.name} {len(self.secrets)}"
        secret = to_scalar(f"secret {label}".encode())
        credential_id = sha256(f"id {label}".encode()).hexdigest()
        self.secrets[credential_id] = secret
        return " ".join([credential_id, *(f"{coordinate:064x}" for coordinate in multiply(secret))])

    def transact(self, command: int, members: dict[int, Any] | None = None, channel: int = 1) -> None:
        """Sends a request, and supplies what the key needs."""
        self.send(channel, CBOR, encode_request(command, members))
        self.answer_needs()

    def close(self) -> bytes:
        """Ends the session, and returns its log."""
        return self.log() + self.key.finish()

    def log(self) -> bytes:
        """Returns the log so far."""
        return "".join(f"{line}\n" for line in self.lines).encode()


def encode_request(command: int, members: dict[int, Any] | None = None) -> bytes:
    """Returns a request as bytes."""
    return bytes([command]) + (encode(members) if members else b"")


def make_registration_parameters(
    name: str, rp: str = "example.com", excluded: list[bytes] | None = None
) -> dict[int, Any]:
    """Returns the parameters of authenticatorMakeCredential."""
    members: dict[int, Any] = {
        1: sha256(f"register {name}".encode()).digest(),
        2: {"id": rp, "name": "Example"},
        3: {"id": name.encode(), "name": name, "displayName": name.capitalize()},
        4: ES256,
        7: {"rk": True},
    }
    if excluded:
        members[5] = [{"id": credential_id, "type": "public-key"} for credential_id in excluded]
    return members


def make_sign_in_parameters(
    rp: str = "example.com", allowed: list[bytes] | None = None, turn: int = 1
) -> dict[int, Any]:
    """Returns the parameters of authenticatorGetAssertion."""
    members: dict[int, Any] = {1: rp, 2: sha256(f"sign in {turn}".encode()).digest()}
    if allowed:
        members[3] = [{"id": credential_id, "type": "public-key"} for credential_id in allowed]
    return members


def start_session(snapshot: bytes = b"", name: str = "alice") -> Session:
    """Starts a session, and allocates a channel."""
    session = Session(snapshot, name)
    session.allocate_channel("client")
    return session


def register_user(name: str = "alice") -> Session:
    """Starts a session, and registers a user."""
    session = start_session(name=name)
    session.transact(MAKE_CREDENTIAL, make_registration_parameters(name))
    return session


def list_credential_ids(session: Session) -> list[bytes]:
    """Returns the IDs of the credentials created in a session."""
    return [bytes.fromhex(credential_id) for credential_id in session.secrets]


def record_denied_user() -> Files:
    """A user who denies user presence."""
    session = start_session()
    session.presence = "denied"
    session.transact(MAKE_CREDENTIAL, make_registration_parameters("alice"))
    return {"denied_user.log": session.close()}


def record_excluded_credential() -> Files:
    """A registration whose excludeList contains a credential of the key."""
    session = register_user()
    session.transact(MAKE_CREDENTIAL, make_registration_parameters("alice", excluded=list_credential_ids(session)))
    return {"excluded_credential.log": session.close()}


def record_wrong_rp_id() -> Files:
    """A sign-in whose RP ID differs from that of the registration."""
    session = register_user()
    session.transact(GET_ASSERTION, make_sign_in_parameters("www.example.com", list_credential_ids(session)))
    return {"wrong_rp_id.log": session.close()}


def record_lost_packet() -> Files:
    """A request without its second packet."""
    session = start_session()
    session.send(1, CBOR, encode_request(MAKE_CREDENTIAL, make_registration_parameters("alice")), lost=1)
    return {"lost_packet.log": session.close()}


def record_busy_channel() -> Files:
    """A client that sends its next request before the response."""
    session = start_session()
    session.send(1, CBOR, encode_request(MAKE_CREDENTIAL, make_registration_parameters("alice")))
    session.send(1, CBOR, encode_request(GET_INFO))
    session.answer_needs()
    return {"busy_channel.log": session.close()}


def record_stale_sign_count() -> Files:
    """A key that repeats the signature counter of its last sign-in, as a clone does."""
    session = register_user()
    for turn in (1, 2):
        session.transact(GET_ASSERTION, make_sign_in_parameters(turn=turn))
    front = sha256(b"example.com").hexdigest()[-8:] + "01"
    raised, same = f"{front}00000002", f"{front}00000001"
    text = session.close().decode()
    assert text.count(raised) == 2, "expected in the response and in the signed bytes"
    return {"stale_sign_count.log": text.replace(raised, same).encode()}


def record_truncated() -> Files:
    """A file that was truncated while it was copied."""
    session = register_user()
    session.transact(GET_ASSERTION, make_sign_in_parameters())
    whole = session.close()
    return {"truncated.log": whole[: whole.rindex(b"\n< 00000001") + 50]}


def record_wrong_snapshot() -> Files:
    """A session with the credentials of one key, checked with those of another."""
    alice, bob = register_user("alice"), register_user("bob")
    snapshots = [session.key.snapshot(session.log()) for session in (alice, bob)]
    session = start_session(snapshots[0])
    session.secrets = alice.secrets
    session.transact(GET_ASSERTION, make_sign_in_parameters(allowed=list_credential_ids(alice)))
    for other in (alice, bob):
        other.close()
    return {
        "wrong_snapshot.log": session.close(),
        "alice.snapshot": snapshots[0],
        "bob.snapshot": snapshots[1],
    }


def record_two_clients() -> Files:
    """A second client sends a request while the first client's request waits for the user."""
    session = start_session()
    session.allocate_channel("the other client")
    session.send(1, CBOR, encode_request(MAKE_CREDENTIAL, make_registration_parameters("alice")))
    session.send(2, CBOR, encode_request(MAKE_CREDENTIAL, make_registration_parameters("bob", rp="example.org")))
    session.answer_needs()
    return {"two_clients.log": session.close()}


def record_noncanonical_cbor() -> Files:
    """A client that writes the keys of a map in a non-canonical order."""
    session = start_session()
    message = encode_request(MAKE_CREDENTIAL, make_registration_parameters("alice"))
    type_, alg = encode("type") + encode("public-key"), encode("alg") + encode(-7)
    assert message.count(alg + type_) == 1
    session.send(1, CBOR, message.replace(alg + type_, type_ + alg))
    session.answer_needs()
    return {"noncanonical_cbor.log": session.close()}


def record_changed_request() -> Files:
    """A sign-in with one bit of clientDataHash changed, as by a faulty proxy."""
    session = register_user()
    session.transact(GET_ASSERTION, make_sign_in_parameters())
    # A recorder outside the key does not see the bytes to sign.
    lines = [line for line in session.close().decode().splitlines(True) if not line.startswith("# signed ")]
    begin = sha256(b"sign in 1").hexdigest()[:8]
    index = next(index for index, line in enumerate(lines) if line.startswith(">") and begin in line)
    changed = f"{int(begin, 16) ^ 1:08x}"
    lines[index] = lines[index].replace(begin, changed)
    return {"changed_request.log": "".join(lines).encode()}


SESSIONS: list[Callable[[], Files]] = [
    record_denied_user,
    record_excluded_credential,
    record_wrong_rp_id,
    record_lost_packet,
    record_busy_channel,
    record_stale_sign_count,
    record_truncated,
    record_wrong_snapshot,
    record_two_clients,
    record_noncanonical_cbor,
    record_changed_request,
]


def main() -> int:
    files = {name: data for record in SESSIONS for name, data in record().items()}
    if sys.argv[1:] != ["--check"]:
        for name, data in files.items():
            (FOLDER / name).write_bytes(data)
        return 0
    differs = [name for name, data in files.items() if (FOLDER / name).read_bytes() != data]
    for name in differs:
        print(f"{name} differs from what would be written")
    print(f"{len(files) - len(differs)} of {len(files)} files are up to date")
    return 1 if differs else 0


if __name__ == "__main__":
    sys.exit(main())
