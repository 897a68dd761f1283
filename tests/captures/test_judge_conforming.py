"""`hidlog judge` reports no MUST violation if the standard leaves a choice, or if packets do not show what happened.

Each log is written by hand from CTAP 2.1 (or 2.0), and compared with a log that differs in one decisive point.
"""

from __future__ import annotations

import hashlib
import sys
from pathlib import Path
from typing import Any

import pytest

from hidlog.judge import _check_recording, judge

sys.path.append(str(Path(__file__).resolve().parents[2] / "conformance"))

from hidlog_conformance import ctap_cbor, judged_report, keys  # noqa: E402
from hidlog_conformance.hid_packets import fragment_message  # noqa: E402
from hidlog_conformance.reference.credential import Attestor  # noqa: E402

BROADCAST = 0xFFFFFFFF
PING, MSG, LOCK, INIT, CBOR, CANCEL, KEEPALIVE, ERROR = 0x01, 0x03, 0x04, 0x06, 0x10, 0x11, 0x3B, 0x3F
MAKE, GET, INFO, PIN, RESET, NEXT, PREVIEW = b"\1", b"\2", b"\4", b"\6", b"\7", b"\x08", b"\x41"
RP, HASH, SITE = "a.example", b"\x11" * 32, hashlib.sha256(b"a.example").digest()
OK, NO_CREDENTIALS = b"\0", b"\x2e"
Broken = list[tuple[str, str]]


class Log:
    """A log that is built packet by packet. Packets of the host have a timestamp; packets of the key are sent at the
    last timestamp."""

    def __init__(self, *head: str) -> None:
        self.lines = list(head)
        self.nonce = 0

    def add_request(self, at: int, channel: int, command: int, data: bytes = b"") -> Log:
        """Adds a message of the host."""
        self.lines += [f"> {at} {packet.hex()}" for packet in fragment_message(channel, command, data)]
        return self

    def add_response(self, channel: int, command: int, data: bytes = b"", at: int | None = None, lost: int = -1) -> Log:
        """Adds a message of the key. The packet with the index `lost`, if any, is omitted."""
        self.lines += [] if at is None else [f"t {at}"]
        packets = fragment_message(channel, command, data)
        self.lines += [f"< {packet.hex()}" for number, packet in enumerate(packets) if number != lost]
        return self

    def add_init(self, at: int = 0, channel: int = 1, after: int = 0) -> Log:
        """Adds an INIT that allocates a channel."""
        self.nonce += 1
        nonce = self.nonce.to_bytes(8, "big")
        answer = nonce + channel.to_bytes(4, "big") + bytes.fromhex("020101010c")[:4] + b"\x04"
        return self.add_request(at, BROADCAST, INIT, nonce).add_response(BROADCAST, INIT, answer, at + after)

    def add_cbor(self, at: int, request: bytes, item: Any, status: bytes, answer: Any = None, user: int = 0) -> Log:
        """Adds a CBOR request and its response on channel 1. The key waits `user` milliseconds for user presence."""
        self.add_request(at, 1, CBOR, request + (ctap_cbor.encode(item) if item is not None else b""))
        if user:
            self.add_response(1, KEEPALIVE, b"\2").lines.append(f"t {at + user}")
        return self.add_response(1, CBOR, status + (ctap_cbor.encode(answer) if answer is not None else b""))

    def add_get_info(self, *versions: str, **more: Any) -> Log:
        """Adds getInfo and its response."""
        options = {"rk": True, "up": True, **more.pop("options", {})}
        members = {1: list(versions), 3: bytes(16), 4: options, **{int(key[1:]): more[key] for key in more}}
        return self.add_cbor(1, INFO, None, OK, members)

    @property
    def text(self) -> bytes:
        """The text of the log."""
        return "".join(line + "\n" for line in self.lines).encode()

    def find_must_violations(self) -> Broken:
        """Returns the MUST violations."""
        return [(one.side, one.section) for one in judge(self.text) if one.level == "must"]

    def find_should_violations(self) -> Broken:
        """Returns the SHOULD violations."""
        return [(one.side, one.section) for one in judge(self.text) if one.level == "should"]


class Credential:
    """A P-256 credential with attestation none."""

    def __init__(self) -> None:
        self.maker = keys.KeyMaker()
        self.id, self.x, self.y = self.maker.make()
        self.descriptor = {"type": "public-key", "id": self.id}
        self.counter = 1

    def make_registration_response(self) -> dict[int, Any]:
        """Returns the response to the registration of the credential."""
        cose = ctap_cbor.encode({1: 2, 3: -7, -1: 1, -2: self.x, -3: self.y})
        auth = SITE + b"\x41" + self.counter.to_bytes(4, "big") + bytes(16) + b"\0\x20" + self.id + cose
        return {1: "none", 2: auth, 3: {}}

    def make_assertion_response(self, **more: Any) -> dict[int, Any]:
        """Returns the response to a sign-in with the credential."""
        self.counter += 1
        auth = SITE + b"\1" + self.counter.to_bytes(4, "big")
        found = {1: self.descriptor, 2: auth, 3: self.maker.sign(self.id, auth + HASH)}
        return {**found, **{int(key[1:]): more[key] for key in more}}


def make_registration_parameters(user: bytes = b"ann", **more: Any) -> dict[int, Any]:
    """Returns the parameters of a registration of a discoverable credential."""
    whole = {1: HASH, 2: {"id": RP}, 3: {"id": user, "name": "ann"}, 4: [{"alg": -7, "type": "public-key"}]}
    return {**whole, 7: {"rk": True}, **{int(key[1:]): more[key] for key in more}}


def make_sign_in_parameters(*listed: Any) -> dict[int, Any]:
    """Returns the parameters of a sign-in."""
    return {1: RP, 2: HASH, **({3: list(listed)} if listed else {})}


def add_registration(log: Log, credential: Credential, at: int = 100) -> Log:
    """Adds the registration of a credential to a log."""
    return log.add_cbor(at, MAKE, make_registration_parameters(), OK, credential.make_registration_response(), user=50)


@pytest.mark.parametrize(
    "versions, wanted", [(None, []), (("FIDO_2_0",), []), (("FIDO_2_1_PRE",), []), (("FIDO_2_1",), [("key", "6.2.2")])]
)
@pytest.mark.parametrize("number", [1, 2])
def test_a_number_of_credentials_beside_a_list(versions: Any, wanted: Broken, number: int) -> None:
    """CTAP 2.1 omits numberOfCredentials if there is an allowList or only one credential (6.2.2); CTAP 2.0 does not."""
    log, stranger = Log().add_init(), {"type": "public-key", "id": bytes(32)}
    log = log.add_get_info(*versions, _6=[1]) if versions else log
    answer = {1: stranger, 2: SITE + b"\1\0\0\0\1", 3: b"\x30\x06\2\1\1\2\1\1", 5: number}
    assert (
        log.add_cbor(200, GET, make_sign_in_parameters(stranger), OK, answer, user=50).find_must_violations() == wanted
    )


@pytest.mark.parametrize("limits, count, wanted", [
    ({}, 3, []), ({"_7": 8}, 9, []), ({"_7": 8, "_8": 64}, 3, [("key", "6.2.2")]), ({"_7": 8, "_8": 16}, 3, [])
])  # fmt: skip
def test_a_list_over_the_limits(limits: dict[str, int], count: int, wanted: Broken) -> None:
    """Status 15 is allowed only for lists above maxCredentialCountInList and IDs above maxCredentialIdLength (6.4)."""
    listed = [{"type": "public-key", "id": bytes([number]) * 32} for number in range(count)]
    log = Log().add_init().add_get_info("FIDO_2_1", _6=[1], **limits)
    assert log.add_cbor(200, GET, make_sign_in_parameters(*listed), b"\x15").find_must_violations() == wanted


@pytest.mark.parametrize("head, at, wanted", [
    ([], 2000, []), ([], 50, [("key", "11.2.9.1.3")]), (["# moment 0 is made up: none is known"], 0, [])
])  # fmt: skip
def test_a_channel_is_given_out_twice(head: list[str], at: int, wanted: Broken) -> None:
    """A key that was plugged in again, which takes at least 100 ms, allocates the same channels again. In a text
    without timestamps, this may happen at any INIT."""
    assert Log(*head).add_init().add_init(at).find_must_violations() == wanted


def test_nothing_is_known_of_what_was_open_before_a_key_was_plugged_in_again() -> None:
    one, other = Credential(), Credential()
    log = Log().add_init().add_get_info("FIDO_2_0")
    log.add_cbor(100, GET, make_sign_in_parameters(), OK, one.make_assertion_response(_5=2), user=50).add_init(5000)
    assert log.add_cbor(5100, NEXT, None, b"\x30").find_must_violations() == []
    log = Log().add_init().add_get_info("FIDO_2_0")
    log.add_cbor(100, GET, make_sign_in_parameters(), OK, other.make_assertion_response(_5=2), user=50)
    assert log.add_cbor(5100, NEXT, None, b"\x30").find_must_violations() == [("key", "6.3")]


def test_a_reset_within_ten_seconds_of_being_plugged_in_again() -> None:
    """A reset is allowed within 10 s of power-up (6.6). If a channel is allocated after a while, the key may have been
    plugged in again."""
    known = Credential()
    log = (
        Log()
        .add_init()
        .add_get_info("FIDO_2_0")
        .add_cbor(100, GET, make_sign_in_parameters(), OK, known.make_assertion_response(_5=2), user=50)
    )
    assert log.add_init(60000, 2).add_cbor(63000, RESET, None, OK, user=50).find_must_violations() == []
    log = (
        Log()
        .add_init()
        .add_get_info("FIDO_2_0")
        .add_cbor(100, GET, make_sign_in_parameters(), OK, known.make_assertion_response(_5=2), user=50)
    )
    assert log.add_cbor(63000, RESET, None, OK, user=50).find_must_violations() == [("key", "6.6")]


def test_a_reset_of_a_key_that_may_have_a_display() -> None:
    """The time limit of a reset is for authenticators without a display (6.6). A key that returns numberOfCredentials
    has no display (6.2.2)."""
    log = Log().add_init().add_get_info("FIDO_2_1", _6=[1]).add_cbor(60000, RESET, None, OK, user=50)
    assert (log.find_must_violations(), log.find_should_violations()) == ([], [("key", "6.6")])


def test_a_credential_that_was_deleted() -> None:
    """The credential may have been deleted with authenticatorCredentialManagementPreview, or by the user on the key,
    which takes a while."""
    credential = Credential()
    log = add_registration(Log().add_init().add_get_info("FIDO_2_1_PRE"), credential)
    delete = {1: 6, 2: {2: credential.descriptor}, 3: 1, 4: bytes(16)}
    log = log.add_cbor(300, PREVIEW, delete, OK).add_cbor(400, GET, make_sign_in_parameters(), NO_CREDENTIALS)
    assert (log.find_must_violations(), log.find_should_violations()) == ([], [])
    log = add_registration(Log().add_init().add_get_info("FIDO_2_1_PRE"), credential)
    assert log.add_cbor(30000, GET, make_sign_in_parameters(), NO_CREDENTIALS).find_must_violations() == []
    log = add_registration(Log().add_init().add_get_info("FIDO_2_1_PRE"), credential)
    assert log.add_cbor(400, GET, make_sign_in_parameters(), NO_CREDENTIALS).find_must_violations() == [
        ("key", "6.2.2")
    ]


def test_a_deleted_credential_is_not_excluded() -> None:
    credential, other = Credential(), Credential()
    other.maker.make()
    other.id, other.x, other.y = other.maker.make()
    for at, wanted in ((30000, []), (400, [("key", "6.1.2")])):
        log = add_registration(Log().add_init().add_get_info("FIDO_2_0"), credential)
        again = make_registration_parameters(b"bob", _5=[credential.descriptor])
        assert (
            log.add_cbor(at, MAKE, again, OK, other.make_registration_response(), user=50).find_must_violations()
            == wanted
        )


def make_u2f_registration_response(
    handle: bytes, request: bytes = bytes(64), point: bytes = b"\4" + bytes(64)
) -> bytes:
    """Returns a response to a U2F registration, signed by an attestation key (U2F raw messages, 4.3)."""
    attestor = Attestor()
    signed = b"\0" + request[32:] + request[:32] + handle + point
    registration = handle + attestor.certificate + attestor.sign(signed)
    return b"\5" + point + bytes([len(handle)]) + bytes(registration) + b"\x90\0"


@pytest.mark.parametrize("version, registers, wanted", [
    ("FIDO_2_1", True, []), ("FIDO_2_0", False, []), ("FIDO_2_1", False, [("key", "6.2.2")])
])  # fmt: skip
def test_a_handle_of_u2f_after_a_reset(version: str, registers: bool, wanted: Broken) -> None:
    """A reset in CTAP 2.1 also deletes U2F credentials (6.6). CTAP 2.0 does not mention U2F credentials."""
    credential = Credential()
    log = Log().add_init().add_get_info(version, _6=[1]).add_cbor(1000, RESET, None, OK, user=50)
    if registers:
        request = bytes.fromhex("00010300000040") + bytes(64)
        log = log.add_request(2000, 1, MSG, request).add_response(1, MSG, make_u2f_registration_response(credential.id))
    log = log.add_cbor(
        3000, GET, make_sign_in_parameters(credential.descriptor), OK, credential.make_assertion_response(), user=50
    )
    assert log.find_must_violations() == wanted


@pytest.mark.parametrize("version, wanted", [("FIDO_2_0", []), ("FIDO_2_1_PRE", []), ("FIDO_2_1", [("key", "6.1.2")])])
def test_enterprise_attestation_of_a_key_that_does_not_know_it(version: str, wanted: Broken) -> None:
    """CTAP 2.1 requires that enterpriseAttestation is rejected (6.1.2, step 9). In CTAP 2.0 it is an unknown member."""
    log = Log().add_init().add_get_info(version, _6=[1])
    log = log.add_cbor(
        100, MAKE, make_registration_parameters(_10=1), OK, Credential().make_registration_response(), user=50
    )
    assert sorted(set(log.find_must_violations())) == wanted


@pytest.mark.parametrize("seconds, at, is_locked", [(5, 1000, True), (5, 9000, False), (0, 20, False)])
@pytest.mark.parametrize("command, section", [(PING, "11.2.9.2.2"), (0x3C, "11.2.9.1.6")])
def test_another_channel_has_the_lock(command: int, section: str, seconds: int, at: int, is_locked: bool) -> None:
    """While the lock is active, messages on any other channel must fail (11.2.9.2.2)."""
    log = Log().add_init().add_init(1, 2).add_request(10, 1, LOCK, bytes([seconds])).add_response(1, LOCK)
    found = log.add_request(at, 2, command, b"a").add_response(2, ERROR, b"\6").find_must_violations()
    assert [one for one in found if one[0] == "key"] == ([] if is_locked else [("key", section)])


def test_keepalives_are_a_should() -> None:
    """KEEPALIVE packets should be sent at least every 100 ms (11.2.9.1.7)."""
    request = ctap_cbor.encode(make_sign_in_parameters())
    log = Log().add_init().add_get_info("FIDO_2_0").add_request(100, 1, CBOR, GET + request)
    log = log.add_response(1, KEEPALIVE, b"\2", at=2600).add_response(1, CBOR, b"\x27", at=5200)
    assert (log.find_must_violations(), log.find_should_violations()) == ([], [("key", "11.2.9.1.7")])
    log = Log().add_init().add_get_info("FIDO_2_0").add_request(100, 1, CBOR, GET + request).add_init(5000, 2)
    assert (log.find_must_violations(), log.find_should_violations()) == ([], [("key", "11.2.9.1.7")])
    log = Log().add_init().add_request(100, 1, PING, b"a").add_response(1, PING, b"a", at=2600)
    assert (log.find_must_violations(), log.find_should_violations()) == ([], [("key", "11.2.9.1.4")])
    log = Log().add_init().add_request(100, 1, PING, b"a").add_init(5000, 2)
    assert log.find_must_violations() == [("key", "11.2.9.1.4")]


@pytest.mark.parametrize("head, wanted", [
    ([], [("key", "11.2.4")]), (["# note: these are the packets of one client alone"], []),
    (["# imported from a capture of USB: bus 1", "# note: the recorder lost 3 packets"], []),
])  # fmt: skip
def test_packets_that_were_lost(head: list[str], wanted: Broken) -> None:
    """The client's operating system queues 64 unread packets and drops others. A recorder may report lost packets."""
    log = (
        Log(*head)
        .add_init()
        .add_request(10, 1, PING, b"a" * 200)
        .add_response(1, PING, b"a" * 200, lost=2)
        .add_init(2000, 2)
    )
    assert log.find_must_violations() == wanted and log.find_should_violations() + log.find_must_violations() != []


def test_what_a_recorder_lost_is_said_first() -> None:
    lost = (
        Log("# note: the recorder lost 3 packets").add_init().add_request(10, 1, PING, b"a").add_response(1, PING, b"b")
    )
    found = judged_report.format_recording(_check_recording([lost.text])).splitlines()
    assert found[0].startswith("note: the recorder lost packets")
    assert found[1].startswith("line 6: the key violates MUST")
    gap = Log("# imported from a capture of USB: bus 1").add_init().add_request(10, 1, PING, b"a" * 200)
    gap = gap.add_response(1, PING, b"a" * 200, lost=2).add_init(2000, 2)
    found = judged_report.format_recording(_check_recording([gap.text])).splitlines()
    assert found[0].startswith("note: the capture may have lost packets, since line 11 ")


def test_where_packets_do_not_show_what_was_answered() -> None:
    """Two requests with the same command are on a channel, none is rejected, and there is one response."""
    credential = Credential()
    log = Log().add_init().add_get_info("FIDO_2_0")
    log = log.add_request(100, 1, PING, b"a").add_request(200, 1, PING, b"b").add_response(1, PING, b"a", at=700)
    log = log.add_response(1, PING, b"b").add_init(2000, 2)
    assert [one for one in log.find_must_violations() if one[0] == "key"] == []
    # It is unknown whether the reset was done, so the credential may have been removed.
    log = add_registration(Log().add_init().add_get_info("FIDO_2_0"), credential).add_request(300, 1, CBOR, RESET)
    log = log.add_init(350, 1).add_cbor(400, GET, make_sign_in_parameters(), NO_CREDENTIALS)
    assert [one for one in log.find_must_violations() if one[1] == "6.2.2"] == []


def test_a_message_that_took_a_channel_times_out() -> None:
    """ERR_MSG_TIMEOUT is for the incomplete message, even if this message replaced another one (11.2.5.2)."""
    log = Log().add_init().add_request(10, 1, CBOR, INFO + bytes(80))
    log.lines.pop()
    log.add_request(20, 1, PING, b"a" * 80).lines.pop()
    log = log.add_response(1, ERROR, b"\5", at=4000)
    assert [one for one in log.find_must_violations() if one[0] == "key"] == []


def test_an_init_that_is_refused_may_end_nothing() -> None:
    """INIT aborts the transaction on its channel (11.2.5.3). For an INIT with a wrong length, the standard states
    nothing."""
    log = Log().add_init().add_request(10, 1, CBOR, INFO + bytes(80))
    log.lines.pop()
    log = log.add_request(50, 1, INIT, bytes(7)).add_response(1, ERROR, b"\3").add_response(1, ERROR, b"\5", at=600)
    assert [one for one in log.find_must_violations() if one[0] == "key"] == []
    log = (
        Log()
        .add_init()
        .add_request(10, 1, CBOR, GET + ctap_cbor.encode(make_sign_in_parameters()))
        .add_response(1, KEEPALIVE, b"\2")
    )
    log = log.add_request(50, 1, INIT, bytes(7)).add_response(1, ERROR, b"\3").add_response(1, KEEPALIVE, b"\2", at=150)
    log = log.add_request(200, 1, CBOR, INFO).add_response(1, ERROR, b"\6").add_response(1, CBOR, b"\x27", at=300)
    assert [one for one in log.find_must_violations() if one[0] == "key"] == []


def test_a_key_needs_no_pin() -> None:
    """An unsupported command returns status 01 (8.2), whatever its parameters are."""
    assert [
        one for one in Log().add_init().add_cbor(100, PIN, {1: 1}, b"\1").find_must_violations() if one[0] == "key"
    ] == []
    assert ("key", "6.5") in Log().add_init().add_cbor(100, PIN, {1: 1}, b"\2").find_must_violations()


def test_what_comes_between_may_end_what_is_pending() -> None:
    credential = Credential()
    log = (
        Log()
        .add_init()
        .add_get_info("FIDO_2_0")
        .add_cbor(100, GET, make_sign_in_parameters(), OK, credential.make_assertion_response(_5=2), user=50)
    )
    log = log.add_request(200, 1, CBOR, NEXT + b"\xa0").add_response(1, CBOR, b"\3").add_cbor(300, NEXT, None, b"\x30")
    assert [one for one in log.find_must_violations() if one[0] == "key"] == []
