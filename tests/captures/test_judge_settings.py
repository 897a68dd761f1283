"""`hidlog judge` on settings, fingerprints, LOCK, U2F and attestation certificates. The logs are written by hand from
CTAP 2.1 and U2F's raw messages. Each is compared with a log that violates the rule."""

from __future__ import annotations

import datetime
from typing import Any

import pytest
from cryptography import x509
from cryptography.hazmat.primitives import hashes, serialization
from cryptography.hazmat.primitives.asymmetric import ec
from cryptography.x509.oid import NameOID
from test_judge_conforming import (
    HASH,
    LOCK,
    MAKE,
    MSG,
    OK,
    PIN,
    PING,
    RESET,
    Broken,
    Credential,
    Log,
    make_registration_parameters,
    make_u2f_registration_response,
)

from hidlog_conformance import certificates

BIO, CONFIG = b"\x09", b"\x0d"
ENABLE, TOGGLE, SET_LENGTH = {1: 1}, {1: 2}, 3
AUTH_PARAMETERS = {3: 2, 4: bytes(32)}
POLICY, NOT_SATISFIED, WRONG_DATA = b"\x37", b"\x69\x85", b"\x6a\x80"


def make_log(**more: Any) -> Log:
    """Returns the log of a key that supports CTAP 2.1 and authenticatorConfig."""
    options = {"authnrCfg": True, "setMinPINLength": True, "ep": False, "alwaysUv": False, "bioEnroll": False}
    return Log().add_init().add_get_info("FIDO_2_1", _6=[2, 1], options={**options, **more.pop("options", {})}, **more)


def add_config(log: Log, at: int, asked: dict[int, Any], status: bytes = OK) -> Log:
    """Adds a request for a subcommand of authenticatorConfig, and the response."""
    return log.add_cbor(at, CONFIG, {**asked, **AUTH_PARAMETERS}, status)


def find_violations_after_get_info(log: Log, at: int, **more: Any) -> Broken:
    """Adds getInfo and its response, and returns the MUST violations."""
    options = {"rk": True, "up": True, "authnrCfg": True, "ep": False, "alwaysUv": False, **more.pop("options", {})}
    members = {1: ["FIDO_2_1"], 3: bytes(16), 4: options, 6: [2], **{int(key[1:]): more[key] for key in more}}
    return log.add_cbor(at, b"\4", None, OK, members).find_must_violations()


@pytest.mark.parametrize("options, wanted", [({"ep": True}, []), ({"ep": False}, [("key", "6.11")])])
def test_enabled_enterprise_attestation_is_shown(options: dict[str, bool], wanted: Broken) -> None:
    assert find_violations_after_get_info(add_config(make_log(), 100, ENABLE), 200, options=options) == wanted


@pytest.mark.parametrize("options, wanted", [({"alwaysUv": True}, []), ({}, [("key", "6.11")])])
def test_toggled_always_uv_is_shown(options: dict[str, bool], wanted: Broken) -> None:
    assert find_violations_after_get_info(add_config(make_log(), 100, TOGGLE), 200, options=options) == wanted


@pytest.mark.parametrize("length, wanted", [(8, []), (4, [("key", "6.11")])])
def test_a_minimum_pin_length_is_shown(length: int, wanted: Broken) -> None:
    assert (
        find_violations_after_get_info(add_config(make_log(), 100, {1: SET_LENGTH, 2: {1: 8}}), 200, _13=length)
        == wanted
    )


@pytest.mark.parametrize("status, wanted", [(POLICY, []), (OK, [("key", "6.11")])])
def test_a_minimum_pin_length_is_not_lowered(status: bytes, wanted: Broken) -> None:
    log = add_config(make_log(_13=8), 100, {1: SET_LENGTH, 2: {1: 6}}, status)
    assert log.find_must_violations() == wanted


@pytest.mark.parametrize("status, answer, wanted", [
    (POLICY, None, []), (b"\x31", None, []), (OK, {2: bytes(48)}, [("key", "6.5")])
])  # fmt: skip
def test_no_token_before_a_forced_change(status: bytes, answer: Any, wanted: Broken) -> None:
    """getPinToken may reject such a PIN like a wrong PIN, any number of times."""
    log = add_config(make_log(options={"clientPin": True}), 100, {1: SET_LENGTH, 2: {3: True}})
    for at in (200, 300, 400, 500):
        log.add_cbor(at, PIN, {1: 2, 2: 5, 3: {}, 6: bytes(32)}, status, answer)
    assert sorted(set(log.find_must_violations())) == wanted


@pytest.mark.parametrize("is_forced, kind, left, wanted", [
    (True, 9, 7, []), (True, 9, 8, []), (True, 5, 7, []), (True, 5, 8, []),
    (True, 4, 7, []), (True, 4, 8, [("key", "6.5")]), (False, 9, 7, []), (False, 9, 8, [("key", "6.5")]),
])  # fmt: skip
def test_a_wrong_pin_costs_a_retry(is_forced: bool, kind: int, left: int, wanted: Broken) -> None:
    """If a PIN must be changed, status 31 in response to a token request does not mean that the PIN is wrong
    (6.5.5.7)."""
    log = make_log(options={"clientPin": True}, _12=is_forced)
    log.add_cbor(100, PIN, {1: 2, 2: 1}, OK, {3: 8}).add_cbor(200, PIN, {1: 2, 2: kind, 3: {}, 6: bytes(32)}, b"\x31")
    assert log.add_cbor(300, PIN, {1: 2, 2: 1}, OK, {3: left}).find_must_violations() == wanted


@pytest.mark.parametrize("at, wanted", [(300, [("key", "6.6")]), (5000, [])])
def test_a_reset_disables_enterprise_attestation(at: int, wanted: Broken) -> None:
    """After a second, another program may have enabled enterprise attestation again."""
    log = add_config(make_log(), 100, ENABLE).add_cbor(200, RESET, None, OK, user=50)
    assert find_violations_after_get_info(log, at, options={"ep": True}) == wanted


@pytest.mark.parametrize("name, more, wanted", [
    ("none", {}, []), ("said", {"_4": True}, [("key", "6.1.2")])
])  # fmt: skip
def test_enterprise_attestation_is_not_given_unasked(name: str, more: dict[str, Any], wanted: Broken) -> None:
    response = {**Credential().make_registration_response(), **({4: True} if more else {})}
    log = make_log().add_cbor(100, MAKE, make_registration_parameters(), OK, response, user=50)
    assert log.find_must_violations() == wanted


def add_sample(at: int, log: Log, command: int, item: dict[int, Any], **more: Any) -> Log:
    """Adds a request for a sample of a fingerprint, and the response."""
    asked = {1: 1, 2: command, 3: {int(key[1:]): more[key] for key in more}, 4: 2, 5: bytes(32)}
    return log.add_cbor(at, BIO, asked, OK, item, user=50)


@pytest.mark.parametrize("left, listed, wanted", [
    (0, [b"finger"], []), (1, [b"finger"], [("key", "6.7")]), (0, [b"finger", b"other!"], []),
    (2, [b"another"], [("key", "6.7")]),
])  # fmt: skip
def test_a_finger_is_listed_once_its_samples_are_complete(left: int, listed: list[bytes], wanted: Broken) -> None:
    log = add_sample(100, make_log(), 1, {4: b"finger", 5: 0, 6: 2}, _3=10000)
    log = add_sample(300, log, 2, {5: 0, 6: left}, _1=b"finger", _3=10000)
    log = log.add_cbor(500, BIO, {1: 1, 2: 4, 4: 2, 5: bytes(32)}, OK, {7: [{1: name} for name in listed]})
    assert log.find_must_violations() == wanted


@pytest.mark.parametrize("status, wanted", [(1, []), (0, [("key", "6.7")])])
def test_a_bad_sample_does_not_count(status: int, wanted: Broken) -> None:
    """The value 1 of lastEnrollSampleStatus means that the finger was too high on the sensor (6.7.4)."""
    log = add_sample(100, make_log(), 1, {4: b"finger", 5: 0, 6: 2}, _3=10000)
    assert add_sample(300, log, 2, {5: status, 6: 2}, _1=b"finger", _3=10000).find_must_violations() == wanted


@pytest.mark.parametrize("at, wanted", [(2000, [("key", "11.2.9.2.2")]), (2980, []), (4000, [])])
def test_a_lock_excludes_others_for_its_time(at: int, wanted: Broken) -> None:
    log = Log().add_init().add_init(1, 2).add_request(10, 1, LOCK, b"\3").add_response(1, LOCK)
    assert log.add_request(at, 2, PING, b"a").add_response(2, PING, b"a").find_must_violations() == wanted


def make_apdu(instruction: int, control: int, data: bytes) -> bytes:
    """Returns a U2F request whose length field has three bytes."""
    return bytes([0, instruction, control, 0, 0]) + len(data).to_bytes(2, "big") + data + b"\0\0"


class U2fKey:
    """A U2F key with one registration. Its messages are added to a log."""

    def __init__(self, log: Log) -> None:
        self.private = ec.generate_private_key(ec.SECP256R1())
        point = self.private.public_key().public_bytes(
            serialization.Encoding.X962, serialization.PublicFormat.UncompressedPoint
        )
        self.handle, self.counter = b"\x77" * 64, 5
        asked = HASH + b"\x22" * 32
        response = make_u2f_registration_response(self.handle, asked, point=point)
        self.log = log.add_request(100, 1, MSG, make_apdu(1, 0, asked)).add_response(1, MSG, response)

    def add_sign_in(
        self, at: int, application: bytes, control: int = 3, by: int = 1, presence: bytes = b"\1"
    ) -> U2fKey:
        """Adds a sign-in with a valid signature."""
        self.counter += by
        front = presence + self.counter.to_bytes(4, "big")
        signature = self.private.sign(b"\x22" * 32 + front + HASH, ec.ECDSA(hashes.SHA256()))
        return self.add_authentication(at, application, control, front + signature + b"\x90\0")

    def add_authentication(self, at: int, application: bytes, control: int, response: bytes) -> U2fKey:
        """Adds a U2F authentication request, and its response."""
        data = HASH + application + bytes([len(self.handle)]) + self.handle
        self.log.add_request(at, 1, MSG, make_apdu(2, control, data)).add_response(1, MSG, response)
        return self


OWN, OTHER = b"\x22" * 32, b"\x33" * 32


@pytest.mark.parametrize("name, add, wanted", [
    ("signs", lambda key: key.add_sign_in(200, OWN).add_sign_in(300, OWN), []),
    ("asks first", lambda key: key.add_authentication(200, OWN, 7, NOT_SATISFIED).add_sign_in(300, OWN), []),
    ("waits for user presence", lambda key: key.add_authentication(200, OWN, 3, NOT_SATISFIED).add_sign_in(300, OWN), []),
    ("does not know it", lambda key: key.add_authentication(200, OTHER, 7, WRONG_DATA), []),
    ("the same counter", lambda key: key.add_sign_in(200, OWN).add_sign_in(300, OWN, by=0), ["10"]),
    ("no presence", lambda key: key.add_sign_in(200, OWN, presence=b"\0"), ["10"]),
    ("presence not enforced", lambda key: key.add_sign_in(200, OWN, 8, presence=b"\0"), []),
    ("signs at a check", lambda key: key.add_sign_in(200, OWN, 7), ["10"]),
    ("knows it elsewhere", lambda key: key.add_authentication(200, OTHER, 7, NOT_SATISFIED), ["10"]),
    ("signs elsewhere", lambda key: key.add_sign_in(200, OTHER), ["10"]),
    ("forgot it at once", lambda key: key.add_authentication(200, OWN, 7, WRONG_DATA), ["10"]),
    ("forgot it later", lambda key: key.add_authentication(9000, OWN, 7, WRONG_DATA), []),
])  # fmt: skip
def test_u2f(name: str, add: Any, wanted: list[str]) -> None:
    found = add(U2fKey(Log().add_init())).log.find_must_violations()
    assert [section for side, section in found if side == "key"] == wanted


def test_a_u2f_registration_signs_its_challenge() -> None:
    log = Log().add_init().add_request(100, 1, MSG, make_apdu(1, 0, bytes(64)))
    wrong = make_u2f_registration_response(b"h" * 32, bytes(63) + b"\1")
    assert log.add_response(1, MSG, wrong).find_must_violations() == [("key", "10")]


UNIT = "Authenticator Attestation"
NAME = {NameOID.COUNTRY_NAME: "SE", NameOID.ORGANIZATION_NAME: "Example", NameOID.ORGANIZATIONAL_UNIT_NAME: UNIT}
SUBJECT = {**NAME, NameOID.COMMON_NAME: "Example attestation"}
AAGUID, AAGUID_OID = bytes(range(16)), x509.ObjectIdentifier("1.3.6.1.4.1.45724.1.1.4")


def make_certificate(
    subject: dict[Any, str], aaguid: bytes | None = None, is_ca: bool = False, is_critical: bool = False
) -> bytes:
    """Returns a certificate that is made with the package cryptography."""
    private = ec.generate_private_key(ec.SECP256R1())
    # Newer versions of the package allow 64 bytes of UTF-8 in a common name; X.520 allows 64 characters.
    name = x509.Name([x509.NameAttribute(kind, value, _validate=False) for kind, value in subject.items()])
    begun = datetime.datetime(2026, 1, 1)
    builder = x509.CertificateBuilder().subject_name(name).issuer_name(name).public_key(private.public_key())
    builder = builder.serial_number(2**100 + 1).not_valid_before(begun).not_valid_after(begun.replace(year=2060))
    builder = builder.add_extension(x509.BasicConstraints(is_ca, None), True)
    if aaguid is not None:
        builder = builder.add_extension(x509.UnrecognizedExtension(AAGUID_OID, b"\4\x10" + aaguid), is_critical)
    return builder.sign(private, hashes.SHA256()).public_bytes(serialization.Encoding.DER)


def remove_attribute(kind: Any) -> dict[Any, str]:
    """Returns the subject of a certificate without one attribute."""
    return {name: value for name, value in SUBJECT.items() if name != kind}


@pytest.mark.parametrize("certificate, wanted", [
    (make_certificate(SUBJECT), ""),
    (make_certificate({**SUBJECT, NameOID.COMMON_NAME: "ä" * 60}, AAGUID), ""),
    (make_certificate({NameOID.LOCALITY_NAME: "Lund", **SUBJECT}, AAGUID), ""),
    (make_certificate(remove_attribute(NameOID.COUNTRY_NAME)), "a subject with C"),
    (make_certificate(remove_attribute(NameOID.ORGANIZATION_NAME)), "a subject with C"),
    (make_certificate(remove_attribute(NameOID.COMMON_NAME)), "a subject with C"),
    (make_certificate(remove_attribute(NameOID.ORGANIZATIONAL_UNIT_NAME)), "the subject's OU"),
    (make_certificate({**SUBJECT, NameOID.ORGANIZATIONAL_UNIT_NAME: "Devices"}), "the subject's OU"),
    (make_certificate(SUBJECT, is_ca=True), "basic constraints"),
    (make_certificate(SUBJECT, bytes(16)), "the AAGUID"),
    (make_certificate(SUBJECT, AAGUID, is_critical=True), "an extension"),
    (make_certificate(SUBJECT)[:-1], "a certificate in DER"),
    (make_certificate(SUBJECT) + b"\0", "a certificate in DER"),
    (b"", "a certificate in DER"),
    (b"\x30\x80\0\0", "a certificate in DER"),
    (b"\x30\3\x30\1\0", "a certificate in DER"),
    ("no bytes", "a certificate in DER"),
])  # fmt: skip
def test_the_certificate_of_packed_attestation(certificate: Any, wanted: str) -> None:
    """WebAuthn Level 2, 8.2.1."""
    found = certificates.find_certificate_fault(certificate, AAGUID)
    assert found.startswith(wanted) and bool(found) == bool(wanted)


def test_a_damaged_certificate_raises_nothing() -> None:
    whole = make_certificate(SUBJECT, AAGUID)
    for place in range(len(whole)):
        for byte in (0x00, 0x80, 0xFF, whole[place] ^ 0x20):
            certificates.find_certificate_fault(whole[:place] + bytes([byte]) + whole[place + 1 :], AAGUID)
        certificates.find_certificate_fault(whole[:place], AAGUID)
