"""Checks CBOR responses (members, canonical encoding, flags, counters, IDs and signatures), responses to CTAPHID_INIT,
and KEEPALIVEs."""

from __future__ import annotations

import hashlib
from dataclasses import dataclass, field
from functools import lru_cache
from typing import Any, Collection, Dict, List, Optional, Tuple

from hidlog_conformance import ctap_cbor, keys
from hidlog_conformance import hid_packets as hid
from hidlog_conformance.certificates import find_certificate_fault
from hidlog_conformance.text import quantity

UP, UV, BE, BS, AT, ED = 0x01, 0x04, 0x08, 0x10, 0x40, 0x80
# Reserved flags.
RESERVED_FLAGS = 0x22
# The attestation statement formats registered for WebAuthn.
FORMATS = ("packed", "tpm", "android-key", "android-safetynet", "fido-u2f", "apple", "none", "compound")
# Versions to which the rules of CTAP 2.1 do not apply.
EARLIER_VERSIONS = ("FIDO_2_0", "FIDO_2_1_PRE")
# The maximum number of PIN retries, and of built-in user verification retries.
MAX_RETRIES, MAX_USER_RETRIES = 8, 25
MAKE, GET, INFO, RESET, NEXT, SELECTION, BLOBS = 0x01, 0x02, 0x04, 0x07, 0x08, 0x0B, 0x0C
# Capabilities of an INIT response.
CAPABILITY_WINK, CAPABILITY_CBOR, CAPABILITY_NMSG = 0x01, 0x04, 0x08
# The prime field of P-256, and the constant of its equation.
PRIME = 0xFFFFFFFF00000001000000000000000000000000FFFFFFFFFFFFFFFFFFFFFFFF
EQUATION_CONSTANT = 0x5AC635D8AA3A93E7B3EBBD55769886BC651D06B0CC53B0F63BCE3C3E27D2604B


class Mismatch(Exception):
    """A response differs from the expected one."""

    def __init__(self, expected: str, actual: str) -> None:
        super().__init__(expected)
        self.expected = expected
        self.actual = actual


class CaseSkipped(Exception):
    """A case cannot be played against this device; the message has the reason."""


@dataclass
class Credential:
    """The credential in a registration's response."""

    id: bytes
    cose: Dict[int, Any]
    rp: str
    user: bytes
    counter: int
    discoverable: bool = False


@dataclass
class DeviceFacts:
    """Facts about a device, from getInfo and its other responses."""

    aaguid: bytes = b""
    algorithms: List[int] = field(default_factory=list)
    # Whether it supports only versions before FIDO_2_1, and whether it shows accounts on a display.
    old: bool = False
    display: bool = False
    # For each value r of an ES256 signature, the signed data. No two signatures may have the same r.
    halves: Dict[bytes, bytes] = field(default_factory=dict)
    # The highest credProtect level that the device set without a request, and minPINLength of getInfo.
    protection: int = 1
    min_pin_length: int = 4


def is_before_ctap_2_1(versions: List[Any]) -> bool:
    """Returns whether a device supports only versions before FIDO_2_1, such as its draft FIDO_2_1_PRE."""
    return not any(
        name.startswith("FIDO_2_") and name not in EARLIER_VERSIONS for name in versions if isinstance(name, str)
    )


def check(condition: bool, expected: str, actual: Any) -> None:
    """Raises `Mismatch` unless the condition is true."""
    if not condition:
        raise Mismatch(expected, actual if isinstance(actual, str) else ctap_cbor.to_diagnostic(actual))


def check_init_response(data: bytes, nonce: bytes, channel: int, allocated: Collection[int]) -> int:
    """Checks the data of a response to INIT on `channel`; `allocated` are the channels allocated so far. Returns the
    new one."""
    check(len(data) == 17, "an INIT response of 17 bytes", quantity(len(data), "byte"))
    check(data[:8] == nonce, f"the nonce {nonce.hex()}", data[:8])
    found = int.from_bytes(data[8:12], "big")
    if channel != hid.BROADCAST:
        check(found == channel, f"the channel {channel:08x}", f"{found:08x}")
    else:
        check(found not in (0, hid.BROADCAST), "a channel that is not reserved", f"{found:08x}")
        check(found not in allocated, "a new channel", f"{found:08x}")
    check(data[12] == 2, "protocol version 2", f"version {data[12]}")
    check(bool(data[16] & CAPABILITY_CBOR), "the capability CBOR", f"capabilities {data[16]:02x}")
    return found


def is_valid_keepalive(data: bytes) -> bool:
    """Returns whether the data of a KEEPALIVE is one byte, 01 or 02."""
    return data in (b"\1", b"\2")


@lru_cache(maxsize=16)
def decode_map(data: bytes) -> Dict[Any, Any]:
    """Returns the map of a successful response, with a cache; do not modify the result."""
    check(data[:1] == b"\0", "status 00 and a map", f"status {data[:1].hex()}" if data else "an empty message")
    try:
        item = ctap_cbor.decode_cached(data[1:])
    except ctap_cbor.CborError as fault:
        raise Mismatch("a map in CTAP2 canonical CBOR", f"{fault}: {data[1:].hex()}") from None
    check(isinstance(item, dict), "a map", item)
    check(all(isinstance(key, int) for key in item), "a map with integers as keys", item)
    return dict(item)


def get_member(item: Dict[Any, Any], key: Any, kind: type, name: str) -> Any:
    """Returns a member, which must be present and of this type."""
    check(key in item, f"{name} under the key {key!r}", item)
    check(isinstance(item[key], kind), f"{name} as {kind.__name__}", item[key])
    return item[key]


def decode_parameters(request: bytes) -> Dict[Any, Any]:
    """Returns the parameters of a request."""
    found = ctap_cbor.decode_cached(request[1:])
    return dict(found) if isinstance(found, dict) else {}


def check_auth_data(auth: bytes, rp: str, words: List[str]) -> None:
    """Checks the RP ID hash and the flags, also against the words of the expectation."""
    check(len(auth) >= 37, "authenticator data of at least 37 bytes", auth)
    expected = hashlib.sha256(rp.encode()).digest()
    if auth[:32] != expected:
        check(False, f"the SHA-256 of {rp}, {expected.hex()}", auth[:32])
    fault = find_flag_fault(auth[32], words)
    check(not fault, fault, f"flags {auth[32]:02x}")


def find_flag_fault(flags: int, words: List[str]) -> str:
    """Returns which requirement the flags of authenticator data violate, or an empty string."""
    if "up" in words and not flags & UP:
        return "flag UP set"
    if "no-up" in words and flags & UP:
        return "flag UP not set"
    if "uv" in words and not flags & UV:
        return "flag UV set"
    if "no-uv" in words and flags & UV:
        return "flag UV not set"
    if flags & RESERVED_FLAGS:
        return "reserved flags (bits 1 and 5) not set"
    return "flag BS only with BE" if flags & BS and not flags & BE else ""


def check_extensions(data: bytes, flags: int, words: List[str]) -> Dict[Any, Any]:
    """Checks the extension outputs at the end of authenticator data: a map with flag ED, nothing without it. A device
    may send outputs of extensions that were not requested (WebAuthn, 9)."""
    place = words.index("no-extension") + 1 if "no-extension" in words else 0
    if not flags & ED:
        check(not data, "no bytes after the authenticator data, since flag ED is not set", data)
        if "extension" in words:
            raise Mismatch("flag ED and an extension output", f"flags {flags:02x}")
        return {}
    try:
        found = ctap_cbor.decode(data)
    except ctap_cbor.CborError as fault:
        raise Mismatch(
            "a map of extensions in canonical CBOR, since flag ED is set", f"{fault}: {data.hex()}"
        ) from None
    check(isinstance(found, dict) and all(isinstance(key, str) for key in found), "a map of extensions", found)
    check(not place or words[place] not in found, f"no output of the extension {words[place]}", found)
    if "extension" in words:
        place = words.index("extension")
        name, expected = words[place + 1 : place + 3]
        check(name in found, f"an output of the extension {name}", found)
        check(expected == "any" or ctap_cbor.encode(found[name]).hex() == expected, f"{name}: {expected}", found)
    return dict(found)


def is_point(cose: Dict[Any, Any]) -> bool:
    """Returns whether the coordinates of a COSE key are a point on P-256. Needs no cryptography package."""
    x, y = int.from_bytes(cose[-2], "big"), int.from_bytes(cose[-3], "big")
    return x < PRIME and y < PRIME and (y * y - x * x * x + 3 * x - EQUATION_CONSTANT) % PRIME == 0


@lru_cache(maxsize=256)
def read_cose_key(data: bytes) -> Tuple[Dict[int, Any], bytes]:
    """Returns the COSE key of authenticator data, and the bytes after it, with a cache; do not modify the result."""
    try:
        reader = ctap_cbor.Reader(data)
        key = reader.read()
    except ctap_cbor.CborError as fault:
        raise Mismatch("a COSE key in canonical CBOR at the end of the authenticator data", str(fault)) from None
    check(isinstance(key, dict) and {1, 3} <= set(key), "a COSE key with kty and alg", key)
    if key[3] == -7:
        check(key[1] == 2 and key.get(-1) == 1, "an EC2 key on P-256", key)
        check(set(key) == {1, 3, -1, -2, -3}, "only the members 1, 3, -1, -2, -3", key)
        check(
            all(isinstance(key[part], bytes) and len(key[part]) == 32 for part in (-2, -3)), "x and y of 32 bytes", key
        )
        check(is_point(key), "x and y of a point on P-256", key)
    if key[3] == -8:
        check(set(key) == {1, 3, -1, -2} and key[1] == 1 and key[-1] == 6, "an OKP key on Ed25519", key)
    return dict(key), data[reader.place :]


def read_agreement_key(item: Dict[Any, Any]) -> Dict[Any, Any]:
    """Checks a device's key agreement key (6.5.6), and returns it."""
    key = get_member(item, 1, dict, "the key agreement key")
    check(key.get(1) == 2 and key.get(3) == -25 and key.get(-1) == 1, "a key of kty 2, alg -25, crv 1", key)
    check(set(key) == {1, 3, -1, -2, -3}, "only the members 1, 3, -1, -2, -3", key)
    right = all(isinstance(key[part], bytes) for part in (-2, -3))
    check(right and is_point(key), "a point on P-256", key)
    return dict(key)


def check_attestation(item: Dict[Any, Any], auth: bytes, cose: Dict[int, Any], client_hash: bytes) -> None:
    """Checks packed attestation with or without a certificate. Of another format, checks only the name."""
    statement = get_member(item, 3, dict, "the attestation statement")
    check(item[1] in FORMATS, f"one of the formats {', '.join(FORMATS)}", item[1])
    if item[1] == "none":
        check(statement == {}, "an empty statement for the format none", statement)
    if item[1] == "packed" and "x5c" in statement:
        chain = get_member(statement, "x5c", list, "the certificates")
        check(bool(chain) and all(isinstance(one, bytes) for one in chain), "at least one certificate", chain)
        alg = get_member(statement, "alg", int, "the algorithm")
        signature = get_member(statement, "sig", bytes, "the signature")
        expected = "a signature that verifies under the first certificate of x5c"
        check(keys.is_valid_for_certificate(chain[0], alg, auth + client_hash, signature), expected, signature)
    if item[1] != "packed" or "x5c" in statement:
        return
    check(
        get_member(statement, "alg", int, "the algorithm") == cose[3], f"alg {cose[3]}, as in the public key", statement
    )
    signature = get_member(statement, "sig", bytes, "the signature")
    check(
        keys.is_valid_signature(cose, auth + client_hash, signature),
        "a signature that verifies under the new key",
        signature,
    )


def check_certificate(item: Dict[Any, Any]) -> None:
    """Checks the certificate of packed attestation, if the response to a registration has one."""
    if item[1] == "packed" and "x5c" in item[3]:
        fault = find_certificate_fault(item[3]["x5c"][0], item[2][37:53])
        check(not fault, fault, item[3]["x5c"][0])


def check_credential_id(credential: bytes, length: int, user: bytes, known: Dict[bytes, Credential]) -> None:
    """Checks a new credential ID: its length, and that it cannot be guessed from others."""
    check(
        16 <= length <= 1023 and len(credential) == length,
        "a credential ID of 16 to 1023 bytes",
        quantity(length, "byte"),
    )
    check(all(credential != other.id for other in known.values()), "a new credential ID", credential)
    check(len(user) < 8 or user not in credential, "a credential ID that does not contain the user ID", credential)
    number = int.from_bytes(credential, "big")
    near = [one.id for one in known.values() if abs(int.from_bytes(one.id, "big") - number) < 2**64]
    check(
        not near or len(near[0]) != length,
        "a credential ID that differs from earlier ones by at least 2^64, as integers",
        credential,
    )


def check_algorithm(cose: Dict[int, Any], asked: Dict[Any, Any], facts: DeviceFacts) -> None:
    """Checks that the key is of the first requested algorithm that the device supports."""
    listed = [entry.get("alg") for entry in asked[4] if isinstance(entry, dict) and entry.get("type") == "public-key"]
    check(cose[3] in listed, f"a key with one of the algorithms {listed}", cose)
    served = [number for number in listed if number in facts.algorithms]
    check(not served or cose[3] == served[0], f"the first requested algorithm that getInfo lists: {served[:1]}", cose)


def check_make_credential_response(
    data: bytes, request: bytes, words: List[str], known: Dict[bytes, Credential], facts: DeviceFacts
) -> Credential:
    """Checks a response to authenticatorMakeCredential, and returns the credential."""
    item, asked = decode_map(data), decode_parameters(request)
    get_member(item, 1, str, "the attestation format")
    auth = get_member(item, 2, bytes, "the authenticator data")
    rp = asked[2]["id"]
    check_auth_data(auth, rp, words)
    check(bool(auth[32] & AT), "flag AT set", f"flags {auth[32]:02x}")
    check(len(auth) > 55, "attested credential data", auth)
    check(auth[37:53] == facts.aaguid or not facts.aaguid, "the AAGUID of authenticatorGetInfo", auth[37:53])
    length = int.from_bytes(auth[53:55], "big")
    credential = auth[55 : 55 + length]
    check_credential_id(credential, length, asked[3]["id"], known)
    cose, behind = read_cose_key(auth[55 + length :])
    outputs = check_extensions(behind, auth[32], words)
    if isinstance(outputs.get("credProtect"), int) and "credProtect" not in asked.get(6, {}):
        facts.protection = max(facts.protection, outputs["credProtect"])
    check(all(cose != other.cose for other in known.values()), "a new key pair", cose)
    check_algorithm(cose, asked, facts)
    counter = int.from_bytes(auth[33:37], "big")
    if "counter" in words:
        check(
            counter == int(words[words.index("counter") + 1]),
            "the expected signature counter",
            f"signature counter {counter}",
        )
    check_attestation(item, auth, cose, asked[1])
    discoverable = asked.get(7, {}).get("rk") is True
    return Credential(credential, cose, rp, asked[3]["id"], counter, discoverable)


def check_signature_nonce_reuse(cose: Dict[int, Any], signed: bytes, signature: bytes, facts: DeviceFacts) -> None:
    """Checks that no two ES256 signatures have the same r, which would reveal the private key."""
    if cose[3] == -7 and len(signature) > 4:
        half = signature[4 : 4 + signature[3]]
        expected = "a signature whose r was not used before"
        check(facts.halves.setdefault(half, signed) == signed, expected, signature)


def check_user_entity(item: Dict[Any, Any], words: List[str], facts: DeviceFacts) -> None:
    """Checks the user and the number of credentials."""
    if "user" in words:
        user = get_member(item, 4, dict, "the user")
        check(user.get("id") == bytes.fromhex(words[words.index("user") + 1]), "the user ID", user)
    if "no-user" in words:
        check(4 not in item, "no user", item)
    if "no-name" in words:
        check(
            not {"name", "displayName", "icon"} & set(item.get(4, {})),
            "no name, displayName or icon of the user, who was not verified",
            item,
        )
    if "name" in words:
        name = words[words.index("name") + 1]
        check(item.get(4, {}).get("name") == name, f"the user's name {name}", item)
    if "number" in words:
        expected = int(words[words.index("number") + 1])
        if item.get(5) is None and (item.get(6) is True or facts.display):
            raise CaseSkipped("the user selects the account on the device's display")
        check(item.get(5) == expected, f"numberOfCredentials {expected}", item)
    if "no-number" in words and not facts.old:
        check(5 not in item, "no numberOfCredentials", item)


def check_counter(credential: Credential, counter: int, words: List[str]) -> None:
    """Checks that the signature counter increases, and stores the new value."""
    rises = counter > credential.counter or counter == credential.counter == 0
    if "counter-rises" in words and not (rises and (counter > 0 or "strictly" not in words)):
        raise Mismatch(f"a signature counter above {credential.counter}", str(counter))
    credential.counter = max(counter, credential.counter)


def check_assertion_response(
    data: bytes,
    request: bytes,
    words: List[str],
    known: Dict[bytes, Credential],
    expected: Optional[bytes],
    facts: DeviceFacts,
) -> Credential:
    """Checks an assertion; `request` is its authenticatorGetAssertion."""
    item, asked = decode_map(data), decode_parameters(request)
    auth = get_member(item, 2, bytes, "the authenticator data")
    signature = get_member(item, 3, bytes, "the signature")
    check_auth_data(auth, asked[1], words)
    check(not auth[32] & AT, "flag AT not set", auth)
    check_extensions(auth[37:], auth[32], words)
    allowed = [entry["id"] for entry in asked.get(3, [])]
    if 1 in item:
        descriptor = get_member(item, 1, dict, "the credential")
        check(descriptor.get("type") == "public-key", 'a credential of type "public-key"', descriptor)
        identity = get_member(descriptor, "id", bytes, "the credential ID")
    else:
        check(len(allowed) == 1, "the member credential, since the allow list does not have exactly one entry", item)
        identity = allowed[0]
    found = [credential for credential in known.values() if credential.id == identity]
    check(bool(found) and found[0].rp == asked[1], "a credential registered for this RP", identity)
    check(not allowed or identity in allowed, "a credential of the allow list", identity)
    if expected is not None:
        check(identity == expected, f"the credential {expected.hex()}", identity)
    check_counter(found[0], int.from_bytes(auth[33:37], "big"), words)
    check_user_entity(item, words, facts)
    signed = auth + asked[2]
    check_signature_nonce_reuse(found[0].cose, signed, signature, facts)
    check(
        keys.is_valid_signature(found[0].cose, signed, signature),
        "a signature that verifies under the registered key",
        signature,
    )
    return found[0]


def check_info_lists(item: Dict[Any, Any]) -> None:
    """Checks the lists of getInfo: extensions, PIN protocols, transports and algorithms."""
    for key, kind, name in ((2, str, "extensions"), (6, int, "PIN protocols"), (9, str, "transports")):
        if key in item:
            listed = get_member(item, key, list, name)
            check(bool(listed) or key == 2, f"{name} as a non-empty list", listed)
            check(all(isinstance(one, kind) for one in listed), f"{name} of the type {kind.__name__}", listed)
            check(len({repr(one) for one in listed}) == len(listed), f"{name} without duplicates", listed)
    for key, name in ((7, "maxCredentialCountInList"), (8, "maxCredentialIdLength")):
        if key in item:
            check(isinstance(item[key], int) and item[key] > 0, f"{name} above 0", item[key])
    entries = item.get(10, [])
    for entry in entries:
        check(isinstance(entry, dict) and {"alg", "type"} == set(entry), "algorithms with alg and type", entry)
        check(
            isinstance(entry["alg"], int) and entry["type"] == "public-key",
            'an integer alg and type "public-key"',
            entry,
        )
    check(len({entry["alg"] for entry in entries}) == len(entries), "algorithms without duplicates", entries)


def check_get_info_response(data: bytes) -> Dict[Any, Any]:
    """Checks a response to authenticatorGetInfo."""
    item = decode_map(data)
    versions = get_member(item, 1, list, "the versions")
    check(all(isinstance(name, str) for name in versions), "versions as text strings", versions)
    check(any(name.startswith("FIDO_2") for name in versions), "a version FIDO_2_..", versions)
    check(len(get_member(item, 3, bytes, "the AAGUID")) == 16, "an AAGUID of 16 bytes", item[3])
    options = item.get(4, {})
    check(isinstance(options, dict), "options as a map", options)
    check(all(isinstance(key, str) for key in options), "options with text strings as keys", options)
    check(all(isinstance(value, bool) for value in options.values()), "options that are true or false", options)
    check(item.get(5, 1024) >= 1024, "a maxMsgSize of at least 1024", item)
    check_info_lists(item)
    if "clientPin" in options and "FIDO_2_1" in versions:
        check(6 in item, "PIN protocols, since a PIN is supported", item)
    if "FIDO_2_1" in versions:
        check(bool(item.get(10, True)), "at least one algorithm", item)
    return item
