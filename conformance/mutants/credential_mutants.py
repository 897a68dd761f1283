"""Faults of the reference authenticator: keys, IDs, attestation, flags, and stored credentials."""

from __future__ import annotations

import hashlib
import secrets
from typing import Any, Dict, List

from cryptography.hazmat.primitives.asymmetric import ec, utils
from mutant import Mutant, change_result, wrap_method, combine, replace_method, change_member
from hidlog_conformance.ctap_cbor import encode
from hidlog_conformance.reference.credential import new_key
from hidlog_conformance.reference.pin import RequestError
from hidlog_conformance.reference.traits import EDDSA, ES256, DeviceTraits

MAKE, GET, NEXT, RESET = "6.1.2", "6.2.2", "6.3", "6.6"
GROUP_ORDER = 0xFFFFFFFF00000000FFFFFFFFFFFFFFFFBCE6FAADA7179E84F3B9CAC2FC632551
NONCE = 0x1234567890ABCDEF
X5C = DeviceTraits(format="x5c")
SHARED_KEYS = {number: new_key(number) for number in (ES256, EDDSA)}


def sign_with_same_nonce(key: Any, one: Any, data: bytes) -> bytes:
    """Signs with ES256 and the same nonce each time."""
    if one.algorithm != ES256:
        return bytes(one.sign(data))
    x = ec.derive_private_key(NONCE, ec.SECP256R1()).public_key().public_numbers().x % GROUP_ORDER
    secret = one.private.private_numbers().private_value
    z = int.from_bytes(hashlib.sha256(data).digest(), "big")
    return bytes(utils.encode_dss_signature(x, pow(NONCE, -1, GROUP_ORDER) * (z + x * secret) % GROUP_ORDER))


def change_statement(change: Any) -> Any:
    """Returns a change of the attestation statement."""
    return change_member("attestation", 3, lambda found: change(dict(found)))


def remove_statement_member(name: str) -> Any:
    """Returns a change that removes a member of the statement."""
    return change_statement(lambda found: {key: value for key, value in found.items() if key != name})


def set_statement_member(name: str, value: Any) -> Any:
    """Returns a change that adds a member to the statement."""
    return change_statement(lambda found: {**found, name: value})


def compare_allow_list_ids(same: Any) -> Any:
    """Returns a change that compares credential IDs of allow lists by a function."""

    def named(key: Any, listed: List[Dict[str, Any]], one: Any) -> bool:
        return any(entry["type"] == "public-key" and same(entry["id"], one.id) for entry in listed)

    return replace_method("is_listed", named)


def compare_exclude_list(same: Any) -> Any:
    """Returns a change that compares exclude lists by a function of the entry, the credential and the RP of the
    request."""

    def excluded(key: Any, asked: Any) -> bool:
        rp, listed = asked.item[2]["id"], asked.item.get(5, [])
        return any(same(entry, one, rp) for entry in listed for one in key.credentials)

    return replace_method("is_excluded", excluded)


def is_excluded_entry(entry: Dict[str, Any], one: Any, rp: str) -> bool:
    """Returns whether an entry excludes the RP's registration, by the standard."""
    return bool(entry["type"] == "public-key" and entry["id"] == one.id and one.rp == rp)


def make_sequential_id(key: Any, rp: str, user: Any) -> bytes:
    """Returns consecutive credential IDs."""
    key.ids = getattr(key, "ids", 0x1000) + 1
    return (key.ids << 8).to_bytes(32, "big")


def change_flags(change: Any) -> Any:
    """Returns a change of flags."""
    return change_result("flags", lambda key, found, asked: change(found))


def overwrite_oldest(key: Any, old: Any, new: Any) -> None:
    """Overwrites the oldest credential if the device is full."""
    if len(key.credentials) >= key.traits.capacity:
        key.credentials.pop(0)
    old(new)


def drop_when_full(key: Any, old: Any, new: Any) -> None:
    """Drops a new credential if the device is full."""
    if len(key.credentials) < key.traits.capacity:
        old(new)


def accept_list_without_public_key(key: Any, old: Any, asked: Any) -> Any:
    """Treats an allow list without the type public-key as no list."""
    listed = asked.item.get(3, [])
    if listed and not any(entry["type"] == "public-key" for entry in listed):
        return [one for one in key.list_of_rp(asked.item[1]) if one.discoverable]
    return old(asked)


def check_first_entry_only(key: Any, asked: Any) -> bool:
    """Checks only the first entry of an exclude list."""
    rp, listed = asked.item[2]["id"], asked.item.get(5, [])[:1]
    return any(is_excluded_entry(entry, one, rp) for entry in listed for one in key.credentials)


def use_last_algorithm(key: Any, listed: Any) -> int:
    """Uses the last supported algorithm instead of the first."""
    found = [
        entry["alg"] for entry in listed if entry["type"] == "public-key" and entry["alg"] in key.traits.algorithms
    ]
    if not found:
        raise RequestError(0x26)
    return int(found[-1])


def ignore_algorithm_type(key: Any, listed: Any) -> int:
    """Ignores the type of an algorithm."""
    found = [entry["alg"] for entry in listed if entry["alg"] in key.traits.algorithms]
    if not found:
        raise RequestError(0x26)
    return int(found[0])


def never_use_eddsa(key: Any, old: Any, listed: Any) -> int:
    """Never uses EdDSA, although getInfo names it."""
    return int(old([entry for entry in listed if entry["alg"] != EDDSA]))


CREDENTIAL_MUTANTS: List[Mutant] = [
    Mutant(
        "same_key",
        MAKE,
        "All credentials have the same key pair.",
        replace_method("new_private", lambda key, a: SHARED_KEYS[a]),
    ),
    Mutant(
        "same_nonce", GET, "Two ECDSA signatures have the same nonce.", replace_method("sign", sign_with_same_nonce)
    ),
    Mutant(
        "x5c_wrong_signature",
        MAKE,
        "The attestation signature covers other data.",
        set_statement_member("sig", bytes(70)),
        X5C,
    ),
    Mutant("x5c_other_key", MAKE, "The certificate has another public key.", set_statement_member("x5c", [b"0"]), X5C),
    Mutant("x5c_empty", MAKE, "x5c is empty.", set_statement_member("x5c", []), X5C),
    Mutant("x5c_text", MAKE, "x5c is not an array.", set_statement_member("x5c", b"0"), X5C),
    Mutant("x5c_without_alg", MAKE, "The statement with x5c has no alg.", remove_statement_member("alg"), X5C),
    Mutant("x5c_without_sig", MAKE, "The statement with x5c has no sig.", remove_statement_member("sig"), X5C),
    Mutant("x5c_wrong_alg", MAKE, "The statement with x5c has another alg.", set_statement_member("alg", -257), X5C),
    Mutant("self_without_alg", MAKE, "The statement of self attestation has no alg.", remove_statement_member("alg")),
    Mutant("self_without_sig", MAKE, "The statement of self attestation has no sig.", remove_statement_member("sig")),
    Mutant(
        "self_wrong_alg", MAKE, "The statement of self attestation has another alg.", set_statement_member("alg", -257)
    ),
    Mutant(
        "format_unknown", MAKE, "The attestation format is not registered.", change_member("attestation", 1, "packaged")
    ),
    Mutant("format_number", MAKE, "The format is a number.", change_member("attestation", 1, 1)),
    Mutant(
        "none_with_statement",
        MAKE,
        "The attestation statement of the format none is not empty.",
        change_member("attestation", 1, "none"),
    ),
    Mutant(
        "statement_missing_whole", MAKE, "The attestation statement is missing.", change_member("attestation", 3, None)
    ),
    Mutant("data_missing", MAKE, "The authenticator data is missing.", change_member("attestation", 2, None)),
    Mutant(
        "data_longer", MAKE, "A byte follows the COSE key.", change_member("attestation", 2, lambda data: data + b"\0")
    ),
    Mutant("data_cut", MAKE, "The COSE key is truncated.", change_member("attestation", 2, lambda data: data[:-1])),
    Mutant(
        "eddsa_not_served",
        MAKE,
        "getInfo has EdDSA, but it is not supported.",
        wrap_method("algorithm", never_use_eddsa),
    ),
    Mutant(
        "last_algorithm",
        MAKE,
        "The last supported algorithm of the list is used.",
        replace_method("algorithm", use_last_algorithm),
    ),
    Mutant(
        "algorithm_of_any_type",
        MAKE,
        "The type of an algorithm is ignored.",
        replace_method("algorithm", ignore_algorithm_type),
    ),
    Mutant(
        "no_algorithm_taken",
        MAKE,
        "ES256 is used whatever the request lists.",
        replace_method("algorithm", lambda key, a: -7),
    ),
    Mutant(
        "aaguid_differs",
        MAKE,
        "The AAGUID differs from that of getInfo.",
        change_result("attested_data", lambda key, data, new: bytes(16) + data[16:]),
    ),
    Mutant("flag_reserved_1", MAKE, "Bit 1 of the flags is set.", change_flags(lambda found: found | 0x02)),
    Mutant("flag_reserved_5", MAKE, "Bit 5 of the flags is set.", change_flags(lambda found: found | 0x20)),
    Mutant("bs_without_be", MAKE, "Flag BS is set without BE.", change_flags(lambda found: found | 0x10)),
    Mutant(
        "uv_set_always", MAKE, "Flag UV is set without user verification.", change_flags(lambda found: found | 0x04)
    ),
    Mutant("up_set_never", MAKE, "Flag UP is never set.", change_flags(lambda found: found & 0xFE)),
    Mutant(
        "id_by_beginning",
        GET,
        "Only the first 16 bytes of credential IDs are compared.",
        compare_allow_list_ids(lambda a, b: a[:16] == b[:16]),
    ),
    Mutant(
        "id_with_more",
        GET,
        "A credential ID with additional bytes is accepted.",
        compare_allow_list_ids(lambda a, b: a.startswith(b)),
    ),
    Mutant(
        "id_cut_taken",
        GET,
        "A truncated credential ID is accepted.",
        compare_allow_list_ids(lambda a, b: len(a) > 8 and b.startswith(a)),
    ),
    Mutant(
        "id_last_byte",
        GET,
        "The last byte of credential IDs is not compared.",
        compare_allow_list_ids(lambda a, b: a[:-1] == b[:-1]),
    ),
    Mutant(
        "list_of_any_type",
        GET,
        "The type of a descriptor is ignored.",
        replace_method("is_listed", lambda key, listed, one: any(entry["id"] == one.id for entry in listed)),
    ),
    Mutant(
        "list_first_only",
        GET,
        "Only the first entry of an allow list is used.",
        replace_method(
            "is_listed", lambda key, listed, one: listed[0]["type"] == "public-key" and listed[0]["id"] == one.id
        ),
    ),
    Mutant(
        "other_types_as_none",
        GET,
        "An allow list without the type public-key is treated as missing.",
        wrap_method("list_applicable", accept_list_without_public_key),
    ),
    Mutant(
        "ids_in_a_row", MAKE, "Credential IDs are consecutive numbers.", replace_method("new_id", make_sequential_id)
    ),
    Mutant(
        "id_repeated",
        MAKE,
        "All credentials have the same ID.",
        replace_method("new_id", lambda key, rp, user: b"\7" * 32),
    ),
    Mutant(
        "id_of_user",
        MAKE,
        "The credential ID contains the user ID.",
        replace_method("new_id", lambda key, rp, user: (user["id"] + secrets.token_bytes(24))[:96]),
    ),
    Mutant(
        "id_short",
        MAKE,
        "Credential IDs have 8 bytes.",
        replace_method("new_id", lambda key, rp, user: secrets.token_bytes(8)),
    ),
    Mutant(
        "id_too_long",
        MAKE,
        "Credential IDs have 1024 bytes.",
        replace_method("new_id", lambda key, rp, user: secrets.token_bytes(1024)),
    ),
    Mutant(
        "exclude_by_beginning",
        MAKE,
        "Exclude lists compare only the first 16 bytes of IDs.",
        compare_exclude_list(lambda entry, one, rp: entry["id"][:16] == one.id[:16] and one.rp == rp),
    ),
    Mutant(
        "exclude_with_more",
        MAKE,
        "Exclude lists accept an ID with additional bytes.",
        compare_exclude_list(lambda entry, one, rp: entry["id"].startswith(one.id) and one.rp == rp),
    ),
    Mutant(
        "exclude_cut",
        MAKE,
        "Exclude lists accept a truncated ID.",
        compare_exclude_list(
            lambda entry, one, rp: len(entry["id"]) > 8 and one.id.startswith(entry["id"]) and one.rp == rp
        ),
    ),
    Mutant(
        "exclude_of_any_rp",
        MAKE,
        "Exclude lists find credentials of other RPs.",
        compare_exclude_list(lambda entry, one, rp: is_excluded_entry(entry, one, one.rp)),
    ),
    Mutant(
        "exclude_of_any_type",
        MAKE,
        "Exclude lists find entries of another type.",
        compare_exclude_list(lambda entry, one, rp: entry["id"] == one.id and one.rp == rp),
    ),
    Mutant(
        "exclude_first_only",
        MAKE,
        "Only the first entry of an exclude list is used.",
        replace_method("is_excluded", check_first_entry_only),
    ),
    Mutant(
        "exclude_never", MAKE, "The exclude list is ignored.", replace_method("is_excluded", lambda key, asked: False)
    ),
    Mutant(
        "full_overwrites",
        GET,
        "A full device overwrites the oldest credential.",
        wrap_method("store", overwrite_oldest),
        DeviceTraits(capacity=20),
    ),
    Mutant(
        "full_forgets",
        GET,
        "A full device does not store the new credential.",
        wrap_method("store", drop_when_full),
        DeviceTraits(capacity=20),
    ),
    Mutant(
        "replaces_never",
        GET,
        "A new discoverable credential does not replace that of the same user.",
        replace_method("replaces", lambda key, new, old: False),
    ),
    Mutant(
        "replaces_hidden",
        GET,
        "A discoverable credential replaces a non-discoverable one.",
        replace_method(
            "replaces", lambda key, new, old: new.discoverable and new.rp == old.rp and new.user["id"] == old.user["id"]
        ),
    ),
    Mutant(
        "replaced_by_hidden",
        GET,
        "A non-discoverable credential replaces a discoverable one.",
        replace_method(
            "replaces", lambda key, new, old: new.rp == old.rp and new.user["id"] == old.user["id"] and old.discoverable
        ),
    ),
    Mutant(
        "replaces_of_any_rp",
        GET,
        "A credential replaces that of the same user ID at another RP.",
        replace_method(
            "replaces", lambda key, new, old: new.discoverable and old.discoverable and new.user["id"] == old.user["id"]
        ),
    ),
    Mutant(
        "replaces_of_any_user",
        GET,
        "A credential replaces that of another user of the RP.",
        replace_method("replaces", lambda key, new, old: new.discoverable and old.discoverable and new.rp == old.rp),
    ),
    Mutant(
        "key_with_more",
        MAKE,
        "The COSE key has an additional member.",
        change_result(
            "attested_data", lambda key, data, new: data[: 18 + len(new.id)] + encode({**new.cose(), 2: b"x"})
        ),
    ),
    Mutant(
        "key_off_curve",
        MAKE,
        "The public key is not on the curve.",
        change_result(
            "attested_data", lambda key, data, new: data[: 18 + len(new.id)] + encode({**new.cose(), -2: bytes(32)})
        ),
    ),
    Mutant(
        "key_other_alg",
        MAKE,
        "The COSE key has another alg.",
        change_result(
            "attested_data", lambda key, data, new: data[: 18 + len(new.id)] + encode({**new.cose(), 3: -35})
        ),
    ),
    Mutant(
        "id_length_wrong",
        MAKE,
        "credentialIdLength is too great by one.",
        change_result(
            "attested_data", lambda key, data, new: data[:16] + (len(new.id) + 1).to_bytes(2, "big") + data[18:]
        ),
    ),
    Mutant(
        "reset_keeps_discoverable",
        RESET,
        "A reset keeps discoverable credentials.",
        replace_method(
            "forget", lambda key: setattr(key, "credentials", [one for one in key.credentials if one.discoverable])
        ),
    ),
    Mutant(
        "reset_keeps_hidden",
        RESET,
        "A reset keeps non-discoverable credentials.",
        replace_method(
            "forget", lambda key: setattr(key, "credentials", [one for one in key.credentials if not one.discoverable])
        ),
    ),
    Mutant("reset_of_nothing", RESET, "A reset deletes nothing.", replace_method("forget", lambda key: None)),
    Mutant(
        "reset_keeps_pending",
        NEXT,
        "Pending assertions survive a reset.",
        combine(
            replace_method("forget", lambda key: setattr(key, "credentials", [])),
            wrap_method(
                "transport.serve", lambda key, old, at, channel, data: keep_pending(key, old, at, channel, data, 7)
            ),
        ),
    ),
    Mutant(
        "failed_keeps_pending",
        NEXT,
        "Pending assertions survive a failed sign-in.",
        wrap_method(
            "transport.serve", lambda key, old, at, channel, data: keep_pending(key, old, at, channel, data, 2)
        ),
    ),
    Mutant(
        "make_keeps_pending",
        NEXT,
        "Pending assertions survive a registration.",
        wrap_method(
            "transport.serve", lambda key, old, at, channel, data: keep_pending(key, old, at, channel, data, 1)
        ),
        DeviceTraits(),
        "a SHOULD: it warns",
    ),
]


def keep_pending(key: Any, old: Any, at: int, channel: int, data: bytes, command: int) -> Any:
    """Keeps pending assertions after a command."""
    before = key.pending
    answer = yield from old(at, channel, data)
    if data[0] == command and key.pending is None:
        key.pending = before
    return answer
