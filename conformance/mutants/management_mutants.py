"""Faults of the reference authenticator: credential management, built-in user verification, and large blobs."""

from __future__ import annotations

from typing import Any, Dict, List

from mutant import Mutant, change_result, wrap_method, replace_method, change_member
from hidlog_conformance.reference.large_blobs import EMPTY_ARRAY
from hidlog_conformance.reference.traits import DeviceTraits

MANAGE, BLOBS, KEY, PIN, MAKE, GET, RESET = "6.8", "6.10", "12.3", "6.5", "6.1.2", "6.2.2", "6.6"
FINGERPRINT = DeviceTraits(built_in_uv=True)


def permit_any_token(key: Any, old: Any, asked: Dict[int, Any]) -> None:
    """Accepts any token for credential management."""
    key.pin.permissions |= 4
    old(asked)


def permit_without_token(key: Any, old: Any, asked: Dict[int, Any]) -> None:
    """Accepts credential management without a token."""
    if 4 in asked:
        old(asked)


def repeat_first_credential(key: Any, old: Any) -> Any:
    """Returns the same credential at each step of an enumeration."""
    left = list(key.management.left)
    found = old()
    key.management.left = left[:1] + left[2:]
    return found


def repeat_first_rp(key: Any, old: Any) -> Any:
    """Returns the same RP at each step of an enumeration."""
    left = list(key.management.rps)
    found = old()
    key.management.rps = left[:1] + left[2:]
    return found


def change_user_id(key: Any, old: Any, asked: Dict[int, Any]) -> Any:
    """Also changes the user ID in an update."""
    one = key.management.get_credential(asked)
    one.user = dict(asked[3])
    return {}


def list_all_rps(key: Any, old: Any, asked: Dict[int, Any]) -> Any:
    """Lists the credentials of all RPs."""
    key.management.left = key.management.list_stored()
    return {**key.management.next_of_rp(), 9: len(key.management.left) + 1}


def permit_write_with_any_token(key: Any, old: Any, asked: Dict[int, Any]) -> None:
    """Accepts any token for writing large blobs."""
    key.pin.permissions |= 16
    old(asked)


def keep_array_at_reset(key: Any, old: Any) -> None:
    """Keeps the large-blob array at a reset."""
    array = key.large_blobs.stored
    old()
    key.large_blobs.stored = array


def apply_fragment_at_once(key: Any, old: Any, asked: Dict[int, Any]) -> Any:
    """Replaces the array at the first fragment instead of the last."""
    answer = old(asked)
    key.large_blobs.stored = key.large_blobs.coming or key.large_blobs.stored
    return answer


def accept_any_order(key: Any, old: Any, asked: Dict[int, Any]) -> Any:
    """Accepts fragments in any order."""
    key.large_blobs.coming = key.large_blobs.coming[: asked[3]].ljust(asked[3], b"\0")
    return old(asked)


def accept_any_length(key: Any, old: Any, asked: Dict[int, Any]) -> None:
    """Accepts any length of a new array, or none."""
    if not asked[3]:
        key.large_blobs.coming, key.large_blobs.expected = b"", asked.get(4, len(asked[2]))


def clear_verified(key: Any, old: Any, asked: Any, *words: Any) -> None:
    """Verifies the user, but does not set flag UV."""
    old(asked, *words)
    asked.verified = False


def grant_without_user(key: Any, old: Any, asked: Dict[int, Any]) -> Any:
    """Returns a token without user verification."""
    protocol = key.pin.protocol(asked, 1)
    return key.pin.grant(protocol, protocol.compute_secret(asked[3]), asked[9], asked.get(10, ""))
    yield


def grant_every_permission(key: Any, old: Any, asked: Dict[int, Any]) -> Any:
    """Returns a token with all permissions, for every RP."""
    answer = yield from old(asked)
    key.pin.permissions, key.pin.rp = 0xFF, ""
    return answer


def restore_user_retries(key: Any, old: Any, reply: str) -> None:
    """Never decrements the user verification retries."""
    try:
        old(reply)
    finally:
        key.pin.user_retries = 5


def remove_key(found: Dict[Any, Any], key: Any) -> Dict[Any, Any]:
    """Returns a map without a member."""
    return {name: value for name, value in found.items() if name != key}


def change_management_member(path: str, key: Any, value: Any) -> Any:
    """Returns a change of a member in the response of an authenticatorCredentialManagement subcommand."""
    return change_member(f"management.{path}", key, value)


MANAGEMENT_MUTANTS: List[Mutant] = [
    Mutant(
        "manage_counts_all",
        MANAGE,
        "Non-discoverable credentials are counted.",
        change_management_member("metadata", 1, 6),
    ),
    Mutant(
        "manage_no_rest",
        MANAGE,
        "maxPossibleRemainingResidentCredentialsCount is missing.",
        change_management_member("metadata", 2, None),
    ),
    Mutant(
        "manage_permits_all",
        MANAGE,
        "Credential management accepts tokens without the permission.",
        wrap_method("management.authorize", permit_any_token),
    ),
    Mutant(
        "manage_without_token",
        MANAGE,
        "Credential management needs no token.",
        wrap_method("management.authorize", permit_without_token),
    ),
    Mutant(
        "manage_not_verified",
        MANAGE,
        "Credential management does not verify pinUvAuthParam.",
        replace_method("pin.is_authentic", lambda key, *words: True),
    ),
    Mutant(
        "manage_of_every_rp",
        MANAGE,
        "A token for one RP can manage all RPs.",
        replace_method("management.is_permitted", lambda key, *words: True),
    ),
    Mutant("manage_rp_twice", MANAGE, "An RP is listed twice.", wrap_method("management.next_rp", repeat_first_rp)),
    Mutant(
        "manage_twice",
        MANAGE,
        "A credential is listed twice.",
        wrap_method("management.next_of_rp", repeat_first_credential),
    ),
    Mutant(
        "manage_rp_hash",
        MANAGE,
        "The RP ID hash in the list of RPs is wrong.",
        change_management_member("next_rp", 4, bytes(32)),
    ),
    Mutant(
        "manage_rp_name",
        MANAGE,
        "The RP ID in the list of RPs is wrong.",
        change_management_member("next_rp", 3, {"id": "other.example"}),
    ),
    Mutant(
        "manage_rps_total",
        MANAGE,
        "totalRPs is too low by one.",
        change_management_member("first_rp", 5, lambda total: total - 1),
    ),
    Mutant("manage_rps_no_total", MANAGE, "totalRPs is missing.", change_management_member("first_rp", 5, None)),
    Mutant(
        "manage_total",
        MANAGE,
        "totalCredentials is too low by one.",
        change_management_member("first_of_rp", 9, lambda item: item - 1),
    ),
    Mutant(
        "manage_all_rps",
        MANAGE,
        "The credentials of all RPs are listed.",
        wrap_method("management.first_of_rp", list_all_rps),
    ),
    Mutant(
        "manage_no_user",
        MANAGE,
        "The list of credentials has no users.",
        change_management_member("next_of_rp", 6, {"id": b"nobody"}),
    ),
    Mutant(
        "manage_other_key",
        MANAGE,
        "The list of credentials has another public key.",
        change_management_member("next_of_rp", 8, {1: 2, 3: -7}),
    ),
    Mutant(
        "manage_no_protection",
        MANAGE,
        "The list of credentials always has credProtect 1.",
        change_management_member("next_of_rp", 10, 1),
    ),
    Mutant(
        "manage_no_blob_key",
        MANAGE,
        "The list of credentials has no large blob keys.",
        change_management_member("next_of_rp", 11, None),
    ),
    Mutant(
        "manage_empty_list",
        MANAGE,
        "Without credentials the list is empty instead of an error.",
        replace_method("management.first_rp", lambda key, item: {}),
    ),
    Mutant(
        "manage_no_next",
        MANAGE,
        "An enumeration continues after its last entry.",
        replace_method("management.next_rp", lambda key: {3: {}}),
    ),
    Mutant(
        "delete_nothing",
        MANAGE,
        "deleteCredential has no effect.",
        replace_method("management.delete", lambda key, asked: {}),
    ),
    Mutant(
        "update_nothing",
        MANAGE,
        "updateUserInformation has no effect.",
        replace_method("management.update", lambda key, asked: {}),
    ),
    Mutant(
        "update_id",
        MANAGE,
        "updateUserInformation changes the user ID, too.",
        wrap_method("management.update", change_user_id),
    ),
]
USER_MUTANTS: List[Mutant] = [
    Mutant(
        "user_without_uv",
        MAKE,
        "Flag UV is not set after built-in user verification.",
        wrap_method("verify", clear_verified),
        FINGERPRINT,
    ),
    Mutant(
        "user_not_needed",
        MAKE,
        "Registrations need no user verification.",
        replace_method("require_make_verification", lambda key, item: None),
        FINGERPRINT,
    ),
    Mutant(
        "user_hides_all",
        GET,
        "credProtect hides credentials despite user verification.",
        replace_method("is_visible", lambda key, asked, one, listed: one.protection < 2),
        FINGERPRINT,
    ),
    Mutant(
        "user_token_at_once",
        PIN,
        "A token is issued without user verification.",
        wrap_method("pin.user_token", grant_without_user),
        FINGERPRINT,
    ),
    Mutant(
        "user_token_of_all",
        MAKE,
        "A token by user verification has all permissions.",
        wrap_method("pin.user_token", grant_every_permission),
        FINGERPRINT,
    ),
    Mutant(
        "user_retries_stay",
        PIN,
        "A failed user verification does not decrement the retries.",
        wrap_method("pin.take_user_reply", restore_user_retries),
        FINGERPRINT,
    ),
    Mutant(
        "user_no_retries",
        PIN,
        "The user verification retries are 0.",
        change_member("pin.get_user_retries", 5, 0),
        FINGERPRINT,
    ),
    Mutant(
        "user_permits_nothing",
        PIN,
        "A token without permissions is issued.",
        replace_method("pin.check_permissions", lambda key, asked: None),
        FINGERPRINT,
    ),
]
ARRAY_MUTANTS: List[Mutant] = [
    Mutant(
        "blobs_begin_with_nothing",
        BLOBS,
        "The initial large-blob array is empty.",
        change_result("large_blobs.piece", lambda key, item, *a: item.replace(EMPTY_ARRAY, b"")),
    ),
    Mutant(
        "blobs_whole",
        BLOBS,
        "A read returns the whole array.",
        replace_method("large_blobs.piece", lambda key, *a: key.large_blobs.stored),
    ),
    Mutant(
        "blobs_no_offset",
        BLOBS,
        "The offset of a read is ignored.",
        replace_method("large_blobs.piece", lambda key, offset, count: key.large_blobs.stored[:count]),
    ),
    Mutant(
        "blobs_behind",
        BLOBS,
        "A read after the end of the array returns an empty fragment.",
        replace_method("large_blobs.piece", lambda key, offset, count: key.large_blobs.stored[offset : offset + count]),
    ),
    Mutant(
        "blobs_any_hash",
        BLOBS,
        "The hash of a new array is not checked.",
        replace_method("large_blobs.is_whole", lambda key, array: True),
    ),
    Mutant(
        "blobs_at_once",
        BLOBS,
        "The first fragment replaces the array.",
        wrap_method("large_blobs.write", apply_fragment_at_once),
    ),
    Mutant(
        "blobs_any_order",
        BLOBS,
        "Fragments are accepted in any order.",
        wrap_method("large_blobs.write", accept_any_order),
    ),
    Mutant(
        "blobs_any_length",
        BLOBS,
        "The length of a new array is not checked.",
        wrap_method("large_blobs.begin", accept_any_length),
    ),
    Mutant(
        "blobs_any_size",
        BLOBS,
        "The length of a fragment is not checked.",
        replace_method("large_blobs.max_fragment_length", lambda key: 2**31),
    ),
    Mutant(
        "blobs_without_token",
        BLOBS,
        "Writes need no token.",
        replace_method("large_blobs.authorize", lambda key, asked: None),
    ),
    Mutant(
        "blobs_permit_all",
        BLOBS,
        "Writes accept tokens without the permission.",
        wrap_method("large_blobs.authorize", permit_write_with_any_token),
    ),
    Mutant(
        "blobs_not_verified",
        BLOBS,
        "Writes do not verify pinUvAuthParam.",
        replace_method("pin.is_authentic", lambda key, *words: True),
    ),
    Mutant(
        "blobs_lost", BLOBS, "Written arrays are not stored.", replace_method("large_blobs.commit", lambda key: None)
    ),
    Mutant(
        "blobs_outlast_reset",
        RESET,
        "The large-blob array survives a reset.",
        wrap_method("forget", keep_array_at_reset),
    ),
    Mutant(
        "blobs_outlast_power",
        BLOBS,
        "The first fragments of a new array survive a power cycle.",
        replace_method("power_cycle", lambda key: key.transport.channels.clear()),
    ),
    Mutant(
        "blob_key_of_all",
        KEY,
        "All credentials have the same large blob key.",
        replace_method("extensions.new_blob_key", lambda key: bytes(32)),
    ),
    Mutant(
        "blob_key_short",
        KEY,
        "A large blob key has 16 bytes.",
        change_result("extensions.new_blob_key", lambda key, item: item[:16]),
    ),
    Mutant(
        "blob_key_changes",
        KEY,
        "The large blob key of a credential changes.",
        change_result("extensions.blob_key_of", lambda key, item, asked, one: item and one.sign(b"x")[-32:]),
    ),
    Mutant(
        "blob_key_unrequested",
        KEY,
        "A large blob key is returned without a request.",
        change_result("assertion", lambda key, item, *a: {**item, 7: bytes(32)}),
    ),
    Mutant(
        "blob_key_not_said",
        KEY,
        "The response to a registration has no large blob key.",
        change_result("attestation", lambda key, item, *a: remove_key(item, 5)),
    ),
    Mutant(
        "blob_key_any",
        KEY,
        "largeBlobKey is accepted with any value, for any credential.",
        replace_method("extensions.check_blob_key_input", lambda key, *words: None),
    ),
]
MORE_MUTANTS = MANAGEMENT_MUTANTS + USER_MUTANTS + ARRAY_MUTANTS
