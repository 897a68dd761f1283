"""Faults of stored credentials, keys and signatures that depend on earlier requests; walks find them."""

from __future__ import annotations

import hashlib
from typing import Any, Dict, List

from hidlog_conformance.reference.requests import Pending
from hidlog_conformance.reference.authenticator import Authenticator
from hidlog_conformance.reference.credential import new_key
from hidlog_conformance.reference.transport import Transport

from mutant import Mutant, combine, replace_method
from pin_state_mutants import change_reset, count
from state_mutants import EITHER, GET, MAKE, NEXT, PIN, SIGN_INS, change_power_cycle

RESET = "6.6"


# Stored credentials.


def store_in_ring(key: Any, new: Any) -> None:
    """Stores a credential; a sixth replaces the oldest."""
    Authenticator.store(key, new)
    key.credentials = key.credentials[-5:]


def move_newest(key: Any, before: Any, pin: Any) -> None:
    """Gives the newest credential the RP of the one before."""
    if len(key.credentials) > 1:
        key.credentials[-1].rp = key.credentials[-2].rp


def reverse_credentials(key: Any, before: Any, pin: Any) -> None:
    """Reverses the order of the credentials."""
    key.credentials = key.credentials[::-1]


def store_beside(key: Any, new: Any) -> None:
    """Stores a credential; the next power cycle restores the one that it replaces."""
    replaced = [one for one in key.credentials if key.replaces(new, one)]
    key.__dict__.setdefault("replaced", []).extend(replaced)
    Authenticator.store(key, new)


def bring_back(key: Any, before: Any, pin: Any) -> None:
    """Restores replaced credentials."""
    key.credentials = key.__dict__.pop("replaced", []) + key.credentials


def keep_first_user(key: Any, new: Any) -> None:
    """Stores a credential with the user of the first one of this RP."""
    users = key.__dict__.setdefault("users", {})
    new.user = users.setdefault(new.rp, new.user)
    Authenticator.store(key, new)


def find_used_ones(key: Any, rp: str) -> List[Any]:
    """Returns the credentials of an RP, and all credentials that have signed before."""
    used = key.__dict__.setdefault("used_ones", set())
    return [one for one in key.credentials if one.rp == rp or one.id in used][::-1]


def note_used(key: Any, one: Any, data: bytes) -> bytes:
    """Signs, and notes that the credential was used."""
    key.__dict__.setdefault("used_ones", set()).add(one.id)
    return bytes(one.sign(data))


def keep_number(key: Any, asked: Any, found: Any) -> Any:
    """Signs in; numberOfCredentials is the maximum so far."""
    answer = Authenticator.sign_first(key, asked, found)
    if 5 in answer:
        key.most = answer[5] = max(answer[5], getattr(key, "most", 0))
    return answer


def start_over(key: Any, at: int, channel: int) -> Any:
    """Returns further assertions; after the last one it returns the first one again."""
    pending = key.pending
    if pending is not None and pending.left:
        key.again = [*getattr(key, "again", []), pending.left[0]]
    elif pending is not None and getattr(key, "again", []):
        key.pending = Pending(pending.asked, key.again, pending.at)
        key.again = []
    return Authenticator.next(key, at, channel)


def exclude_any_rp(key: Any, asked: Any) -> bool:
    """Excludes credentials of all RPs after the tenth registration."""
    if count(key, "excludes") < 10:
        return bool(Authenticator.is_excluded(key, asked))
    named = [entry["id"] for entry in asked.item.get(5, [])]
    return any(one.id in named for one in key.credentials)


# Keys, IDs, counters and signatures.


def lower_others(key: Any, one: Any) -> int:
    """Increments a counter, and decrements those of other RPs."""
    for other in key.credentials:
        if other.rp != one.rp:
            other.counter = 0
    return int(Authenticator.increment_counter(key, one))


def skip_each_fifth(key: Any, one: Any) -> int:
    """Increments a counter, except at every fifth sign-in."""
    if count(key, "sign-ins") % 5 == 0 and one.counter:
        return int(one.counter)
    return int(Authenticator.increment_counter(key, one))


def restart_at_registration(key: Any, new: Any) -> int:
    """Resets all counters of an RP at a registration."""
    for one in key.credentials:
        if one.rp == new.rp:
            one.counter = 0
    return int(Authenticator.start_counter(key, new))


def make_from_pool(key: Any, algorithm: int) -> Any:
    """Returns one of six private keys in turn."""
    pool = key.__dict__.setdefault("pairs", {}).setdefault(algorithm, [new_key(algorithm) for _ in range(6)])
    return pool[count(key, "pair") % len(pool)]


def make_same_for_user(key: Any, rp: str, user: Dict[str, Any]) -> bytes:
    """Derives the credential ID from the RP and the user, so that it repeats."""
    return hashlib.sha256(rp.encode() + user["id"]).digest()


def sign_previous(key: Any, one: Any, data: bytes) -> bytes:
    """Signs; every fifth time it signs the data of the last signature again."""
    before = getattr(key, "signed", data)
    key.signed = data
    return bytes(one.sign(before if count(key, "signatures") % 5 == 0 else data))


def sign_with_first(key: Any, one: Any, data: bytes) -> bytes:
    """Signs with the credential that signed first for the RP since power-up."""
    first = key.__dict__.setdefault("signer", {}).setdefault(one.rp, one)
    return bytes(first.sign(data) if first.algorithm == one.algorithm else one.sign(data))


def forget_signers(key: Any, before: Any, pin: Any) -> None:
    """Forgets which credentials signed first."""
    key.__dict__.pop("signer", None)


def set_up_forever(key: Any, asked: Any) -> int:
    """Returns the flags, with UP set at each RP where it was set before."""
    rps = key.__dict__.setdefault("present", set())
    flags = int(Authenticator.flags(key, asked))
    rp = asked.item.get(1)
    if isinstance(rp, str) and flags & 1:
        rps.add(rp)
    return flags | int(isinstance(rp, str) and rp in rps)


# getInfo and packets.


def report_before(key: Any) -> Dict[int, Any]:
    """Returns getInfo as it was at power-up."""
    if not hasattr(key, "reported"):
        key.reported = Authenticator.info(key)
    return dict(key.reported)


def renew_report(key: Any, before: Any, pin: Any) -> None:
    """Reads getInfo again."""
    key.__dict__.pop("reported", None)


def echo_longer(key: Any, channel: int, command: int, data: bytes) -> None:
    """Sends a message; the response to a PING ends with bytes of a longer PING before it."""
    transport = key.transport
    if command == 0x01:
        before = getattr(key, "echoed", b"")
        key.echoed = data
        data = data if len(data) >= len(before) else data + before[len(data) :]
    Transport.send(transport, channel, command, data)


MORE_STATE_MUTANTS: List[Mutant] = [
    Mutant(
        "reset_keeps_newest",
        RESET,
        "The newest credential survives a reset.",
        change_reset(lambda key, before: setattr(key, "credentials", before["credentials"][-1:])),
    ),
    Mutant("ring_of_five", SIGN_INS, "A sixth credential replaces the oldest.", replace_method("store", store_in_ring)),
    Mutant(
        "newest_moves",
        SIGN_INS,
        "A power cycle moves the newest credential to another RP.",
        change_power_cycle(move_newest),
    ),
    Mutant(
        "order_turns",
        SIGN_INS,
        "A power cycle reverses the order of the credentials.",
        change_power_cycle(reverse_credentials),
    ),
    Mutant(
        "replaced_returns",
        f"{EITHER}|{NEXT}",
        "A power cycle restores a replaced credential.",
        combine(replace_method("store", store_beside), change_power_cycle(bring_back)),
    ),
    Mutant(
        "first_user_stays",
        SIGN_INS,
        "All credentials of an RP have the first user.",
        replace_method("store", keep_first_user),
    ),
    Mutant(
        "used_anywhere",
        GET,
        "A credential that has signed signs for other RPs, too.",
        combine(replace_method("list_of_rp", find_used_ones), replace_method("sign", note_used)),
    ),
    Mutant("number_of_most", GET, "numberOfCredentials never decreases.", replace_method("sign_first", keep_number)),
    Mutant(
        "next_starts_over",
        NEXT,
        "After the last assertion the first one is returned again.",
        replace_method("next", start_over),
    ),
    Mutant(
        "excludes_any_rp",
        MAKE,
        "After ten registrations exclude lists find credentials of other RPs.",
        replace_method("is_excluded", exclude_any_rp),
    ),
    Mutant(
        "counters_of_others",
        SIGN_INS,
        "A sign-in lowers the counters of other RPs.",
        replace_method("increment_counter", lower_others),
    ),
    Mutant(
        "counter_skips",
        SIGN_INS,
        "Every fifth sign-in repeats the counter.",
        replace_method("increment_counter", skip_each_fifth),
    ),
    Mutant(
        "counters_of_new",
        SIGN_INS,
        "A registration restarts the counters of its RP.",
        replace_method("start_counter", restart_at_registration),
    ),
    Mutant("six_pairs", MAKE, "Six key pairs are used in turn.", replace_method("new_private", make_from_pool)),
    Mutant(
        "id_of_user",
        MAKE,
        "The credential ID is derived from RP and user.",
        replace_method("new_id", make_same_for_user),
    ),
    Mutant(
        "signed_before",
        SIGN_INS,
        "Every fifth signature covers the data of the signature before it.",
        replace_method("sign", sign_previous),
    ),
    Mutant(
        "first_signs",
        SIGN_INS,
        "The first credential of an RP that signed since power-up signs for all.",
        combine(replace_method("sign", sign_with_first), change_power_cycle(forget_signers)),
    ),
    Mutant("present_for_ever", GET, "Flag UP stays set for an RP.", replace_method("flags", set_up_forever)),
    Mutant(
        "info_of_power_up",
        PIN,
        "getInfo only changes at a power cycle.",
        combine(replace_method("info", report_before), change_power_cycle(renew_report)),
    ),
    Mutant(
        "echo_of_before",
        "11.2.9.1.4",
        "The response to a PING ends with bytes of a longer PING before it.",
        replace_method("transport.send", echo_longer),
    ),
]
