"""Faults of the reference authenticator that depend on earlier requests, power cycles or resets; walks find them."""

from __future__ import annotations

import functools
import hashlib
import random
from typing import Any, Dict, List

from hidlog_conformance.reference.authenticator import Authenticator
from hidlog_conformance.reference.credential import Credential
from hidlog_conformance.reference.pin import RETRIES, Pin

from mutant import Change, Mutant, replace_method

MAKE, GET, NEXT, PIN = "6.1.2", "6.2.2", "6.3", "6.5"
# Faults that a registration or a sign-in may show first.
EITHER, SIGN_INS = f"{MAKE}|{GET}", f"{GET}|{NEXT}"


def make_lasting(change: Change) -> Change:
    """Returns a change that is applied again after a reset, which makes a new `Pin`."""

    def plant(authenticator: Authenticator) -> None:
        change(authenticator)

        def forget() -> None:
            Authenticator.forget(authenticator)
            change(authenticator)

        setattr(authenticator, "forget", forget)

    return plant


def change_power_cycle(change: Any) -> Change:
    """Returns a change of the state after a power cycle: `change` gets the authenticator and its state before."""

    def cycle(key: Any) -> None:
        before = dict(vars(key)), dict(vars(key.pin))
        Authenticator.power_cycle(key)
        change(key, *before)

    return replace_method("power_cycle", cycle)


def change_pin_method(name: str, body: Any) -> Change:
    """Returns a lasting change of a method of the PIN."""
    return make_lasting(replace_method("pin." + name, body))


def keep_members(*names: str) -> Any:
    """Returns a change that keeps members of the PIN across a power cycle."""
    return lambda key, before, pin: vars(key.pin).update({name: pin[name] for name in names})


def keep_agreement_keys(key: Any) -> None:
    """Makes the key agreement keys once, and keeps them across power cycles."""
    for protocol in key.pin.protocols.values():
        made = protocol.private
        setattr(protocol, "renew", functools.partial(setattr, protocol, "private", made))


def use_zero_vector(key: Any) -> None:
    """Encrypts with a vector of zeros."""
    protocol = key.pin.protocols.get(2)
    if protocol is not None:
        protocol.number = 1
        plain = protocol.encrypt
        protocol.number = 2
        setattr(
            protocol,
            "encrypt",
            lambda secret, data: bytes(16) + encrypt_with_zero_vector(protocol, secret, data, plain),
        )


def encrypt_with_zero_vector(protocol: Any, secret: bytes, data: bytes, plain: Any) -> bytes:
    """Encrypts with a vector of zeros, as protocol 1 does."""
    protocol.number = 1
    try:
        return bytes(plain(secret, data))
    finally:
        protocol.number = 2


def issue_same_token(key: Any, protocol: Any, secret: bytes, permissions: int, rp: str) -> Any:
    """Always issues the same token."""
    key.pin.token = b"t" * 32
    key.pin.permissions, key.pin.rp, key.pin.present = permissions, rp, False
    return {2: protocol.encrypt(secret, key.pin.token)}


def add_permissions(key: Any, protocol: Any, secret: bytes, permissions: int, rp: str) -> Any:
    """Adds the permissions of a new token to those of the previous one."""
    return Pin.grant(key.pin, protocol, secret, permissions | key.pin.permissions, rp)


def keep_token(key: Any, asked: Any) -> Any:
    """Changes the PIN, and keeps the token."""
    token = key.pin.token
    answer = Pin.change(key.pin, asked)
    key.pin.token = token
    return answer


def change_nothing(key: Any, asked: Any) -> Any:
    """Returns success, and keeps the old PIN."""
    before = key.pin.hash
    answer = Pin.change(key.pin, asked)
    key.pin.hash = before
    return answer


def spend_retries(key: Any, protocol: Any, secret: bytes, encrypted_hash: bytes) -> None:
    """Compares a PIN; the right one does not restore the retries."""
    before = key.pin.retries
    Pin.compare(key.pin, protocol, secret, encrypted_hash)
    key.pin.retries = before


def restart_generator(key: Any) -> None:
    """Makes credential IDs by a random generator with the same seed at each power-up."""
    source = random.Random(7)
    setattr(key, "new_id", lambda rp, user: source.randbytes(32))


def hash_previous_rp(key: Any, asked: Any, one: Any, *words: Any) -> bytes:
    """Hashes the RP ID of the previous request."""
    before = getattr(key, "previous_rp", one.rp)
    key.previous_rp = one.rp
    return hashlib.sha256(before.encode()).digest() + bytes(Authenticator.data(key, asked, one, *words)[32:])


def use_previous_list(key: Any, asked: Any, place: int) -> None:
    """Uses the list of the previous request if a request has none."""
    listed = asked.item.get(place) or getattr(key, f"previous_{place}", None)
    if listed:
        asked.item[place] = listed
    setattr(key, f"previous_{place}", listed)


def find_by_previous_list(key: Any, asked: Any) -> Any:
    """Finds credentials by the allow list of the previous sign-in."""
    use_previous_list(key, asked, 3)
    return Authenticator.list_applicable(key, asked)


def exclude_by_previous_list(key: Any, asked: Any) -> bool:
    """Excludes by the list of the previous registration."""
    use_previous_list(key, asked, 5)
    return bool(Authenticator.is_excluded(key, asked))


def set_uv_forever(key: Any, asked: Any) -> int:
    """Sets flag UV after a token was used."""
    key.was_verified = getattr(key, "was_verified", False) or asked.verified
    asked.verified = key.was_verified
    return int(Authenticator.flags(key, asked))


def lose_newest(key: Any, before: Any, pin: Any) -> None:
    """Loses the newest credential."""
    key.credentials = key.credentials[:-1]


def restart_counters(key: Any, before: Any, pin: Any) -> None:
    """Resets all counters."""
    for one in key.credentials:
        one.counter = 0


def keep_replaced(key: Any, new: Credential) -> None:
    """Stores a credential, and keeps the one that it replaces."""
    key.credentials = [*key.credentials, new]


def repeat_key_pair(key: Any, algorithm: int) -> Any:
    """Makes the same key pair after a reset."""
    made = PAIRS.setdefault(algorithm, [])
    place = len(key.credentials)
    while len(made) <= place:
        made.append(Authenticator.new_private(key, algorithm))
    return made[place]


PAIRS: Dict[int, List[Any]] = {}


STATE_MUTANTS: List[Mutant] = [
    Mutant(
        "retries_restored",
        PIN,
        "A power cycle restores the PIN retries.",
        change_power_cycle(lambda key, before, pin: setattr(key.pin, "retries", RETRIES)),
    ),
    Mutant(
        "pin_by_one_byte",
        PIN,
        "Only one byte of the PIN hash is compared.",
        change_pin_method("is_same_pin", lambda key, param: param[:1] == key.pin.hash[:1]),
    ),
    Mutant(
        "param_by_prefix",
        EITHER,
        "A prefix of pinUvAuthParam is accepted.",
        change_pin_method(
            "is_authentic",
            lambda key, protocol, data, param: protocol.authenticate(key.pin.token, data).startswith(param),
        ),
    ),
    Mutant(
        "token_outlasts_change",
        EITHER,
        "A token survives a change of the PIN.",
        change_pin_method("change", keep_token),
    ),
    Mutant(
        "token_registers_twice",
        EITHER,
        "A token can be used for two registrations.",
        replace_method("use_token", lambda key, asked: None),
    ),
    Mutant("token_of_always", PIN, "The token is always the same.", change_pin_method("grant", issue_same_token)),
    Mutant("vector_of_zeros", PIN, "The initialization vector consists of zeros.", make_lasting(use_zero_vector)),
    Mutant(
        "pin_lost",
        PIN,
        "A power cycle removes the PIN.",
        change_power_cycle(lambda key, before, pin: setattr(key.pin, "hash", b"")),
    ),
    Mutant("random_restarts", MAKE, "The random generator restarts at a power cycle.", restart_generator),
    Mutant(
        "rp_hash_of_previous",
        EITHER,
        "The RP ID hash is that of the previous request.",
        replace_method("data", hash_previous_rp),
    ),
    Mutant(
        "allow_list_stays",
        GET,
        "Without an allow list that of the previous sign-in is used.",
        replace_method("list_applicable", find_by_previous_list),
    ),
    Mutant(
        "exclude_list_stays",
        MAKE,
        "Without an exclude list that of the previous registration is used.",
        replace_method("is_excluded", exclude_by_previous_list),
    ),
    Mutant(
        "token_outlasts_power",
        EITHER,
        "A token survives a power cycle.",
        change_power_cycle(keep_members("token", "permissions")),
    ),
    Mutant(
        "agreement_outlasts_power",
        PIN,
        "The key agreement key survives a power cycle.",
        make_lasting(keep_agreement_keys),
    ),
    Mutant(
        "pending_outlasts_power",
        NEXT,
        "Pending assertions survive a power cycle.",
        change_power_cycle(lambda key, before, pin: keep_pending(key, before)),
    ),
    Mutant("counters_restart", GET, "A power cycle restarts the counters.", change_power_cycle(restart_counters)),
    Mutant("newest_lost", GET, "A power cycle deletes the newest credential.", change_power_cycle(lose_newest)),
    Mutant("pin_not_changed", PIN, "A change of the PIN has no effect.", change_pin_method("change", change_nothing)),
    Mutant(
        "retries_spent", PIN, "The right PIN does not restore the retries.", change_pin_method("compare", spend_retries)
    ),
    Mutant(
        "permissions_add_up",
        EITHER,
        "A token also has the permissions of the previous one.",
        change_pin_method("grant", add_permissions),
    ),
    Mutant(
        "verified_for_ever",
        EITHER,
        "Flag UV stays set after the use of a token.",
        replace_method("flags", set_uv_forever),
    ),
    Mutant("replaced_stays", SIGN_INS, "A replaced credential is not deleted.", replace_method("store", keep_replaced)),
    Mutant(
        "pairs_after_reset",
        MAKE,
        "After a reset the same key pairs are made again.",
        replace_method("new_private", repeat_key_pair),
    ),
]


def keep_pending(key: Any, before: Dict[str, Any]) -> None:
    """Keeps the pending assertions, for any channel."""
    key.pending = before["pending"]
    if key.pending is not None and key.transport is not before["transport"]:
        key.pending.at = 0
