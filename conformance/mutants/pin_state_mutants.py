"""Faults of PINs and tokens that depend on earlier requests, power cycles or resets; walks find them."""

from __future__ import annotations

import functools
import os
from typing import Any, Dict, List

from hidlog_conformance.reference.authenticator import Authenticator
from hidlog_conformance.reference.pin import IN_A_ROW, RETRIES, Pin, RequestError, cipher

from mutant import Change, Mutant, combine, replace_method
from state_mutants import EITHER, GET, PIN, change_pin_method, change_power_cycle, make_lasting


def change_reset(change: Any) -> Change:
    """Returns a change of the state after a reset: `change` gets the authenticator and its state before."""

    def forget(key: Any) -> None:
        before = dict(vars(key))
        Authenticator.forget(key)
        change(key, before)

    return replace_method("forget", forget)


def count(key: Any, name: str) -> int:
    """Returns the number of calls with this name."""
    counts: Dict[str, int] = key.__dict__.setdefault("counts", {})
    counts[name] = counts.get(name, 0) + 1
    return counts[name]


# PINs and tokens.


def restore_by_query(key: Any, asked: Any) -> Any:
    """Returns the retries, and restores them."""
    answer = Pin.get_retries(key.pin, asked)
    key.pin.retries = RETRIES
    return answer


def restore_by_agreement(key: Any, asked: Any) -> Any:
    """Returns the key agreement key, and restores the retries."""
    key.pin.retries, key.pin.in_a_row = RETRIES, 0
    return Pin.agree(key.pin, asked)


def compare_free_each_second(key: Any, protocol: Any, secret: bytes, encrypted: bytes) -> None:
    """Compares a PIN; every second wrong one does not decrement the retries."""
    before = key.pin.retries
    try:
        Pin.compare(key.pin, protocol, secret, encrypted)
    except RequestError:
        if count(key, "wrong") % 2 == 0:
            key.pin.retries = before
        raise


def compare_unless_known(key: Any, protocol: Any, secret: bytes, encrypted: bytes) -> None:
    """Compares a PIN; after the right one any PIN is accepted until the next power cycle."""
    if getattr(key.pin, "is_known", False):
        return
    Pin.compare(key.pin, protocol, secret, encrypted)
    key.pin.is_known = True


def same_as_old(key: Any, param: bytes) -> bool:
    """Compares a PIN with the current one and the one before it."""
    return bool(param == key.pin.hash or param == getattr(key, "old_hash", None))


def change_and_keep_old(key: Any, asked: Any) -> Any:
    """Changes the PIN, and stores the old one."""
    before = key.pin.hash
    answer = Pin.change(key.pin, asked)
    key.old_hash = before
    return answer


def set_former(key: Any, protocol: Any, secret: bytes, encrypted: bytes) -> None:
    """Sets a PIN; after a reset it sets the former PIN instead."""
    Pin.new_pin(key.pin, protocol, secret, encrypted)
    key.pin.hash = key.__dict__.setdefault("first_hash", key.pin.hash)


def allow_four(key: Any) -> None:
    """Refuses a blocked PIN, but allows four consecutive wrong PINs."""
    key.pin.in_a_row = min(key.pin.in_a_row, IN_A_ROW - 1)
    Pin.check_not_blocked(key.pin)


def set_and_keep_retries(key: Any, protocol: Any, secret: bytes, encrypted: bytes) -> None:
    """Sets a PIN, and keeps the retries."""
    before = key.pin.retries
    Pin.new_pin(key.pin, protocol, secret, encrypted)
    key.pin.retries = before


def use_silently(key: Any, asked: Any, found: Any) -> Any:
    """Signs in; a sign-in without a touch clears the token's permissions, too."""
    if asked.verified:
        key.pin.clear_permissions()
    return Authenticator.sign_first(key, asked, found)


def check_rp_once(key: Any, protocol: Any, data: bytes, param: bytes, permission: int, rp: str) -> None:
    """Checks a token; its RP is only checked at its first use."""
    bound = key.pin.rp
    if getattr(key, "used_token", None) == key.pin.token:
        key.pin.rp = ""
    Pin.check(key.pin, protocol, data, param, permission, rp)
    key.pin.rp, key.used_token = bound, key.pin.token


def grant_for_previous_rp(key: Any, protocol: Any, secret: bytes, permissions: int, rp: str) -> Any:
    """Issues a token for the RP of the previous token."""
    before = getattr(key, "token_rp", rp)
    key.token_rp = rp
    return Pin.grant(key.pin, protocol, secret, permissions, before)


def grant_from_pool(key: Any, protocol: Any, secret: bytes, permissions: int, rp: str) -> Any:
    """Issues one of four tokens in turn."""
    answer = Pin.grant(key.pin, protocol, secret, permissions, rp)
    pool = key.__dict__.setdefault("tokens", [os.urandom(32) for _ in range(4)])
    key.pin.token = pool[count(key, "token") % len(pool)]
    return {**answer, 2: protocol.encrypt(secret, key.pin.token)}


def change_and_forget(key: Any, asked: Any) -> Any:
    """Changes the PIN, and deletes the newest credential."""
    answer = Pin.change(key.pin, asked)
    key.credentials = key.credentials[:-1]
    return answer


def keep_vector(key: Any) -> None:
    """Makes an initialization vector at power-up, and encrypts with it each time."""
    protocol = key.pin.protocols.get(2)
    if protocol is None:
        return
    vector = os.urandom(16)
    random_source = functools.partial(type(protocol).encrypt, protocol)

    def encrypt(secret: bytes, data: bytes) -> bytes:
        """Encrypts with the same vector each time."""
        done = cipher(secret[-32:], vector).encryptor().update(data)
        return vector + bytes(done) if len(data) else bytes(random_source(secret, data))

    setattr(protocol, "encrypt", encrypt)


PIN_STATE_MUTANTS: List[Mutant] = [
    Mutant(
        "retries_by_query",
        PIN,
        "getPINRetries restores the retries.",
        change_pin_method("get_retries", restore_by_query),
    ),
    Mutant(
        "retries_by_agreement",
        PIN,
        "getKeyAgreement restores the retries.",
        change_pin_method("agree", restore_by_agreement),
    ),
    Mutant(
        "second_guess_free",
        PIN,
        "Every second wrong PIN does not decrement the retries.",
        change_pin_method("compare", compare_free_each_second),
    ),
    Mutant(
        "right_once",
        PIN,
        "After the right PIN any PIN is accepted.",
        combine(
            change_pin_method("compare", compare_unless_known),
            change_power_cycle(lambda key, before, pin: setattr(key.pin, "is_known", False)),
        ),
    ),
    Mutant(
        "old_pin_too",
        PIN,
        "The PIN before a change is still accepted.",
        combine(change_pin_method("is_same_pin", same_as_old), change_pin_method("change", change_and_keep_old)),
    ),
    Mutant(
        "first_pin_stays", PIN, "After a reset setPIN sets the former PIN.", change_pin_method("new_pin", set_former)
    ),
    Mutant(
        "blocked_until_reset",
        PIN,
        "After three wrong PINs a power cycle does not allow further ones.",
        change_power_cycle(lambda key, before, pin: setattr(key.pin, "in_a_row", pin["in_a_row"])),
    ),
    Mutant(
        "last_retry_again",
        PIN,
        "A power cycle allows another try of a blocked PIN.",
        change_power_cycle(lambda key, before, pin: setattr(key.pin, "retries", max(1, key.pin.retries))),
    ),
    Mutant(
        "four_in_a_row",
        PIN,
        "Four consecutive wrong PINs are accepted.",
        change_pin_method("check_not_blocked", allow_four),
    ),
    Mutant(
        "silent_use_spends",
        EITHER,
        "A sign-in without a touch clears the token's permissions.",
        replace_method("sign_first", use_silently),
    ),
    Mutant(
        "token_rp_once",
        EITHER,
        "The RP of a token is only checked at its first use.",
        change_pin_method("check", check_rp_once),
    ),
    Mutant(
        "token_of_previous_rp",
        EITHER,
        "A token is valid for the RP of the previous token.",
        change_pin_method("grant", grant_for_previous_rp),
    ),
    Mutant("four_tokens", PIN, "Four tokens are issued in turn.", change_pin_method("grant", grant_from_pool)),
    Mutant(
        "change_deletes",
        GET,
        "A change of the PIN deletes a credential.",
        change_pin_method("change", change_and_forget),
    ),
    Mutant(
        "vector_of_power_up",
        PIN,
        "The initialization vector is the same until the next power cycle.",
        make_lasting(keep_vector),
    ),
    Mutant(
        "reset_keeps_pin",
        PIN,
        "The PIN survives a reset.",
        change_reset(lambda key, before: setattr(key, "pin", before["pin"])),
    ),
    Mutant(
        "reset_keeps_retries",
        PIN,
        "setPIN does not restore the retries.",
        combine(
            change_pin_method("new_pin", set_and_keep_retries),
            change_reset(lambda key, before: setattr(key.pin, "retries", before["pin"].retries)),
        ),
    ),
]
